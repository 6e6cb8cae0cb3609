//! Tracing by turns, through the safe function.
#![cfg(feature = "walk")]

use linenhatch::{store_from_commits, trace, ObjectId, Prospect, Refusal, MAX_FILE_BYTES, MAX_IDS};

fn id(n: u8) -> ObjectId {
    ObjectId([n; 20])
}

fn body(parents: &[u8]) -> String {
    let lines: String = parents.iter().map(|&p| format!("parent {}\n", id(p))).collect();
    format!("tree {}\n{lines}author A <a> 5 +0000\ncommitter A <a> 5 +0000\n\n", "0".repeat(40))
}

fn store(links: &[(u8, &[u8])]) -> Vec<u8> {
    store_from_commits(links.iter().map(|&(n, parents)| (id(n), body(parents)))).unwrap()
}

fn by(number: usize, parent: u8) -> Result<Prospect, Refusal> {
    Ok(Prospect::Forced { number, parent: id(parent) })
}

#[test]
fn the_benches_move_by_turns() {
    // 9 has 8 and 7; the bed goes on from 8 to 2 or 1, from 7 to 1 alone, and from 1 and 2 nowhere
    let s = store(&[(9, &[8, 7]), (8, &[2, 1]), (7, &[1, 1]), (2, &[]), (1, &[])]);
    assert_eq!(trace(&s, id(9), &[id(1)], 2), by(1, 7));
    assert_eq!(trace(&s, id(9), &[id(1), id(2)], 2), by(0, 8));
    assert_eq!(trace(&s, id(9), &[id(2)], 2), Ok(Prospect::NotForced));
    assert_eq!(trace(&s, id(9), &[id(1)], 1), Ok(Prospect::NotForced));
    assert_eq!(trace(&s, id(9), &[id(7), id(8)], 1), by(0, 8));
    assert_eq!(trace(&s, id(9), &[id(9)], 0), Ok(Prospect::AtStart));
    assert_eq!(trace(&s, id(9), &[], 12), Ok(Prospect::NotForced));
    assert_eq!(trace(&s, id(1), &[id(2)], 12), Ok(Prospect::NotForced));
    // the bed is to move at 1, and has no move
    assert_eq!(trace(&s, id(7), &[id(9)], 12), Ok(Prospect::NotForced));
}

#[test]
fn repeats_and_circles() {
    let s = store(&[(5, &[4, 3, 3, 4]), (4, &[5]), (3, &[1]), (1, &[])]);
    assert_eq!(trace(&s, id(5), &[id(3)], 1), by(1, 3));
    assert_eq!(trace(&s, id(5), &[id(1)], 2), by(1, 3));
    assert_eq!(trace(&s, id(4), &[id(1)], 12), Ok(Prospect::NotForced));
    let own = store(&[(6, &[6])]);
    assert_eq!(trace(&own, id(6), &[id(1)], 12), Ok(Prospect::NotForced));
}

#[test]
fn refusals_in_order() {
    let s = store(&[(3, &[2]), (2, &[1])]);
    assert_eq!(trace(&s, id(3), &[], 1), Ok(Prospect::NotForced));
    assert_eq!(trace(&s, id(3), &[], 2), Err(Refusal::UnreadableReach));
    assert_eq!(trace(&s, id(3), &[id(3)], 2), Err(Refusal::UnreadableReach));
    assert_eq!(trace(&s, id(9), &[id(9)], 0), Err(Refusal::UnreadableReach));
    assert_eq!(trace(&s[..7], id(3), &[], 0), Err(Refusal::CorruptStore));
    assert_eq!(trace(&s[..7], id(3), &vec![id(1); MAX_IDS + 1], 0), Err(Refusal::InputTooLarge));
    assert_eq!(trace(&vec![0; MAX_FILE_BYTES + 1], id(3), &[], 12), Err(Refusal::InputTooLarge));
    assert_eq!(trace(&vec![0; MAX_FILE_BYTES + 1], id(3), &[], 13), Err(Refusal::TooManyMoves));
    assert_eq!(trace(&[], id(3), &[], u32::MAX), Err(Refusal::TooManyMoves));
}
