//! The functions of `liblinenhatch.a`, and a safe function over each. All `unsafe` code of the crate is here.
//!
//! The archive's functions are proved total and safe on any bytes, numbers and lengths. What they ask of a caller is what
//! `bindings/c/linenhatch.h` says of pointers: each comes with a number of elements, is never null, is aligned for its type, and no two of one
//! call overlap but where both are only read. Nothing is kept between calls. The safe functions here take slices, of which Rust promises just
//! that, so they are safe for any arguments.
#![allow(unsafe_code)]

/// How many words a walk's record has.
pub(crate) const RECORD: usize = 20;
/// How many numbers an opening sets down.
pub(crate) const OPEN_NUMBERS: usize = 3;
/// How many numbers a next call sets down.
pub(crate) const CALL_NUMBERS: usize = 8;
/// How many signed numbers a next call sets down: the commit's seconds, and the minutes of its zone.
pub(crate) const CALL_SECONDS: usize = 2;
/// How many numbers a check of names sets down.
pub(crate) const CHECK_NUMBERS: usize = 1;
/// How many numbers the call for where two series part sets down.
pub(crate) const BASE_NUMBERS: usize = 1;
/// How many numbers the writing of a commit-graph file sets down.
pub(crate) const GRAPH_NUMBERS: usize = 1;

/// How many numbers a feed report sets down, and how many signed ones.
pub(crate) const FEED_NUMBERS: usize = 6;
pub(crate) const FEED_DIFFERENCES: usize = 1;
/// How many numbers a trace sets down.
pub(crate) const TRACE_NUMBERS: usize = 2;
/// How many numbers a report by terms sets down beside its counts.
pub(crate) const TERMS_NUMBERS: usize = 1;

/// The files, lists and settings that an opening and each of its calls are lent. No call reads the tips.
#[derive(Clone, Debug)]
pub(crate) struct Input<'a> {
    /// Of the ids: 20 or 32.
    pub width: u32,
    pub store: &'a [u8],
    pub graph: &'a [u8],
    pub hidden: Vec<u8>,
    pub excluded: Vec<u8>,
    pub sorting: u32,
    pub has_cutoff: u32,
    pub cutoff: i64,
    pub first: u32,
}

/// The memory that a walk is lent, and its record. Each part is a vector or an array of its own, so no two overlap.
#[derive(Clone, Debug)]
pub(crate) struct Memory {
    pub names: Vec<u8>,
    pub marks: Vec<u8>,
    pub generations: Vec<u32>,
    pub times: Vec<i64>,
    pub line: Vec<u32>,
    pub parents: Vec<u8>,
    pub record: [u64; RECORD],
}

/// Where a next call sets its answer down.
#[derive(Clone, Debug)]
pub(crate) struct Answer {
    /// As many bytes as an id has.
    pub id: Vec<u8>,
    pub numbers: [u64; CALL_NUMBERS],
    pub seconds: [i64; CALL_SECONDS],
}

unsafe extern "C" {
    fn linenhatch_places(
        width: u32,
        store: *const u8,
        store_len: usize,
        graph: *const u8,
        graph_len: usize,
        tips: *const u8,
        tips_len: usize,
        hidden: *const u8,
        hidden_len: usize,
    ) -> usize;

    fn linenhatch_open(
        width: u32,
        store: *const u8,
        store_len: usize,
        graph: *const u8,
        graph_len: usize,
        tips: *const u8,
        tips_len: usize,
        hidden: *const u8,
        hidden_len: usize,
        excluded: *const u8,
        excluded_len: usize,
        sorting: u32,
        has_cutoff: u32,
        cutoff: i64,
        first: u32,
        names: *mut u8,
        names_len: usize,
        marks: *mut u8,
        marks_len: usize,
        generations: *mut u32,
        generations_len: usize,
        times: *mut i64,
        times_len: usize,
        line: *mut u32,
        line_len: usize,
        parents: *mut u8,
        parents_len: usize,
        record: *mut u64,
        record_len: usize,
        numbers: *mut u64,
        numbers_len: usize,
    ) -> u32;

    fn linenhatch_open_tested(
        width: u32,
        store: *const u8,
        store_len: usize,
        graph: *const u8,
        graph_len: usize,
        tips: *const u8,
        tips_len: usize,
        hidden: *const u8,
        hidden_len: usize,
        excluded: *const u8,
        excluded_len: usize,
        sorting: u32,
        has_cutoff: u32,
        cutoff: i64,
        first: u32,
        names: *mut u8,
        names_len: usize,
        marks: *mut u8,
        marks_len: usize,
        generations: *mut u32,
        generations_len: usize,
        times: *mut i64,
        times_len: usize,
        line: *mut u32,
        line_len: usize,
        parents: *mut u8,
        parents_len: usize,
        record: *mut u64,
        record_len: usize,
        numbers: *mut u64,
        numbers_len: usize,
    ) -> u32;

    fn linenhatch_next(
        width: u32,
        record: *mut u64,
        record_len: usize,
        store: *const u8,
        store_len: usize,
        graph: *const u8,
        graph_len: usize,
        hidden: *const u8,
        hidden_len: usize,
        excluded: *const u8,
        excluded_len: usize,
        sorting: u32,
        has_cutoff: u32,
        cutoff: i64,
        first: u32,
        names: *mut u8,
        names_len: usize,
        marks: *mut u8,
        marks_len: usize,
        generations: *mut u32,
        generations_len: usize,
        times: *mut i64,
        times_len: usize,
        line: *mut u32,
        line_len: usize,
        parents: *mut u8,
        parents_len: usize,
        id: *mut u8,
        id_len: usize,
        numbers: *mut u64,
        numbers_len: usize,
        seconds: *mut i64,
        seconds_len: usize,
    ) -> u32;

    fn linenhatch_check_names(
        width: u32,
        store: *const u8,
        store_len: usize,
        graph: *const u8,
        graph_len: usize,
        numbers: *mut u64,
        numbers_len: usize,
    ) -> u32;

    fn linenhatch_merge_base(
        width: u32,
        store: *const u8,
        store_len: usize,
        one: *const u8,
        one_len: usize,
        other: *const u8,
        other_len: usize,
        names: *mut u8,
        names_len: usize,
        marks: *mut u8,
        marks_len: usize,
        generations: *mut u32,
        generations_len: usize,
        times: *const i64,
        times_len: usize,
        line: *mut u32,
        line_len: usize,
        parents: *const u8,
        parents_len: usize,
        id: *mut u8,
        id_len: usize,
        numbers: *mut u64,
        numbers_len: usize,
    ) -> u32;

    fn linenhatch_graph_length(
        width: u32,
        store: *const u8,
        store_len: usize,
        generations: *mut u32,
        generations_len: usize,
        numbers: *mut u64,
        numbers_len: usize,
    ) -> u32;

    fn linenhatch_write_graph(
        width: u32,
        store: *const u8,
        store_len: usize,
        generations: *mut u32,
        generations_len: usize,
        output: *mut u8,
        output_len: usize,
        numbers: *mut u64,
        numbers_len: usize,
    ) -> u32;

    fn linenhatch_feed(
        width: u32,
        store: *const u8,
        store_len: usize,
        graph: *const u8,
        graph_len: usize,
        tips: *const u8,
        tips_len: usize,
        hidden: *const u8,
        hidden_len: usize,
        excluded: *const u8,
        excluded_len: usize,
        sorting: u32,
        has_cutoff: u32,
        cutoff: i64,
        first: u32,
        embargoed: *const u8,
        embargoed_len: usize,
        outside: u32,
        names: *mut u8,
        names_len: usize,
        marks: *mut u8,
        marks_len: usize,
        generations: *mut u32,
        generations_len: usize,
        times: *mut i64,
        times_len: usize,
        line: *mut u32,
        line_len: usize,
        parents: *mut u8,
        parents_len: usize,
        numbers: *mut u64,
        numbers_len: usize,
        difference: *mut i64,
        difference_len: usize,
    ) -> u32;

    fn linenhatch_trace(
        width: u32,
        store: *const u8,
        store_len: usize,
        start: *const u8,
        start_len: usize,
        list: *const u8,
        list_len: usize,
        moves: u32,
        memo: *mut u8,
        memo_len: usize,
        id: *mut u8,
        id_len: usize,
        numbers: *mut u64,
        numbers_len: usize,
    ) -> u32;

    fn linenhatch_terms(
        width: u32,
        store: *const u8,
        store_len: usize,
        graph: *const u8,
        graph_len: usize,
        tips: *const u8,
        tips_len: usize,
        hidden: *const u8,
        hidden_len: usize,
        excluded: *const u8,
        excluded_len: usize,
        sorting: u32,
        has_cutoff: u32,
        cutoff: i64,
        first: u32,
        terms: *const u32,
        terms_len: usize,
        names: *mut u8,
        names_len: usize,
        marks: *mut u8,
        marks_len: usize,
        generations: *mut u32,
        generations_len: usize,
        times: *mut i64,
        times_len: usize,
        line: *mut u32,
        line_len: usize,
        parents: *mut u8,
        parents_len: usize,
        counts: *mut u64,
        counts_len: usize,
        numbers: *mut u64,
        numbers_len: usize,
    ) -> u32;
}

/// How many places a walk over these files and lists needs.
pub(crate) fn places(input: &Input<'_>, tips: &[u8]) -> usize {
    // SAFETY: each pointer and length is a slice's: never null (also of no elements), aligned, and valid for reading that many elements while
    // the call lasts. All are only read, so they may overlap.
    unsafe {
        linenhatch_places(
            input.width,
            input.store.as_ptr(),
            input.store.len(),
            input.graph.as_ptr(),
            input.graph.len(),
            tips.as_ptr(),
            tips.len(),
            input.hidden.as_ptr(),
            input.hidden.len(),
        )
    }
}

/// How a walk is opened.
#[derive(Clone, Copy, Debug)]
pub(crate) enum Opening {
    Plain,
    Tested,
}

/// Opens a walk: 0, or the number of the refusal. The record and the numbers are set down in every case: the arrays have room for them, so the
/// result is never 101.
pub(crate) fn open(how: Opening, input: &Input<'_>, tips: &[u8], memory: &mut Memory, numbers: &mut [u64; OPEN_NUMBERS]) -> u32 {
    let call = match how {
        Opening::Plain => linenhatch_open,
        Opening::Tested => linenhatch_open_tested,
    };
    // SAFETY: each pointer and length is a slice's, a vector's or an array's, the length in its own elements: never null (also of no
    // elements), aligned for its type, and valid while the call lasts. The const ones are only read. Each mutable one is all of one field of
    // `memory` or `numbers`, borrowed alone through `&mut`, so it overlaps neither another nor anything that is read.
    unsafe {
        call(
            input.width,
            input.store.as_ptr(),
            input.store.len(),
            input.graph.as_ptr(),
            input.graph.len(),
            tips.as_ptr(),
            tips.len(),
            input.hidden.as_ptr(),
            input.hidden.len(),
            input.excluded.as_ptr(),
            input.excluded.len(),
            input.sorting,
            input.has_cutoff,
            input.cutoff,
            input.first,
            memory.names.as_mut_ptr(),
            memory.names.len(),
            memory.marks.as_mut_ptr(),
            memory.marks.len(),
            memory.generations.as_mut_ptr(),
            memory.generations.len(),
            memory.times.as_mut_ptr(),
            memory.times.len(),
            memory.line.as_mut_ptr(),
            memory.line.len(),
            memory.parents.as_mut_ptr(),
            memory.parents.len(),
            memory.record.as_mut_ptr(),
            memory.record.len(),
            numbers.as_mut_ptr(),
            numbers.len(),
        )
    }
}

/// Advances a walk by one call: 0 for a commit, 100 for the end, or the number of the refusal; never 101, as in `open`.
pub(crate) fn next(input: &Input<'_>, memory: &mut Memory, answer: &mut Answer) -> u32 {
    // SAFETY: as in `open`; the mutable ones are all of one field each of `memory` and `answer`.
    unsafe {
        linenhatch_next(
            input.width,
            memory.record.as_mut_ptr(),
            memory.record.len(),
            input.store.as_ptr(),
            input.store.len(),
            input.graph.as_ptr(),
            input.graph.len(),
            input.hidden.as_ptr(),
            input.hidden.len(),
            input.excluded.as_ptr(),
            input.excluded.len(),
            input.sorting,
            input.has_cutoff,
            input.cutoff,
            input.first,
            memory.names.as_mut_ptr(),
            memory.names.len(),
            memory.marks.as_mut_ptr(),
            memory.marks.len(),
            memory.generations.as_mut_ptr(),
            memory.generations.len(),
            memory.times.as_mut_ptr(),
            memory.times.len(),
            memory.line.as_mut_ptr(),
            memory.line.len(),
            memory.parents.as_mut_ptr(),
            memory.parents.len(),
            answer.id.as_mut_ptr(),
            answer.id.len(),
            answer.numbers.as_mut_ptr(),
            answer.numbers.len(),
            answer.seconds.as_mut_ptr(),
            answer.seconds.len(),
        )
    }
}

/// Checks names: 0, or the number of the refusal; never 101, as in `open`.
pub(crate) fn check_names(width: u32, store: &[u8], graph: &[u8], numbers: &mut [u64; CHECK_NUMBERS]) -> u32 {
    // SAFETY: as in `open`; `numbers` is borrowed alone through `&mut`.
    unsafe { linenhatch_check_names(width, store.as_ptr(), store.len(), graph.as_ptr(), graph.len(), numbers.as_mut_ptr(), numbers.len()) }
}

/// Tracing by turns: 0, or the number of the refusal; 101 exactly where `start` or `id` is shorter than the width.
#[allow(clippy::too_many_arguments)]
pub(crate) fn trace(
    width: u32,
    store: &[u8],
    start: &[u8],
    list: &[u8],
    moves: u32,
    memo: &mut [u8],
    id: &mut [u8],
    numbers: &mut [u64; TRACE_NUMBERS],
) -> u32 {
    // SAFETY: as in `open`; `memo`, `id` and `numbers` are each borrowed alone through `&mut`.
    unsafe {
        linenhatch_trace(
            width,
            store.as_ptr(),
            store.len(),
            start.as_ptr(),
            start.len(),
            list.as_ptr(),
            list.len(),
            moves,
            memo.as_mut_ptr(),
            memo.len(),
            id.as_mut_ptr(),
            id.len(),
            numbers.as_mut_ptr(),
            numbers.len(),
        )
    }
}

/// Where two series part: 0, or the number of the refusal; 101 exactly where `one`, `other` or `id` is shorter than the width. The memory's record plays no part.
pub(crate) fn merge_base(
    width: u32,
    store: &[u8],
    one: &[u8],
    other: &[u8],
    memory: &mut Memory,
    id: &mut [u8],
    numbers: &mut [u64; BASE_NUMBERS],
) -> u32 {
    // SAFETY: as in `open`; the mutable ones are all of one field each of `memory`, `id` and `numbers`, each borrowed alone through `&mut`.
    unsafe {
        linenhatch_merge_base(
            width,
            store.as_ptr(),
            store.len(),
            one.as_ptr(),
            one.len(),
            other.as_ptr(),
            other.len(),
            memory.names.as_mut_ptr(),
            memory.names.len(),
            memory.marks.as_mut_ptr(),
            memory.marks.len(),
            memory.generations.as_mut_ptr(),
            memory.generations.len(),
            memory.times.as_ptr(),
            memory.times.len(),
            memory.line.as_mut_ptr(),
            memory.line.len(),
            memory.parents.as_ptr(),
            memory.parents.len(),
            id.as_mut_ptr(),
            id.len(),
            numbers.as_mut_ptr(),
            numbers.len(),
        )
    }
}

/// How long the commit-graph file of a store is: 0, or the number of the refusal; never 101, as in `open`.
pub(crate) fn graph_length(width: u32, store: &[u8], generations: &mut [u32], numbers: &mut [u64; GRAPH_NUMBERS]) -> u32 {
    // SAFETY: as in `open`; `generations` and `numbers` are borrowed alone through `&mut`.
    unsafe {
        linenhatch_graph_length(
            width,
            store.as_ptr(),
            store.len(),
            generations.as_mut_ptr(),
            generations.len(),
            numbers.as_mut_ptr(),
            numbers.len(),
        )
    }
}

/// Writes the commit-graph file of a store: 0, or the number of the refusal; never 101, as in `open`.
pub(crate) fn write_graph(width: u32, store: &[u8], generations: &mut [u32], output: &mut [u8], numbers: &mut [u64; GRAPH_NUMBERS]) -> u32 {
    // SAFETY: as in `open`; `generations`, `output` and `numbers` are borrowed alone through `&mut`.
    unsafe {
        linenhatch_write_graph(
            width,
            store.as_ptr(),
            store.len(),
            generations.as_mut_ptr(),
            generations.len(),
            output.as_mut_ptr(),
            output.len(),
            numbers.as_mut_ptr(),
            numbers.len(),
        )
    }
}

/// The feed report of a whole walk, for an outside reader unless `outside` is 0: 0, or the number of the refusal; never 101, as in `open`. The memory's record plays no part.
pub(crate) fn feed(
    input: &Input<'_>,
    tips: &[u8],
    embargoed: &[u8],
    outside: u32,
    memory: &mut Memory,
    numbers: &mut [u64; FEED_NUMBERS],
    difference: &mut [i64; FEED_DIFFERENCES],
) -> u32 {
    // SAFETY: as in `open`; the mutable ones are all of one field each of `memory`, `numbers` and `difference`.
    unsafe {
        linenhatch_feed(
            input.width,
            input.store.as_ptr(),
            input.store.len(),
            input.graph.as_ptr(),
            input.graph.len(),
            tips.as_ptr(),
            tips.len(),
            input.hidden.as_ptr(),
            input.hidden.len(),
            input.excluded.as_ptr(),
            input.excluded.len(),
            input.sorting,
            input.has_cutoff,
            input.cutoff,
            input.first,
            embargoed.as_ptr(),
            embargoed.len(),
            outside,
            memory.names.as_mut_ptr(),
            memory.names.len(),
            memory.marks.as_mut_ptr(),
            memory.marks.len(),
            memory.generations.as_mut_ptr(),
            memory.generations.len(),
            memory.times.as_mut_ptr(),
            memory.times.len(),
            memory.line.as_mut_ptr(),
            memory.line.len(),
            memory.parents.as_mut_ptr(),
            memory.parents.len(),
            numbers.as_mut_ptr(),
            numbers.len(),
            difference.as_mut_ptr(),
            difference.len(),
        )
    }
}

/// The report of a whole walk by terms: 0, or the number of the refusal; never 101 where there is a count for each term. The memory's record plays no part.
pub(crate) fn terms(
    input: &Input<'_>,
    tips: &[u8],
    terms: &[u32],
    memory: &mut Memory,
    counts: &mut [u64],
    numbers: &mut [u64; TERMS_NUMBERS],
) -> u32 {
    // SAFETY: as in `open`; the mutable ones are all of one field each of `memory`, `counts` and `numbers`.
    unsafe {
        linenhatch_terms(
            input.width,
            input.store.as_ptr(),
            input.store.len(),
            input.graph.as_ptr(),
            input.graph.len(),
            tips.as_ptr(),
            tips.len(),
            input.hidden.as_ptr(),
            input.hidden.len(),
            input.excluded.as_ptr(),
            input.excluded.len(),
            input.sorting,
            input.has_cutoff,
            input.cutoff,
            input.first,
            terms.as_ptr(),
            terms.len(),
            memory.names.as_mut_ptr(),
            memory.names.len(),
            memory.marks.as_mut_ptr(),
            memory.marks.len(),
            memory.generations.as_mut_ptr(),
            memory.generations.len(),
            memory.times.as_mut_ptr(),
            memory.times.len(),
            memory.line.as_mut_ptr(),
            memory.line.len(),
            memory.parents.as_mut_ptr(),
            memory.parents.len(),
            counts.as_mut_ptr(),
            counts.len(),
            numbers.as_mut_ptr(),
            numbers.len(),
        )
    }
}

/// The functions themselves, with buffers that the safe ones above never lend.
#[cfg(test)]
mod tests {
    use super::*;
    use crate::{Kind, NoRoom};

    /// How much is lent of each of the library's own buffers.
    #[derive(Clone, Copy)]
    struct Room {
        record: usize,
        numbers: usize,
        id: usize,
        seconds: usize,
    }

    fn all(kind: Kind) -> Room {
        Room { record: RECORD, numbers: CALL_NUMBERS, id: kind.len_in_bytes(), seconds: CALL_SECONDS }
    }

    /// The buffers for a walk over a store without commits, which needs no places.
    #[derive(Clone, Debug, PartialEq)]
    struct Lent {
        record: [u64; RECORD],
        numbers: [u64; CALL_NUMBERS],
        id: [u8; 32],
        seconds: [i64; CALL_SECONDS],
        parents: [u8; 8192],
    }

    const STORE: [u8; 8] = [0; 8];
    const SEVENS: Lent =
        Lent { record: [7; RECORD], numbers: [7; CALL_NUMBERS], id: [7; 32], seconds: [7; CALL_SECONDS], parents: [7; 8192] };

    impl Lent {
        #[rustfmt::skip]
        fn open(&mut self, kind: Kind, how: Opening, room: Room) -> u32 {
            let call = match how { Opening::Plain => linenhatch_open, Opening::Tested => linenhatch_open_tested };
            let (list, store, parents) = ([0u8; 0], STORE.as_ptr(), &mut self.parents);
            let (mut names, mut marks, mut generations, mut times, mut line) = ([0u8; 0], [0u8; 0], [0u32; 0], [0i64; 0], [0u32; 0]);
            assert!(room.record <= RECORD && room.numbers <= CALL_NUMBERS);
            // SAFETY: each pointer is an array's of its own, and no length is over the array's.
            unsafe {
                call(
                    kind.width(), store, STORE.len(), list.as_ptr(), 0, list.as_ptr(), 0, list.as_ptr(), 0, list.as_ptr(), 0, 0, 0, 0, 0, names.as_mut_ptr(), 0,
                    marks.as_mut_ptr(), 0, generations.as_mut_ptr(), 0, times.as_mut_ptr(), 0, line.as_mut_ptr(), 0, parents.as_mut_ptr(), parents.len(),
                    self.record.as_mut_ptr(), room.record, self.numbers.as_mut_ptr(), room.numbers)
            }
        }

        #[rustfmt::skip]
        fn next(&mut self, kind: Kind, room: Room) -> u32 {
            let (list, store, parents) = ([0u8; 0], STORE.as_ptr(), &mut self.parents);
            let (mut names, mut marks, mut generations, mut times, mut line) = ([0u8; 0], [0u8; 0], [0u32; 0], [0i64; 0], [0u32; 0]);
            assert!(room.record <= RECORD && room.numbers <= CALL_NUMBERS && room.id <= 32 && room.seconds <= CALL_SECONDS);
            // SAFETY: as in `open`.
            unsafe {
                linenhatch_next(
                    kind.width(), self.record.as_mut_ptr(), room.record, store, STORE.len(), list.as_ptr(), 0, list.as_ptr(), 0, list.as_ptr(), 0, 0, 0, 0, 0,
                    names.as_mut_ptr(), 0, marks.as_mut_ptr(), 0, generations.as_mut_ptr(), 0, times.as_mut_ptr(), 0, line.as_mut_ptr(), 0,
                    parents.as_mut_ptr(), parents.len(), self.id.as_mut_ptr(), room.id, self.numbers.as_mut_ptr(), room.numbers,
                    self.seconds.as_mut_ptr(), room.seconds)
            }
        }
    }

    #[test]
    fn an_opening_without_room() {
        for (kind, how) in Kind::ALL.into_iter().flat_map(|kind| [(kind, Opening::Plain), (kind, Opening::Tested)]) {
            for room in [Room { record: RECORD - 1, ..all(kind) }, Room { numbers: OPEN_NUMBERS - 1, ..all(kind) }] {
                let mut lent = SEVENS;
                assert_eq!(lent.open(kind, how, room), NoRoom::NUMBER);
                assert_eq!(lent, SEVENS);
            }
            assert_eq!(SEVENS.clone().open(kind, how, Room { numbers: OPEN_NUMBERS, ..all(kind) }), 0);
        }
    }

    /// Before all else: also of a store that would be refused.
    #[test]
    fn a_check_without_room() {
        for (width, store) in [(20, &STORE[..]), (32, &STORE[..]), (20, &STORE[..7]), (32, &STORE[..7])] {
            let mut numbers = [7u64; CHECK_NUMBERS];
            // SAFETY: as in `open`.
            let result = unsafe { linenhatch_check_names(width, store.as_ptr(), store.len(), STORE.as_ptr(), 0, numbers.as_mut_ptr(), 0) };
            assert_eq!((result, numbers), (NoRoom::NUMBER, [7]));
        }
        let mut numbers = [7u64; CHECK_NUMBERS];
        for width in [20, 32, 0, u32::MAX] {
            assert_eq!((check_names(width, &STORE, &[], &mut numbers), numbers), (0, [0]));
            assert_eq!((check_names(width, &STORE[..7], &[], &mut numbers), numbers), (4, [0]));
        }
    }

    /// Before all else: also of a store that would be refused.
    #[test]
    fn a_parting_without_room() {
        for (kind, store) in Kind::ALL.into_iter().flat_map(|kind| [(kind, &STORE[..]), (kind, &STORE[..7])]) {
            let w = kind.len_in_bytes();
            for (one, other, id, count) in [(w - 1, w, w, 1), (w, w - 1, w, 1), (w, w, w - 1, 1), (w, w, w, 0), (0, 0, 0, 0)] {
                let mut memory = Memory { parents: vec![7; 256 * w], ..Memory::with_places(kind, 2) };
                memory.names.fill(7);
                let before = format!("{memory:?}");
                let (tip, mut out, mut numbers) = ([0u8; 32], [7u8; 32], [7u64; BASE_NUMBERS]);
                // SAFETY: as in `open`; no length is over the array's.
                #[rustfmt::skip]
                let result = unsafe {
                    linenhatch_merge_base(
                        kind.width(), store.as_ptr(), store.len(), tip.as_ptr(), one, tip.as_ptr(), other, memory.names.as_mut_ptr(), memory.names.len(),
                        memory.marks.as_mut_ptr(), memory.marks.len(), memory.generations.as_mut_ptr(), memory.generations.len(), memory.times.as_ptr(),
                        memory.times.len(), memory.line.as_mut_ptr(), memory.line.len(), memory.parents.as_ptr(), memory.parents.len(),
                        out.as_mut_ptr(), id, numbers.as_mut_ptr(), count)
                };
                assert_eq!((result, out, numbers, format!("{memory:?}")), (NoRoom::NUMBER, [7; 32], [7], before));
            }
        }
    }

    /// Before all else: also of a store that would be refused.
    #[test]
    fn a_writing_without_room() {
        for store in [&STORE[..], &STORE[..7]] {
            let (mut generations, mut output, mut numbers) = ([7u32; 1], [7u8; 1200], [7u64; GRAPH_NUMBERS]);
            // SAFETY: as in `open`; no length is over the array's.
            #[rustfmt::skip]
            let results = unsafe {
                [linenhatch_graph_length(20, store.as_ptr(), store.len(), generations.as_mut_ptr(), 1, numbers.as_mut_ptr(), 0),
                 linenhatch_write_graph(
                    20, store.as_ptr(), store.len(), generations.as_mut_ptr(), 1, output.as_mut_ptr(), 1200, numbers.as_mut_ptr(), 0)]
            };
            assert_eq!((results, generations, output, numbers), ([NoRoom::NUMBER; 2], [7], [7; 1200], [7]));
        }
    }

    /// The file is as long as is said, and no byte past it is altered; in an output that is shorter by one byte none is.
    #[test]
    fn an_output_that_is_long_enough() {
        for (width, length) in [(20, 1100), (32, 1112), (0, 1100), (u32::MAX, 1100)] {
            let (mut output, mut numbers) = ([7u8; 1200], [9u64; GRAPH_NUMBERS]);
            assert_eq!((graph_length(width, &STORE, &mut [], &mut numbers), numbers), (0, [length as u64]));
            assert_eq!((write_graph(width, &STORE, &mut [], &mut output[..length - 1], &mut numbers), numbers), (20, [0]));
            assert_eq!(output, [7; 1200]);
            assert_eq!((write_graph(width, &STORE, &mut [], &mut output, &mut numbers), numbers), (0, [length as u64]));
            assert_eq!((&output[..4], output[5], &output[length..]), (&b"CGPH"[..], if width == 32 { 2 } else { 1 }, &[7; 1200][length..]));
        }
    }

    /// Before all else: also of a store that would be refused.
    #[test]
    fn a_feed_report_without_room() {
        for (kind, store) in Kind::ALL.into_iter().flat_map(|kind| [(kind, &STORE[..]), (kind, &STORE[..7])]) {
            for (count, signed) in [(FEED_NUMBERS - 1, FEED_DIFFERENCES), (FEED_NUMBERS, 0), (0, 0)] {
                let mut memory = Memory { parents: vec![7; 8192], ..Memory::with_places(kind, 2) };
                memory.names.fill(7);
                let before = format!("{memory:?}");
                let (list, mut numbers, mut difference) = ([0u8; 0], [7u64; FEED_NUMBERS], [7i64; FEED_DIFFERENCES]);
                // SAFETY: as in `open`; no length is over the array's.
                #[rustfmt::skip]
                let result = unsafe {
                    linenhatch_feed(
                        kind.width(), store.as_ptr(), store.len(), list.as_ptr(), 0, list.as_ptr(), 0, list.as_ptr(), 0, list.as_ptr(), 0, 0, 0, 0, 0,
                        list.as_ptr(), 0, 0, memory.names.as_mut_ptr(), memory.names.len(), memory.marks.as_mut_ptr(), memory.marks.len(), memory.generations.as_mut_ptr(),
                        memory.generations.len(), memory.times.as_mut_ptr(), memory.times.len(), memory.line.as_mut_ptr(), memory.line.len(),
                        memory.parents.as_mut_ptr(), memory.parents.len(), numbers.as_mut_ptr(), count, difference.as_mut_ptr(), signed)
                };
                assert_eq!((result, numbers, difference, format!("{memory:?}")), (NoRoom::NUMBER, [7; FEED_NUMBERS], [7], before));
            }
        }
    }

    /// Before all else: also of a list of terms that would be refused.
    #[test]
    fn a_report_by_terms_without_room() {
        for (kind, terms) in Kind::ALL.into_iter().flat_map(|kind| [(kind, [0u32, 0, 1, 1]), (kind, [1, 0, 0, 9])]) {
            for (places, count) in [(1, TERMS_NUMBERS), (2, 0), (0, 0)] {
                let mut memory = Memory { parents: vec![7; 8192], ..Memory::with_places(kind, 2) };
                memory.names.fill(7);
                let before = format!("{memory:?}");
                let (list, mut counts, mut numbers) = ([0u8; 0], [7u64; 2], [7u64; TERMS_NUMBERS]);
                // SAFETY: as in `open`; no length is over the array's.
                #[rustfmt::skip]
                let result = unsafe {
                    linenhatch_terms(
                        kind.width(), STORE.as_ptr(), STORE.len(), list.as_ptr(), 0, list.as_ptr(), 0, list.as_ptr(), 0, list.as_ptr(), 0, 0, 0, 0, 0,
                        terms.as_ptr(), terms.len(), memory.names.as_mut_ptr(), memory.names.len(), memory.marks.as_mut_ptr(), memory.marks.len(),
                        memory.generations.as_mut_ptr(), memory.generations.len(), memory.times.as_mut_ptr(), memory.times.len(),
                        memory.line.as_mut_ptr(), memory.line.len(), memory.parents.as_mut_ptr(), memory.parents.len(), counts.as_mut_ptr(), places,
                        numbers.as_mut_ptr(), count)
                };
                assert_eq!((result, counts, numbers, format!("{memory:?}")), (NoRoom::NUMBER, [7; 2], [7], before));
            }
        }
    }

    /// Also of a record that is not open, which with room is refused with 12.
    #[test]
    fn a_call_without_room() {
        for kind in Kind::ALL {
            let all = all(kind);
            let (record, numbers) = (Room { record: RECORD - 1, ..all }, Room { numbers: CALL_NUMBERS - 1, ..all });
            for room in [record, numbers, Room { id: kind.len_in_bytes() - 1, ..all }, Room { seconds: CALL_SECONDS - 1, ..all }] {
                let mut lent = SEVENS;
                assert_eq!(lent.next(kind, room), NoRoom::NUMBER);
                assert_eq!(lent, SEVENS);
            }
            for how in [Opening::Plain, Opening::Tested] {
                let mut lent = SEVENS;
                assert_eq!((lent.next(kind, all), lent.open(kind, how, all), lent.next(kind, all)), (12, 0, 100));
            }
        }
    }
}
