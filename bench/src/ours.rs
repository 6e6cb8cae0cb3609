//! The lister, through the same declarations as the Rust binding has.
use crate::{
    clock,
    history::{Commit, History, Id, Listed, Sorting, Walk},
    sample::Sample,
};
use std::time::Duration;

#[allow(dead_code)] // the bench calls two of the functions
#[path = "../../bindings/rust/src/ffi.rs"]
mod ffi;

/// The results of a call.
const COMMIT: u32 = 0;
const END: u32 = 100;

/// Where a number stands in a call's numbers.
const PARENTS: usize = 3;
const HAS_GENERATION: usize = 4;
const GENERATION: usize = 5;
const HAS_TIME: usize = 6;

/// What a walk is lent, its record, and where a call's answer is set down.
pub struct Memory {
    lent: ffi::Memory,
    answer: ffi::Answer,
}

/// The tips, and all else that a walk goes by.
struct Input<'a> {
    tips: &'a [u8],
    rest: ffi::Input<'a>,
}

impl<'a> Input<'a> {
    fn new(history: &'a History, walk: &Walk) -> Self {
        Input {
            tips: &history.tip,
            rest: ffi::Input {
                width: history.width() as u32,
                store: &history.store,
                graph: if walk.graph { &history.graph } else { &[] },
                hidden: if walk.hides { history.hidden.clone() } else { Vec::new() },
                excluded: Vec::new(),
                sorting: match walk.sorting {
                    Sorting::Breadth => 0,
                    Sorting::Newest => 1,
                    Sorting::Oldest => 2,
                },
                has_cutoff: u32::from(walk.cutoff),
                cutoff: history.cutoff,
                first: u32::from(walk.first),
            },
        }
    }

    fn places(&self) -> usize {
        ffi::places(&self.rest, self.tips)
    }
}

/// How many bytes a walk is lent.
pub fn lent_bytes(history: &History, walk: &Walk) -> usize {
    (33 + history.width()) * Input::new(history, walk).places() + 256 * history.width()
}

impl Memory {
    pub fn new(history: &History, walk: &Walk) -> Self {
        Self::with(history.width(), Input::new(history, walk).places())
    }

    fn with(width: usize, places: usize) -> Self {
        Memory {
            lent: ffi::Memory {
                names: vec![0; width * places],
                marks: vec![0; places],
                generations: vec![0; places],
                times: vec![0; places],
                line: vec![0; 5 * places],
                parents: vec![0; 256 * width],
                record: [0; ffi::RECORD],
            },
            answer: ffi::Answer { id: vec![0; width], numbers: [0; ffi::CALL_NUMBERS], seconds: [0; ffi::CALL_SECONDS] },
        }
    }

    fn open(&mut self, input: &Input) {
        let result = ffi::open(ffi::Opening::Plain, &input.rest, input.tips, &mut self.lent, &mut [0; ffi::OPEN_NUMBERS]);
        assert!(result == 0, "an opening is refused: {result}");
    }

    /// Whether a commit was handed out.
    #[inline]
    fn next(&mut self, input: &Input) -> bool {
        let result = ffi::next(&input.rest, &mut self.lent, &mut self.answer);
        assert!(result == COMMIT || result == END, "a call is refused: {result}");
        result == COMMIT
    }

    #[inline]
    fn parents(&self) -> &[u8] {
        &self.lent.parents[..self.answer.id.len() * self.answer.numbers[PARENTS] as usize]
    }

    fn walk(&mut self, input: &Input) -> Listed {
        let mut listed = Listed::default();
        while self.next(input) {
            listed.commits += 1;
            listed.id(&self.answer.id);
            // a constant each, as a caller that knows its width has it
            match self.answer.id.len() {
                20 => self.parents().chunks_exact(20).for_each(|id| listed.id(id)),
                _ => self.parents().chunks_exact(32).for_each(|id| listed.id(id)),
            }
        }
        listed
    }

    /// Every commit in all its parts.
    pub fn list(&mut self, history: &History, walk: &Walk) -> Vec<Commit> {
        let input = Input::new(history, walk);
        self.open(&input);
        let mut commits = Vec::new();
        while self.next(&input) {
            commits.push(Commit {
                id: self.answer.id.clone(),
                parents: self.parents().chunks_exact(history.width()).map(Id::from).collect(),
                generation: (self.answer.numbers[HAS_GENERATION] == 1).then_some(self.answer.numbers[GENERATION] as u32),
                seconds: (self.answer.numbers[HAS_TIME] == 1).then_some(self.answer.seconds[0]),
            });
        }
        commits
    }

    /// As many walks as asked for in the same memory, timed.
    pub fn sample(&mut self, history: &History, walk: &Walk, times: u32) -> Sample {
        let input = Input::new(history, walk);
        let (mut opening, mut walking) = (Duration::ZERO, Duration::ZERO);
        let mut listed = Listed::default();
        for _ in 0..times {
            let start = clock::thread();
            self.open(&input);
            let opened = clock::thread();
            listed = self.walk(&input);
            walking += clock::thread() - opened;
            opening += opened - start;
        }
        Sample { opening: opening / times, walking: walking / times, listed }
    }
}

/// A walk with memory that is asked for, used once and given back.
pub fn sample_new_memory(history: &History, walk: &Walk) -> Duration {
    let start = clock::thread();
    let input = Input::new(history, walk);
    let mut memory = Memory::with(history.width(), input.places());
    memory.open(&input);
    std::hint::black_box(memory.walk(&input));
    drop(memory);
    clock::thread() - start
}
