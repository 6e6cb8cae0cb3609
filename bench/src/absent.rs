//! Stands where the lister is left out of the build.
use crate::{
    history::{Commit, History, Walk},
    sample::Sample,
};
use std::time::Duration;

pub struct Memory;

const ABSENT: &str = "built without the feature `ours`";

impl Memory {
    pub fn new(_: &History, _: &Walk) -> Self {
        Memory
    }

    pub fn list(&mut self, _: &History, _: &Walk) -> Vec<Commit> {
        unreachable!("{ABSENT}")
    }

    pub fn sample(&mut self, _: &History, _: &Walk, _: u32) -> Sample {
        unreachable!("{ABSENT}")
    }
}

pub fn lent_bytes(_: &History, _: &Walk) -> usize {
    0
}

pub fn sample_new_memory(_: &History, _: &Walk) -> Duration {
    unreachable!("{ABSENT}")
}
