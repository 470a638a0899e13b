//! A rehearsal as files alone: each step is made on the last file that was found good.

use super::{file, step, Verdict};
use std::collections::BTreeSet;

/// The start and the stated files that were found good, and the number of the first bad step.
#[derive(Default)]
pub struct Rehearsal {
    good: Vec<Vec<u8>>,
    bad: Option<usize>,
}

impl Rehearsal {
    pub fn begin(&mut self, start: &[u8]) -> Verdict {
        let loads = file::refusals(start).is_empty();
        self.good = vec![start.to_vec()];
        self.bad = if loads { None } else { Some(0) };
        self.verdict()
    }

    pub fn next(&mut self, action: u64, first: u64, second: u64, stated: &[u8]) -> Verdict {
        let begun = !self.good.is_empty();
        if !begun || self.bad.is_some() || self.good.len() > 1_000 {
            return Verdict::refused(BTreeSet::from([12]));
        }
        let before = file::read(&self.good[self.good.len() - 1]);
        let made = step::judge(&before, action, first, second);
        if made.numbers.is_empty() && made.result == stated {
            self.good.push(stated.to_vec());
        } else {
            self.bad = Some(self.good.len());
        }
        self.verdict()
    }

    fn verdict(&self) -> Verdict {
        Verdict::done(match self.bad {
            None => vec![1],
            Some(number) => {
                let digit = |place: u32| (number / 256usize.pow(place) % 256) as u8;
                vec![0, digit(0), digit(1), digit(2), digit(3)]
            }
        })
    }
}
