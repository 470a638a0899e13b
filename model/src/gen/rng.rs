//! A small generator of random numbers (splitmix64).

use crate::marks::{bit, slots};

#[derive(Clone, Debug)]
pub struct Rng(u64);

impl Rng {
    pub fn new(seed: u64) -> Rng {
        Rng(seed)
    }

    pub fn any(&mut self) -> u64 {
        self.0 = self.0.wrapping_add(0x9e37_79b9_7f4a_7c15);
        let mut z = self.0;
        z = (z ^ (z >> 30)).wrapping_mul(0xbf58_476d_1ce4_e5b9);
        z = (z ^ (z >> 27)).wrapping_mul(0x94d0_49bb_1331_11eb);
        z ^ (z >> 31)
    }

    /// A number below `limit`, which is not 0.
    pub fn below(&mut self, limit: usize) -> usize {
        ((u128::from(self.any()) * limit as u128) >> 64) as usize
    }

    /// True in one of `many` cases.
    pub fn one_in(&mut self, many: usize) -> bool {
        self.below(many) == 0
    }

    pub fn pick<T: Copy>(&mut self, choices: &[T]) -> T {
        choices[self.below(choices.len())]
    }

    /// One of the words. Its digits are the faults that an action has; `-` is none.
    pub fn faults(&mut self, words: &str) -> Vec<usize> {
        let words: Vec<&str> = words.split(' ').collect();
        self.pick(&words).chars().filter_map(|digit| digit.to_digit(16)).map(|digit| digit as usize).collect()
    }

    /// A member of a set that is not empty.
    pub fn member(&mut self, set: u64) -> usize {
        let nth = self.below(set.count_ones() as usize);
        slots(set).nth(nth).expect("the set is not empty")
    }

    /// At most `most` members.
    pub fn members(&mut self, set: u64, most: usize) -> u64 {
        let mut rest = set;
        let mut kept = 0;
        for _ in 0..most.min(set.count_ones() as usize) {
            let slot = self.member(rest);
            rest &= !bit(slot);
            kept |= bit(slot);
        }
        kept
    }

    /// A subset: none, few, half, most or all.
    pub fn subset(&mut self, set: u64) -> u64 {
        let chosen = match self.below(8) {
            0 | 1 => 0,
            2 => self.any() & self.any() & self.any(),
            3 => self.any() & self.any(),
            4 => self.any(),
            5 => self.any() | self.any(),
            6 => {
                let most = 1 + self.below(3);
                self.members(set, most)
            }
            _ => !0,
        };
        chosen & set
    }

    /// A subset that is mostly small.
    pub fn few(&mut self, set: u64) -> u64 {
        match self.below(4) {
            0 | 1 => 0,
            2 => self.subset(set),
            _ => self.any() & self.any() & self.any() & set,
        }
    }

    pub fn shuffle<T>(&mut self, list: &mut [T]) {
        for last in (1..list.len()).rev() {
            list.swap(last, self.below(last + 1));
        }
    }
}
