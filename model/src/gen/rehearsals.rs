//! Rehearsals, right and wrong, handed over request by request.

use super::case::Case;
use super::damage::damaged;
use super::prime::primed;
use super::rng::Rng;
use super::walk::{any, Walk};
use crate::message::EMPTY_POOL;
use crate::rehearsal::{Rehearsal, Verdict};
use crate::start::start;
use crate::step::{step, Action};
use crate::table::Table;
use crate::wire::{Request, ACTIONS, LONGEST};

/// Of so many rehearsals one goes to the last step but one or beyond, and one to a bad step above 255.
const LONG: usize = 1_000;

/// A source of rehearsals. It draws from numbers of its own, so the other requests do not depend on it.
pub struct Rehearsals {
    rng: Rng,
    begun: usize,
    long: bool,
    /// What the steps so far come to, and the table after the last good one.
    checker: Rehearsal,
    case: Case,
    /// Good steps to come, and steps after these, the first of them mostly bad.
    good: usize,
    more: usize,
}

impl Rehearsals {
    /// The first steps come before any start.
    pub fn new(seed: u64) -> Rehearsals {
        let mut rng = Rng::new(!seed);
        let case = Walk::new(&mut rng).case().clone();
        Rehearsals { rng, begun: 0, long: false, checker: Rehearsal::begin(&[]), case, good: 0, more: 2 }
    }

    /// Whether the next request is one of a rehearsal: one of thirteen, in a long one nine of ten.
    pub fn due(&mut self) -> bool {
        if self.long {
            !self.rng.one_in(10)
        } else {
            self.rng.one_in(13)
        }
    }

    pub fn put(&mut self, out: &mut Vec<u8>) {
        if self.rng.one_in(24) {
            self.put_malformed(out);
        } else if self.good > 0 {
            self.good -= 1;
            self.put_right(out);
        } else if self.more == 0 {
            self.begin(out);
        } else {
            self.more -= 1;
            let right = match (self.is_open(), self.is_whole()) {
                (true, true) => true,
                (true, false) => self.rng.one_in(8),
                (false, _) => self.rng.one_in(2),
            };
            if right {
                self.put_right(out);
            } else {
                self.put_wrong(out);
            }
        }
    }

    fn is_open(&self) -> bool {
        self.checker.verdict() == Verdict::Accepted
    }

    /// Whether it has all its steps.
    fn is_whole(&self) -> bool {
        self.checker.good() == Rehearsal::STEPS
    }

    fn begin(&mut self, out: &mut Vec<u8>) {
        self.begun += 1;
        self.long = matches!(self.begun % LONG, 4 | 9);
        self.more = self.rng.below(4);
        let mut file = if self.long { self.long_start() } else { self.short_start() };
        if !self.long && self.rng.one_in(8) {
            file = if self.rng.one_in(4) { Vec::new() } else { damaged(&mut self.rng, file) };
            self.good = 0;
        }
        self.checker = Rehearsal::begin(&file);
        Request::Begin { file: &file }.put(out);
    }

    fn short_start(&mut self) -> Vec<u8> {
        let rng = &mut self.rng;
        self.case = if rng.one_in(2) { primed(rng).0 } else { Walk::new(rng).case().clone() };
        self.good = rng.pick(&[0, 0, 1, 1, 2, 3, 5, 9]);
        self.case.file()
    }

    /// A node alone, and as many good steps as there may be, in some long ones a step or two fewer, in others a few
    /// more than 255.
    fn long_start(&mut self) -> Vec<u8> {
        let (mut table, mut pool) = (Table::BLANK, EMPTY_POOL);
        let id = self.rng.below(4) as u32;
        start(2, 1, &[id], 1, &mut table, &mut pool).expect("the start is right");
        self.case = Case { table, pool };
        let whole = (self.begun / LONG).is_multiple_of(2);
        let fewer = if whole { 0 } else { 1 + self.rng.below(2) };
        let middle = 255 + self.rng.below(64);
        let all = self.begun % LONG == 4;
        self.good = if all { Rehearsal::STEPS as usize - fewer } else { middle };
        self.more = if all { 30 } else { 4 };
        self.case.file()
    }

    /// An action that is done, as far as one is found, and the table after it.
    fn right(&mut self) -> (Action, Case) {
        let mut after = self.case.clone();
        for _ in 0..100 {
            let action = any(&mut self.rng, &after, !self.long);
            if step(&mut after.table, &mut after.pool, action).is_ok() {
                return (action, after);
            }
        }
        (Action::Take { place: after.table.count }, after)
    }

    /// An action that is refused.
    fn refused(&mut self) -> Action {
        for _ in 0..8 {
            let action = any(&mut self.rng, &self.case, !self.long);
            let mut after = self.case.clone();
            if step(&mut after.table, &mut after.pool, action).is_err() {
                return action;
            }
        }
        Action::Take { place: self.case.table.count }
    }

    fn put_right(&mut self, out: &mut Vec<u8>) {
        let (action, after) = self.right();
        self.hand_over(action, &after.file(), after, out);
    }

    fn hand_over(&mut self, action: Action, stated: &[u8], after: Case, out: &mut Vec<u8>) {
        Request::Next { action, stated }.put(out);
        // Steps beyond the last go on too, as if they counted.
        if self.checker.next(action, stated).is_err() || self.is_open() {
            self.case = after;
        }
    }

    /// A refused action, or a file that is not the one after the action.
    fn put_wrong(&mut self, out: &mut Vec<u8>) {
        let (mut action, after) = self.right();
        let (before, mut stated) = (self.case.file(), after.file());
        let whole = stated.len();
        match self.rng.below(8) {
            0 | 1 => {
                let at = self.rng.below(whole);
                stated[at] ^= 1 << self.rng.below(8);
            }
            2 => {
                let any = self.rng.below(whole);
                stated.truncate(self.rng.pick(&[whole - 1, whole - 4, 32, 0, any]));
            }
            3 => {
                let more = self.rng.pick(&[1, 4, 56, 64]);
                stated.resize(whole + more, self.rng.pick(&[0, 255]));
            }
            4 => stated = before,
            5 => (action, stated) = (self.refused(), before),
            6 => action = self.refused(),
            _ => stated = damaged(&mut self.rng, stated),
        }
        self.hand_over(action, &stated, after, out);
    }

    /// A step of no action, one cut short, or a request that is too long: none of them counts.
    fn put_malformed(&mut self, out: &mut Vec<u8>) {
        let from = out.len();
        let (action, after) = self.right();
        let rng = &mut self.rng;
        Request::Next { action, stated: &after.file() }.put(out);
        match rng.below(12) {
            0 => {
                out[from] = rng.pick(&[5, 6]);
                out.resize(from + LONGEST + rng.pick(&[1, 2, 5000]), 0);
            }
            1..=5 => out.truncate(from + 1 + rng.below(24)),
            _ => {
                let number = rng.pick(&[0, ACTIONS + 1, ACTIONS + 2, u64::MAX, (1 << 32) + 1, 1 << 8]);
                out[from + 1..from + 9].copy_from_slice(&number.to_le_bytes());
            }
        }
    }
}
