//! The mix of requests.

use super::broken::broken;
use super::case::Case;
use super::damage::damaged;
use super::hops::Hops;
use super::keen::keen;
use super::leaving::Departures;
use super::messages::{fill, key, lookup};
use super::polls::Polls;
use super::prime::primed;
use super::records::Records;
use super::rehearsals::Rehearsals;
use super::rng::Rng;
use super::starts::start;
use super::tables;
use super::walk::Walk;
use crate::step::Action;
use crate::wire::{Request, ACTIONS, LONGEST};

/// One kind that is none, and all but the start of a rehearsal, those of records and polls: what is held goes on.
const KINDS: [u8; 8] = [0, 1, 2, 3, 4, 11, 12, 6];

/// An endless source of requests, the same for the same seed.
pub struct Requests {
    rng: Rng,
    walks: Vec<Walk>,
    rehearsals: Rehearsals,
    records: Records,
    polls: Polls,
    departures: Departures,
    hops: Hops,
}

impl Requests {
    pub fn new(seed: u64) -> Requests {
        let mut rng = Rng::new(seed);
        let walks = (0..4).map(|_| Walk::new(&mut rng)).collect();
        let (rehearsals, records, polls) = (Rehearsals::new(seed), Records::new(seed), Polls::new(seed));
        let (departures, hops) = (Departures::new(seed), Hops::new(seed));
        Requests { rng, walks, rehearsals, records, polls, departures, hops }
    }

    /// Puts the bytes of the next request after `out`, without a length word.
    pub fn put(&mut self, out: &mut Vec<u8>) {
        if self.rehearsals.due() {
            return self.rehearsals.put(out);
        }
        if self.records.due() {
            return self.records.put(out);
        }
        if self.polls.due() {
            return self.polls.put(out);
        }
        if self.departures.due() {
            return self.departures.put(out);
        }
        if self.hops.due() {
            return self.hops.put(out);
        }
        let rng = &mut self.rng;
        match rng.below(100) {
            0..=16 => {
                let (mut case, action) = primed(rng);
                // A pool that is nearly full, or full, behind the message that is taken.
                if rng.one_in(14) {
                    let count = rng.pick(&[254, 255, 256]);
                    fill(rng, &mut case, count);
                }
                put_step(rng, action, &case.file(), out);
            }
            17..=40 => {
                let (case, action) = broken(rng);
                put_step(rng, action, &case.file(), out);
            }
            41..=61 => {
                let (case, action) = keen(rng);
                put_step(rng, action, &case.file(), out);
            }
            62 | 63 => {
                let walk = rng.below(self.walks.len());
                let (case, action) = self.walks[walk].advance(rng);
                put_step(rng, action, &case.file(), out);
            }
            64..=78 => self.put_damaged(out),
            79..=87 => start(rng).put(out),
            88..=94 => Request::Settled { file: &self.calm().file() }.put(out),
            95..=97 => {
                let case = self.with_lookups();
                Request::List { file: &case.file() }.put(out);
            }
            98 => Request::Load { file: &self.any().file() }.put(out),
            _ => self.put_malformed(out),
        }
    }

    /// Any valid table.
    fn any(&mut self) -> Case {
        let rng = &mut self.rng;
        match rng.below(4) {
            0 => {
                let walk = rng.below(self.walks.len());
                self.walks[walk].case().clone()
            }
            1 => tables::settled(rng),
            2 => primed(rng).0,
            _ => {
                let mut case = tables::table(rng);
                let count = rng.pick(&[0, 1, 3, 10, 255, 256]);
                fill(rng, &mut case, count);
                case
            }
        }
    }

    /// A table that is mostly settled.
    fn calm(&mut self) -> Case {
        match self.rng.below(8) {
            0 => self.any(),
            1 => {
                let walk = self.rng.below(self.walks.len());
                self.walks[walk].case().clone()
            }
            _ => tables::settled(&mut self.rng),
        }
    }

    /// A table with lookups to follow.
    fn with_lookups(&mut self) -> Case {
        let mut case = match self.rng.below(5) {
            0 => self.any(),
            1 => tables::settled(&mut self.rng),
            2 => tables::table(&mut self.rng),
            _ => tables::crossed(&mut self.rng),
        };
        let rng = &mut self.rng;
        let count = rng.pick(&[0, 1, 2, 5, 20, 20, 60, 256]);
        let mut last = key(rng, &case.table);
        for _ in 0..count {
            if !rng.one_in(3) {
                last = key(rng, &case.table);
            }
            let to = rng.below(case.table.n);
            case.push(lookup(&case.table, to, last));
        }
        if rng.one_in(3) {
            let waiting = case.table.count;
            rng.shuffle(&mut case.pool[..waiting]);
        }
        case
    }

    fn put_damaged(&mut self, out: &mut Vec<u8>) {
        let mut case = self.any();
        let rng = &mut self.rng;
        let count = rng.pick(&[0, 4, 8, 12]);
        fill(rng, &mut case, count);
        let file = damaged(rng, case.file());
        match rng.below(8) {
            0 => Request::List { file: &file },
            1 => Request::Settled { file: &file },
            2 => {
                let (_, action) = primed(rng);
                Request::Step { action, file: &file }
            }
            _ => Request::Load { file: &file },
        }
        .put(out);
    }

    fn put_malformed(&mut self, out: &mut Vec<u8>) {
        let from = out.len();
        let rng = &mut self.rng;
        match rng.below(8) {
            0 => {}
            1 => out.push(rng.pick(&[11, 12, 6, 255, 128, 0, 1, 2, 3, 4])),
            2 => {
                let (case, action) = primed(rng);
                put_step(rng, action, &case.file(), out);
                let number = rng.pick(&[0, ACTIONS + 1, ACTIONS + 2, u64::MAX, (1 << 32) + 1, 1 << 8, 6]);
                out[from + 1..from + 9].copy_from_slice(&number.to_le_bytes());
            }
            3 | 4 => {
                let request = if rng.one_in(2) { start(rng) } else { Request::Load { file: &[] } };
                request.put(out);
                let kept = rng.below(40);
                out.truncate(from + kept);
                out[from..].iter_mut().take(1).for_each(|kind| *kind = rng.pick(&[1, 2, 11]));
            }
            5 => {
                start(rng).put(out);
                let odd = 1 + rng.below(3);
                out.resize(out.len() + odd, 0);
            }
            6 if rng.one_in(10) => {
                out.push(rng.pick(&KINDS[..7]));
                let length = rng.pick(&[LONGEST, LONGEST + 1, LONGEST - 3, LONGEST + 5000, LONGEST - 1]);
                let fill = rng.pick(&[0, 1, 8]);
                out.resize(from + length, fill);
            }
            _ => {
                let length = rng.below(60);
                for _ in 0..length {
                    out.push(rng.any() as u8);
                }
                out[from..].iter_mut().take(1).for_each(|kind| *kind = KINDS[usize::from(*kind % 8)]);
            }
        }
    }
}

/// A step, half the time one that says where its hop came from.
pub fn put_step(rng: &mut Rng, action: Action, file: &[u8], out: &mut Vec<u8>) {
    if rng.one_in(2) { Request::Step { action, file } } else { Request::StepVia { action, file } }.put(out);
}

impl Iterator for Requests {
    type Item = Vec<u8>;

    fn next(&mut self) -> Option<Vec<u8>> {
        let mut request = Vec::new();
        self.put(&mut request);
        Some(request)
    }
}
