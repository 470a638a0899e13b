//! Polls: what waits for a node, of slots in range and out of it.

use super::case::Case;
use super::damage::damaged;
use super::messages::fill;
use super::prime::primed;
use super::rng::Rng;
use super::tables;
use super::walk::Walk;
use crate::wire::{Request, LONGEST};

/// A source of polls. It draws from numbers of its own, so the other requests do not depend on it.
pub struct Polls {
    rng: Rng,
    walk: Walk,
}

impl Polls {
    pub fn new(seed: u64) -> Polls {
        let mut rng = Rng::new(seed.rotate_left(16) ^ 6);
        let walk = Walk::new(&mut rng);
        Polls { rng, walk }
    }

    /// Whether the next request is a poll: one of sixteen.
    pub fn due(&mut self) -> bool {
        self.rng.one_in(16)
    }

    pub fn put(&mut self, out: &mut Vec<u8>) {
        let case = self.case();
        let rng = &mut self.rng;
        let mut slot = slot(rng, &case);
        let mut file = case.file();
        if rng.one_in(4) {
            file = damaged(rng, file);
            slot = if rng.one_in(4) { rng.pick(&[64, 256, u64::MAX]) } else { slot };
        }
        let from = out.len();
        Request::Waiting { slot, file: &file }.put(out);
        match rng.below(200) {
            0..=7 => out.truncate(from + 1 + rng.below(8)),
            8 => out.resize(from + LONGEST + rng.pick(&[0, 1, 5000]), 0),
            _ => {}
        }
    }

    /// A table of a walk, one that is about to make a step, or one with any messages.
    fn case(&mut self) -> Case {
        let rng = &mut self.rng;
        match rng.below(3) {
            0 => self.walk.advance(rng).0,
            1 => primed(rng).0,
            _ => {
                let mut case = tables::table(rng);
                let count = rng.pick(&[0, 1, 2, 5, 20, 100, 256]);
                fill(rng, &mut case, count);
                case
            }
        }
    }
}

/// A slot that is listed, half the time one for which a message waits, or one at the ends and beyond.
fn slot(rng: &mut Rng, case: &Case) -> u64 {
    const WIDE: u64 = 1 << 32;
    let (n, waiting) = (case.table.n, case.waiting());
    let any = rng.below(n) as u64;
    let listed = if rng.one_in(2) && !waiting.is_empty() { rng.pick(waiting).to() as u64 } else { any };
    let n = n as u64;
    match rng.below(3) {
        0 => rng.pick(&[
            0,
            0,
            n - 1,
            n,
            n,
            n + 1,
            63,
            64,
            64 + any,
            256 + any,
            WIDE + any,
            WIDE + any,
            u64::MAX,
        ]),
        _ => listed,
    }
}
