//! A contractor's rehearsal (T-09): a start, then actions with the files that are said to result.

use crate::file::{load_as, write_as, LARGEST};
use crate::message::{Pool, EMPTY_POOL};
use crate::reading::{Reading, Right};
use crate::refusal::{refuse_if, Refusal};
use crate::slip::Slip;
use crate::step::{step_as, Action};
use crate::table::Table;

/// What is said of a rehearsal so far.
#[derive(Clone, Copy, Debug, PartialEq, Eq)]
pub enum Verdict {
    Accepted,
    /// The first bad step, from 1, or 0 for the start.
    Bad(u32),
}

/// A rehearsal that is being handed over: the table after its last good step, and the verdict so far.
#[derive(Clone)]
pub struct Rehearsal {
    verdict: Verdict,
    good: u32,
    table: Table,
    pool: Pool,
}

impl Rehearsal {
    /// The most steps.
    pub const STEPS: u32 = 1_000;

    /// Begins with the starting file.
    pub fn begin(file: &[u8]) -> Rehearsal {
        Rehearsal::begin_as(Right, file)
    }

    pub fn begin_as<R: Reading>(r: R, file: &[u8]) -> Rehearsal {
        let (mut table, mut pool) = (Table::BLANK, EMPTY_POOL);
        let verdict = match load_as(r, file, &mut table, &mut pool) {
            Ok(()) => Verdict::Accepted,
            Err(_) => Verdict::Bad(r.pick(Slip::BadStartIsOne, 1, 0)),
        };
        Rehearsal { verdict, good: 0, table, pool }
    }

    /// How many steps were good.
    pub fn good(&self) -> u32 {
        self.good
    }

    pub fn verdict(&self) -> Verdict {
        self.verdict
    }

    /// Looks at the next step, or refuses it and changes nothing.
    pub fn next(&mut self, action: Action, stated: &[u8]) -> Result<(), Refusal> {
        self.next_as(Right, action, stated)
    }

    pub fn next_as<R: Reading>(&mut self, r: R, action: Action, stated: &[u8]) -> Result<(), Refusal> {
        refuse_if(self.is_over(r), Refusal::Over)?;
        let (mut table, mut pool) = (self.table, self.pool);
        let done = step_as(r, &mut table, &mut pool, action).is_ok();
        let good = (done || r.takes(Slip::RefusedIsNoChange)) && agrees(r, &table, &pool, stated);
        if good || r.takes(Slip::BadStepKept) {
            (self.table, self.pool) = (table, pool);
        }
        if good {
            self.good += 1;
        } else if self.verdict == Verdict::Accepted {
            let step = self.good + r.pick(Slip::BadStepFromZero, 0, 1);
            self.verdict = Verdict::Bad(r.pick(Slip::BadStepInByte, step & 0xff, step));
        }
        Ok(())
    }

    fn is_over<R: Reading>(&self, r: R) -> bool {
        let ended = match self.verdict {
            Verdict::Accepted => false,
            Verdict::Bad(0) => !r.takes(Slip::BadStartGoesOn),
            Verdict::Bad(_) => !r.takes(Slip::BadStepGoesOn),
        };
        let few = r.pick(Slip::StepsTo999, 1, 0);
        let many = r.pick(Slip::StepsTo1001, 1, 0);
        let all = self.good >= Rehearsal::STEPS - few + many;
        ended || all && !r.takes(Slip::StepsUnlimited)
    }
}

/// Whether the stated file is precisely that of the table.
fn agrees<R: Reading>(r: R, table: &Table, pool: &Pool, stated: &[u8]) -> bool {
    let mut buffer = [0; LARGEST];
    let Ok(length) = write_as(r, table, pool, &mut buffer) else {
        return false;
    };
    let file = &buffer[..length];
    stated == file
        || r.takes(Slip::StatedFree)
        || r.takes(Slip::StatedLonger) && stated.starts_with(file)
        || r.takes(Slip::StatedShorter) && file.starts_with(stated)
}
