//! Water records, in range and out of it, placed request by request.

use super::case::Case;
use super::damage::damaged;
use super::messages::{fill, key};
use super::rng::Rng;
use super::tables;
use crate::file::load;
use crate::message::EMPTY_POOL;
use crate::settled::settled;
use crate::table::{Status, Table};
use crate::water::{Record, Store};
use crate::wire::{Request, LONGEST};

/// Of so many runs one fills the store and goes beyond.
const FULL: usize = 200;

/// A source of runs of records, each mostly on one table. It draws from numbers of its own, so the other
/// requests do not depend on it.
pub struct Records {
    rng: Rng,
    begun: usize,
    /// Whether the run fills the store.
    full: bool,
    /// What is held so far.
    store: Store,
    case: Case,
    /// Requests to come, once the store is full where the run fills it.
    left: usize,
}

impl Records {
    /// The first records come before any begin.
    pub fn new(seed: u64) -> Records {
        let mut rng = Rng::new(seed.rotate_left(32) ^ 13);
        let case = calm(&mut rng);
        Records { rng, begun: 0, full: false, store: Store::default(), case, left: 5 }
    }

    /// Whether the next request is one of records: one of twelve, while the store is filled nine of ten.
    pub fn due(&mut self) -> bool {
        if self.full {
            !self.rng.one_in(10)
        } else {
            self.rng.one_in(12)
        }
    }

    pub fn put(&mut self, out: &mut Vec<u8>) {
        if self.rng.one_in(24) {
            self.put_malformed(out);
        } else if self.full && self.store.held().len() < Store::RECORDS {
            let record = if self.rng.one_in(12) { self.record() } else { self.fresh() };
            self.place(record, &self.case.file(), out);
        } else if self.left == 0 {
            self.begin(out);
        } else {
            self.left -= 1;
            if self.rng.one_in(5) {
                Request::Sum.put(out);
            } else {
                self.put_any(out);
            }
        }
    }

    /// A run on another table. Most runs begin with no record held.
    fn begin(&mut self, out: &mut Vec<u8>) {
        self.begun += 1;
        self.full = self.begun % FULL == 3;
        self.left = if self.full { 150 } else { 4 + self.rng.below(16) };
        self.case = calm(&mut self.rng);
        while self.full && !(self.case.table.m >= 8 && is_settled(&self.case)) {
            self.case = calm(&mut self.rng);
        }
        if self.rng.one_in(4) {
            Request::Sum.put(out);
        } else {
            self.store = Store::default();
            Request::Records.put(out);
        }
    }

    /// A record on the table of the run, on one that is not settled, on another one or on a damaged file.
    fn put_any(&mut self, out: &mut Vec<u8>) {
        let record = match self.rng.below(4) {
            0 | 1 if self.full => self.fresh(),
            2 if self.full => self.again(),
            _ => self.record(),
        };
        let rng = &mut self.rng;
        let file = match rng.below(if self.full { 7 } else { 12 }) {
            0 => damaged(rng, self.case.file()),
            1 | 2 => unsettled(rng, &self.case).file(),
            3 | 4 => tables::settled(rng).file(),
            5 => tables::table(rng).file(),
            _ => self.case.file(),
        };
        self.place(record, &file, out);
    }

    fn place(&mut self, record: Record, file: &[u8], out: &mut Vec<u8>) {
        let (mut table, mut pool) = (Table::BLANK, EMPTY_POOL);
        if load(file, &mut table, &mut pool).is_ok() {
            self.store.place(&table, &pool, record).ok();
        }
        Request::Place { record, file }.put(out);
    }

    /// A record of a key and month that are not held.
    fn fresh(&mut self) -> Record {
        loop {
            let key = self.rng.any() % (1 << self.case.table.m);
            let record = in_range(&mut self.rng, key);
            let same = |other: &Record| other.key == key && other.month == record.month;
            if !self.store.held().iter().any(|held| same(&held.record)) {
                return record;
            }
        }
    }

    /// A record of a key and month that are held, or of that key in any month.
    fn again(&mut self) -> Record {
        let (rng, held) = (&mut self.rng, self.store.held());
        let earlier = held[rng.below(held.len())].record;
        let record = in_range(rng, earlier.key);
        Record { month: rng.pick(&[earlier.month, earlier.month, record.month]), ..record }
    }

    /// A record of any key, or of one that is held; some are out of range.
    fn record(&mut self) -> Record {
        let some = !self.store.held().is_empty();
        let mut record = if some && self.rng.one_in(3) {
            self.again()
        } else {
            let key = key(&mut self.rng, &self.case.table).into();
            in_range(&mut self.rng, key)
        };
        if self.rng.one_in(3) {
            stray(&mut self.rng, self.case.table.m, &mut record);
        }
        record
    }

    /// A record that is cut short, a begin or a sum with bytes behind it, or a request that is too long.
    fn put_malformed(&mut self, out: &mut Vec<u8>) {
        let from = out.len();
        let record = self.record();
        Request::Place { record, file: &self.case.file() }.put(out);
        let rng = &mut self.rng;
        match rng.below(12) {
            0 => {
                out[from] = rng.pick(&[7, 8, 9]);
                out.resize(from + LONGEST + rng.pick(&[1, 2, 5000]), 0);
            }
            1..=5 => out.truncate(from + 1 + rng.below(40)),
            _ => {
                out[from] = rng.pick(&[7, 9]);
                out.truncate(from + 2 + rng.below(48));
            }
        }
    }
}

/// A table that is mostly settled, with few messages.
fn calm(rng: &mut Rng) -> Case {
    let mut case = tables::settled(rng);
    for _ in 0..3 {
        if !is_settled(&case) {
            case = tables::settled(rng);
        }
    }
    let count = rng.pick(&[0, 0, 0, 1, 5]);
    fill(rng, &mut case, count);
    case
}

/// The table with a node that is neither dead nor ready.
fn unsettled(rng: &mut Rng, case: &Case) -> Case {
    let mut case = case.clone();
    case.table.nodes[rng.below(case.table.n)].status = rng.pick(&[Status::Wait, Status::Ok]);
    case
}

fn is_settled(case: &Case) -> bool {
    settled(&case.table, &case.pool) == Ok(true)
}

fn in_range(rng: &mut Rng, key: u64) -> Record {
    let month = 1 + rng.below(12) as u64;
    Record { key, month, rain: amount(rng), evapotranspiration: amount(rng), runoff: amount(rng) }
}

fn amount(rng: &mut Rng) -> u64 {
    let any = rng.below(1 + Record::MOST as usize) as u64;
    rng.pick(&[any, any, any, any, 0, Record::MOST])
}

/// Puts a number at an end of its range or beyond.
fn stray(rng: &mut Rng, m: u32, record: &mut Record) {
    const WIDE: u64 = 1 << 32;
    let (whole, key, month) = (1 << m, record.key, record.month);
    let keys = [0, whole - 1, whole, whole + key, WIDE, WIDE + key, u64::MAX];
    let months = [0, 0, 0, 1, 12, 13, 13, WIDE - 1, WIDE, WIDE + month, u64::MAX];
    let amounts = [0, Record::MOST, Record::MOST + 1, WIDE - 1, WIDE, WIDE + 1, u64::MAX];
    match rng.below(5) {
        0 => record.key = rng.pick(&keys),
        1 => record.month = rng.pick(&months),
        2 => record.rain = rng.pick(&amounts),
        3 => record.evapotranspiration = rng.pick(&amounts),
        _ => record.runoff = rng.pick(&amounts),
    }
}
