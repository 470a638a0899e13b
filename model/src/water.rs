//! Water records on top of the ring (T-13).

use crate::marks::{bit, slots};
use crate::message::Message;
use crate::reading::{Reading, Right};
use crate::refusal::Refusal;
use crate::settled::settled_as;
use crate::slip::Slip;
use crate::table::{Status, Table};
use crate::view::{Neighbours, View};

/// A record. The amounts are in tenths of a millimetre.
#[derive(Clone, Copy, Debug, PartialEq, Eq)]
pub struct Record {
    pub key: u64,
    pub month: u64,
    pub rain: u64,
    pub evapotranspiration: u64,
    pub runoff: u64,
}

impl Record {
    /// The greatest amount.
    pub const MOST: u64 = 100_000;

    fn in_range<R: Reading>(&self, r: R, m: u32) -> bool {
        let keys = (1 << m) + r.pick(Slip::RecordKeyAtN, 1, 0);
        let months = r.pick(Slip::MonthZero, 0, 1)..=r.pick(Slip::MonthThirteen, 13, 12);
        let most = Record::MOST - r.pick(Slip::AmountTopRefused, 1, 0) + r.pick(Slip::AmountPastTop, 1, 0);
        let fits = |amount: u64, free: Slip| amount <= most || r.takes(free);
        self.key < keys
            && months.contains(&self.month)
            && self.rain <= most
            && fits(self.evapotranspiration, Slip::EvapotranspirationFree)
            && fits(self.runoff, Slip::RunoffFree)
    }

    /// The record with its numbers cut, by two misreadings.
    fn cut<R: Reading>(self, r: R, m: u32) -> Record {
        let cut = |number: u64| r.pick(Slip::NumbersCut, number & u64::from(u32::MAX), number);
        let key = r.pick(Slip::RecordKeyWraps, self.key & ((1 << m) - 1), self.key);
        Record {
            key: cut(key),
            month: cut(self.month),
            rain: cut(self.rain),
            evapotranspiration: cut(self.evapotranspiration),
            runoff: cut(self.runoff),
        }
    }

    fn same_key_and_month<R: Reading>(&self, r: R, other: &Record) -> bool {
        self.key == other.key && (self.month == other.month || r.takes(Slip::MonthIgnored))
    }
}

/// An original at the slot of its holder, and the slots of its copies.
#[derive(Clone, Copy, Debug, PartialEq, Eq)]
pub struct Held {
    pub record: Record,
    pub holder: usize,
    pub copies: u64,
}

impl Held {
    /// The change of stored water: rain - evapotranspiration - runoff.
    pub fn change(&self) -> i64 {
        self.change_as(Right)
    }

    pub fn change_as<R: Reading>(&self, r: R) -> i64 {
        let Record { rain, evapotranspiration, runoff, .. } = self.record;
        let signed = |slip: Slip, amount: i64| r.pick(slip, -amount, amount);
        let rain = signed(Slip::RainTakenAway, rain as i64);
        let evapotranspiration = signed(Slip::EvapotranspirationAdded, evapotranspiration as i64);
        rain - evapotranspiration - signed(Slip::RunoffAdded, runoff as i64)
    }
}

/// The records that are held: of each key and month the last one accepted.
#[derive(Clone, Debug, Default, PartialEq, Eq)]
pub struct Store {
    held: Vec<Held>,
}

impl Store {
    /// The most records.
    pub const RECORDS: usize = 512;

    pub fn held(&self) -> &[Held] {
        &self.held
    }

    /// Places a record on a valid table, or refuses it and changes nothing.
    pub fn place(&mut self, table: &Table, pool: &[Message], record: Record) -> Result<Held, Refusal> {
        self.place_as(Right, table, pool, record)
    }

    pub fn place_as<R: Reading>(
        &mut self,
        r: R,
        table: &Table,
        pool: &[Message],
        record: Record,
    ) -> Result<Held, Refusal> {
        let settled = settled_as(r, table, pool)?;
        let record = record.cut(r, table.m);
        let earlier = self.held.iter().position(|held| held.record.same_key_and_month(r, &record));
        let fresh = earlier.is_none() || r.takes(Slip::NoRoomToReplace);
        let mut refusals = [
            (!record.in_range(r, table.m), Refusal::Record),
            (!settled && !r.takes(Slip::UnsettledTaken), Refusal::Unsettled),
            (fresh && self.is_full(r), Refusal::Full),
        ];
        if r.takes(Slip::FifteenBeforeFourteen) {
            refusals.swap(0, 1);
        }
        if r.takes(Slip::SixteenBeforeFifteen) {
            refusals.swap(1, 2);
        }
        if let Some((_, refusal)) = refusals.into_iter().find(|&(applies, _)| applies) {
            if let (true, Some(place)) = (r.takes(Slip::RefusedRepeatGoes), earlier) {
                self.held.remove(place);
            }
            return Err(refusal);
        }
        let view = View::new(r, table);
        let holder = holder(&view, record.key).ok_or(Refusal::Unsettled)?;
        let mut held = Held { record, holder, copies: copies(&view, holder) };
        match earlier {
            Some(place) if !r.takes(Slip::RepeatAdded) => {
                let old = self.held[place];
                if r.takes(Slip::RepeatKeepsHolder) {
                    held = Held { record, ..old };
                }
                self.held[place] = r.pick(Slip::RepeatIgnored, old, held);
            }
            _ => self.held.push(held),
        }
        Ok(held)
    }

    fn is_full<R: Reading>(&self, r: R) -> bool {
        let few = r.pick(Slip::RecordsTo511, 1, 0);
        let many = r.pick(Slip::RecordsTo513, 1, 0);
        let copies = |held: &Held| r.pick(Slip::CopiesTakeRoom, held.copies.count_ones() as usize, 0);
        let taken: usize = self.held.iter().map(|held| 1 + copies(held)).sum();
        taken >= Store::RECORDS - few + many
    }

    /// The sum of the changes over held originals.
    pub fn sum(&self) -> i64 {
        self.sum_as(Right)
    }

    pub fn sum_as<R: Reading>(&self, r: R) -> i64 {
        let copies = |held: &Held| r.pick(Slip::CopiesInSum, i64::from(held.copies.count_ones()), 0);
        let change = |held: &Held| r.pick(Slip::SumOfSizes, held.change_as(r).abs(), held.change_as(r));
        self.held.iter().map(|held| change(held) * (1 + copies(held))).sum()
    }

    /// How many records are held.
    pub fn count_as<R: Reading>(&self, r: R) -> usize {
        let copies = |held: &Held| r.pick(Slip::CopiesCounted, held.copies.count_ones() as usize, 0);
        self.held.iter().map(|held| 1 + copies(held)).sum()
    }
}

/// The ready node that covers the key. In a settled table there is exactly one.
fn holder<R: Reading>(view: &View<R>, key: u64) -> Option<usize> {
    let ready = view.table.marks(|node| node.status == Status::Ready);
    slots(ready).find(|&slot| view.covers(slot, view.ring.wrap(key)))
}

/// The holder's left and right neighbours, without the holder itself where it is alone.
fn copies<R: Reading>(view: &View<R>, holder: usize) -> u64 {
    let r = view.r;
    let sides = view.table.nodes[holder].sides;
    let Neighbours(left, right) = view.neighbours(holder, sides);
    let both = r.pick(Slip::CopyRightOnly, 0, bit(left)) | r.pick(Slip::CopyLeftOnly, 0, bit(right));
    let near = r.pick(Slip::CopiesAtAllLeaves, sides.content(holder), both);
    let others = r.pick(Slip::LoneCopiesItself, near, near & !bit(holder));
    r.pick(Slip::CopyAtHolder, near | bit(holder), others)
}
