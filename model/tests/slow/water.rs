//! Water records as the list of all that were accepted: of each key and month the last one is held.

use super::leaf::{covers, Leaf};
use super::{others, Set, Table, Verdict, READY};
use std::collections::{BTreeMap, BTreeSet};

#[derive(Default)]
pub struct Records {
    /// Key, month and change.
    accepted: Vec<(u64, u64, i64)>,
}

impl Records {
    pub fn begin(&mut self) -> Verdict {
        self.accepted.clear();
        Verdict::done(Vec::new())
    }

    pub fn place(&mut self, table: &Table, words: &[u64]) -> Verdict {
        let (key, month, amounts) = (words[0], words[1], &words[2..]);
        let held = self.held();
        let mut numbers = BTreeSet::new();
        if key >= 1 << table.m || !(1..=12).contains(&month) || amounts.iter().any(|&amount| amount > 100_000)
        {
            numbers.insert(14);
        }
        if !others::settled(table) {
            numbers.insert(15);
        }
        if held.len() == 512 && !held.contains_key(&(key, month)) {
            numbers.insert(16);
        }
        if !numbers.is_empty() {
            return Verdict::refused(numbers);
        }
        let change = amounts[0] as i64 - amounts[1] as i64 - amounts[2] as i64;
        self.accepted.push((key, month, change));
        let (holder, copies) = holding(table, key as i64);
        let marks: u64 = copies.iter().map(|slot| 1 << slot).sum();
        let holder = (holder as u32).to_le_bytes();
        Verdict::done([&holder[..], &marks.to_le_bytes(), &change.to_le_bytes()].concat())
    }

    pub fn sum(&self) -> Verdict {
        let held = self.held();
        let (count, sum) = (held.len() as u32, held.values().sum::<i64>());
        Verdict::done([&count.to_le_bytes()[..], &sum.to_le_bytes()].concat())
    }

    fn held(&self) -> BTreeMap<(u64, u64), i64> {
        self.accepted.iter().map(|&(key, month, change)| ((key, month), change)).collect()
    }
}

/// The one node that covers the key, and its neighbours other than itself.
fn holding(table: &Table, key: i64) -> (usize, Set) {
    let covering: Vec<usize> = (0..table.nodes.len())
        .filter(|&slot| table.nodes[slot].status == READY && covers(table, slot, key))
        .collect();
    assert_eq!(covering.len(), 1, "a settled table covers every key once");
    let leaf = Leaf::of(table, covering[0]);
    let mut copies = Set::from([leaf.left_neighbour(table), leaf.right_neighbour(table)]);
    copies.remove(&leaf.owner);
    (leaf.owner, copies)
}
