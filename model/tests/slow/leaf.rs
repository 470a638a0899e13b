//! Leaf sets, covers and the next hop, as written.

use super::ring::{fall, nearer};
use super::{Message, Set, Table, DEAD};

#[derive(Clone, Debug, PartialEq)]
pub struct Leaf {
    pub owner: usize,
    pub left: Set,
    pub right: Set,
}

impl Leaf {
    pub fn of(table: &Table, i: usize) -> Leaf {
        Leaf { owner: i, left: table.nodes[i].left.clone(), right: table.nodes[i].right.clone() }
    }

    pub fn carried(message: &Message) -> Leaf {
        Leaf { owner: message.owner, left: message.left.clone(), right: message.right.clone() }
    }

    pub fn content(&self) -> Set {
        let mut content: Set = self.left.union(&self.right).copied().collect();
        content.insert(self.owner);
        content
    }

    /// The members of left, least Fall(member, i) first.
    fn left_order(&self, table: &Table, side: &Set) -> Vec<usize> {
        let id = |slot: usize| table.nodes[slot].id;
        let mut order: Vec<usize> = side.iter().copied().collect();
        order.sort_by_key(|&x| fall(table.m, id(x), id(self.owner)));
        order
    }

    /// The members of right, least Fall(i, member) first.
    fn right_order(&self, table: &Table, side: &Set) -> Vec<usize> {
        let id = |slot: usize| table.nodes[slot].id;
        let mut order: Vec<usize> = side.iter().copied().collect();
        order.sort_by_key(|&x| fall(table.m, id(self.owner), id(x)));
        order
    }

    pub fn left_neighbour(&self, table: &Table) -> usize {
        self.left_order(table, &self.left).first().copied().unwrap_or(self.owner)
    }

    pub fn right_neighbour(&self, table: &Table) -> usize {
        self.right_order(table, &self.right).first().copied().unwrap_or(self.owner)
    }

    pub fn leftmost(&self, table: &Table) -> usize {
        self.left_order(table, &self.left).last().copied().unwrap_or(self.owner)
    }

    pub fn rightmost(&self, table: &Table) -> usize {
        self.right_order(table, &self.right).last().copied().unwrap_or(self.owner)
    }

    pub fn add(&self, table: &Table, d: &Set) -> Leaf {
        let joined = |side: &Set| -> Set { side.union(d).copied().filter(|&x| x != self.owner).collect() };
        let left = self.left_order(table, &joined(&self.left)).into_iter().take(table.l).collect();
        let right = self.right_order(table, &joined(&self.right)).into_iter().take(table.l).collect();
        Leaf { owner: self.owner, left, right }
    }

    pub fn overlap(&self) -> bool {
        self.left.iter().any(|x| self.right.contains(x))
    }

    /// As T-02 has it: both sides full, or the sides overlap.
    pub fn complete(&self, table: &Table) -> bool {
        self.left.len() == table.l && self.right.len() == table.l || self.overlap()
    }

    pub fn empty(&self) -> bool {
        self.left.is_empty() && self.right.is_empty()
    }
}

pub fn covers(table: &Table, i: usize, k: i64) -> bool {
    let leaf = Leaf::of(table, i);
    let n: i64 = 1 << table.m;
    let id = |slot: usize| table.nodes[slot].id;
    let (ln, rn) = (id(leaf.left_neighbour(table)), id(leaf.right_neighbour(table)));
    let left_cover = (id(i) + fall(table.m, ln, id(i)) / 2).rem_euclid(n);
    let right_cover = (rn + fall(table.m, id(i), rn) / 2 + 1).rem_euclid(n);
    fall(table.m, left_cover, k) <= fall(table.m, left_cover, right_cover)
}

pub fn next_hop(table: &Table, i: usize, k: i64) -> Option<usize> {
    let leaf = Leaf::of(table, i);
    let id = |slot: usize| table.nodes[slot].id;
    let without = |set: Set| -> Set {
        let node = &table.nodes[i];
        set.into_iter().filter(|x| !node.failed.contains(x) && table.nodes[*x].status != DEAD).collect()
    };
    let (lm, rm) = (id(leaf.leftmost(table)), id(leaf.rightmost(table)));
    let candidates = if leaf.overlap() || fall(table.m, lm, id(i)) <= fall(table.m, lm, rm) {
        without(leaf.content())
    } else {
        without(leaf.content().union(&table.nodes[i].routing).copied().collect())
    };
    let closer: Vec<usize> = candidates.into_iter().filter(|&c| nearer(table.m, k, id(c), id(i))).collect();
    closer.iter().copied().find(|&c| closer.iter().all(|&o| o == c || nearer(table.m, k, id(c), id(o))))
}
