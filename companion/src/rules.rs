//! 01's words of distances and leaf sets, as they are read here. Nothing is answered from them: they give the reasons that
//! stand beside an answer of the proved code, and the places where it is asked for the ends of what a node covers.

use crate::table::{members, Node, Table};

/// A table whose numbers are in range, read by 01's words.
pub struct Rules<'a>(pub &'a Table);

impl Rules<'_> {
    /// The greatest key.
    pub fn last(&self) -> u32 {
        u32::MAX >> (32 - self.0.m.clamp(1, 32))
    }

    pub fn node(&self, slot: u32) -> &Node {
        &self.0.nodes[slot as usize]
    }

    pub fn id(&self, slot: u32) -> u32 {
        self.node(slot).id
    }

    /// Fall(x, y) = (x - y) mod N.
    pub fn fall(&self, x: u32, y: u32) -> u32 {
        x.wrapping_sub(y) & self.last()
    }

    /// The members of left, right and the node itself.
    pub fn content(&self, slot: u32) -> u64 {
        self.node(slot).left() | self.node(slot).right() | 1 << slot
    }

    pub fn is_empty(&self, slot: u32) -> bool {
        self.node(slot).left() | self.node(slot).right() == 0
    }

    /// Both sides hold exactly L, or they overlap (T-02).
    pub fn complete(&self, slot: u32) -> bool {
        let node = self.node(slot);
        let full = [node.left(), node.right()].iter().all(|side| side.count_ones() == self.0.l);
        full || self.overlap(slot)
    }

    pub fn overlap(&self, slot: u32) -> bool {
        self.node(slot).left() & self.node(slot).right() != 0
    }

    pub fn left_neighbour(&self, slot: u32) -> u32 {
        let own = self.id(slot);
        members(self.node(slot).left()).min_by_key(|other| self.fall(self.id(*other), own)).unwrap_or(slot)
    }

    pub fn right_neighbour(&self, slot: u32) -> u32 {
        let own = self.id(slot);
        members(self.node(slot).right()).min_by_key(|other| self.fall(own, self.id(*other))).unwrap_or(slot)
    }

    pub fn left_cover(&self, slot: u32) -> u32 {
        let own = self.id(slot);
        own.wrapping_add(self.fall(self.id(self.left_neighbour(slot)), own) / 2) & self.last()
    }

    pub fn right_cover(&self, slot: u32) -> u32 {
        let right = self.id(self.right_neighbour(slot));
        right.wrapping_add(self.fall(self.id(slot), right) / 2).wrapping_add(1) & self.last()
    }

    pub fn covers(&self, slot: u32, key: u32) -> bool {
        let left = self.left_cover(slot);
        self.fall(left, key) <= self.fall(left, self.right_cover(slot))
    }

    /// How many listed nodes are farther from a key than a node: farther away, or as far and reached by rising from the key.
    pub fn farther(&self, slot: u32, key: u32) -> usize {
        let rank = |id: u32| (self.fall(key, id), false).min((self.fall(id, key), true));
        self.0.nodes.iter().filter(|node| rank(node.id) > rank(self.id(slot))).count()
    }

    /// The ready nodes.
    pub fn ready(&self) -> Vec<u32> {
        self.with_status(|status| status == Node::READY)
    }

    pub fn with_status(&self, wanted: impl Fn(u32) -> bool) -> Vec<u32> {
        self.0.nodes.iter().zip(0..).filter(|(node, _)| wanted(node.status)).map(|(_, slot)| slot).collect()
    }

    /// The next ready id up the ring, and down it; the node itself if alone.
    pub fn next_ready(&self, slot: u32) -> (u32, u32) {
        let own = self.id(slot);
        let others: Vec<u32> = self.ready().into_iter().filter(|other| *other != slot).collect();
        let up = others.iter().copied().min_by_key(|other| self.fall(self.id(*other), own));
        let down = others.iter().copied().min_by_key(|other| self.fall(own, self.id(*other)));
        (up.unwrap_or(slot), down.unwrap_or(slot))
    }
}

#[cfg(test)]
mod tests {
    use super::*;

    /// The worked ring of 01: ids 17, 18, 65, 95, all ready.
    fn worked() -> Table {
        let node = |id, left: u64, right: u64| Node { id, status: 3, sets: [left, right, 0, 0, 15, 15, 15] };
        let nodes = vec![node(17, 2, 8), node(18, 4, 1), node(65, 8, 2), node(95, 1, 4)];
        Table { m: 8, l: 1, nodes, messages: vec![] }
    }

    #[test]
    fn worked_values() {
        let table = worked();
        let rules = Rules(&table);
        assert_eq!((rules.fall(18, 17), rules.fall(17, 18)), (1, 255));
        let covers = |slot| (rules.right_cover(slot), rules.left_cover(slot));
        assert_eq!([0, 1, 2, 3].map(covers), [(185, 17), (18, 41), (42, 80), (81, 184)]);
        assert!(rules.covers(2, 80) && !rules.covers(3, 80));
        assert_eq!(rules.next_ready(3), (0, 2));
        assert_eq!([0, 1, 2, 3].map(|slot| rules.farther(slot, 80)), [0, 1, 3, 2]);
        assert!(rules.complete(0) && !rules.overlap(0));
    }

    #[test]
    fn a_lone_node_covers_every_key() {
        let table =
            Table { m: 8, l: 1, nodes: vec![Node { id: 17, status: 3, sets: [0; 7] }], messages: vec![] };
        assert!((0..256).all(|key| Rules(&table).covers(0, key)));
    }

    #[test]
    fn at_thirty_two_digits_the_difference_goes_round() {
        let table = Table { m: 32, l: 1, nodes: vec![], messages: vec![] };
        assert_eq!(Rules(&table).fall(0, u32::MAX), 1);
    }
}
