//! The next hop for a key, and where it came from.

use crate::marks::{below, bit, first_down, first_up, has, slots};
use crate::reading::Reading;
use crate::slip::Slip;
use crate::slips;
use crate::table::{Node, Status};
use crate::view::View;

/// Where a hop came from (T-01).
#[derive(Clone, Copy, Debug, PartialEq, Eq)]
#[repr(u8)]
pub enum Via {
    Leaf = b'l',
    Routing = b'r',
}

impl Via {
    pub const fn letter(self) -> u8 {
        self as u8
    }
}

impl<R: Reading> View<'_, R> {
    /// Leaf exactly if the hop for `key` from `i` is in the content of `i`, whichever branch found it.
    #[inline]
    pub fn via(&self, i: usize, key: u32, hop: usize) -> Via {
        let (r, node) = (self.r, &self.table.nodes[i]);
        let leaves = r.pick(Slip::ViaOfSide, node.sides.left, node.sides.content(i));
        let (told, held) = r.pick(Slip::ViaOfReceiver, (hop, i), (i, hop));
        let leaves = r.pick(Slip::ViaOfReceiver, self.table.nodes[told].sides.content(told), leaves);
        let leaf = match (r.takes(Slip::ViaOfBranch), r.takes(Slip::ViaBothIsRouting)) {
            (true, _) => self.leaf_branch(i, key),
            (_, true) => !has(node.routing, hop),
            _ => has(leaves, held),
        };
        if leaf != r.takes(Slip::ViaExchanged) {
            Via::Leaf
        } else {
            Via::Routing
        }
    }

    /// A node other than `i` and nearer to `key`, or none where no candidate of the branch taken is nearer.
    #[inline]
    pub fn next_hop(&self, i: usize, key: u32) -> Option<usize> {
        let node = &self.table.nodes[i];
        let leaves = node.sides.content(i);
        if self.leaf_branch(i, key) {
            let usable = self.usable(node, Slip::LeafToDead, Slip::LeafToFailed);
            let leaves = leaves | self.r.pick(Slip::LeafTakesRouting, node.routing, 0);
            if self.r.takes(Slip::LeafNotNearer) {
                return self.nearest(leaves & usable & !bit(i), key);
            }
            if self.r.takes(Slip::LeafAnyNearer) {
                return slots(self.nearer_than(leaves & usable, i, key)).next();
            }
            let hop = self.nearest_nearer(leaves & usable, i, key);
            if hop.is_some() || !self.r.takes(Slip::LeafFallsThrough) {
                return hop;
            }
        }
        let usable = self.usable(node, Slip::RoutingToDead, Slip::RoutingToFailed);
        let known = self.r.pick(Slip::RoutingWithoutLeaves, 0, leaves) | node.routing;
        if let Some(slipped) = slips::routing_hop(self, known & usable, i, key) {
            return slipped;
        }
        self.nearest_nearer(known & usable, i, key)
    }

    /// The test between the branches. It does not name the key.
    #[inline]
    fn leaf_branch(&self, i: usize, key: u32) -> bool {
        let (table, ring, sides) = (self.table, self.ring, self.table.nodes[i].sides);
        if self.r.takes(Slip::RoutingAlways) {
            return false;
        }
        if self.overlap(sides) && !self.r.takes(Slip::LeafTestWithoutOverlap) {
            return true;
        }
        let mut leftmost = table.id(self.leftmost(i, sides));
        let mut rightmost = table.id(self.rightmost(i, sides));
        if self.r.takes(Slip::LeafTestExchanged) {
            std::mem::swap(&mut leftmost, &mut rightmost);
        }
        let inner = self.r.pick(Slip::LeafTestNamesKey, key, table.id(i));
        let (near, far) = (ring.fall(leftmost, inner), ring.fall(leftmost, rightmost));
        near < far || near == far && !self.r.takes(Slip::LeafTestStrict)
    }

    /// The nodes that may be hopped to: neither failed nor dead. Two slips are those of the branch.
    #[inline]
    fn usable(&self, node: &Node, to_dead: Slip, to_failed: Slip) -> u64 {
        let r = self.r;
        let live = self.table.marks(|other| match other.status {
            Status::Dead => r.takes(Slip::HopToDead) || r.takes(to_dead),
            Status::Wait => !(r.takes(Slip::HopNotToWait) || r.takes(Slip::HopOnlyToReady)),
            Status::Ok => !r.takes(Slip::HopOnlyToReady),
            Status::Ready => true,
        });
        let failed = r.pick(Slip::HopToFailed, 0, r.pick(to_failed, 0, node.failed));
        live & !(failed | r.pick(Slip::HopNotToProbed, node.probing, 0))
    }

    /// The nearest of `set`, if it is nearer than `i`.
    #[inline]
    fn nearest_nearer(&self, set: u64, i: usize, key: u32) -> Option<usize> {
        let rank = |slot| self.ring.rank(key, self.table.id(slot));
        self.nearest(set, key).filter(|&slot| rank(slot) < rank(i))
    }

    /// The nearest to `key` of a set: the first met going up from the key or the first going down.
    #[inline]
    pub fn nearest(&self, set: u64, key: u32) -> Option<usize> {
        let rank = |slot: &usize| self.ring.rank(key, self.table.id(*slot));
        if self.r.takes(Slip::HalfRingTurn) {
            return slots(set).min_by_key(rank);
        }
        if set == 0 {
            return None;
        }
        let from = self.table.listed().partition_point(|node| node.id < key);
        let (up, down) = (first_up(set, from & 63), first_down(set, from & 63));
        Some(if rank(&up) < rank(&down) { up } else { down })
    }

    /// The listed nodes farther from `key` than `i` (T-07).
    pub fn farther(&self, i: usize, key: u32) -> u64 {
        let listed = below(self.table.n);
        listed & !(bit(i) | self.nearer_than(listed, i, key))
    }

    /// The members of `set` nearer to `key` than `i`.
    pub fn nearer_than(&self, set: u64, i: usize, key: u32) -> u64 {
        let rank = |slot| self.ring.rank(key, self.table.id(slot));
        slots(set).filter(|&slot| rank(slot) < rank(i)).fold(0, |found, slot| found | bit(slot))
    }
}
