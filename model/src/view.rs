//! A table seen through a reading: its leaf sets, covers and searches.

use crate::marks::{bit, first_down, first_up, keep_down, keep_up};
use crate::reading::Reading;
use crate::ring::Ring;
use crate::slip::Slip;
use crate::slips;
use crate::table::{Sides, Table};

#[derive(Clone, Copy)]
pub(crate) struct View<'a, R> {
    pub table: &'a Table,
    pub ring: Ring<R>,
    pub r: R,
}

/// The neighbours of a leaf set: left, then right.
#[derive(Clone, Copy, PartialEq, Eq)]
pub(crate) struct Neighbours(pub usize, pub usize);

impl Neighbours {
    #[inline]
    pub fn include(self, slot: usize) -> bool {
        self.0 == slot || self.1 == slot
    }

    #[inline]
    pub fn marks(self) -> u64 {
        bit(self.0) | bit(self.1)
    }
}

impl<'a, R: Reading> View<'a, R> {
    /// M is in range.
    #[inline]
    pub fn new(r: R, table: &'a Table) -> View<'a, R> {
        View { table, ring: Ring::read(r, table.m), r }
    }

    #[inline]
    pub fn neighbours(&self, owner: usize, sides: Sides) -> Neighbours {
        let both = sides.left | sides.right;
        let sides = self.r.pick(Slip::NeighbourOfContent, Sides { left: both, right: both }, sides);
        let (left, right) = (self.left_neighbour(owner, sides), self.right_neighbour(owner, sides));
        self.r.pick(Slip::NeighboursExchanged, Neighbours(right, left), Neighbours(left, right))
    }

    /// The member of left with least Fall(member, owner), or the owner.
    #[inline]
    fn left_neighbour(&self, owner: usize, sides: Sides) -> usize {
        if sides.left == 0 {
            return self.r.pick(Slip::NeighbourFromOtherSide, self.rightmost(owner, sides), owner);
        }
        if self.r.takes(Slip::NeighbourByDistance) {
            return slips::closest(self, sides.left, owner);
        }
        if self.r.takes(Slip::FallTurned) || self.r.takes(Slip::NeighbourFarthest) {
            return first_down(sides.left, owner);
        }
        first_up(sides.left, owner)
    }

    /// The member of right with least Fall(owner, member), or the owner.
    #[inline]
    fn right_neighbour(&self, owner: usize, sides: Sides) -> usize {
        if sides.right == 0 {
            return self.r.pick(Slip::NeighbourFromOtherSide, self.leftmost(owner, sides), owner);
        }
        if self.r.takes(Slip::NeighbourByDistance) {
            return slips::closest(self, sides.right, owner);
        }
        if self.r.takes(Slip::FallTurned) || self.r.takes(Slip::NeighbourFarthest) {
            return first_up(sides.right, owner);
        }
        first_down(sides.right, owner)
    }

    /// The member of left with greatest Fall(member, owner), or the owner.
    #[inline]
    pub fn leftmost(&self, owner: usize, sides: Sides) -> usize {
        if sides.left == 0 {
            return owner;
        }
        if self.r.takes(Slip::LeftmostSigned) {
            return slips::signed_most(self, sides.left, |x, y| self.ring.signed(y, x)).unwrap_or(owner);
        }
        if self.r.takes(Slip::FallTurned) || self.r.takes(Slip::LeftmostNearest) {
            return first_up(sides.left, owner);
        }
        first_down(sides.left, owner)
    }

    /// The member of right with greatest Fall(owner, member), or the owner.
    #[inline]
    pub fn rightmost(&self, owner: usize, sides: Sides) -> usize {
        if sides.right == 0 {
            return owner;
        }
        if self.r.takes(Slip::LeftmostSigned) {
            return slips::signed_most(self, sides.right, |x, y| self.ring.signed(x, y)).unwrap_or(owner);
        }
        if self.r.takes(Slip::FallTurned) || self.r.takes(Slip::LeftmostNearest) {
            return first_down(sides.right, owner);
        }
        first_up(sides.right, owner)
    }

    /// Each side becomes the at most L nearest, in its own direction, of it joined with `set`, without
    /// the owner.
    #[inline]
    pub fn add(&self, owner: usize, sides: Sides, set: u64) -> Sides {
        let own = self.r.pick(Slip::AddKeepsOwner, 0, bit(owner));
        let sides = self.r.pick(Slip::AddReplaces, Sides::EMPTY, sides);
        let (left, right) = ((sides.left | set) & !own, (sides.right | set) & !own);
        let l = self.table.l + self.r.pick(Slip::AddPastL, 1, 0);
        if let Some(slipped) = slips::add(self, owner, sides, set) {
            return slipped;
        }
        if self.r.takes(Slip::FallTurned) || self.r.takes(Slip::AddFarthest) {
            return Sides { left: keep_down(left, owner, l), right: keep_up(right, owner, l) };
        }
        Sides { left: keep_up(left, owner, l), right: keep_down(right, owner, l) }
    }

    #[inline]
    pub fn overlap(&self, sides: Sides) -> bool {
        if self.r.takes(Slip::OverlapIsEquality) {
            return sides.left == sides.right && !sides.is_empty();
        }
        sides.overlap()
    }

    #[inline]
    pub fn is_complete(&self, sides: Sides) -> bool {
        let l = self.table.l;
        if self.r.takes(Slip::CompleteOneSide) {
            return sides.left.count_ones() == l || sides.right.count_ones() == l || sides.overlap();
        }
        if self.r.takes(Slip::CompleteOnlyFull) {
            return sides.is_full(l);
        }
        if self.r.takes(Slip::CompleteOnlyOverlap) {
            return sides.overlap();
        }
        if self.r.takes(Slip::CompleteNotEmpty) {
            return sides.left != 0 && sides.right != 0;
        }
        sides.is_complete(l)
    }

    #[inline]
    pub fn is_empty(&self, sides: Sides) -> bool {
        if self.r.takes(Slip::EmptyOneSide) {
            return sides.left == 0 || sides.right == 0;
        }
        if self.r.takes(Slip::EmptyLeft) {
            return sides.left == 0;
        }
        if self.r.takes(Slip::EmptyRight) {
            return sides.right == 0;
        }
        sides.is_empty()
    }

    /// Whether the node in slot `i` covers `key`.
    #[inline]
    pub fn covers(&self, i: usize, key: u32) -> bool {
        let (ring, r) = (self.ring, self.r);
        let sides = slips::cover_sides(self, i);
        if r.takes(Slip::LoneOneSide) && (sides.left == 0 || sides.right == 0) {
            return true;
        }
        if r.takes(Slip::LoneOwnId) && sides.is_empty() {
            return key == self.table.id(i);
        }
        let Neighbours(left, right) = self.neighbours(i, sides);
        let (id, left, right) = (self.table.id(i), self.table.id(left), self.table.id(right));
        let up = ring.fall(left, id) + r.pick(Slip::CoverRoundsUp, 1, 0);
        let down = ring.fall(id, right) + r.pick(Slip::CoverRightRoundsUp, 1, 0);
        let past = r.pick(Slip::BothCover, 0, 1);
        let left_cover = ring.wrap(u64::from(id) + up / 2 + r.pick(Slip::CoverLeftPast, 1, 0));
        let right_cover = ring.wrap(u64::from(right) + down / 2 + past);
        if r.takes(Slip::CoverExchanged) {
            return ring.fall(right_cover, key) <= ring.fall(right_cover, left_cover);
        }
        let (reach, whole) = (ring.fall(left_cover, key), ring.fall(left_cover, right_cover));
        if r.takes(Slip::CoverStrict) {
            return reach < whole;
        }
        reach <= whole
    }
}
