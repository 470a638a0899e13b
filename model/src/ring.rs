//! Distances on the ring of N = 2^M.

use crate::reading::{Reading, Right};
use crate::slip::Slip;

#[derive(Clone, Copy)]
pub struct Ring<R = Right> {
    mask: u32,
    r: R,
}

impl Ring<Right> {
    /// The ring of 2^m ids, `m` from 2 to 32.
    pub fn new(m: u32) -> Ring<Right> {
        Ring::read(Right, m)
    }
}

impl<R: Reading> Ring<R> {
    #[inline]
    pub fn read(r: R, m: u32) -> Ring<R> {
        Ring { mask: u32::MAX >> (32 - m), r }
    }

    /// The highest id and key, N - 1.
    #[inline]
    pub fn top(self) -> u32 {
        self.mask
    }

    /// The number modulo N.
    #[inline]
    pub fn wrap(self, number: u64) -> u32 {
        number as u32 & self.mask
    }

    /// (x - y) mod N.
    #[inline]
    pub fn fall(self, x: u32, y: u32) -> u64 {
        if self.r.takes(Slip::FallOfEqualIsN) && x == y {
            return u64::from(self.mask) + 1;
        }
        if self.r.takes(Slip::FallTurned) {
            return self.rise(x, y);
        }
        self.rise(y, x)
    }

    /// How far `to` is from `from` by rising.
    #[inline]
    fn rise(self, from: u32, to: u32) -> u64 {
        if self.r.takes(Slip::FallStopsAt32) && self.mask == u32::MAX {
            return u64::from(to.saturating_sub(from));
        }
        u64::from(to.wrapping_sub(from) & self.mask)
    }

    /// The signed distance: the difference brought within half the ring, both ends included.
    pub fn signed(self, x: u32, y: u32) -> i64 {
        let whole = i64::from(self.mask) + 1;
        let half = whole / 2;
        let back = if self.r.takes(Slip::HalfRingTurn) { half } else { whole };
        let d = i64::from(x) - i64::from(y);
        if d < -half {
            d + back
        } else if d > half {
            d - back
        } else {
            d
        }
    }

    /// The size of the signed distance: the shorter way round.
    #[inline]
    pub fn distance(self, x: u32, y: u32) -> u64 {
        if self.r.takes(Slip::HalfRingTurn) {
            return self.signed(x, y).unsigned_abs();
        }
        self.rise(x, y).min(self.rise(y, x))
    }

    /// The nearer of two ids to `key` has the lower rank; different ids have different ranks.
    #[inline]
    pub fn rank(self, key: u32, id: u32) -> u64 {
        let (rising, falling) = (self.rise(id, key), self.rise(key, id));
        if self.r.takes(Slip::TieAbove) {
            return (2 * rising + 1).min(2 * falling);
        }
        if self.r.takes(Slip::TieSmallerId) {
            return (rising.min(falling) << 32) + u64::from(id);
        }
        if self.r.takes(Slip::HopPlainDistance) || self.r.takes(Slip::HalfRingTurn) {
            return 2 * self.distance(key, id);
        }
        (2 * rising).min(2 * falling + 1)
    }
}
