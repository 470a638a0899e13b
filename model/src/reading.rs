//! Readings of 01: the right one, and one for each plausible slip.

use crate::slip::Slip;

/// How the bench reads 01. The right reading takes no slip, at no cost.
pub trait Reading: Copy {
    fn takes(self, slip: Slip) -> bool;

    /// The first where the slip is taken, else the second.
    #[inline(always)]
    fn pick<T>(self, slip: Slip, slipped: T, right: T) -> T {
        if self.takes(slip) {
            slipped
        } else {
            right
        }
    }

    #[inline(always)]
    fn is_right(self) -> bool {
        false
    }
}

/// The right reading.
#[derive(Clone, Copy, Debug)]
pub struct Right;

impl Reading for Right {
    #[inline(always)]
    fn takes(self, _: Slip) -> bool {
        false
    }

    #[inline(always)]
    fn is_right(self) -> bool {
        true
    }
}

/// The reading with one slip, or with none, switched at run time.
#[derive(Clone, Copy, Debug)]
pub struct Slipped(pub Option<Slip>);

impl Reading for Slipped {
    #[inline]
    fn takes(self, slip: Slip) -> bool {
        self.0 == Some(slip)
    }
}
