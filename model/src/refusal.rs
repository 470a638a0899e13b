//! The numbers returned.

/// Why a call is refused. The discriminant is 01's number; 0, done, is `Ok`.
#[derive(Clone, Copy, Debug, PartialEq, Eq, PartialOrd, Ord)]
#[repr(u32)]
pub enum Refusal {
    /// A slot, place or key is out of range.
    OutOfRange = 1,
    /// The status forbids it.
    Status = 2,
    /// The same request already waits.
    Waits = 3,
    /// The leaf set is empty, not empty or incomplete.
    LeafSet = 4,
    /// The sender or partner is not allowed.
    Partner = 5,
    /// The pool after the step would exceed 256.
    PoolFull = 6,
    /// The file is shorter than its header.
    Short = 7,
    /// M, L, n or the message count is out of range, or the last header word is not 0.
    Header = 8,
    /// An offset, the total or the real length disagrees with the counts.
    Lengths = 9,
    /// A table, record or start list breaks validity; A is empty; the list has not 256 places.
    Invalid = 10,
    /// The write buffer is too small.
    NoRoom = 11,
    /// A rehearsal's further step after an end or beyond 1,000.
    Over = 12,
    /// A number of a water record is out of range.
    Record = 14,
    /// The table is not settled.
    Unsettled = 15,
    /// There is no room for a new key and month.
    Full = 16,
}

impl Refusal {
    pub const fn number(self) -> u32 {
        self as u32
    }
}

/// Refuses where `condition` holds.
#[inline]
pub(crate) fn refuse_if(condition: bool, refusal: Refusal) -> Result<(), Refusal> {
    if condition {
        Err(refusal)
    } else {
        Ok(())
    }
}
