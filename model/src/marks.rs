//! Sets of nodes as 64 marks. Slots go round: above the highest comes the lowest again.
//! Ids rise by slot, so going up the slots of a set is going up the ring.

/// The set of one slot.
#[inline]
pub const fn bit(slot: usize) -> u64 {
    1u64.wrapping_shl(slot as u32)
}

#[inline]
pub const fn has(set: u64, slot: usize) -> bool {
    set & bit(slot) != 0
}

/// The set of the first `n` slots, `n` at most 64.
#[inline]
pub const fn below(n: usize) -> u64 {
    if n >= 64 {
        !0
    } else {
        bit(n) - 1
    }
}

/// The first member met going up from `from`, which itself comes first. The set is not empty.
#[inline]
pub const fn first_up(set: u64, from: usize) -> usize {
    (from + set.rotate_right(from as u32).trailing_zeros() as usize) & 63
}

/// The first member met going down from below `from`, which itself comes last. The set is not empty.
#[inline]
pub const fn first_down(set: u64, from: usize) -> usize {
    (from + 63 - set.rotate_right(from as u32).leading_zeros() as usize) & 63
}

/// The first `most` members met going up from `from`.
#[inline]
pub const fn keep_up(set: u64, from: usize, most: u32) -> u64 {
    lowest(set.rotate_right(from as u32), most).rotate_left(from as u32)
}

/// The first `most` members met going down from below `from`.
#[inline]
pub const fn keep_down(set: u64, from: usize, most: u32) -> u64 {
    let turned = set.rotate_right(from as u32).reverse_bits();
    lowest(turned, most).reverse_bits().rotate_left(from as u32)
}

const fn lowest(set: u64, most: u32) -> u64 {
    if set.count_ones() <= most {
        return set;
    }
    let mut rest = set;
    let mut kept = 0;
    while kept < most {
        rest &= rest.wrapping_sub(1);
        kept += 1;
    }
    set ^ rest
}

/// The members in rising slot order.
#[inline]
pub fn slots(mut set: u64) -> impl Iterator<Item = usize> {
    std::iter::from_fn(move || {
        if set == 0 {
            return None;
        }
        let slot = set.trailing_zeros() as usize;
        set &= set - 1;
        Some(slot)
    })
}
