//! What the walk is compared with: adding that sorts a copy of all candidates for each side. Ids have 32
//! digits.

use crate::cases::Leaf;

/// The at most `l` candidates of least distance.
fn nearest(candidates: u64, l: u32, distance: impl Fn(usize) -> u32) -> u64 {
    let mut copy = [(0, 0); 64];
    let mut count = 0;
    let mut left = candidates;
    while left != 0 {
        let slot = left.trailing_zeros();
        copy[count] = (distance(slot as usize), slot as u8);
        count += 1;
        left &= left - 1;
    }
    copy[..count].sort_unstable();
    copy[..count.min(l as usize)].iter().fold(0, |set, &(_, slot)| set | 1 << slot)
}

/// The leaf set of `i` with the set `d` added.
#[no_mangle]
#[inline(never)]
pub extern "C" fn sorted_with_set(ids: &[u32; 64], l: u32, i: usize, left: u64, right: u64, d: u64) -> Leaf {
    let others = !(1 << i);
    Leaf {
        left: nearest((left | d) & others, l, |slot| ids[slot].wrapping_sub(ids[i])),
        right: nearest((right | d) & others, l, |slot| ids[i].wrapping_sub(ids[slot])),
    }
}

/// The leaf set of `i` with `j` added, unless it is in it.
#[no_mangle]
#[inline(never)]
pub extern "C" fn sorted_with_one(
    ids: &[u32; 64],
    l: u32,
    i: usize,
    left: u64,
    right: u64,
    j: usize,
) -> Leaf {
    if (left | right | 1 << i) & 1 << j != 0 {
        return Leaf { left, right };
    }
    sorted_with_set(ids, l, i, left, right, 1 << j)
}
