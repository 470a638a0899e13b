//! Nodes added to a leaf set, in rings in which each node has its slot as its id.

use crate::sorting::{sorted_with_one, sorted_with_set};
use std::hint::black_box;

/// A leaf set, as crate `face_adding` answers it.
#[repr(C)]
#[derive(Clone, Copy, PartialEq, Eq, Debug)]
pub struct Leaf {
    pub left: u64,
    pub right: u64,
}

extern "C" {
    fn tarpudhriv_with_set(n: usize, l: u32, i: usize, left: u64, right: u64, d: u64) -> Leaf;
    fn tarpudhriv_with_one(n: usize, l: u32, i: usize, left: u64, right: u64, j: usize) -> Leaf;
}

/// What is added: a set, or one node.
#[derive(Clone, Copy, PartialEq, Eq)]
pub enum Added {
    Set(u64),
    One(usize),
}

#[derive(Clone, Copy)]
pub struct Case {
    pub name: &'static str,
    pub n: usize,
    pub l: u32,
    pub owner: usize,
    pub leaf: Leaf,
    pub added: Added,
}

/// Who adds: the proved walk, the version that sorts, or none, so that what a call costs its caller is known.
#[derive(Clone, Copy, PartialEq, Eq)]
pub enum How {
    Walk,
    Sort,
    Nothing,
}

const EMPTY: Leaf = Leaf { left: 0, right: 0 };

/// The ids by slot.
const IDS: [u32; 64] = {
    let mut ids = [0; 64];
    let mut slot = 0;
    while slot < 64 {
        ids[slot] = slot as u32;
        slot += 1;
    }
    ids
};

#[inline(never)]
extern "C" fn nothing(_: &[u32; 64], _: u32, _: usize, left: u64, right: u64, _: u64) -> Leaf {
    black_box(Leaf { left, right })
}

/// The leaf set of a case after it.
#[inline(never)]
pub fn after(how: How, case: &Case) -> Leaf {
    let Case { n, l, owner, leaf: Leaf { left, right }, added, .. } = *black_box(case);
    let ids = black_box(&IDS);
    // The calls presume nothing of their arguments.
    match (how, added) {
        (How::Walk, Added::Set(d)) => unsafe { tarpudhriv_with_set(n, l, owner, left, right, d) },
        (How::Walk, Added::One(j)) => unsafe { tarpudhriv_with_one(n, l, owner, left, right, j) },
        (How::Sort, Added::Set(d)) => sorted_with_set(ids, l, owner, left, right, d),
        (How::Sort, Added::One(j)) => sorted_with_one(ids, l, owner, left, right, j),
        (How::Nothing, _) => nothing(ids, l, owner, left, right, 0),
    }
}

pub fn all_of(n: usize) -> u64 {
    u64::MAX >> (64 - n)
}

/// All nodes, added to an empty leaf set; the owner's slot is in the middle.
pub fn everyone(l: u32, n: usize) -> Case {
    let added = Added::Set(all_of(n));
    Case { name: "all nodes, to an empty leaf set", n, l, owner: n / 2, leaf: EMPTY, added }
}

/// The leaf set of a slot in a started ring: the next L on each side, or all others.
fn started(l: u32, n: usize, owner: usize) -> Leaf {
    let side = |slot: &dyn Fn(usize) -> usize| {
        (1..n.min(l as usize + 1)).fold(0, |set, steps| set | 1 << (slot(steps) % n))
    };
    Leaf { left: side(&|steps| owner + steps), right: side(&|steps| owner + n - steps) }
}

/// What a node of a started ring adds to its leaf set when its left neighbour probes it.
fn probed(l: u32, n: usize) -> Case {
    let (owner, other) = (n / 2, n / 2 + 1);
    let theirs = started(l, n, other);
    let added = Added::Set(theirs.left | theirs.right | 1 << other);
    let name = "its left neighbour's content, to the leaf set of a started ring";
    Case { name, leaf: started(l, n, owner), added, ..everyone(l, n) }
}

/// The node half way round, added to an empty leaf set.
fn one(l: u32, n: usize) -> Case {
    Case { name: "one node, half way round, to an empty leaf set", added: Added::One(0), ..everyone(l, n) }
}

/// What is measured.
pub fn all() -> Vec<Case> {
    let rings = [(1, 4), (1, 64), (8, 4), (8, 64)];
    rings.into_iter().flat_map(|(l, n)| [everyone(l, n), probed(l, n), one(l, n)]).collect()
}

/// Rings of 4, 16 and 64 nodes, to which all nodes are added: the first L on each side stand next to the
/// owner.
pub fn near() -> Vec<Case> {
    let rings = [(1, 4), (1, 16), (1, 64), (2, 4), (2, 16), (2, 64), (8, 16), (8, 32), (8, 64)];
    rings.into_iter().map(|(l, n)| everyone(l, n)).collect()
}

/// Cases by chance.
pub fn chance(count: usize) -> impl Iterator<Item = Case> {
    let mut seed = 0x9e37_79b9_7f4a_7c15_u64;
    let mut next = move || {
        seed ^= seed << 13;
        seed ^= seed >> 7;
        seed ^= seed << 17;
        seed
    };
    (0..count).map(move |_| {
        let n = 1 + next() as usize % 64;
        let mut set = || next() & next() & all_of(n);
        let (left, right, d) = (set(), set(), set());
        let (owner, j) = (next() as usize % n, next() as usize % n);
        let added = if next() % 2 == 0 { Added::Set(d) } else { Added::One(j) };
        Case { name: "by chance", n, l: 1 + next() as u32 % 8, owner, leaf: Leaf { left, right }, added }
    })
}
