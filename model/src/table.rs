//! The table of nodes.

use crate::marks::bit;

#[derive(Clone, Copy, Debug, Default, PartialEq, Eq)]
#[repr(u8)]
pub enum Status {
    #[default]
    Dead = 0,
    Wait = 1,
    Ok = 2,
    Ready = 3,
}

impl Status {
    pub const ALL: [Status; 4] = [Status::Dead, Status::Wait, Status::Ok, Status::Ready];

    pub fn from_number(number: u32) -> Option<Status> {
        Status::ALL.get(usize::try_from(number).ok()?).copied()
    }

    #[inline]
    pub const fn is_member(self) -> bool {
        matches!(self, Status::Ok | Status::Ready)
    }
}

/// The two sides of a leaf set. Its owner stands beside it.
#[derive(Clone, Copy, Debug, Default, PartialEq, Eq)]
pub struct Sides {
    pub left: u64,
    pub right: u64,
}

impl Sides {
    pub const EMPTY: Sides = Sides { left: 0, right: 0 };

    #[inline]
    pub const fn content(self, owner: usize) -> u64 {
        self.left | self.right | bit(owner)
    }

    /// Both sides without the members of a set.
    #[inline]
    pub const fn without(self, set: u64) -> Sides {
        Sides { left: self.left & !set, right: self.right & !set }
    }

    #[inline]
    pub const fn is_empty(self) -> bool {
        self.left | self.right == 0
    }

    #[inline]
    pub const fn overlap(self) -> bool {
        self.left & self.right != 0
    }

    #[inline]
    pub const fn is_full(self, l: u32) -> bool {
        self.left.count_ones() == l && self.right.count_ones() == l
    }

    /// As T-02 has it: both sides full, or the sides overlap.
    #[inline]
    pub const fn is_complete(self, l: u32) -> bool {
        self.is_full(l) || self.overlap()
    }
}

#[derive(Clone, Copy, Debug, Default, PartialEq, Eq)]
pub struct Node {
    pub id: u32,
    pub status: Status,
    pub sides: Sides,
    pub probing: u64,
    pub failed: u64,
    pub routing: u64,
    pub lease: u64,
    pub grant: u64,
}

impl Node {
    pub const BLANK: Node = Node {
        id: 0,
        status: Status::Dead,
        sides: Sides::EMPTY,
        probing: 0,
        failed: 0,
        routing: 0,
        lease: 0,
        grant: 0,
    };
}

/// M, L, the listed nodes and the number of waiting messages. Slots at n and above are blank.
/// The messages themselves stand in a list of 256 places beside it.
#[derive(Clone, Copy, Debug, PartialEq, Eq)]
pub struct Table {
    pub m: u32,
    pub l: u32,
    pub n: usize,
    pub count: usize,
    pub nodes: [Node; Table::NODES],
}

impl Table {
    pub const M: std::ops::RangeInclusive<u32> = 2..=32;
    pub const L: std::ops::RangeInclusive<u32> = 1..=8;
    pub const NODES: usize = 64;
    pub const MESSAGES: usize = 256;

    /// Not valid: what a caller holds before a load or a start.
    pub const BLANK: Table = Table { m: 0, l: 0, n: 0, count: 0, nodes: [Node::BLANK; Table::NODES] };

    /// The listed nodes. `n` is at most 64.
    #[inline]
    pub fn listed(&self) -> &[Node] {
        &self.nodes[..self.n]
    }

    #[inline]
    pub fn id(&self, slot: usize) -> u32 {
        self.nodes[slot & (Table::NODES - 1)].id
    }

    /// The listed nodes of which `wanted` holds.
    #[inline]
    pub fn marks(&self, wanted: impl Fn(&Node) -> bool) -> u64 {
        let mark = |(slot, node)| u64::from(wanted(node)) << slot;
        self.listed().iter().enumerate().map(mark).fold(0, |set, mark| set | mark)
    }
}
