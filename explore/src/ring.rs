//! What the questions ask of ids: falls, neighbours, covers, who is nearer (01, "Distances").

use crate::file::{Frame, Node, READY};

/// The ring of N = 2^M ids.
#[derive(Clone, Copy, Debug)]
pub struct Ring {
    top: u64,
}

/// What a node's record says of its place in the ring.
#[derive(Clone, Copy, Debug)]
pub struct Place {
    pub slot: usize,
    pub status: u32,
    pub id: u32,
    /// Left and right neighbour, the node's own id where the side is empty.
    pub left: u32,
    pub right: u32,
    /// The members of the leaf set and the node itself.
    pub content: u64,
    left_cover: u32,
    right_cover: u32,
    /// Whether its next hop would look at its routing set.
    pub far: bool,
}

/// The slots of a set.
pub fn slots(marks: u64) -> impl Iterator<Item = usize> {
    (0..64).filter(move |slot| marks >> slot & 1 == 1)
}

impl Ring {
    pub fn new(m: u32) -> Ring {
        Ring { top: (1 << m) - 1 }
    }

    /// (x - y) mod N.
    pub fn fall(self, x: u32, y: u32) -> u64 {
        u64::from(x).wrapping_sub(u64::from(y)) & self.top
    }

    pub fn abs_dist(self, x: u32, y: u32) -> u64 {
        self.fall(x, y).min(self.fall(y, x))
    }

    /// Whether id x is nearer to the key than y: at equal distance the id from which the key is reached by rising.
    pub fn nearer(self, key: u32, x: u32, y: u32) -> bool {
        let rank = |id| (self.abs_dist(id, key), self.fall(key, id));
        rank(x) < rank(y)
    }

    pub fn place(self, frame: &Frame, node: &Node) -> Place {
        let id = node.id();
        let ids = |marks| slots(marks).map(|slot| frame.ids[slot]);
        let (up, down) = (|one: &u32| self.fall(*one, id), |one: &u32| self.fall(id, *one));
        let left = ids(node.left()).min_by_key(up).unwrap_or(id);
        let right = ids(node.right()).min_by_key(down).unwrap_or(id);
        let leftmost = ids(node.left()).max_by_key(up).unwrap_or(id);
        let rightmost = ids(node.right()).max_by_key(down).unwrap_or(id);
        let slot = frame.slot_of(id).expect("a node of the table");
        let half = |from: u32, way: u64, more: u64| (u64::from(from) + way / 2 + more & self.top) as u32;
        Place {
            slot,
            status: node.status(),
            id,
            left,
            right,
            content: node.left() | node.right() | 1 << slot,
            left_cover: half(id, self.fall(left, id), 0),
            right_cover: half(right, self.fall(id, right), 1),
            far: node.left() & node.right() == 0 && self.fall(leftmost, id) > self.fall(leftmost, rightmost),
        }
    }

    pub fn covers(self, place: &Place, key: u32) -> bool {
        self.fall(place.left_cover, key) <= self.fall(place.left_cover, place.right_cover)
    }

    /// A key that both cover.
    pub fn shared(self, one: &Place, other: &Place) -> Option<u32> {
        // Each covers the keys from its right cover up to its left cover: where they meet, one begins in the other.
        let begins = [one.right_cover, other.right_cover];
        begins.into_iter().find(|key| self.covers(one, *key) && self.covers(other, *key))
    }

    /// Whether both neighbours of x are at least as close as id y, each in its own direction.
    pub fn flanks(self, x: &Place, y: u32) -> bool {
        self.fall(x.left, x.id) <= self.fall(y, x.id) && self.fall(x.id, x.right) <= self.fall(x.id, y)
    }
}

impl Place {
    pub fn is_ready(&self) -> bool {
        self.status == READY
    }

    pub fn is_up(&self) -> bool {
        self.status >= crate::file::OK
    }

    pub fn is_its_own_neighbour(&self) -> bool {
        self.left == self.id || self.right == self.id
    }
}
