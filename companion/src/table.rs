//! A table as its file holds it: plain numbers, valid or not.

use std::collections::HashSet;

#[derive(Clone, Debug, Default, PartialEq, Eq)]
pub struct Table {
    pub m: u32,
    pub l: u32,
    pub nodes: Vec<Node>,
    pub messages: Vec<Message>,
}

#[derive(Clone, Copy, Debug, Default, PartialEq, Eq)]
pub struct Node {
    pub id: u32,
    pub status: u32,
    /// In the order of `Node::SETS`.
    pub sets: [u64; 7],
}

#[derive(Clone, Copy, Debug, Default, PartialEq, Eq, Hash)]
pub struct Message {
    pub kind: u32,
    pub at: u32,
    /// The node or key.
    pub word: u32,
    pub flag: u32,
    pub owner: u32,
    /// Routings that a lookup has made so far (T-07).
    pub hops: u32,
    /// In the order of `Message::SETS`.
    pub sets: [u64; 4],
}

impl Node {
    pub const SETS: [&'static str; 7] = ["left", "right", "probing", "failed", "routing", "lease", "grant"];
    pub const STATUSES: [&'static str; 4] = ["dead", "wait", "ok", "ready"];
    pub const DEAD: u32 = 0;
    pub const WAIT: u32 = 1;
    pub const OK: u32 = 2;
    pub const READY: u32 = 3;

    pub fn left(&self) -> u64 {
        self.sets[0]
    }

    pub fn right(&self) -> u64 {
        self.sets[1]
    }

    pub fn probing(&self) -> u64 {
        self.sets[2]
    }

    pub fn failed(&self) -> u64 {
        self.sets[3]
    }

    pub fn lease(&self) -> u64 {
        self.sets[5]
    }

    pub fn grant(&self) -> u64 {
        self.sets[6]
    }

    /// The status word, or the number where there is no word.
    pub fn status_word(&self) -> String {
        match Node::STATUSES.get(self.status as usize) {
            Some(word) => word.to_string(),
            None => self.status.to_string(),
        }
    }
}

impl Message {
    pub const SETS: [&'static str; 4] = ["routing", "left", "right", "failed"];
    pub const LOOKUP: u32 = 1;
    pub const JOIN_REQUEST: u32 = 2;
    pub const JOIN_REPLY: u32 = 3;
    pub const PROBE: u32 = 4;
    pub const PROBE_REPLY: u32 = 5;
    pub const NO_LEGAL_ROUTE: u32 = 6;
    pub const LEASE_REQUEST: u32 = 7;
    pub const BROADCAST: u32 = 8;

    pub fn lookup(key: u32, at: u32) -> Message {
        Message { kind: Message::LOOKUP, at, word: key, ..Message::default() }
    }

    /// Whether the two are equal messages: their hops are not looked at.
    pub fn equals(&self, other: &Message) -> bool {
        Message { hops: 0, ..*self } == Message { hops: 0, ..*other }
    }
}

impl Table {
    pub fn ids(&self) -> Vec<u32> {
        self.nodes.iter().map(|node| node.id).collect()
    }

    /// This table with one waiting message.
    pub fn with_only(&self, message: Message) -> Table {
        Table { messages: vec![message], ..self.clone() }
    }
}

/// The hops that a lookup carries, in words.
pub fn so_far(hops: u32) -> String {
    format!("{hops} {} so far", if hops == 1 { "hop" } else { "hops" })
}

/// The slots of a set, rising.
pub fn members(set: u64) -> impl Iterator<Item = u32> {
    (0..u64::BITS).filter(move |slot| set >> slot & 1 == 1)
}

/// How nodes are called: by id, or by slot where no single node has the slot's id.
pub struct Names {
    ids: Vec<u32>,
    shared: HashSet<u32>,
}

impl Names {
    pub fn new(ids: Vec<u32>) -> Names {
        let mut seen = HashSet::new();
        let shared = ids.iter().copied().filter(|id| !seen.insert(*id)).collect();
        Names { ids, shared }
    }

    pub fn of(&self, slot: u32) -> String {
        match self.ids.get(slot as usize) {
            Some(id) if !self.shared.contains(id) => id.to_string(),
            _ => format!("slot {slot}"),
        }
    }

    pub fn count(&self) -> usize {
        self.ids.len()
    }

    /// The names of a set's members.
    pub fn all(&self, set: u64) -> String {
        members(set).map(|slot| self.of(slot)).collect::<Vec<_>>().join(" ")
    }

    /// The slot of an id, or what is wrong with it.
    pub fn slot(&self, id: u32) -> Result<u32, &'static str> {
        if self.shared.contains(&id) {
            return Err("several nodes have this id; write `slot` and the slot's number");
        }
        let slot = self.ids.iter().position(|listed| *listed == id);
        slot.map(|slot| slot as u32).ok_or("no node has this id")
    }
}
