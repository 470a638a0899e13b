//! The table file (docs/FORMAT.md): its records as 64-bit words, and the fields of these.

pub const HEADER: usize = 32;
pub const NODE: usize = 64;
pub const MESSAGE: usize = 56;
/// The longest table file.
pub const LONGEST: usize = 18_464;
/// The most messages that wait.
pub const MESSAGES: usize = 256;

pub const DEAD: u32 = 0;
pub const WAIT: u32 = 1;
pub const OK: u32 = 2;
pub const READY: u32 = 3;
pub const STATUSES: [&str; 4] = ["dead", "wait", "ok", "ready"];

pub const LOOKUP: u32 = 1;
pub const JOIN_REQUEST: u32 = 2;
/// The names of kinds 1 to 8.
pub const KINDS: [&str; 8] = [
    "Lookup",
    "JoinRequest",
    "JoinReply",
    "LSProbe",
    "LSProbeReply",
    "NoLegalRoute",
    "LeaseRequest",
    "BroadcastLSet",
];

/// A node's record as eight words. The id is in it, so no two slots share a record.
#[derive(Clone, Copy, Debug, Default, PartialEq, Eq)]
pub struct Node(pub [u64; 8]);

/// A message's record as seven words.
#[derive(Clone, Copy, Debug, Default, PartialEq, Eq)]
pub struct Message(pub [u64; 7]);

fn low(word: u64) -> u32 {
    word as u32
}

fn high(word: u64) -> u32 {
    (word >> 32) as u32
}

impl Node {
    pub const LEFT: usize = 1;
    pub const RIGHT: usize = 2;
    pub const ROUTING: usize = 5;
    pub const LEASE: usize = 6;
    pub const GRANT: usize = 7;

    pub fn id(&self) -> u32 {
        low(self.0[0])
    }

    pub fn status(&self) -> u32 {
        high(self.0[0])
    }

    pub fn left(&self) -> u64 {
        self.0[Node::LEFT]
    }

    pub fn right(&self) -> u64 {
        self.0[Node::RIGHT]
    }
}

impl Message {
    pub const ROUTING: usize = 3;

    pub fn kind(&self) -> u32 {
        low(self.0[0])
    }

    /// The slot of the destination.
    pub fn to(&self) -> u32 {
        high(self.0[0])
    }

    /// The key of kinds 1 and 6, the slot of kinds 2, 4, 5 and 7.
    pub fn word(&self) -> u32 {
        low(self.0[1])
    }

    pub fn flag(&self) -> u32 {
        high(self.0[1])
    }

    /// The owner's slot, of kinds 3 and 8.
    pub fn owner(&self) -> u32 {
        low(self.0[2])
    }

    /// Whether the two are equal messages: their hops (T-07), beside the owner, are not looked at.
    pub fn equals(&self, other: &Message) -> bool {
        let bare = |message: &Message| {
            let mut words = message.0;
            words[2] = low(words[2]).into();
            words
        };
        bare(self) == bare(other)
    }
}

/// What stays the same in a search: M, L and the ids by slot.
#[derive(Clone, Debug, PartialEq, Eq)]
pub struct Frame {
    pub m: u32,
    pub l: u32,
    pub ids: Vec<u32>,
}

impl Frame {
    pub fn slot_of(&self, id: u32) -> Option<usize> {
        self.ids.iter().position(|&one| one == id)
    }
}

/// A table file, read.
pub struct Table {
    pub frame: Frame,
    pub nodes: Vec<Node>,
    pub messages: Vec<Message>,
}

fn words<const W: usize>(bytes: &[u8]) -> [u64; W] {
    let mut words = [0; W];
    for (word, bytes) in words.iter_mut().zip(bytes.chunks_exact(8)) {
        *word = u64::from_le_bytes(bytes.try_into().expect("eight bytes"));
    }
    words
}

fn word(bytes: &[u8], at: usize) -> u32 {
    u32::from_le_bytes(bytes[at..at + 4].try_into().expect("four bytes"))
}

/// A node's record of 64 bytes.
pub fn node(record: &[u8]) -> Node {
    Node(words(record))
}

/// A message's record of 56 bytes.
pub fn message(record: &[u8]) -> Message {
    Message(words(record))
}

/// The node records of a file that the proved code wrote.
pub fn nodes(file: &[u8]) -> impl ExactSizeIterator<Item = Node> + '_ {
    let end = word(file, 20) as usize;
    file[HEADER..end].chunks_exact(NODE).map(node)
}

/// The message records of a file that the proved code wrote.
pub fn messages(file: &[u8]) -> impl ExactSizeIterator<Item = Message> + '_ {
    file[word(file, 20) as usize..].chunks_exact(MESSAGE).map(message)
}

/// Reads a file that the proved code wrote.
pub fn read(file: &[u8]) -> Table {
    let nodes: Vec<Node> = nodes(file).collect();
    let ids = nodes.iter().map(Node::id).collect();
    Table {
        frame: Frame { m: word(file, 0), l: word(file, 4), ids },
        nodes,
        messages: messages(file).collect(),
    }
}

/// Writes the file of these records over `file`.
pub fn write(
    frame: &Frame,
    nodes: impl Iterator<Item = Node>,
    messages: impl Iterator<Item = Message>,
    file: &mut Vec<u8>,
) {
    file.clear();
    file.extend_from_slice(&[0; HEADER]);
    for node in nodes {
        node.0.iter().for_each(|word| file.extend_from_slice(&word.to_le_bytes()));
    }
    let behind = file.len();
    for message in messages {
        message.0.iter().for_each(|word| file.extend_from_slice(&word.to_le_bytes()));
    }
    let n = (behind - HEADER) / NODE;
    let count = (file.len() - behind) / MESSAGE;
    let header = [frame.m as usize, frame.l as usize, n, count, HEADER, behind, file.len(), 0];
    for (place, value) in header.into_iter().enumerate() {
        file[4 * place..4 * place + 4].copy_from_slice(&(value as u32).to_le_bytes());
    }
}
