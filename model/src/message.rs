//! The eight kinds of messages.

use crate::table::{Sides, Table};

/// A waiting message with its destination slot. A probe's node is the owner of its leaf set. The kinds that a routing
/// sends have a place for hops (T-07), which is 0 in a valid table but for a Lookup. `==` looks at the hops too.
#[derive(Clone, Copy, Debug, Default, PartialEq, Eq)]
pub enum Message {
    /// No message: the content of places past the count.
    #[default]
    Blank,
    Lookup {
        to: u8,
        key: u32,
        hops: u32,
    },
    JoinRequest {
        to: u8,
        node: u8,
        routing: u64,
        hops: u32,
    },
    JoinReply {
        to: u8,
        owner: u8,
        routing: u64,
        sides: Sides,
    },
    LsProbe {
        to: u8,
        node: u8,
        sides: Sides,
        failed: u64,
    },
    LsProbeReply {
        to: u8,
        node: u8,
        sides: Sides,
        failed: u64,
    },
    NoLegalRoute {
        to: u8,
        key: u32,
        hops: u32,
    },
    LeaseRequest {
        to: u8,
        node: u8,
    },
    BroadcastLSet {
        to: u8,
        owner: u8,
        sides: Sides,
        grant: bool,
    },
}

/// The list of waiting messages, oldest first; the table holds their count.
pub type Pool = [Message; Table::MESSAGES];

/// A list without a message.
pub const EMPTY_POOL: Pool = [Message::Blank; Table::MESSAGES];

/// The fields of a message as its record has them.
#[derive(Clone, Copy, Debug, Default, PartialEq, Eq)]
pub struct Fields {
    pub kind: u32,
    pub to: u32,
    pub node_or_key: u32,
    pub flag: u32,
    pub owner: u32,
    pub hops: u32,
    pub routing: u64,
    pub left: u64,
    pub right: u64,
    pub failed: u64,
}

impl Message {
    /// The destination slot; 0 for a blank place.
    pub fn to(&self) -> usize {
        self.fields().to as usize
    }

    /// Whether the two are equal messages, which have the same fields but for their hops.
    #[inline]
    pub fn equals(&self, other: &Message) -> bool {
        self.words() == other.words()
    }

    /// The message with another number of hops, if it is of a kind that has a place for it.
    pub fn with_hops(mut self, number: u32) -> Message {
        if let Message::Lookup { hops, .. }
        | Message::JoinRequest { hops, .. }
        | Message::NoLegalRoute { hops, .. } = &mut self
        {
            *hops = number;
        }
        self
    }

    /// Four words that differ where the messages differ in more than their hops.
    #[inline]
    pub(crate) fn words(&self) -> [u64; 4] {
        let head = |kind: u64, to: u8, from: u8| kind | u64::from(to) << 8 | u64::from(from) << 16;
        match *self {
            Message::Blank => [0; 4],
            Message::Lookup { to, key, .. } => [head(1, to, 0), key.into(), 0, 0],
            Message::JoinRequest { to, node, routing, .. } => [head(2, to, node), 0, 0, routing],
            Message::JoinReply { to, owner, routing, sides } => {
                [head(3, to, owner), sides.left, sides.right, routing]
            }
            Message::LsProbe { to, node, sides, failed } => {
                [head(4, to, node), sides.left, sides.right, failed]
            }
            Message::LsProbeReply { to, node, sides, failed } => {
                [head(5, to, node), sides.left, sides.right, failed]
            }
            Message::NoLegalRoute { to, key, .. } => [head(6, to, 0), key.into(), 0, 0],
            Message::LeaseRequest { to, node } => [head(7, to, node), 0, 0, 0],
            Message::BroadcastLSet { to, owner, sides, grant } => {
                [head(8, to, owner), sides.left, sides.right, grant.into()]
            }
        }
    }

    /// The fields as the record has them; a field that the kind lacks is 0.
    #[inline]
    pub fn fields(&self) -> Fields {
        match *self {
            Message::Blank => Fields::default(),
            Message::Lookup { to, key, hops } => Fields { node_or_key: key, hops, ..Fields::of(1, to) },
            Message::JoinRequest { to, node, routing, hops } => {
                Fields { node_or_key: node.into(), routing, hops, ..Fields::of(2, to) }
            }
            Message::JoinReply { to, owner, routing, sides } => {
                Fields { owner: owner.into(), routing, ..Fields::of(3, to) }.with_sides(sides)
            }
            Message::LsProbe { to, node, sides, failed } => Fields::of(4, to).with_probe(node, sides, failed),
            Message::LsProbeReply { to, node, sides, failed } => {
                Fields::of(5, to).with_probe(node, sides, failed)
            }
            Message::NoLegalRoute { to, key, hops } => Fields { node_or_key: key, hops, ..Fields::of(6, to) },
            Message::LeaseRequest { to, node } => Fields { node_or_key: node.into(), ..Fields::of(7, to) },
            Message::BroadcastLSet { to, owner, sides, grant } => {
                Fields { owner: owner.into(), flag: grant.into(), ..Fields::of(8, to) }.with_sides(sides)
            }
        }
    }

    /// The message of these fields, where they fit its kind: every slot below 256, a flag 0 or 1, a
    /// probe's node and owner equal, and fields that the kind lacks 0. Ranges within a table are not looked at.
    #[inline]
    pub fn from_fields(fields: &Fields) -> Option<Message> {
        let to = u8::try_from(fields.to).ok()?;
        let node = u8::try_from(fields.node_or_key);
        let owner = u8::try_from(fields.owner).ok()?;
        let key = fields.node_or_key;
        let Fields { hops, routing, failed, .. } = *fields;
        let sides = Sides { left: fields.left, right: fields.right };
        let message = match fields.kind {
            1 => Message::Lookup { to, key, hops },
            2 => Message::JoinRequest { to, node: node.ok()?, routing, hops },
            3 => Message::JoinReply { to, owner, routing, sides },
            4 => Message::LsProbe { to, node: node.ok()?, sides, failed },
            5 => Message::LsProbeReply { to, node: node.ok()?, sides, failed },
            6 => Message::NoLegalRoute { to, key, hops },
            7 => Message::LeaseRequest { to, node: node.ok()? },
            8 => Message::BroadcastLSet { to, owner, sides, grant: fields.flag == 1 },
            _ => return None,
        };
        (message.fields() == *fields).then_some(message)
    }
}

impl Fields {
    #[inline]
    fn of(kind: u32, to: u8) -> Fields {
        Fields { kind, to: to.into(), ..Fields::default() }
    }

    #[inline]
    fn with_sides(self, sides: Sides) -> Fields {
        Fields { left: sides.left, right: sides.right, ..self }
    }

    #[inline]
    fn with_probe(self, node: u8, sides: Sides, failed: u64) -> Fields {
        Fields { node_or_key: node.into(), owner: node.into(), failed, ..self }.with_sides(sides)
    }
}
