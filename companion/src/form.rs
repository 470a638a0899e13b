//! How messages are written: each kind by its name with the fields that it has, any other record as `message` with its kind's number.

use crate::table::Message;

#[derive(Clone, Copy, Debug, PartialEq, Eq)]
pub enum Field {
    Key,
    /// The node word, a slot.
    From,
    /// The node word and the owner, the same slot.
    FromOwner,
    Owner,
    At,
    /// The flag, written where it is 1.
    Granted,
    /// A set, by its place in `Message::SETS`.
    Set(usize),
    /// Plain numbers.
    Word,
    Flag,
    Hops,
}

use Field::{At, Flag, From, FromOwner, Granted, Hops, Key, Owner, Set, Word};

pub struct Form {
    pub name: &'static str,
    pub fields: &'static [Field],
}

/// Kinds 1 to 8.
const KINDS: [Form; 8] = [
    Form { name: "Lookup", fields: &[Key, At, Hops] },
    Form { name: "JoinRequest", fields: &[From, At, Set(0)] },
    Form { name: "JoinReply", fields: &[Owner, At, Set(0), Set(1), Set(2)] },
    Form { name: "LSProbe", fields: &[FromOwner, At, Set(1), Set(2), Set(3)] },
    Form { name: "LSProbeReply", fields: &[FromOwner, At, Set(1), Set(2), Set(3)] },
    Form { name: "NoLegalRoute", fields: &[Key, At] },
    Form { name: "LeaseRequest", fields: &[From, At] },
    Form { name: "BroadcastLSet", fields: &[Owner, At, Set(1), Set(2), Granted] },
];

/// A record of any kind, by its numbers.
pub const RECORD: Form =
    Form { name: "message", fields: &[At, Word, Flag, Owner, Hops, Set(0), Set(1), Set(2), Set(3)] };

/// The name of a kind.
pub fn name(kind: u32) -> Option<&'static str> {
    let form = usize::try_from(kind).ok().and_then(|kind| KINDS.get(kind.checked_sub(1)?));
    form.map(|form| form.name)
}

impl Field {
    /// The word before the field. A key has none.
    pub fn keyword(self) -> &'static str {
        match self {
            Key => "",
            From | FromOwner => "from",
            Owner => "owner",
            At => "at",
            Granted => "granted",
            Set(place) => Message::SETS[place],
            Word => "word",
            Flag => "flag",
            Hops => "hops",
        }
    }
}

impl Form {
    /// The form of a kind by its name, with the kind.
    pub fn named(name: &str) -> Option<(&'static Form, u32)> {
        KINDS.iter().zip(1..).find(|(form, _)| form.name == name)
    }

    /// The form that a message is written in.
    pub fn of(message: &Message) -> &'static Form {
        let kind = usize::try_from(message.kind).ok().and_then(|kind| KINDS.get(kind.checked_sub(1)?));
        kind.filter(|form| form.carried(message) == *message).unwrap_or(&RECORD)
    }

    /// Whether a message cannot be written without this field.
    pub fn needs(&self, field: Field) -> bool {
        match field {
            Key | From | FromOwner | At => true,
            Owner => self.name != RECORD.name,
            Granted | Set(_) | Word | Flag | Hops => false,
        }
    }

    /// As much of a message as this form holds.
    fn carried(&self, message: &Message) -> Message {
        let mut carried = Message { kind: message.kind, ..Message::default() };
        for field in self.fields {
            match *field {
                Key | From | Word => carried.word = message.word,
                FromOwner => (carried.word, carried.owner) = (message.word, message.word),
                Owner => carried.owner = message.owner,
                At => carried.at = message.at,
                Granted => carried.flag = u32::from(message.flag == 1),
                Set(place) => carried.sets[place] = message.sets[place],
                Flag => carried.flag = message.flag,
                Hops => carried.hops = message.hops,
            }
        }
        carried
    }
}
