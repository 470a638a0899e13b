//! Actions: one table of their kinds, and the words for them. Nodes are named by id.

use crate::engine::Words;
use crate::file::Frame;

/// What the two words of an action are.
#[derive(Clone, Copy, PartialEq, Eq)]
pub enum Form {
    /// `WORDS NODE`
    Node,
    /// `WORDS NODE NODE`
    Pair,
    /// `WORDS NODE at NODE`
    At,
    /// `lookup KEY at NODE`
    Lookup,
    /// `WORDS PLACE`
    Place,
}

/// A kind of action: its number, its first words, its form.
pub struct Kind {
    pub number: u64,
    pub words: &'static str,
    pub form: Form,
    /// Whether the step is handed no more than the acting node, the other one, the dead nodes, the message taken, and whether the same request waits,
    /// and takes nothing else from the pool: then what it comes to may be remembered.
    pub local: bool,
}

pub const LOOKUP: u64 = 1;
pub const JOIN: u64 = 2;
pub const REQUEST_LEASE: u64 = 3;
pub const LEASE_EXPIRED: u64 = 4;
pub const GRANT_EXPIRED: u64 = 5;
pub const TAKE: u64 = 6;
pub const DELIVER: u64 = 7;
pub const FORWARD: u64 = 8;
pub const PROBE_TIME_OUT: u64 = 11;
pub const DECLARE_DEAD: u64 = 12;

/// Every kind that the proved step knows.
pub const KINDS: [Kind; 15] = [
    Kind { number: LOOKUP, words: "lookup", form: Form::Lookup, local: true },
    Kind { number: JOIN, words: "join", form: Form::At, local: true },
    Kind { number: REQUEST_LEASE, words: "request lease", form: Form::Node, local: true },
    Kind { number: LEASE_EXPIRED, words: "lease expired", form: Form::Pair, local: true },
    Kind { number: GRANT_EXPIRED, words: "grant expired", form: Form::Pair, local: true },
    Kind { number: TAKE, words: "take", form: Form::Place, local: true },
    Kind { number: DELIVER, words: "deliver", form: Form::Place, local: true },
    Kind { number: FORWARD, words: "forward", form: Form::Place, local: true },
    Kind { number: 9, words: "node left", form: Form::Node, local: true },
    Kind { number: 10, words: "suspect faulty", form: Form::Pair, local: true },
    Kind { number: PROBE_TIME_OUT, words: "probe time out", form: Form::Pair, local: false },
    Kind { number: DECLARE_DEAD, words: "declare dead", form: Form::Pair, local: true },
    Kind { number: 13, words: "ls repair", form: Form::Node, local: true },
    Kind { number: 14, words: "resign node", form: Form::At, local: false },
    Kind { number: 15, words: "recover", form: Form::Node, local: false },
];

/// The kinds that handle a message, each with whether it is for lookups: on another kind of message it is refused with 5, whatever else (T-05).
pub const TAKING: [(u64, bool); 3] = [(TAKE, false), (DELIVER, true), (FORWARD, true)];

pub fn kind(number: u64) -> &'static Kind {
    KINDS.iter().find(|kind| kind.number == number).expect("a kind of the table")
}

/// An action in the words of `bin/ring`.
pub fn words(frame: &Frame, [number, x, y]: Words) -> String {
    let kind = kind(number);
    let id = |slot: u64| frame.ids[slot as usize];
    match kind.form {
        Form::Node => format!("{} {}", kind.words, id(x)),
        Form::Pair => format!("{} {} {}", kind.words, id(x), id(y)),
        Form::At => format!("{} {} at {}", kind.words, id(x), id(y)),
        Form::Lookup => format!("{} {y} at {}", kind.words, id(x)),
        Form::Place => format!("{} {x}", kind.words),
    }
}

/// The actions that a line of a plan stands for: an action in the words of `bin/ring`. `any` for a second node is each other node.
pub fn parse(line: &str, frame: &Frame) -> Result<Vec<Words>, String> {
    let words: Vec<&str> = line.split_whitespace().collect();
    for kind in &KINDS {
        let own: Vec<&str> = kind.words.split(' ').collect();
        if let Some(rest) = words.strip_prefix(own.as_slice()) {
            return arguments(kind, rest, frame);
        }
    }
    let known: Vec<&str> =
        KINDS.iter().filter(|kind| kind.form != Form::Place).map(|kind| kind.words).collect();
    Err(format!("{line}: no action; a plan has {}", known.join(", ")))
}

fn arguments(kind: &Kind, rest: &[&str], frame: &Frame) -> Result<Vec<Words>, String> {
    let slot = |word: &str| {
        let id = word.parse().ok().and_then(|id| frame.slot_of(id));
        id.map(|slot| slot as u64).ok_or(format!("{word}: no node has this id"))
    };
    match (kind.form, rest) {
        (Form::Node, [node]) => Ok(vec![[kind.number, slot(node)?, 0]]),
        (Form::Pair, [node, "any"]) | (Form::At, [node, "at", "any"]) => {
            let node = slot(node)?;
            let others = (0..frame.ids.len() as u64).filter(|other| *other != node);
            Ok(others.map(|other| [kind.number, node, other]).collect())
        }
        (Form::Pair, [node, other]) | (Form::At, [node, "at", other]) => {
            Ok(vec![[kind.number, slot(node)?, slot(other)?]])
        }
        (Form::Lookup, [key, "at", node]) => {
            let key = key.parse().map_err(|_| format!("{key}: a key is expected"))?;
            Ok(vec![[kind.number, slot(node)?, key]])
        }
        _ => Err(format!("{} {}: not so in a plan", kind.words, rest.join(" "))),
    }
}
