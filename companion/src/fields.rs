//! Every field of a table file: offset, bytes, meaning.

use crate::form;
use crate::table::{members, Message, Node};

const HEADER: [&str; 8] =
    ["M", "L", "nodes", "messages", "offset of nodes", "offset of messages", "total", "0"];
const WORDS: [&str; 6] = ["kind", "destination", "node or key", "flag", "owner", "hops"];

/// The fields of a file whose layout can be read.
pub fn fields(file: &[u8]) -> String {
    let mut walk = Walk { file, at: 0, text: String::new() };
    let header: Vec<u64> = HEADER.iter().map(|name| walk.word(name)).collect();
    for slot in 0..header[2] {
        walk.word(&format!("slot {slot}: id"));
        walk.named("status", |status| Node::STATUSES.get(status as usize).copied());
        Node::SETS.iter().for_each(|name| walk.set(name));
    }
    for place in 0..header[3] {
        walk.named(&format!("place {place}: {}", WORDS[0]), |kind| form::name(kind as u32));
        WORDS[1..].iter().for_each(|name| _ = walk.word(name));
        Message::SETS.iter().for_each(|name| walk.set(name));
    }
    walk.text
}

struct Walk<'a> {
    file: &'a [u8],
    at: usize,
    text: String,
}

impl Walk<'_> {
    fn field(&mut self, width: usize, meaning: impl Fn(u64) -> String) -> u64 {
        let bytes = self.file.get(self.at..self.at + width).unwrap_or_default();
        let value = bytes.iter().rev().fold(0, |value, byte| value << 8 | u64::from(*byte));
        let hex: Vec<String> = bytes.iter().map(|byte| format!("{byte:02x}")).collect();
        self.text += &format!("{:5}  {:23}  {}\n", self.at, hex.join(" "), meaning(value));
        self.at += width;
        value
    }

    fn word(&mut self, name: &str) -> u64 {
        self.field(
            4,
            |value| if name == "0" && value == 0 { "0".to_string() } else { format!("{name} = {value}") },
        )
    }

    fn named(&mut self, name: &str, word: impl Fn(u64) -> Option<&'static str>) {
        self.field(4, |value| {
            format!("{name} = {value} {}", word(value).unwrap_or("no such")).trim_end().to_string()
        });
    }

    fn set(&mut self, name: &str) {
        let slots = |set| members(set).map(|slot| slot.to_string()).collect::<Vec<_>>().join(", ");
        self.field(8, |set| format!("{name} = {{{}}}", slots(set)));
    }
}
