//! Requests, replies and table files in words. A file is shown as its numbers stand, right or wrong.

use model::marks::slots;
use model::wire::{Request, MALFORMED};
use model::{HEADER, MESSAGE, NODE};

const KINDS: [&str; 9] = [
    "blank",
    "Lookup",
    "JoinRequest",
    "JoinReply",
    "LSProbe",
    "LSProbeReply",
    "NoLegalRoute",
    "LeaseRequest",
    "BroadcastLSet",
];

/// The first difference: the request, and what the two replies hold.
pub fn difference(nth: usize, asked: &[u8], wanted: &[u8], got: &[u8]) -> String {
    let (wanted, got) = (reply(asked, wanted), reply(asked, got));
    let (mut wanted, mut got) = (wanted.lines(), got.lines());
    let heads = (wanted.next().unwrap_or_default(), got.next().unwrap_or_default());
    let mut text = format!(
        "request {nth} is answered otherwise\n\n{}\nthe model replies: {}\nthe driver replies: {}\n",
        request(asked),
        heads.0,
        heads.1
    );
    let mut shown = 0;
    loop {
        match (wanted.next(), got.next()) {
            (None, None) => return text,
            (one, other) if one == other => {}
            _ if shown == 20 => return text + "and more\n",
            (one, other) => {
                shown += 1;
                one.iter().for_each(|line| text += &format!("- {line}\n"));
                other.iter().for_each(|line| text += &format!("+ {line}\n"));
            }
        }
    }
}

/// A request in words.
pub fn request(bytes: &[u8]) -> String {
    match Request::parse(bytes) {
        None => {
            format!("a malformed request of {} bytes: {:?}\n", bytes.len(), &bytes[..bytes.len().min(40)])
        }
        Some(Request::Load { file: bytes }) => format!("load\n{}", file(bytes)),
        Some(Request::Step { action, file: bytes }) => format!("step {action:?}\n{}", file(bytes)),
        Some(Request::Start { m, l, ready, ids }) => {
            format!("start M {m} L {l} A {} ({ready:#x}) ids {ids:?}\n", set(ready))
        }
        Some(Request::Settled { file: bytes }) => format!("settled\n{}", file(bytes)),
        Some(Request::List { file: bytes }) => format!("list\n{}", file(bytes)),
        Some(Request::Begin { file: bytes }) => format!("begin a rehearsal\n{}", file(bytes)),
        Some(Request::Next { action, stated }) => {
            format!("next step of the rehearsal {action:?}, stated\n{}", file(stated))
        }
        Some(Request::Records) => "begin records\n".to_string(),
        Some(Request::Place { record, file: bytes }) => format!("place {record:?}\n{}", file(bytes)),
        Some(Request::Sum) => "sum\n".to_string(),
        Some(Request::StepVia { action, file: bytes }) => {
            format!("step with via {action:?}\n{}", file(bytes))
        }
        Some(Request::Waiting { slot, file: bytes }) => format!("waiting for slot {slot}\n{}", file(bytes)),
    }
}

/// A reply in words: its number on the first line, then its result.
fn reply(asked: &[u8], bytes: &[u8]) -> String {
    let Some((number, result)) = bytes.split_first_chunk() else {
        return format!("{} bytes without a number", bytes.len());
    };
    let number = u32::from_le_bytes(*number);
    let number = if number == MALFORMED { "malformed".to_string() } else { number.to_string() };
    let result = match Request::parse(asked) {
        _ if result.is_empty() => String::new(),
        Some(Request::List { .. }) => String::from_utf8_lossy(result).into_owned(),
        Some(Request::Load { .. } | Request::Step { .. } | Request::Start { .. }) => file(result),
        Some(Request::StepVia { .. }) => format!("via {}\n{}", result[0], file(&result[1..])),
        _ => format!("{result:?}"),
    };
    format!("{number} and {} bytes\n{result}", bytes.len() - 4)
}

/// A table file in words, as far as there are bytes.
fn file(bytes: &[u8]) -> String {
    let mut text = format!("file of {} bytes\n", bytes.len());
    let header: Vec<u32> = (0..8).map(|nth| word(bytes, 4 * nth)).collect();
    for (name, word) in
        ["M", "L", "n", "messages", "nodes at", "messages at", "total", "last"].iter().zip(&header)
    {
        text += &format!("{name} {word} ");
    }
    text += "\n";
    let (n, count) = (header[2].min(64) as usize, header[3].min(256) as usize);
    let nodes = (0..n).map(|slot| HEADER + NODE * slot).filter_map(|at| bytes.get(at..at + NODE));
    for (slot, record) in nodes.enumerate() {
        text += &format!("node {slot}: {}\n", node(record));
    }
    let first = HEADER + NODE * n;
    let messages =
        (0..count).map(|place| first + MESSAGE * place).filter_map(|at| bytes.get(at..at + MESSAGE));
    for (place, record) in messages.enumerate() {
        text += &format!("message {place}: {}\n", message(record));
    }
    text
}

fn word(bytes: &[u8], at: usize) -> u32 {
    bytes.get(at..at + 4).map_or(0, |b| u32::from_le_bytes([b[0], b[1], b[2], b[3]]))
}

fn long(bytes: &[u8], at: usize) -> u64 {
    u64::from(word(bytes, at)) | u64::from(word(bytes, at + 4)) << 32
}

fn node(record: &[u8]) -> String {
    let (id, status) = (word(record, 0), word(record, 4));
    let name =
        ["dead", "wait", "ok", "ready"].get(status as usize).map_or(status.to_string(), |n| n.to_string());
    let sets = ["left", "right", "probing", "failed", "routing", "lease", "grant"];
    let sets =
        sets.iter().enumerate().map(|(nth, name)| format!(" {name} {}", set(long(record, 8 + 8 * nth))));
    format!("id {id} {name}{}", sets.collect::<String>())
}

/// Kind, destination and node or key, and whatever else is not 0.
fn message(record: &[u8]) -> String {
    let kind = word(record, 0);
    let name = KINDS.get(kind as usize).map_or(kind.to_string(), |name| name.to_string());
    let mut text = format!("{name} to {} node/key {}", word(record, 4), word(record, 8));
    for (nth, name) in ["flag", "owner", "sixth"].iter().enumerate() {
        match word(record, 12 + 4 * nth) {
            0 => {}
            word => text += &format!(" {name} {word}"),
        }
    }
    for (nth, name) in ["routing", "left", "right", "failed"].iter().enumerate() {
        match long(record, 24 + 8 * nth) {
            0 => {}
            marks => text += &format!(" {name} {}", set(marks)),
        }
    }
    text
}

fn set(marks: u64) -> String {
    let members: Vec<String> = slots(marks).map(|slot| slot.to_string()).collect();
    format!("{{{}}}", members.join(" "))
}
