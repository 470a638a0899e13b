//! The bench once more, slowly, with sets of slots and straight from the sentences of 01, T-01, T-03, T-05, T-06,
//! T-07, T-09 and T-13.
//! It shares no code with the model and takes the same requests.

#![allow(dead_code)]

pub mod file;
pub mod leaf;
pub mod leave;
pub mod others;
pub mod rehearsal;
pub mod ring;
pub mod step;
pub mod water;

use rehearsal::Rehearsal;
use std::collections::BTreeSet;
use water::Records;

pub type Set = BTreeSet<usize>;

pub const DEAD: u32 = 0;
pub const WAIT: u32 = 1;
pub const OK: u32 = 2;
pub const READY: u32 = 3;

#[derive(Clone, Debug, PartialEq)]
pub struct Node {
    pub id: i64,
    pub status: u32,
    pub left: Set,
    pub right: Set,
    pub probing: Set,
    pub failed: Set,
    pub routing: Set,
    pub lease: Set,
    pub grant: Set,
}

/// A message as its record: fields that the kind lacks are 0 or empty.
#[derive(Clone, Debug, Default, PartialEq)]
pub struct Message {
    pub kind: u32,
    pub to: usize,
    pub node_or_key: i64,
    pub flag: u32,
    pub owner: usize,
    pub hops: u64,
    pub routing: Set,
    pub left: Set,
    pub right: Set,
    pub failed: Set,
}

impl Message {
    /// Equality of messages ignores the hop number.
    pub fn equals(&self, other: &Message) -> bool {
        Message { hops: 0, ..self.clone() } == Message { hops: 0, ..other.clone() }
    }
}

#[derive(Clone, Debug, PartialEq)]
pub struct Table {
    pub m: u32,
    pub l: usize,
    pub nodes: Vec<Node>,
    pub pool: Vec<Message>,
}

/// What a request deserves: every number that applies, and the result where none does.
#[derive(Debug)]
pub struct Verdict {
    pub numbers: BTreeSet<u32>,
    pub result: Vec<u8>,
}

impl Verdict {
    fn done(result: Vec<u8>) -> Verdict {
        Verdict { numbers: BTreeSet::new(), result }
    }

    fn refused(numbers: BTreeSet<u32>) -> Verdict {
        Verdict { numbers, result: Vec::new() }
    }

    /// The reply: the lowest number and no result, or 0 and the result.
    pub fn reply(&self) -> Vec<u8> {
        let number = self.numbers.first().copied().unwrap_or(0);
        let mut reply = number.to_le_bytes().to_vec();
        if number == 0 {
            reply.extend_from_slice(&self.result);
        }
        reply
    }
}

/// What is held between requests.
#[derive(Default)]
pub struct Memory {
    rehearsal: Rehearsal,
    records: Records,
}

/// What a request deserves, after those before it.
pub fn judge(memory: &mut Memory, request: &[u8]) -> Verdict {
    let malformed = || Verdict::refused(BTreeSet::from([u32::MAX]));
    if request.is_empty() || request.len() > 65_536 {
        return malformed();
    }
    let arguments = match request[0] {
        1 | 2 | 6 | 11 => 24,
        8 => 40,
        10 => 8,
        _ => 0,
    };
    if request[0] > 11 || request.len() < 1 + arguments {
        return malformed();
    }
    let words: Vec<u64> = request[1..1 + arguments]
        .chunks(8)
        .map(|bytes| bytes.iter().rev().fold(0, |word, byte| word << 8 | u64::from(*byte)))
        .collect();
    let rest = &request[1 + arguments..];
    match request[0] {
        1 | 6 | 11 if !(1..=15).contains(&words[0]) => malformed(),
        2 if !rest.len().is_multiple_of(4) => malformed(),
        2 => others::start(words[0], words[1], words[2], rest),
        4 => Verdict::done(others::listing(rest)),
        5 => memory.rehearsal.begin(rest),
        6 => memory.rehearsal.next(words[0], words[1], words[2], rest),
        7 | 9 if !rest.is_empty() => malformed(),
        7 => memory.records.begin(),
        9 => memory.records.sum(),
        kind => {
            let numbers = file::refusals(rest);
            if !numbers.is_empty() {
                return Verdict::refused(numbers);
            }
            let table = file::read(rest);
            match kind {
                0 => Verdict::done(file::bytes(&table)),
                1 => step::judge(&table, words[0], words[1], words[2]),
                3 => Verdict::done(vec![u8::from(others::settled(&table))]),
                8 => memory.records.place(&table, &words),
                11 => step::judge_via(&table, words[0], words[1], words[2]),
                _ => others::waiting(&table, words[0]),
            }
        }
    }
}
