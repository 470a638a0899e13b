//! Text and file are inverse: on the driver's corpus, on the requests of the file that RING_REQUESTS names, and on
//! odd records. Every refused step of the corpus, and of these requests with the replies that RING_REPLIES names, has a reason.

use crate::file;
use crate::layout::{lanes, spread};
use crate::parse::{self, Text};
use crate::print;
use crate::survey::Arc;
use crate::table::{Message, Node, Table};
use crate::why::Why;
use std::fs;

/// The bodies of requests or replies.
fn bodies(mut stream: &[u8]) -> Vec<&[u8]> {
    let mut bodies = Vec::new();
    while let Some((length, rest)) = stream.split_first_chunk() {
        let length = u32::from_le_bytes(*length) as usize;
        let (body, rest) = rest.split_at(length.min(rest.len()));
        bodies.push(body);
        stream = rest;
    }
    bodies
}

/// The requests of the driver's corpus, and its replies.
fn corpus() -> [Vec<u8>; 2] {
    let folder = concat!(env!("CARGO_MANIFEST_DIR"), "/../crates/run_driver");
    ["stdin", "stdout"].map(|name| fs::read(format!("{folder}/{name}")).unwrap())
}

/// The table file of a request.
fn file_of(request: &[u8]) -> Option<&[u8]> {
    match request.first()? {
        0 | 3 | 4 => request.get(1..),
        1 => request.get(25..),
        _ => None,
    }
}

fn parsed(text: &str) -> Table {
    match parse::text(text) {
        Ok(Text::Table(table)) => table,
        other => panic!("no table but {other:?} of\n{text}"),
    }
}

/// The table comes back from its text, and the text from the table.
fn there_and_back(table: &Table) {
    let text = print::table(table);
    let again = parsed(&text);
    assert_eq!(again, *table, "of\n{text}");
    assert_eq!(print::table(&again), text);
}

/// Whether the layout of a file can be read; then it comes back to the byte.
fn inverse(bytes: &[u8]) -> bool {
    let Some(table) = file::read(bytes) else {
        return false;
    };
    there_and_back(&table);
    assert_eq!(file::write(&table), bytes);
    true
}

#[test]
fn corpus_there_and_back() {
    let [asked, told] = corpus();
    let (asked, told) = (bodies(&asked), bodies(&told));
    assert_eq!(asked.len(), told.len());
    let mut loaded = 0;
    for (request, reply) in asked.iter().zip(told) {
        let readable = file_of(request).is_some_and(inverse);
        if request.first() == Some(&0) && reply[..4] == [0; 4] {
            assert!(readable, "a file that is loaded has a text");
            loaded += 1;
        }
    }
    assert!(loaded > 10);
}

#[test]
fn requests_there_and_back() {
    if let Ok(name) = std::env::var("RING_REQUESTS") {
        let stream = fs::read(name).unwrap();
        let readable = bodies(&stream).into_iter().filter_map(file_of).filter(|bytes| inverse(bytes)).count();
        assert!(readable > 100);
    }
}

/// How many steps are refused with 1 to 6, each with a reason: rules that are read as the proved code has them.
fn reasons(asked: &[&[u8]], told: &[&[u8]]) -> usize {
    assert_eq!(asked.len(), told.len());
    let mut refused = 0;
    for (request, reply) in asked.iter().zip(told) {
        let number = u32::from_le_bytes(reply[..4].try_into().unwrap());
        if !matches!(request.first(), Some(1 | 11)) || !matches!(number, 1..=6) {
            continue;
        }
        let word = |at: usize| u64::from_le_bytes(request[at..at + 8].try_into().unwrap());
        let (action, table) = ([word(1), word(9), word(17)], file::read(&request[25..]).unwrap());
        let reason = Why::new(&table).refused(action, number);
        assert!(!reason.is_empty(), "{action:?} is refused with {number} on\n{}", print::table(&table));
        refused += 1;
    }
    refused
}

#[test]
fn the_corpus_is_refused_with_reasons() {
    let [asked, told] = corpus();
    assert!(reasons(&bodies(&asked), &bodies(&told)) > 100);
}

#[test]
fn requests_are_refused_with_reasons() {
    if let (Ok(asked), Ok(told)) = (std::env::var("RING_REQUESTS"), std::env::var("RING_REPLIES")) {
        let (asked, told) = (fs::read(asked).unwrap(), fs::read(told).unwrap());
        assert!(reasons(&bodies(&asked), &bodies(&told)) > 100);
    }
}

#[test]
fn odd_records_there_and_back() {
    let node = |id: u32, status: u32| Node { id, status, sets: [u64::MAX, 1, 2, 4, 8, 16, 0] };
    let nodes = vec![node(7, 3), node(7, 4), node(u32::MAX, 0), node(3, u32::MAX)];
    let mut messages = Vec::new();
    for kind in (0..=9).chain([u32::MAX]) {
        for (word, flag, owner, hops) in [(0, 0, 0, 0), (2, 0, 2, 0), (3, 1, 0, 0), (1, 2, 9, 3)] {
            for sets in [[0; 4], [1, 0, 0, 0], [0, 4, 8, 0], [0, 4, 8, 1 << 63]] {
                messages.push(Message { kind, at: word, word, flag, owner, hops, sets });
            }
        }
    }
    there_and_back(&Table { m: 0, l: u32::MAX, nodes, messages });
    there_and_back(&Table::default());
}

#[test]
fn loose_text_is_read() {
    let loose = "ring M=8 L=1 # a comment
        node 17 wait right 18 left

        failed slot 1
        node 18 3
        message 1 word 80 at 17
        message 1 hops 1 at 18 word 81
        Lookup 82 hops 0 at 18
        BroadcastLSet at 18 left 18 granted owner 17";
    let strict = "\
ring M=8 L=1

node 17 wait
  right 18
  failed 18

node 18 ready

Lookup 80 at 17
Lookup 81 at 18 hops 1
Lookup 82 at 18
BroadcastLSet owner 17 at 18 left 18 granted
";
    assert_eq!(print::table(&parsed(loose)), strict);
}

#[test]
fn nodes_keep_their_distance() {
    let turns = spread(&[0.0, 0.0, 0.01, 0.5, 0.99], 0.15);
    for (here, next) in (0..5).map(|here| (here, (here + 1) % 5)) {
        let between = turns[next] - turns[here] + if next == 0 { 1.0 } else { 0.0 };
        assert!(between > 0.15 - 1e-6, "{turns:?}");
    }
}

#[test]
fn arcs_that_meet_get_lanes() {
    let arc = |from, to| Arc { from, to };
    assert_eq!(lanes(&[arc(10, 20), arc(21, 9), arc(20, 22), arc(23, 23)], 31), [0, 0, 1, 1]);
}
