//! The listing: where each waiting lookup travels.

use crate::file::load_as;
use crate::message::{Message, Pool, EMPTY_POOL};
use crate::reading::{Reading, Right};
use crate::slip::Slip;
use crate::table::{Status, Table};
use crate::view::View;
use std::io::Write;

const HEADER: &str = "key from to hops via\n";

/// The room that is asked for: the longest listing has 25,621 bytes.
const ROOM: usize = 65_536;

/// The bytes that the listing program prints for a table file.
pub fn listing(bytes: &[u8]) -> Vec<u8> {
    listing_as(Right, bytes)
}

pub fn listing_as<R: Reading>(r: R, bytes: &[u8]) -> Vec<u8> {
    let (mut table, mut pool) = (Table::BLANK, EMPTY_POOL);
    match load_as(r, bytes, &mut table, &mut pool) {
        Ok(()) => lines(&View::new(r, &table), &pool),
        Err(refusal) => {
            let header = r.pick(Slip::RefusedAfterHeader, HEADER, "");
            let line = format!("{header}refused {}\n", refusal.number());
            r.pick(Slip::RefusedWithoutLine, HEADER.to_string(), line).into_bytes()
        }
    }
}

/// Where a journey ends: the node that delivers, if one does, and the routings made, each with its letter.
struct Journey {
    end: Option<usize>,
    hops: u32,
    via: String,
}

fn lines<R: Reading>(view: &View<R>, pool: &Pool) -> Vec<u8> {
    let r = view.r;
    let mut out = Vec::with_capacity(ROOM);
    out.extend_from_slice(r.pick(Slip::ListHeaderOld, "key from to hops\n", HEADER).as_bytes());
    let waiting = &pool[..view.table.count];
    let mut lookups = lookups(view, waiting);
    slip_order(r, &mut lookups);
    for &(place, from, key) in &lookups {
        let Journey { end, hops, via } = follow(view, from, key, &waiting[..place]);
        let name = |slot: usize| r.pick(Slip::ListNamesSlots, slot as u32, view.table.id(slot));
        let (from, to) = (name(from).to_string(), end.map_or("-".to_string(), |end| name(end).to_string()));
        let (from, to) = r.pick(Slip::ListNamesExchanged, (&to, &from), (&from, &to));
        let hops = if end.is_none() && r.takes(Slip::ListStuckAtZero) { 0 } else { hops };
        let hops = hops + r.pick(Slip::ListAddsHops, waiting[place].fields().hops, 0);
        let via = column(r, &via, end.is_none());
        writeln!(out, "{key} {from} {to} {hops} {via}").expect("a vector takes all");
    }
    if r.takes(Slip::ListWithoutHeader) && lookups.is_empty() {
        out.clear();
    }
    out
}

/// The last column: the letters, or `-` where there are none.
fn column<R: Reading>(r: R, via: &str, stuck: bool) -> String {
    let turned = || via.chars().rev().collect();
    match via.len() {
        0 => r.pick(Slip::ListWithoutDash, "", "-").to_string(),
        _ if stuck && r.takes(Slip::ListStuckDash) => "-".to_string(),
        hops if r.takes(Slip::ListLetterFewer) => via[..hops - 1].to_string(),
        hops if r.takes(Slip::ListLastLetter) => via[hops - 1..].to_string(),
        _ if r.takes(Slip::ListLettersTurned) => turned(),
        _ => via.to_string(),
    }
}

/// The waiting lookups in pool order: place, slot and key.
fn lookups<R: Reading>(view: &View<R>, waiting: &[Message]) -> Vec<(usize, usize, u32)> {
    let lookup = |(place, message): (usize, &Message)| match *message {
        Message::Lookup { to, key, .. } => Some((place, usize::from(to), key)),
        Message::JoinRequest { to, node, .. } if view.r.takes(Slip::ListJoins) => {
            Some((place, usize::from(to), view.table.id(node.into())))
        }
        _ => None,
    };
    waiting.iter().enumerate().filter_map(lookup).collect()
}

/// The misreadings of the order.
fn slip_order<R: Reading>(r: R, lookups: &mut Vec<(usize, usize, u32)>) {
    if r.takes(Slip::ListFromLast) {
        lookups.reverse();
    }
    if r.takes(Slip::ListByKey) {
        lookups.sort_by_key(|&(_, _, key)| key);
    }
    if r.takes(Slip::ListOncePerKey) {
        let mut seen = Vec::new();
        lookups.retain(|&(_, _, key)| {
            !seen.contains(&key) && {
                seen.push(key);
                true
            }
        });
    }
}

/// Follows a lookup as the only message.
fn follow<R: Reading>(view: &View<R>, from: usize, key: u32, earlier: &[Message]) -> Journey {
    let r = view.r;
    let (mut at, mut hops, mut via) = (from, r.pick(Slip::ListCountsNodes, 1, 0), String::new());
    let end = loop {
        if view.table.nodes[at].status != Status::Ready && !r.takes(Slip::ListAnyStatus) {
            hops -= u32::from(r.takes(Slip::ListLastHopFree) && at != from);
            break r.takes(Slip::ListNamesStuck).then_some(at);
        }
        if view.covers(at, key) {
            break Some(at);
        }
        let Some(hop) = view.next_hop(at, key) else {
            hops += u32::from(r.takes(Slip::ListCountsNoRoute));
            break r.takes(Slip::ListNamesStuck).then_some(at);
        };
        hops += 1;
        via.push(view.via(at, key, hop).letter().into());
        at = hop;
        if slipped_end(r, earlier, at, key, hops) {
            break None;
        }
    };
    Journey { end, hops, via }
}

/// Merging with an earlier lookup, and a stop for searches that go in circles.
fn slipped_end<R: Reading>(r: R, earlier: &[Message], at: usize, key: u32, hops: u32) -> bool {
    let here = Message::Lookup { to: at as u8, key, hops: 0 };
    let merges = r.takes(Slip::ListMerges) && earlier.iter().any(|other| other.equals(&here));
    merges || !r.is_right() && hops > 200
}
