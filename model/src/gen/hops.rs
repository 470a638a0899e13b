//! Hops that Lookups carry (T-07): at the bound and beyond it, of two that are equal but for them, and where a forwarded
//! one meets its equal.

use super::case::Case;
use super::damage::{put_word, word_at};
use super::messages::{fill, key_from, message, some_hops};
use super::requests::put_step;
use super::rng::Rng;
use super::tables;
use super::taking::fitting;
use crate::file::{HEADER, MESSAGE, NODE};
use crate::marks::{below, bit, slots};
use crate::message::Message;
use crate::reading::Right;
use crate::step::Action;
use crate::table::{Status, Table};
use crate::view::View;
use crate::wire::Request;

/// A source of requests about hops. It draws from numbers of its own, so the other requests do not depend on it.
pub struct Hops {
    rng: Rng,
}

impl Hops {
    pub fn new(seed: u64) -> Hops {
        Hops { rng: Rng::new(seed.rotate_left(8) ^ 7) }
    }

    /// Whether the next request is one of them: one of sixteen.
    pub fn due(&mut self) -> bool {
        self.rng.one_in(16)
    }

    pub fn put(&mut self, out: &mut Vec<u8>) {
        let rng = &mut self.rng;
        match rng.below(16) {
            0..=7 => put_file(rng, bounded, out),
            8 | 9 => put_file(rng, twice, out),
            10 => put_file(rng, elsewhere, out),
            11 | 12 => {
                let (case, action) = issued(rng);
                put_step(rng, action, &case.file(), out);
            }
            _ => {
                let (case, action) = met(rng);
                put_step(rng, action, &case.file(), out);
            }
        }
    }
}

/// A table with a few messages, the last one a Lookup. Half of the time its key is as far from its destination as
/// another node is.
fn with_lookup(rng: &mut Rng) -> Case {
    let mut case = if rng.one_in(4) { tables::table(rng) } else { tables::small(rng) };
    let few = rng.below(3);
    fill(rng, &mut case, few);
    let to = rng.below(case.table.n);
    let key = if rng.one_in(2) { tied(rng, &case.table, to) } else { key_from(rng, &case.table, to) };
    let hops = some_hops(rng, &case.table, to, key);
    let lookup = Message::Lookup { to: to as u8, key, hops };
    if let Some(place) = case.place_of(&lookup) {
        case.pool.copy_within(place + 1..case.table.count, place);
        case.table.count -= 1;
    }
    case.push(lookup);
    case
}

/// The key half-way between the node and another, where there is one, else any.
fn tied(rng: &mut Rng, table: &Table, to: usize) -> u32 {
    let whole = 1u64 << table.m;
    let gap = |other: usize| (u64::from(table.id(other)) + whole - u64::from(table.id(to))) % whole;
    let even = (0..table.n).filter(|&other| other != to && gap(other) % 2 == 0);
    match even.map(gap).collect::<Vec<u64>>().as_slice() {
        [] => key_from(rng, table, to),
        gaps => {
            let far = rng.pick(&[0, whole / 2]);
            ((u64::from(table.id(to)) + rng.pick(gaps) / 2 + far) % whole) as u32
        }
    }
}

/// The record of the last message of a file.
fn last(case: &Case) -> usize {
    HEADER + NODE * case.table.n + MESSAGE * (case.table.count - 1)
}

/// The file of a table with a Lookup, after a change, to be loaded or listed, or a step of it.
fn put_file(rng: &mut Rng, change: impl Fn(&mut Rng, &Case) -> Vec<u8>, out: &mut Vec<u8>) {
    let case = with_lookup(rng);
    let file = &change(rng, &case);
    let place = case.table.count - 1;
    match rng.below(6) {
        0 => Request::List { file },
        1 => Request::Step { action: fitting(&case, place), file },
        2 => Request::Waiting { slot: case.pool[place].to() as u64, file },
        _ => Request::Load { file },
    }
    .put(out);
}

/// As many hops as there may be, one more, or one of more than 8 bits.
fn bounded(rng: &mut Rng, case: &Case) -> Vec<u8> {
    let (mut file, at) = (case.file(), last(case));
    let (to, key) = (word_at(&file, at + 4) as usize, word_at(&file, at + 8));
    let most = View::new(Right, &case.table).farther(to, key).count_ones();
    let wide = rng.pick(&[256, 256 + most, 1 << 16, u32::MAX]);
    put_word(&mut file, at + 20, rng.pick(&[most, most, most + 1, most + 1, most + 1, wide]));
    file
}

/// A Lookup once more, with any hops that it may have.
fn twice(rng: &mut Rng, case: &Case) -> Vec<u8> {
    let (mut file, at) = (case.file(), last(case));
    let record = file[at..].to_vec();
    let (to, key) = (word_at(&record, 4) as usize, word_at(&record, 8));
    file.extend_from_slice(&record);
    put_word(&mut file, at + MESSAGE + 20, some_hops(rng, &case.table, to, key));
    put_word(&mut file, 12, case.table.count as u32 + 1);
    let total = file.len() as u32;
    put_word(&mut file, 24, total);
    file
}

/// Hops on a message of another kind.
fn elsewhere(rng: &mut Rng, case: &Case) -> Vec<u8> {
    let mut case = case.clone();
    let place = case.table.count - 1;
    let kind = 2 + rng.below(7);
    let (to, from) = (rng.below(case.table.n), rng.below(case.table.n));
    let other = message(rng, &case.table, kind, to, from);
    if case.place_of(&other).is_none() {
        case.pool[place] = other;
    }
    let mut file = case.file();
    put_word(&mut file, last(&case) + 20, rng.pick(&[1, 1, 2, 256]));
    file
}

/// A Lookup that waits already, with any hops, or is issued beside others.
fn issued(rng: &mut Rng) -> (Case, Action) {
    let case = with_lookup(rng);
    let at = case.pool[case.table.count - 1].to();
    let key = case.pool[case.table.count - 1].fields().node_or_key;
    let other = rng.below(case.table.n);
    (case, Action::Lookup { at: rng.pick(&[at, at, other]), key: key.into() })
}

/// A Lookup of any hops that is forwarded, mostly to a node where its equal waits with other hops.
fn met(rng: &mut Rng) -> (Case, Action) {
    let mut case = tables::crossed(rng);
    let i = rng.below(case.table.n);
    case.table.nodes[i].status = Status::Ready;
    case.table.nodes[i].failed = 0;
    let mut key = key_from(rng, &case.table, i);
    for _ in 0..6 {
        let view = View::new(Right, &case.table);
        if view.covers(i, key) || view.next_hop(i, key).is_none() {
            key = key_from(rng, &case.table, i);
        }
    }
    let taken = Message::Lookup { to: i as u8, key, hops: some_hops(rng, &case.table, i, key) };
    let hop = View::new(Right, &case.table).next_hop(i, key);
    let others = hop.map_or(0, bit) | rng.members(below(case.table.n) & !bit(i), 1);
    let mut waiting = vec![taken];
    for to in slots(others).filter(|_| !rng.one_in(5)).collect::<Vec<usize>>() {
        waiting.push(Message::Lookup { to: to as u8, key, hops: some_hops(rng, &case.table, to, key) });
    }
    rng.shuffle(&mut waiting);
    waiting.into_iter().for_each(|message| case.push(message));
    let place = case.place_of(&taken).expect("it waits");
    let action = fitting(&case, place);
    (case, action)
}
