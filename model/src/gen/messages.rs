//! Keys and valid messages for a table.

use super::case::Case;
use super::rng::Rng;
use super::tables::sides;
use crate::index::Index;
use crate::marks::{below, bit};
use crate::message::Message;
use crate::reading::Right;
use crate::table::{Sides, Table};
use crate::view::View;

/// A key seen from any node.
pub fn key(rng: &mut Rng, table: &Table) -> u32 {
    let slot = rng.below(table.n);
    key_from(rng, table, slot)
}

/// A key: an id, beside one, half-way between the slot's and another, opposite, at the ends of the ring
/// or anywhere.
pub fn key_from(rng: &mut Rng, table: &Table, slot: usize) -> u32 {
    let whole = 1u64 << table.m;
    let other = rng.below(table.n);
    let (from, to) = if rng.one_in(2) { (slot, other) } else { (other, slot) };
    let (a, b) = (u64::from(table.id(from)), u64::from(table.id(to)));
    let gap = (b + whole - a) % whole;
    let key = match rng.below(9) {
        0 => a,
        1 => a + 1,
        2 => a + whole - 1,
        3 | 4 => a + gap / 2,
        5 => a + gap / 2 + 1,
        6 => a + whole / 2,
        7 => rng.pick(&[0, whole - 1]),
        _ => rng.any(),
    };
    (key % whole) as u32
}

/// A carried leaf set: what its owner holds, or another.
pub fn carried(rng: &mut Rng, table: &Table, owner: usize) -> Sides {
    let (l, others) = (table.l as usize, below(table.n) & !bit(owner));
    match rng.below(5) {
        0 | 1 => table.nodes[owner].sides,
        2 => View::new(Right, table).add(owner, Sides::EMPTY, others),
        3 => Sides { left: rng.members(others, l), right: rng.members(others, l) },
        _ => sides(rng, table, owner, others),
    }
}

/// A Lookup of `key` to the slot `to`, with hops that hang on these two alone.
pub fn lookup(table: &Table, to: usize, key: u32) -> Message {
    let hops = some_hops(&mut Rng::new(u64::from(key) << 8 | to as u64), table, to, key);
    Message::Lookup { to: to as u8, key, hops }
}

/// Hops of a Lookup: none, as many as there may be, or any number between.
pub fn some_hops(rng: &mut Rng, table: &Table, to: usize, key: u32) -> u32 {
    let most = View::new(Right, table).farther(to, key).count_ones();
    let any = rng.below(most as usize + 1) as u32;
    rng.pick(&[0, most, any])
}

/// The message; a Lookup with hops that it may have.
pub fn travelled(table: &Table, message: Message) -> Message {
    match message {
        Message::Lookup { to, key, .. } => lookup(table, to.into(), key),
        other => other,
    }
}

/// A message of `kind`, from 1 to 8, to the slot `to` from `from`.
pub fn message(rng: &mut Rng, table: &Table, kind: usize, to: usize, from: usize) -> Message {
    let listed = below(table.n);
    let sides = carried(rng, table, from);
    let (slot, node, owner) = (to, from as u8, from as u8);
    let to = to as u8;
    match kind {
        1 => {
            let key = key_from(rng, table, slot);
            lookup(table, slot, key)
        }
        2 => Message::JoinRequest { to, node, routing: rng.subset(listed), hops: 0 },
        3 => Message::JoinReply { to, owner, routing: rng.subset(listed), sides },
        4 => Message::LsProbe { to, node, sides, failed: lost(rng, table, slot) },
        5 => Message::LsProbeReply { to, node, sides, failed: lost(rng, table, slot) },
        6 => Message::NoLegalRoute { to, key: key(rng, table), hops: 0 },
        7 => Message::LeaseRequest { to, node },
        _ => Message::BroadcastLSet { to, owner, sides, grant: !rng.one_in(3) },
    }
}

/// A failed set to tell `to`: any nodes, its own leaves or itself.
fn lost(rng: &mut Rng, table: &Table, to: usize) -> u64 {
    match rng.below(4) {
        0 => 0,
        1 => rng.subset(table.nodes[to].sides.content(to)),
        2 => bit(to) | rng.few(below(table.n)),
        _ => rng.subset(below(table.n)),
    }
}

/// Adds any messages until `count` wait, as far as there are so many different ones.
pub fn fill(rng: &mut Rng, case: &mut Case, count: usize) {
    let Case { table, pool } = case;
    let mut index = Index::new();
    for place in 0..table.count {
        index.note(pool, place);
    }
    let only = rng.below(30);
    let mut tries = 4 * count;
    while table.count < count && tries > 0 {
        tries -= 1;
        let kind = if (1..=8).contains(&only) { only } else { 1 + rng.below(8) };
        let (to, from) = (rng.below(table.n), rng.below(table.n));
        pool[table.count] = message(rng, table, kind, to, from);
        table.count += usize::from(index.note(pool, table.count));
    }
    pool[table.count..].fill(Message::Blank);
}
