//! Table files that break one rule of validity or have one wrong offset or last word, and files at the edges of 7 to 10.

use super::damage::{long_at, overfull, put_long, put_word, word_at, Sound};
use super::rng::Rng;
use crate::file::{HEADER, MESSAGE, NODE};
use crate::marks::{below, bit};
use crate::table::Table;

/// Breaks one rule, where the table has what it is about.
pub fn breach(rng: &mut Rng, file: &mut Vec<u8>, sound: &Sound) {
    match rng.below(20) {
        0 | 16 => edge(rng, file, sound),
        17..=19 => put_word(file, rng.pick(&[16, 20, 24, 28]), rng.pick(&[1, 31, 33, 96, 1 << 16])),
        1..=4 => ids(rng, file, sound),
        5 | 6 => node(rng, file, sound),
        _ if sound.count == 0 => node(rng, file, sound),
        7 => again(rng, file, sound),
        _ => message(rng, file, sound),
    }
}

/// The header alone, or less, or more nodes than ids.
fn edge(rng: &mut Rng, file: &mut Vec<u8>, sound: &Sound) {
    match rng.below(3) {
        0 | 1 if sound.n > 4 => put_word(file, 0, 2),
        0 => file.truncate(rng.pick(&[0, 1, HEADER - 1])),
        _ => file.truncate(HEADER),
    }
}

/// Two ids that are equal or exchanged, an id at the end of the ring, or a status above 3.
fn ids(rng: &mut Rng, file: &mut [u8], sound: &Sound) {
    let last = HEADER + NODE * (sound.n - 1);
    let at = HEADER + NODE * rng.below(sound.n);
    match rng.below(4) {
        0 if at < last => put_word(file, at, word_at(file, at + NODE)),
        1 if at < last => {
            let (low, high) = (word_at(file, at), word_at(file, at + NODE));
            put_word(file, at, high);
            put_word(file, at + NODE, low);
        }
        2 => put_word(file, at + 4, rng.pick(&[4, 5, 256, u32::MAX])),
        _ if sound.m < 32 => put_word(file, last, sound.whole() as u32),
        _ => put_word(file, at + 4, 4),
    }
}

/// A mark past n, the node itself in a set, or a side that is too large.
fn node(rng: &mut Rng, file: &mut [u8], sound: &Sound) {
    let slot = rng.below(sound.n);
    let at = HEADER + NODE * slot + 8;
    let set = at + 8 * rng.below(7);
    let own = at + 8 * rng.below(4);
    match rng.below(6) {
        0..=2 if sound.n < Table::NODES => put_long(file, set, bit(sound.n)),
        3 => put_long(file, at + 8 * rng.below(2), overfull(rng, sound, slot)),
        // A side has room for the node where it holds the node alone.
        _ if own < at + 16 => put_long(file, own, bit(slot)),
        _ => put_long(file, own, long_at(file, own) | bit(slot)),
    }
}

/// A record that is there already, next to it or anywhere.
fn again(rng: &mut Rng, file: &mut [u8], sound: &Sound) {
    let first = HEADER + NODE * sound.n;
    let from = rng.below(sound.count);
    let to = if rng.one_in(2) { from.saturating_sub(1) } else { rng.below(sound.count) };
    let from = first + MESSAGE * from;
    if let Some(record) = file.get(from..from + MESSAGE).map(<[u8]>::to_vec) {
        file[first + MESSAGE * to..][..MESSAGE].copy_from_slice(&record);
    }
}

/// What a rule of messages is about, and the kinds that have it.
#[derive(Clone, Copy)]
enum Rule {
    Blank,
    To,
    Key,
    Node,
    Flag,
    NoFlag,
    Owner,
    NoOwner,
    NoNode,
    Hops,
    NoSet,
    Marks,
    OwnMark,
    Side,
}

const RULES: [(Rule, &[u32]); 22] = [
    (Rule::Blank, &[1, 2, 3, 4, 5, 6, 7, 8]),
    (Rule::To, &[1, 2, 3, 4, 5, 6, 7, 8]),
    (Rule::Key, &[1, 6]),
    (Rule::Node, &[2, 3, 4, 5, 7, 8]),
    (Rule::Node, &[2, 3, 4, 5, 7, 8]),
    (Rule::Flag, &[8]),
    (Rule::Flag, &[8]),
    (Rule::NoFlag, &[1, 2, 3, 4, 5, 6, 7]),
    (Rule::Owner, &[4, 5]),
    (Rule::NoOwner, &[1, 2, 6, 7]),
    (Rule::NoOwner, &[1, 2, 6, 7]),
    (Rule::Side, &[3, 4, 5, 8]),
    (Rule::NoNode, &[3, 8]),
    (Rule::NoNode, &[3, 8]),
    (Rule::Hops, &[1, 2, 3, 4, 5, 6, 7, 8]),
    (Rule::NoSet, &[1, 2, 3, 4, 5, 6, 7, 8]),
    (Rule::Marks, &[2, 3, 4, 5, 8]),
    (Rule::OwnMark, &[3, 4, 5, 8]),
    (Rule::Side, &[3, 4, 5, 8]),
    (Rule::Side, &[3, 4, 5, 8]),
    (Rule::Owner, &[4, 5]),
    (Rule::Key, &[1, 6]),
];

/// One rule of a message, where a message that has it waits.
fn message(rng: &mut Rng, file: &mut [u8], sound: &Sound) {
    let (rule, kinds) = rng.pick(&RULES);
    let first = HEADER + NODE * sound.n;
    let places = (0..sound.count).map(|place| first + MESSAGE * place);
    let fit: Vec<usize> = places.filter(|&at| kinds.contains(&word_at(file, at))).collect();
    if fit.is_empty() {
        return node(rng, file, sound);
    }
    let at = rng.pick(&fit);
    break_rule(rng, file, sound, at, rule);
}

fn break_rule(rng: &mut Rng, file: &mut [u8], sound: &Sound, at: usize, rule: Rule) {
    let (kind, owner) = (word_at(file, at), word_at(file, at + 16) as usize & 63);
    let (n, any) = (sound.n as u32, rng.below(sound.n));
    let side = at + rng.pick(&[32, 40]);
    match rule {
        Rule::Blank => file[at..at + MESSAGE].fill(0),
        Rule::To => put_word(file, at + 4, n),
        Rule::Key => put_word(file, at + 8, if sound.m < 32 { sound.whole() as u32 } else { 0 }),
        Rule::Node => named(kind).iter().for_each(|offset| put_word(file, at + offset, n)),
        Rule::Flag => put_word(file, at + 12, rng.pick(&[2, 2, 3, 256])),
        Rule::NoFlag => put_word(file, at + 12, 1),
        Rule::Owner => {
            let apart = !(long_at(file, at + 32) | long_at(file, at + 40) | bit(owner)) & below(sound.n);
            put_word(file, at + 16, if apart == 0 { n } else { rng.member(apart) as u32 });
        }
        Rule::NoOwner => put_word(file, at + 16, 1 + any as u32),
        Rule::NoNode => put_word(file, at + 8, 1 + any as u32),
        Rule::Hops => put_word(file, at + 20, sound.most_hops(file, at) + 1),
        Rule::NoSet => put_long(file, at + rng.pick(lacked(kind)), bit(any)),
        Rule::Marks if sound.n < Table::NODES => {
            let set = at + rng.pick(carried(kind));
            put_long(file, set, bit(sound.n));
        }
        Rule::Marks | Rule::OwnMark => put_long(file, side, bit(owner)),
        Rule::Side => put_long(file, side, overfull(rng, sound, owner)),
    }
}

/// Where a message of the kind names a node.
fn named(kind: u32) -> &'static [usize] {
    match kind {
        3 | 8 => &[16],
        4 | 5 => &[8, 16],
        _ => &[8],
    }
}

/// The sets that the kind lacks: routing at 24, left at 32, right at 40, failed at 48.
fn lacked(kind: u32) -> &'static [usize] {
    match kind {
        2 => &[32, 40, 48],
        3 => &[48],
        4 | 5 => &[24],
        8 => &[24, 48],
        _ => &[24, 32, 40, 48],
    }
}

/// The sets that the kind carries.
fn carried(kind: u32) -> &'static [usize] {
    match kind {
        2 => &[24],
        3 => &[24, 32, 40],
        4 | 5 => &[32, 40, 48],
        _ => &[32, 40],
    }
}
