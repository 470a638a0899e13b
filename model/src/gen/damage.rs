//! Damaged table files: every header word, every rule of a record, short and long files.

use super::breach::breach;
use super::rng::Rng;
use crate::file::{HEADER, MESSAGE, NODE};
use crate::marks::bit;
use crate::reading::Right;
use crate::table::Table;
use crate::view::View;

/// The file with one rule broken, or with one to three faults; some of them happen to leave a right file.
pub fn damaged(rng: &mut Rng, mut file: Vec<u8>) -> Vec<u8> {
    let sound = Sound::of(&file);
    if !rng.one_in(3) {
        breach(rng, &mut file, &sound);
        return file;
    }
    for _ in 0..rng.pick(&[1, 1, 1, 1, 2, 3]) {
        match rng.below(12) {
            0 | 1 => header(rng, &mut file),
            2 => length(rng, &mut file),
            3 => recount(rng, &mut file, &sound),
            4..=6 => node(rng, &mut file, &sound),
            7..=10 => message(rng, &mut file, &sound),
            _ => flip(rng, &mut file),
        }
    }
    file
}

/// The numbers of the file before it was damaged.
pub(super) struct Sound {
    pub m: u32,
    pub l: u32,
    pub n: usize,
    pub count: usize,
}

impl Sound {
    fn of(file: &[u8]) -> Sound {
        let word = |nth: usize| word_at(file, 4 * nth);
        Sound { m: word(0), l: word(1), n: word(2) as usize, count: word(3) as usize }
    }

    pub fn whole(&self) -> u64 {
        1 << self.m
    }

    /// The most hops that the message of a sound record may have.
    pub fn most_hops(&self, file: &[u8], at: usize) -> u32 {
        let [kind, to, key] = [0, 4, 8].map(|offset| word_at(file, at + offset));
        if kind != 1 {
            return 0;
        }
        let mut table = Table { m: self.m, l: self.l, n: self.n, ..Table::BLANK };
        for (slot, node) in table.nodes[..self.n].iter_mut().enumerate() {
            node.id = word_at(file, HEADER + NODE * slot);
        }
        View::new(Right, &table).farther(to as usize, key).count_ones()
    }

    /// A mark at n or above, or any mark where there is none.
    fn past(&self, rng: &mut Rng) -> u64 {
        let beyond = self.n + rng.below(64);
        bit(rng.pick(&[self.n, beyond, 63]).min(63))
    }
}

pub(super) fn word_at(file: &[u8], at: usize) -> u32 {
    file.get(at..at + 4).map_or(0, |bytes| u32::from_le_bytes([bytes[0], bytes[1], bytes[2], bytes[3]]))
}

pub(super) fn long_at(file: &[u8], at: usize) -> u64 {
    u64::from(word_at(file, at)) | u64::from(word_at(file, at + 4)) << 32
}

fn put(file: &mut [u8], at: usize, bytes: &[u8]) {
    if let Some(place) = file.get_mut(at..at + bytes.len()) {
        place.copy_from_slice(bytes);
    }
}

pub(super) fn put_word(file: &mut [u8], at: usize, word: u32) {
    put(file, at, &word.to_le_bytes());
}

pub(super) fn put_long(file: &mut [u8], at: usize, long: u64) {
    put(file, at, &long.to_le_bytes());
}

fn header(rng: &mut Rng, file: &mut [u8]) {
    let nth = rng.below(8);
    let old = word_at(file, 4 * nth);
    let near = [old.wrapping_add(1), old.wrapping_sub(1), 0, 1, u32::MAX, rng.any() as u32, old ^ 1 << 31];
    let edges =
        [2, 32, 33, 8, 9, 64, 65, 256, 257, 1 << 8, 1 << 16, old.wrapping_add(56), old.wrapping_add(64)];
    let word = if rng.one_in(2) { rng.pick(&near) } else { rng.pick(&edges) };
    put_word(file, 4 * nth, word);
}

fn length(rng: &mut Rng, file: &mut Vec<u8>) {
    let old = file.len();
    let any = rng.below(old + 1);
    let more = 1 + rng.below(200);
    match rng.below(8) {
        0 => file.truncate(any),
        1 => file.truncate(rng.pick(&[0, 1, 31, 32, 33, 4, 95, 96])),
        2 => file.truncate(old.saturating_sub(1)),
        3 => file.truncate(old.saturating_sub(rng.pick(&[4, 8, 56, 64]))),
        4 => file.push(rng.pick(&[0, 1, 255])),
        5 => file.resize(old + rng.pick(&[4, 8, 56, 64]), 0),
        6 if rng.one_in(8) => file.resize(18_464 + more, 0),
        _ => file.resize(old + more, rng.pick(&[0, 255])),
    }
}

/// New counts whose offsets and total agree with them; the length may agree too.
fn recount(rng: &mut Rng, file: &mut Vec<u8>, sound: &Sound) {
    let n = rng.pick(&[sound.n, sound.n + 1, sound.n.wrapping_sub(1), 0, 64, 65]) as u32;
    let count = rng.pick(&[sound.count, sound.count + 1, sound.count.wrapping_sub(1), 0, 256, 257]) as u32;
    let messages = (n.wrapping_mul(NODE as u32)).wrapping_add(HEADER as u32);
    let total = messages.wrapping_add(count.wrapping_mul(MESSAGE as u32));
    for (nth, word) in [(2, n), (3, count), (5, messages), (6, total)] {
        put_word(file, 4 * nth, word);
    }
    if rng.one_in(2) && total < 20_000 {
        file.resize(total as usize, 0);
    }
}

fn node(rng: &mut Rng, file: &mut [u8], sound: &Sound) {
    let slot = rng.below(sound.n);
    let other = rng.below(sound.n);
    let any = rng.any() as u32;
    let at = HEADER + NODE * slot;
    let set = at + 8 + 8 * rng.below(7);
    let side = at + 8 + 8 * rng.below(2);
    match rng.below(9) {
        0 => {
            let id = word_at(file, HEADER + NODE * other);
            put_word(file, at, rng.pick(&[id, id, id.wrapping_add(1), id.wrapping_sub(1)]));
        }
        1 => put_word(file, at, rng.pick(&[sound.whole() as u32, u32::MAX, any, 0])),
        2 => put_word(file, HEADER + NODE * (sound.n - 1), rng.pick(&[sound.whole() as u32, u32::MAX])),
        3 => put_word(file, at + 4, rng.pick(&[4, 5, u32::MAX, 256, 1 << 16, 3])),
        4 => put_long(file, set, long_at(file, set) | sound.past(rng)),
        5 => put_long(file, set, long_at(file, set) | bit(slot)),
        6 | 7 => put_long(file, side, overfull(rng, sound, slot)),
        _ => put_long(file, set, rng.any()),
    }
}

/// A side with one member more than L, where there are so many nodes; else a full one.
pub(super) fn overfull(rng: &mut Rng, sound: &Sound, owner: usize) -> u64 {
    let others = crate::marks::below(sound.n) & !bit(owner);
    let more = rng.pick(&[1, 1, 2, 61]);
    rng.members(others, sound.l as usize + more)
}

fn message(rng: &mut Rng, file: &mut [u8], sound: &Sound) {
    if sound.count == 0 {
        return flip(rng, file);
    }
    let first = HEADER + NODE * sound.n;
    let flag = rng.one_in(10);
    let wanted = if flag { 8 } else { 1 + rng.below(8) as u32 };
    let records: Vec<usize> = (0..sound.count).map(|place| first + MESSAGE * place).collect();
    let found = records.iter().find(|at| word_at(file, **at) == wanted).copied();
    let at = found.unwrap_or(rng.pick(&records));
    let word = at + 4 * rng.below(6);
    let set = at + 24 + 8 * rng.below(4);
    let side = at + 24 + 8 + 8 * rng.below(2);
    let (n, owner) = (sound.n as u32, word_at(file, at + 16) as usize & 63);
    let any = rng.any() as u32;
    match if flag { 12 } else { rng.below(14) } {
        0 => put_word(file, at, rng.pick(&[0, 9, 10, u32::MAX, 256 + word_at(file, at)])),
        1 => put_word(file, at, 1 + rng.below(8) as u32),
        2 => put_word(file, word, rng.pick(&[n, n.wrapping_add(1), 64, 255, 256, 257, u32::MAX])),
        3 => put_word(file, word, rng.pick(&[1, 2, 0, 1 << 31, 1 << 8])),
        4 => put_word(file, at + 8, rng.pick(&[sound.whole() as u32, u32::MAX, any])),
        5 => put_word(file, at + 8, rng.below(sound.n) as u32),
        6 => put_word(file, at + 16, rng.below(sound.n) as u32),
        7 => put_word(file, at + 20, rng.pick(&[1, 1 << 31, u32::MAX])),
        8 => put_long(file, set, long_at(file, set) | sound.past(rng)),
        9 => put_long(file, set, long_at(file, set) | bit(rng.below(sound.n))),
        10 => put_long(file, side, long_at(file, side) | bit(owner)),
        11 => put_long(file, side, overfull(rng, sound, owner)),
        12 => put_word(file, at + 12, rng.pick(&[1, 2, 2, 256, u32::MAX])),
        _ => {
            let from = first + MESSAGE * rng.below(sound.count);
            if let Some(record) = file.get(from..from + MESSAGE).map(<[u8]>::to_vec) {
                put(file, at, &record);
            }
        }
    }
}

fn flip(rng: &mut Rng, file: &mut [u8]) {
    if !file.is_empty() {
        let at = rng.below(file.len());
        file[at] ^= 1 << rng.below(8);
    }
}
