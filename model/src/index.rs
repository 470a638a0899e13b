//! Where an equal message waits, by hashing, so that "no two messages are equal" costs one walk.

use crate::message::{Message, Pool};

const SIZE: usize = 512;

/// Open addressing. An entry is 0 or a place plus 1, with more of the hash in its upper bits.
/// At most half of the entries are used.
pub(crate) struct Index {
    entries: [u16; SIZE],
}

/// Where to look for a message: the first entry, and what its upper bits are.
struct Hash {
    entry: usize,
    upper: u16,
}

const PLACE: u16 = 0x1ff;

impl Index {
    #[inline]
    pub fn new() -> Index {
        Index { entries: [0; SIZE] }
    }

    /// Notes the message of `place`; false if an equal one is noted, which then stays.
    #[inline]
    pub fn note(&mut self, pool: &Pool, place: usize) -> bool {
        let hash = Hash::of(&pool[place]);
        match self.seek(&hash, pool, &pool[place]) {
            Ok(_) => false,
            Err(entry) => {
                self.entries[entry] = hash.upper | (place as u16 + 1);
                true
            }
        }
    }

    /// The place of the first waiting message equal to this one.
    #[inline]
    pub fn find(&self, pool: &Pool, message: &Message) -> Option<usize> {
        self.seek(&Hash::of(message), pool, message).ok()
    }

    /// The place of an equal message, or the entry where it would be noted.
    #[inline]
    fn seek(&self, hash: &Hash, pool: &Pool, message: &Message) -> Result<usize, usize> {
        let mut entry = hash.entry;
        loop {
            let noted = self.entries[entry];
            if noted == 0 {
                return Err(entry);
            }
            let place = usize::from(noted & PLACE) - 1;
            if noted & !PLACE == hash.upper && pool[place].equals(message) {
                return Ok(place);
            }
            entry = (entry + 1) % SIZE;
        }
    }
}

impl Hash {
    #[inline]
    fn of(message: &Message) -> Hash {
        let [a, b, c, d] = message.words();
        let mixed = mix(a ^ 0x9e37_79b9_7f4a_7c15, b ^ 0xbf58_476d_1ce4_e5b9)
            ^ mix(c ^ 0x94d0_49bb_1331_11eb, d ^ 0xd6e8_feb8_6659_fd93).rotate_left(32);
        Hash { entry: mixed as usize % SIZE, upper: (mixed >> 48) as u16 & !PLACE }
    }
}

#[inline]
fn mix(a: u64, b: u64) -> u64 {
    let product = u128::from(a) * u128::from(b);
    product as u64 ^ (product >> 64) as u64
}
