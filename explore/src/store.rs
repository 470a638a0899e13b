//! The states that were met, each once, as exact bytes. A hash leads to them and never decides: two states are the same where all their bytes are.

/// Bytes are held in pieces of this size; no state lies across two.
const PIECE: usize = 1 << 24;
/// The most states.
const MOST: usize = u32::MAX as usize - 1;

/// Packed states, numbered from 0 in the order in which they were met, each with the state it was met from.
pub struct Store {
    pieces: Vec<Vec<u8>>,
    /// Where a state begins, its length in the byte before.
    begins: Vec<u64>,
    parents: Vec<u32>,
    /// The high half of a hash, and a number and 1; 0 for an empty place.
    places: Vec<u64>,
    hash: fn(&[u8]) -> u64,
}

impl Default for Store {
    fn default() -> Self {
        Store::with_hash(hash)
    }
}

/// A hash of bytes.
fn hash(bytes: &[u8]) -> u64 {
    let mut hash = bytes.len() as u64 ^ 0x9e37_79b9_7f4a_7c15;
    for part in bytes.chunks(8) {
        let mut word = [0; 8];
        word[..part.len()].copy_from_slice(part);
        let wide = u128::from(hash ^ u64::from_le_bytes(word)) * 0xa5a3_564e_27f8_86a3;
        hash = (wide >> 64) as u64 ^ wide as u64;
    }
    hash ^ hash >> 29
}

impl Store {
    /// A store whose states are found by this hash.
    pub fn with_hash(hash: fn(&[u8]) -> u64) -> Store {
        Store { pieces: Vec::new(), begins: Vec::new(), parents: Vec::new(), places: vec![0; 1 << 12], hash }
    }

    pub fn len(&self) -> usize {
        self.begins.len()
    }

    pub fn is_empty(&self) -> bool {
        self.begins.is_empty()
    }

    pub fn is_full(&self) -> bool {
        self.len() >= MOST
    }

    pub fn state(&self, number: u32) -> &[u8] {
        let begin = self.begins[number as usize] as usize;
        let piece = &self.pieces[begin / PIECE];
        let length = usize::from(piece[begin % PIECE]) | usize::from(piece[begin % PIECE + 1]) << 8;
        &piece[begin % PIECE + 2..][..length]
    }

    /// The state from which this one was met first.
    pub fn parent(&self, number: u32) -> u32 {
        self.parents[number as usize]
    }

    /// The number of a state, and whether it is new.
    pub fn insert(&mut self, state: &[u8], parent: u32) -> (u32, bool) {
        let hash = (self.hash)(state);
        let mut at = hash as usize & (self.places.len() - 1);
        while self.places[at] != 0 {
            let number = self.places[at] as u32 - 1;
            if self.places[at] >> 32 == hash >> 32 && self.state(number) == state {
                return (number, false);
            }
            at = (at + 1) & (self.places.len() - 1);
        }
        let number = self.len() as u32;
        self.places[at] = hash >> 32 << 32 | u64::from(number + 1);
        self.push(state, parent);
        if self.len() * 3 > self.places.len() * 2 {
            self.grow();
        }
        (number, true)
    }

    fn push(&mut self, state: &[u8], parent: u32) {
        let needed = state.len() + 2;
        if self.pieces.last().is_none_or(|piece| piece.len() + needed > PIECE) {
            self.pieces.push(Vec::with_capacity(PIECE));
        }
        let number = self.pieces.len() - 1;
        let piece = &mut self.pieces[number];
        self.begins.push((number * PIECE + piece.len()) as u64);
        self.parents.push(parent);
        piece.extend_from_slice(&(state.len() as u16).to_le_bytes());
        piece.extend_from_slice(state);
    }

    fn grow(&mut self) {
        let size = 2 * self.places.len();
        let mut places = vec![0; size];
        for number in 0..self.len() as u32 {
            let hash = (self.hash)(self.state(number));
            let mut at = hash as usize & (size - 1);
            while places[at] != 0 {
                at = (at + 1) & (size - 1);
            }
            places[at] = hash >> 32 << 32 | u64::from(number + 1);
        }
        self.places = places;
    }

    /// The bytes that are held.
    pub fn bytes(&self) -> usize {
        self.pieces.len() * PIECE + self.begins.len() * 12 + self.places.len() * 8
    }
}
