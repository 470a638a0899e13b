//! Records by number: each different record is held once, and a state names it by its number.

/// Mixes words to a hash.
pub fn mixed(words: &[u64]) -> u64 {
    let mut hash = 0x9e37_79b9_7f4a_7c15;
    for word in words {
        let wide = u128::from(hash ^ word) * 0xa5a3_564e_27f8_86a3;
        hash = (wide >> 64) as u64 ^ wide as u64;
    }
    hash
}

/// Different records of W words, numbered from 0 in the order in which they were met.
pub struct Index<const W: usize> {
    records: Vec<[u64; W]>,
    /// A number and 1, or 0 for an empty place. Twice as many places as records at least.
    places: Vec<u32>,
}

impl<const W: usize> Default for Index<W> {
    fn default() -> Self {
        Index { records: Vec::new(), places: vec![0; 64] }
    }
}

impl<const W: usize> Index<W> {
    pub fn len(&self) -> usize {
        self.records.len()
    }

    pub fn is_empty(&self) -> bool {
        self.records.is_empty()
    }

    pub fn record(&self, number: u32) -> &[u64; W] {
        &self.records[number as usize]
    }

    /// The number of a record, and whether it is new.
    pub fn number(&mut self, record: &[u64; W]) -> (u32, bool) {
        let mut at = mixed(record) as usize & (self.places.len() - 1);
        while self.places[at] != 0 {
            let number = self.places[at] - 1;
            if self.records[number as usize] == *record {
                return (number, false);
            }
            at = (at + 1) & (self.places.len() - 1);
        }
        let number = self.records.len() as u32;
        self.records.push(*record);
        self.places[at] = number + 1;
        if 2 * self.records.len() > self.places.len() {
            self.grow();
        }
        (number, true)
    }

    fn grow(&mut self) {
        let size = 2 * self.places.len();
        self.places = vec![0; size];
        for (record, number) in self.records.iter().zip(1..) {
            let mut at = mixed(record) as usize & (size - 1);
            while self.places[at] != 0 {
                at = (at + 1) & (size - 1);
            }
            self.places[at] = number;
        }
    }

    pub fn bytes(&self) -> usize {
        self.records.capacity() * W * 8 + self.places.len() * 4
    }
}
