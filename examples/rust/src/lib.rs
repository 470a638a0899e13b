//! The bench for Rust: safe functions over the six calls. A table is its file, as bytes; a refusal is 01's number.

use std::error::Error;
use std::fmt;

/// The longest table file.
pub const FILE: usize = 18_464;

/// The room that a listing asks for.
pub const LISTING: usize = 65_536;

/// One step of the bench. Slots and places count from 0.
#[derive(Clone, Copy, Debug)]
pub enum Action {
    Lookup { slot: u64, key: u64 },
    Join { slot: u64, seed: u64 },
    RequestLease { slot: u64 },
    LeaseExpired { slot: u64, other: u64 },
    GrantExpired { slot: u64, other: u64 },
    Take { place: u64 },
    Deliver { place: u64 },
    Forward { place: u64 },
    NodeLeft { slot: u64 },
    SuspectFaulty { slot: u64, other: u64 },
    ProbeTimeOut { slot: u64, other: u64 },
    DeclareDead { slot: u64, other: u64 },
    LsRepair { slot: u64 },
    ResignNode { slot: u64, ready: u64 },
    Recover { slot: u64 },
}

/// 01's number, 1 to 11.
#[derive(Clone, Copy, Debug, PartialEq, Eq)]
pub struct Refused(pub u32);

impl Refused {
    /// 01's words for the number.
    pub fn meaning(self) -> &'static str {
        match self.0 {
            1 => "slot, place or key out of range",
            2 => "status forbids it",
            3 => "the same request already waits",
            4 => "leaf set empty, not empty or incomplete, as named",
            5 => "sender or partner not allowed",
            6 => "the pool after the step would exceed 256",
            7 => "file shorter than 32 bytes",
            8 => "M, L, n or message count out of range, or last header word not 0",
            9 => "an offset, the total or the real length disagrees with the counts",
            10 => "a table, record or start list breaks validity; A empty; message list without 256 places",
            11 => "write buffer too small",
            _ => "no number of the scope document",
        }
    }
}

impl fmt::Display for Refused {
    fn fmt(&self, f: &mut fmt::Formatter<'_>) -> fmt::Result {
        write!(f, "refused {}: {}", self.0, self.meaning())
    }
}

impl Error for Refused {}

/// A `&[T]` of the bench is a pointer that is not null and a length.
mod calls {
    extern "C" {
        pub fn tarpudhriv_load(file: *const u8, file_len: usize, out: *mut u8, out_len: usize) -> u64;
        pub fn tarpudhriv_step(
            file: *const u8,
            file_len: usize,
            action: u64,
            x: u64,
            y: u64,
            out: *mut u8,
            out_len: usize,
        ) -> u64;
        pub fn tarpudhriv_step_via(
            file: *const u8,
            file_len: usize,
            action: u64,
            x: u64,
            y: u64,
            out: *mut u8,
            out_len: usize,
        ) -> u64;
        pub fn tarpudhriv_start(
            m: u64,
            l: u64,
            a: u64,
            ids: *const u32,
            ids_len: usize,
            out: *mut u8,
            out_len: usize,
        ) -> u64;
        pub fn tarpudhriv_settled(file: *const u8, file_len: usize) -> u64;
        pub fn tarpudhriv_list(file: *const u8, file_len: usize, out: *mut u8, out_len: usize) -> u64;
    }
}

impl Action {
    /// The action's number and its two words.
    fn words(self) -> (u64, u64, u64) {
        match self {
            Action::Lookup { slot, key } => (1, slot, key),
            Action::Join { slot, seed } => (2, slot, seed),
            Action::RequestLease { slot } => (3, slot, 0),
            Action::LeaseExpired { slot, other } => (4, slot, other),
            Action::GrantExpired { slot, other } => (5, slot, other),
            Action::Take { place } => (6, place, 0),
            Action::Deliver { place } => (7, place, 0),
            Action::Forward { place } => (8, place, 0),
            Action::NodeLeft { slot } => (9, slot, 0),
            Action::SuspectFaulty { slot, other } => (10, slot, other),
            Action::ProbeTimeOut { slot, other } => (11, slot, other),
            Action::DeclareDead { slot, other } => (12, slot, other),
            Action::LsRepair { slot } => (13, slot, 0),
            Action::ResignNode { slot, ready } => (14, slot, ready),
            Action::Recover { slot } => (15, slot, 0),
        }
    }
}

/// Where the next hop came from. A node in both counts as leaf set.
#[derive(Clone, Copy, Debug, PartialEq, Eq)]
pub enum Via {
    LeafSet,
    RoutingSet,
}

impl Via {
    /// The letter in the highest byte of a reply.
    fn of(word: u64) -> Option<Via> {
        match (word >> 56) as u8 {
            b'l' => Some(Via::LeafSet),
            b'r' => Some(Via::RoutingSet),
            _ => None,
        }
    }

    /// Its letter in a listing.
    pub fn letter(self) -> u8 {
        match self {
            Via::LeafSet => b'l',
            Via::RoutingSet => b'r',
        }
    }
}

/// The 24 bits above the number of a reply, or the refusal that its low 32 bits say.
fn told(word: u64) -> Result<usize, Refused> {
    match word as u32 {
        0 => Ok((word >> 32) as usize & 0xff_ffff),
        number => Err(Refused(number)),
    }
}

/// What a call writes into so much room.
fn written(room: usize, call: impl FnOnce(&mut [u8]) -> u64) -> Result<Vec<u8>, Refused> {
    let mut out = vec![0; room];
    let count = told(call(&mut out))?;
    out.truncate(count);
    Ok(out)
}

/// The file, read and written back.
pub fn load(file: &[u8]) -> Result<Vec<u8>, Refused> {
    written(FILE, |out| unsafe {
        calls::tarpudhriv_load(file.as_ptr(), file.len(), out.as_mut_ptr(), out.len())
    })
}

/// The table file after one step.
pub fn step(file: &[u8], action: Action) -> Result<Vec<u8>, Refused> {
    let (action, x, y) = action.words();
    written(FILE, |out| unsafe {
        calls::tarpudhriv_step(file.as_ptr(), file.len(), action, x, y, out.as_mut_ptr(), out.len())
    })
}

/// The table file after one step, and where the next hop came from, if the step routed a message to another node.
pub fn step_via(file: &[u8], action: Action) -> Result<(Option<Via>, Vec<u8>), Refused> {
    let (action, x, y) = action.words();
    let mut via = None;
    let after = written(FILE, |out| {
        let word = unsafe {
            calls::tarpudhriv_step_via(file.as_ptr(), file.len(), action, x, y, out.as_mut_ptr(), out.len())
        };
        via = Via::of(word);
        word
    })?;
    Ok((via, after))
}

/// The table file of ids of `m` digits, leaf sets of `l` a side, ready where `a` has a mark.
pub fn start(m: u64, l: u64, a: u64, ids: &[u32]) -> Result<Vec<u8>, Refused> {
    written(FILE, |out| unsafe {
        calls::tarpudhriv_start(m, l, a, ids.as_ptr(), ids.len(), out.as_mut_ptr(), out.len())
    })
}

/// Whether the table is settled.
pub fn settled(file: &[u8]) -> Result<bool, Refused> {
    told(unsafe { calls::tarpudhriv_settled(file.as_ptr(), file.len()) }).map(|said| said == 1)
}

/// The listing of any file, `refused N` for one that is no table file.
pub fn list(file: &[u8]) -> Vec<u8> {
    written(LISTING, |out| unsafe {
        calls::tarpudhriv_list(file.as_ptr(), file.len(), out.as_mut_ptr(), out.len())
    })
    .expect("there is room for every listing")
}
