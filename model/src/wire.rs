//! Requests and replies of the driver, without their length words.
//!
//! A request is a kind byte, its arguments as 64-bit words, and a table file (for a start the ids, for
//! kinds 7 and 9 nothing). A reply is a 32-bit number and, where it is 0, the result. Between requests a
//! rehearsal and the water records are held.

use crate::file::{load_as, write_as, LARGEST};
use crate::hop::Via;
use crate::listing::listing_as;
use crate::message::{Pool, EMPTY_POOL};
use crate::reading::Reading;
use crate::refusal::{refuse_if, Refusal};
use crate::rehearsal::{Rehearsal, Verdict};
use crate::settled::settled_as;
use crate::slip::Slip;
use crate::start::start_as;
use crate::step::{step_as, Action};
use crate::table::Table;
use crate::waiting::first_waiting_as;
use crate::water::{Held, Record, Store};

/// The longest request: the driver's buffer.
pub const LONGEST: usize = 65_536;

/// The highest number of an action.
pub const ACTIONS: u64 = 15;

/// The number for a request that is none.
pub const MALFORMED: u32 = u32::MAX;

/// A well-formed request.
#[derive(Clone, Debug, PartialEq, Eq)]
pub enum Request<'a> {
    Load { file: &'a [u8] },
    Step { action: Action, file: &'a [u8] },
    Start { m: u64, l: u64, ready: u64, ids: Vec<u32> },
    Settled { file: &'a [u8] },
    List { file: &'a [u8] },
    Begin { file: &'a [u8] },
    Next { action: Action, stated: &'a [u8] },
    Records,
    Place { record: Record, file: &'a [u8] },
    Sum,
    Waiting { slot: u64, file: &'a [u8] },
    StepVia { action: Action, file: &'a [u8] },
}

impl<'a> Request<'a> {
    pub fn parse(bytes: &'a [u8]) -> Option<Request<'a>> {
        if bytes.len() > LONGEST {
            return None;
        }
        let (&kind, file) = bytes.split_first()?;
        match kind {
            0 => Some(Request::Load { file }),
            1 => {
                let (action, file) = action(file)?;
                Some(Request::Step { action, file })
            }
            2 => {
                let ([m, l, ready], ids) = words(file)?;
                let (ids, []) = ids.as_chunks() else {
                    return None;
                };
                Some(Request::Start {
                    m,
                    l,
                    ready,
                    ids: ids.iter().map(|id| u32::from_le_bytes(*id)).collect(),
                })
            }
            3 => Some(Request::Settled { file }),
            4 => Some(Request::List { file }),
            5 => Some(Request::Begin { file }),
            6 => {
                let (action, stated) = action(file)?;
                Some(Request::Next { action, stated })
            }
            7 if file.is_empty() => Some(Request::Records),
            8 => {
                let ([key, month, rain, evapotranspiration, runoff], file) = words(file)?;
                let record = Record { key, month, rain, evapotranspiration, runoff };
                Some(Request::Place { record, file })
            }
            9 if file.is_empty() => Some(Request::Sum),
            10 => {
                let ([slot], file) = words(file)?;
                Some(Request::Waiting { slot, file })
            }
            11 => {
                let (action, file) = action(file)?;
                Some(Request::StepVia { action, file })
            }
            _ => None,
        }
    }

    /// The request's bytes, after `out`.
    pub fn put(&self, out: &mut Vec<u8>) {
        match self {
            Request::Load { file } => put_parts(out, 0, [], file),
            Request::Step { action, file } => put_parts(out, 1, action_words(*action), file),
            Request::Start { m, l, ready, ids } => {
                let ids: Vec<u8> = ids.iter().flat_map(|id| id.to_le_bytes()).collect();
                put_parts(out, 2, [*m, *l, *ready], &ids);
            }
            Request::Settled { file } => put_parts(out, 3, [], file),
            Request::List { file } => put_parts(out, 4, [], file),
            Request::Begin { file } => put_parts(out, 5, [], file),
            Request::Next { action, stated } => put_parts(out, 6, action_words(*action), stated),
            Request::Records => put_parts(out, 7, [], &[]),
            Request::Place { record, file } => {
                let Record { key, month, rain, evapotranspiration, runoff } = *record;
                put_parts(out, 8, [key, month, rain, evapotranspiration, runoff], file);
            }
            Request::Sum => put_parts(out, 9, [], &[]),
            Request::Waiting { slot, file } => put_parts(out, 10, [*slot], file),
            Request::StepVia { action, file } => put_parts(out, 11, action_words(*action), file),
        }
    }
}

fn put_parts<const N: usize>(out: &mut Vec<u8>, kind: u8, words: [u64; N], rest: &[u8]) {
    out.push(kind);
    words.iter().for_each(|word| out.extend_from_slice(&word.to_le_bytes()));
    out.extend_from_slice(rest);
}

/// The words at the front, and what stands after them.
fn words<const N: usize>(bytes: &[u8]) -> Option<([u64; N], &[u8])> {
    let (words, rest) = bytes.split_at_checked(8 * N)?;
    let word = |i: usize| u64::from_le_bytes(std::array::from_fn(|byte| words[8 * i + byte]));
    Some((std::array::from_fn(word), rest))
}

/// An action, and what stands after it.
fn action(bytes: &[u8]) -> Option<(Action, &[u8])> {
    let ([number, first, second], rest) = words(bytes)?;
    let slot = |word: u64| usize::try_from(word).unwrap_or(usize::MAX);
    let (node, partner) = (slot(first), slot(second));
    let action = match number {
        1 => Action::Lookup { at: node, key: second },
        2 => Action::Join { node, seed: partner },
        3 => Action::RequestLease { node },
        4 => Action::LeaseExpired { node, partner },
        5 => Action::GrantExpired { node, partner },
        6 => Action::Take { place: node },
        7 => Action::Deliver { place: node },
        8 => Action::Forward { place: node },
        9 => Action::NodeLeft { node },
        10 => Action::SuspectFaulty { node, partner },
        11 => Action::ProbeTimeOut { node, partner },
        12 => Action::DeclareDead { node, partner },
        13 => Action::LsRepair { node },
        14 => Action::ResignNode { node, seed: partner },
        15 => Action::Recover { node },
        _ => return None,
    };
    Some((action, rest))
}

fn action_words(action: Action) -> [u64; 3] {
    match action {
        Action::Lookup { at, key } => [1, at as u64, key],
        Action::Join { node, seed } => [2, node as u64, seed as u64],
        Action::RequestLease { node } => [3, node as u64, 0],
        Action::LeaseExpired { node, partner } => [4, node as u64, partner as u64],
        Action::GrantExpired { node, partner } => [5, node as u64, partner as u64],
        Action::Take { place } => [6, place as u64, 0],
        Action::Deliver { place } => [7, place as u64, 0],
        Action::Forward { place } => [8, place as u64, 0],
        Action::NodeLeft { node } => [9, node as u64, 0],
        Action::SuspectFaulty { node, partner } => [10, node as u64, partner as u64],
        Action::ProbeTimeOut { node, partner } => [11, node as u64, partner as u64],
        Action::DeclareDead { node, partner } => [12, node as u64, partner as u64],
        Action::LsRepair { node } => [13, node as u64, 0],
        Action::ResignNode { node, seed } => [14, node as u64, seed as u64],
        Action::Recover { node } => [15, node as u64, 0],
    }
}

/// A driver by one reading, with the rehearsal and the records that it holds. Before the first rehearsal
/// it is one without a start.
pub struct Server<R> {
    r: R,
    rehearsal: Rehearsal,
    store: Store,
}

impl<R: Reading> Server<R> {
    pub fn new(r: R) -> Server<R> {
        Server { r, rehearsal: Rehearsal::begin_as(r, &[]), store: Store::default() }
    }

    /// Puts the reply to a request after `out`.
    pub fn answer(&mut self, request: &[u8], out: &mut Vec<u8>) {
        let start = out.len();
        out.extend_from_slice(&0u32.to_le_bytes());
        let number = match Request::parse(request) {
            None => {
                self.hear_malformed(request);
                MALFORMED
            }
            Some(request) => match self.result(&request, out) {
                Ok(()) => 0,
                Err(refusal) => refusal.number(),
            },
        };
        out[start..start + 4].copy_from_slice(&number.to_le_bytes());
    }

    /// A malformed request leaves all as it is.
    fn hear_malformed(&mut self, request: &[u8]) {
        if self.r.takes(Slip::MalformedIsBad) && request.first() == Some(&6) {
            self.rehearsal.next_as(self.r, Action::Take { place: usize::MAX }, &[]).ok();
        }
    }

    fn result(&mut self, request: &Request, out: &mut Vec<u8>) -> Result<(), Refusal> {
        let r = self.r;
        let (mut table, mut pool) = (Table::BLANK, EMPTY_POOL);
        match request {
            Request::Load { file } => {
                load_as(r, file, &mut table, &mut pool)?;
                put_file(r, &table, &pool, out)?;
            }
            Request::Step { action, file } => {
                load_as(r, file, &mut table, &mut pool)?;
                step_as(r, &mut table, &mut pool, *action)?;
                put_file(r, &table, &pool, out)?;
            }
            Request::Start { m, l, ready, ids } => {
                start_as(r, *m, *l, ids, *ready, &mut table, &mut pool)?;
                put_file(r, &table, &pool, out)?;
            }
            Request::Settled { file } => {
                load_as(r, file, &mut table, &mut pool)?;
                out.push(settled_as(r, &table, &pool)?.into());
            }
            Request::List { file } => out.extend_from_slice(&listing_as(r, file)),
            Request::Begin { file } => {
                self.rehearsal = Rehearsal::begin_as(r, file);
                self.put_verdict(out);
            }
            Request::Next { action, stated } => {
                self.rehearsal.next_as(r, *action, stated)?;
                self.put_verdict(out);
            }
            Request::Records if r.takes(Slip::HeldAfterBegin) => {}
            Request::Records => self.store = Store::default(),
            Request::Place { record, file } => {
                load_as(r, file, &mut table, &mut pool)?;
                let held = self.store.place_as(r, &table, &pool, *record)?;
                put_held(r, &held, out);
            }
            Request::Sum => {
                let count = self.store.count_as(r) as u32;
                out.extend_from_slice(&count.to_le_bytes());
                out.extend_from_slice(&self.store.sum_as(r).to_le_bytes());
            }
            Request::Waiting { slot, file } => {
                let early = *slot >= Table::NODES as u64 && r.takes(Slip::OneBeforeLoading);
                refuse_if(early, Refusal::OutOfRange)?;
                load_as(r, file, &mut table, &mut pool)?;
                put_first(first_waiting_as(r, &table, &pool, *slot)?, out);
            }
            Request::StepVia { action, file } => {
                load_as(r, file, &mut table, &mut pool)?;
                let via = step_as(r, &mut table, &mut pool, *action)?;
                out.push(via.map_or(0, Via::letter));
                put_file(r, &table, &pool, out)?;
            }
        }
        Ok(())
    }

    /// 1, or 0 and the number of the first bad step.
    fn put_verdict(&self, out: &mut Vec<u8>) {
        match self.rehearsal.verdict() {
            Verdict::Accepted => out.push(1),
            Verdict::Bad(step) => {
                out.push(0);
                out.extend_from_slice(&step.to_le_bytes());
            }
        }
    }
}

fn put_file<R: Reading>(r: R, table: &Table, pool: &Pool, out: &mut Vec<u8>) -> Result<(), Refusal> {
    let mut buffer = [0; LARGEST];
    let length = write_as(r, table, pool, &mut buffer)?;
    out.extend_from_slice(&buffer[..length]);
    Ok(())
}

/// 0, or 1 and the place of the first message.
fn put_first(first: Option<usize>, out: &mut Vec<u8>) {
    out.push(first.is_some().into());
    if let Some(place) = first {
        out.extend_from_slice(&(place as u32).to_le_bytes());
    }
}

/// The holder's slot, the copies as marks and the change.
fn put_held<R: Reading>(r: R, held: &Held, out: &mut Vec<u8>) {
    out.extend_from_slice(&(held.holder as u32).to_le_bytes());
    out.extend_from_slice(&held.copies.to_le_bytes());
    out.extend_from_slice(&held.change_as(r).to_le_bytes());
}
