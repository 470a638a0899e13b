//! The requests of the driver's corpus.

use crate::frame::write_frame;
use crate::names::name;
use model::gen::Requests;
use model::judge::Judge;
use std::collections::{BTreeMap, BTreeSet};
use std::fs::File;
use std::io::{self, BufWriter, Write};

/// What a request is kept for.
#[derive(Clone, PartialEq, Eq, PartialOrd, Ord)]
enum Label {
    /// A name, a number answered, and a short result.
    Answer(String, u32, Vec<u8>),
    /// A misreading that is told apart, and the name of the request that tells it.
    Told(usize, String),
    /// A name and a number answered, of the first requests that are not long.
    Other(String, u32),
}

impl Label {
    /// The label without the name of the request that tells a misreading.
    fn reason(&self) -> Label {
        match self {
            Label::Told(slip, _) => Label::Told(*slip, String::new()),
            other => other.clone(),
        }
    }
}

/// How many requests are kept for an answer, for a misreading and of others.
const ANSWERS: usize = 2;
const TOLD: usize = 2;
const OTHERS: usize = 12;

/// A request of more bytes is kept where there is no other for its answer or misreading.
const LONG: usize = 2_000;

/// The length of the longest of the others.
const LONGEST_OTHER: usize = 600;

/// A request after its length, so that smaller ones come first.
type Place = (usize, Vec<u8>);

/// Requests and their replies.
type Kept = BTreeMap<Place, Vec<u8>>;

/// Writes requests and the replies to them: of `count` requests of the seed, but for those of rehearsals and records,
/// the smallest for each answer and for each misreading, and some others.
pub fn corpus(seed: u64, count: u64, requests: &str, replies: &str) -> io::Result<bool> {
    let mut kept = choose(seed, count);
    shorten(&mut kept);
    let (mut to_in, mut to_out) =
        (BufWriter::new(File::create(requests)?), BufWriter::new(File::create(replies)?));
    let mut written = BTreeSet::new();
    for ((_, request), reply) in kept.values().flatten() {
        if written.insert(request) {
            write_frame(&mut to_in, request)?;
            write_frame(&mut to_out, reply)?;
        }
    }
    println!("{} requests kept for {} reasons", written.len(), kept.len());
    to_in.flush().and_then(|()| to_out.flush()).map(|()| true)
}

fn choose(seed: u64, count: u64) -> BTreeMap<Label, Kept> {
    let (mut judge, mut kept) = (Judge::default(), BTreeMap::new());
    let requests = Requests::new(seed).filter(|request| !is_held(request));
    for (request, _) in requests.zip(0..count) {
        let told = judge.hear(&request);
        let (reply, name) = (judge.reply(), name(&request));
        let (number, result) = reply.split_first_chunk().expect("a reply has a number");
        let number = u32::from_le_bytes(*number);
        keep(&mut kept, answer(&name, number, result), ANSWERS, &request, reply);
        for slip in told {
            keep(&mut kept, Label::Told(slip as usize, name.clone()), TOLD, &request, reply);
        }
        if request.len() <= LONGEST_OTHER {
            let others = kept.entry(Label::Other(name, number)).or_default();
            if others.len() < OTHERS {
                others.insert((request.len(), request), reply.to_vec());
            }
        }
    }
    kept
}

/// Whether what a request is answered depends on those before it.
fn is_held(request: &[u8]) -> bool {
    request.first().is_some_and(|kind| (5..=9).contains(kind))
}

/// The label of an answer. Of what is settled, listed or waits the result is looked at too, and where a hop came from.
fn answer(name: &str, number: u32, result: &[u8]) -> Label {
    let short = match name {
        "settled" => result,
        "list" if result.len() < 32 => &result[..result.len().min(8)],
        "waiting" | "step with via" => &result[..result.len().min(1)],
        _ => &[],
    };
    Label::Answer(name.to_string(), number, short.to_vec())
}

/// Leaves out long requests, but for the smallest one of an answer or of a misreading.
fn shorten(kept: &mut BTreeMap<Label, Kept>) {
    let mut needed = BTreeMap::new();
    for (label, requests) in kept.iter() {
        let least = requests.keys().next().expect("one is kept");
        needed
            .entry(label.reason())
            .and_modify(|other: &mut Place| *other = least.min(other).clone())
            .or_insert(least.clone());
    }
    for (label, requests) in kept.iter_mut() {
        requests.retain(|place, _| place.0 <= LONG || needed[&label.reason()] == *place);
    }
}

/// Keeps the smallest `most` requests of a label.
fn keep(kept: &mut BTreeMap<Label, Kept>, label: Label, most: usize, request: &[u8], reply: &[u8]) {
    let best = kept.entry(label).or_default();
    if best.len() == most && best.last_key_value().is_some_and(|((length, _), _)| *length < request.len()) {
        return;
    }
    best.insert((request.len(), request.to_vec()), reply.to_vec());
    if best.len() > most {
        best.pop_last();
    }
}
