//! The driver's stored corpus has every number that a step can answer, and no other, for every action and
//! for every kind of message that one is asked to handle. It tells every misreading apart, and its replies are the model's.

mod common;

use common::Bench;
use model::judge::Tally;
use model::wire::{Request, Server};
use model::{Action, Right, Slip};
use std::collections::BTreeSet;

/// An action, the kind of the message that it is to handle or 0 for none, and a number answered.
type Case = (&'static str, u32, u32);

/// The numbers of 01, "Actions" and "Take, by kind", of T-03 and of T-05. That there are no others is proved in
/// `crates/table_laws/proofs/Numbers.antt` (`step-numbers`, which has 0, 1 and 10 for all, and `take-kind-6`, that 0 is
/// not answered there). 1 is left out where the place is in range, and 10, for a file that loads has a valid table.
const NUMBERS: [(&str, u32, &[u32]); 25] = [
    ("Lookup", 0, &[0, 1, 3, 6]),
    ("Join", 0, &[0, 1, 2, 3, 4, 6]),
    ("RequestLease", 0, &[0, 1, 2, 4, 6]),
    ("LeaseExpired", 0, &[0, 1, 2, 5]),
    ("GrantExpired", 0, &[0, 1, 2, 5]),
    ("Take", 0, &[1]),
    ("Take", 1, &[5]),
    ("Take", 2, &[0, 2, 5]),
    ("Take", 3, &[0, 2, 4, 5, 6]),
    ("Take", 4, &[0, 2, 4, 5, 6]),
    ("Take", 5, &[0, 2, 4, 5, 6]),
    ("Take", 6, &[5]),
    ("Take", 7, &[0, 2, 4]),
    ("Take", 8, &[0, 2, 4, 5]),
    ("Deliver", 0, &[1]),
    ("Deliver", 1, &[0, 2, 5]),
    ("Forward", 0, &[1]),
    ("Forward", 1, &[0, 2, 5]),
    ("NodeLeft", 0, &[0, 1, 2]),
    ("SuspectFaulty", 0, &[0, 1, 2, 5, 6]),
    ("ProbeTimeOut", 0, &[0, 1, 2, 5]),
    ("DeclareDead", 0, &[0, 1, 2, 5]),
    ("LSRepair", 0, &[0, 1, 2, 4, 5, 6]),
    ("ResignNode", 0, &[0, 1, 2, 3, 4, 5, 6]),
    ("Recover", 0, &[0, 1, 2, 4, 5, 6]),
];

/// The requests or replies of a stored file, without their length words.
fn stored(name: &str) -> Vec<Vec<u8>> {
    let path = format!("{}/../crates/run_driver/{name}", env!("CARGO_MANIFEST_DIR"));
    let bytes = std::fs::read(path).expect("the corpus is there");
    let mut rest = &bytes[..];
    let mut bodies = Vec::new();
    while !rest.is_empty() {
        let (length, after) = rest.split_first_chunk().expect("a length word");
        let (body, after) = after.split_at(u32::from_le_bytes(*length) as usize);
        bodies.push(body.to_vec());
        rest = after;
    }
    bodies
}

/// The kind of the message at this place, or 0 where none waits there.
fn kind(bench: &Bench, place: usize) -> u32 {
    bench.waiting().get(place).map_or(0, |message| message.fields().kind)
}

/// The case of a request, if it is a step and its file loads: 7 to 10 are answers of the load.
fn case(request: &[u8], reply: &[u8]) -> Option<Case> {
    let Some(Request::Step { action, file }) = Request::parse(request) else {
        return None;
    };
    let bench = Bench::load(file).ok()?;
    let name = match action {
        Action::Lookup { .. } => "Lookup",
        Action::Join { .. } => "Join",
        Action::RequestLease { .. } => "RequestLease",
        Action::LeaseExpired { .. } => "LeaseExpired",
        Action::GrantExpired { .. } => "GrantExpired",
        Action::Take { .. } => "Take",
        Action::Deliver { .. } => "Deliver",
        Action::Forward { .. } => "Forward",
        Action::NodeLeft { .. } => "NodeLeft",
        Action::SuspectFaulty { .. } => "SuspectFaulty",
        Action::ProbeTimeOut { .. } => "ProbeTimeOut",
        Action::DeclareDead { .. } => "DeclareDead",
        Action::LsRepair { .. } => "LSRepair",
        Action::ResignNode { .. } => "ResignNode",
        Action::Recover { .. } => "Recover",
    };
    let number = reply.first_chunk().expect("a reply has a number");
    Some((name, action.place().map_or(0, |place| kind(&bench, place)), u32::from_le_bytes(*number)))
}

/// The cases of the stored corpus.
fn had() -> BTreeSet<Case> {
    let (requests, replies) = (stored("stdin"), stored("stdout"));
    assert_eq!(requests.len(), replies.len(), "each request has a reply");
    requests.iter().zip(&replies).filter_map(|(request, reply)| case(request, reply)).collect()
}

/// The cases that can occur.
fn can() -> BTreeSet<Case> {
    let mut can = BTreeSet::new();
    for (name, kind, numbers) in NUMBERS {
        can.extend(numbers.iter().map(|&number| (name, kind, number)));
    }
    for kind in 2..=8 {
        can.extend([("Deliver", kind, 5), ("Forward", kind, 5)]);
    }
    can
}

#[test]
fn the_corpus_has_every_number_of_a_step() {
    let (had, can) = (had(), can());
    let lost: Vec<&Case> = can.difference(&had).collect();
    assert!(lost.is_empty(), "the corpus has lost {lost:?}");
    let others: Vec<&Case> = had.difference(&can).collect();
    assert!(others.is_empty(), "the corpus has {others:?}, which cannot occur");
}

/// Definitions of the step that are easily tidied wrong, and 01's slips that look right.
const NAMED: [Slip; 19] = [
    Slip::SenderStaysFailed,
    Slip::OldFailedLeftOut,
    Slip::BroadcastAddsFailed,
    Slip::LeaseWithoutFlag,
    Slip::GrantIgnoresLease,
    Slip::AnyExpiryDemotes,
    Slip::ReplyFiveBeforeFour,
    Slip::AnyoneIsGranted,
    Slip::ReplyKeepsFailed,
    Slip::ProbingKeepsFailed,
    Slip::RequestWhenReady,
    Slip::JoinFourBeforeThree,
    Slip::ForwardKeepsRouting,
    Slip::ReadyWhenChanged,
    Slip::P2AtOnce,
    Slip::FallTurned,
    Slip::BothCover,
    Slip::EqualKept,
    Slip::HopPlainDistance,
];

#[test]
fn the_corpus_tells_every_misreading_apart() {
    let tally = Tally::of(stored("stdin").into_iter());
    let wrong = tally.wrong(1);
    assert!(wrong.is_empty(), "not told apart, or equivalent and told apart: {wrong:?}");
    for slip in NAMED {
        assert!(tally.count(slip) >= 2, "{slip:?} is told by {} requests", tally.count(slip));
    }
    println!("{}", tally.summary("the corpus"));
}

#[test]
fn the_replies_are_the_models() {
    let (mut model, mut reply) = (Server::new(Right), Vec::new());
    for (nth, (request, wanted)) in stored("stdin").iter().zip(&stored("stdout")).enumerate() {
        reply.clear();
        model.answer(request, &mut reply);
        assert!(reply == *wanted, "request {nth} is answered otherwise");
    }
}
