//! Requests and replies, and the misreadings.

mod common;

use common::{node, Bench, READY, WAIT};
use model::gen::Requests;
use model::wire::{Request, Server, ACTIONS, LONGEST};
use model::{Action, Record, Right, Slip, Slipped};

fn reply_of(server: &mut Server<Right>, request: &[u8]) -> (u32, Vec<u8>) {
    let mut out = Vec::new();
    server.answer(request, &mut out);
    let (number, result) = out.split_first_chunk().expect("a reply has a number");
    (u32::from_le_bytes(*number), result.to_vec())
}

fn reply(request: &[u8]) -> (u32, Vec<u8>) {
    reply_of(&mut Server::new(Right), request)
}

fn ask_of(server: &mut Server<Right>, request: Request) -> (u32, Vec<u8>) {
    let mut bytes = Vec::new();
    request.put(&mut bytes);
    assert_eq!(Request::parse(&bytes), Some(request));
    reply_of(server, &bytes)
}

fn ask(request: Request) -> (u32, Vec<u8>) {
    ask_of(&mut Server::new(Right), request)
}

#[test]
fn requests_get_their_results() {
    let ids = vec![17, 18, 65, 95];
    let (number, file) = ask(Request::Start { m: 8, l: 1, ready: 15, ids });
    assert_eq!(number, 0);
    assert_eq!(ask(Request::Load { file: &file }), (0, file.clone()));
    assert_eq!(ask(Request::Settled { file: &file }), (0, vec![1]));
    let action = Action::Lookup { at: 0, key: 80 };
    let (number, after) = ask(Request::Step { action, file: &file });
    assert_eq!(number, 0);
    assert_eq!(ask(Request::Step { action, file: &after }), (3, vec![]));
    assert_eq!(ask(Request::List { file: &after }), (0, b"key from to hops via\n80 17 65 2 ll\n".to_vec()));
    assert_eq!(ask(Request::Waiting { slot: 0, file: &after }), (0, vec![1, 0, 0, 0, 0]));
    assert_eq!(ask(Request::Waiting { slot: 1, file: &after }), (0, vec![0]));
    assert_eq!(ask(Request::Waiting { slot: 4, file: &after }), (1, vec![]));
    let action = Action::Forward { place: 0 };
    let (number, routed) = ask(Request::Step { action, file: &after });
    assert_eq!((number, routed.len()), (0, after.len()));
    assert_eq!(ask(Request::StepVia { action, file: &after }), (0, [&b"l"[..], &routed].concat()));
    for action in [Action::Take { place: 0 }, Action::Deliver { place: 0 }] {
        assert_eq!(ask(Request::Step { action, file: &after }), (5, vec![]));
        assert_eq!(ask(Request::StepVia { action, file: &after }), (5, vec![]));
    }
    let action = Action::Lookup { at: 1, key: 80 };
    let (number, other) = ask(Request::Step { action, file: &after });
    assert_eq!(number, 0);
    assert_eq!(ask(Request::StepVia { action, file: &after }), (0, [&[0], &other[..]].concat()));
}

#[test]
fn files_that_do_not_load_answer_their_number() {
    let file = Bench::start(8, 1, &[17, 18], &[0]).file();
    let action = Action::Lookup { at: 99, key: 0 };
    for (bytes, wanted) in [(&file[..31], 7), (&[0; 32][..], 8), (&file[..40], 9)] {
        assert_eq!(ask(Request::Load { file: bytes }), (wanted, vec![]));
        assert_eq!(ask(Request::Step { action, file: bytes }), (wanted, vec![]));
        assert_eq!(ask(Request::StepVia { action, file: bytes }), (wanted, vec![]));
        assert_eq!(ask(Request::Settled { file: bytes }), (wanted, vec![]));
        assert_eq!(ask(Request::Waiting { slot: 99, file: bytes }), (wanted, vec![]));
        assert_eq!(ask(Request::List { file: bytes }), (0, format!("refused {wanted}\n").into_bytes()));
    }
}

#[test]
fn malformed_requests_have_their_own_number() {
    let malformed = (u32::MAX, vec![]);
    assert_eq!(reply(&[]), malformed);
    assert_eq!(reply(&[11]), malformed);
    assert_eq!(reply(&[12]), malformed);
    assert_eq!(reply(&[11; 24]), malformed, "too short for its arguments");
    assert_eq!(reply(&[255]), malformed);
    assert_eq!(reply(&[1; 24]), malformed, "too short for its arguments");
    assert_eq!(reply(&[6; 24]), malformed, "too short for its arguments");
    assert_eq!(reply(&[2; 24]), malformed, "too short for its arguments");
    assert_eq!(reply(&[8; 40]), malformed, "too short for its arguments");
    assert_eq!(reply(&[8; 41]), (7, vec![]));
    assert_eq!(reply(&[10; 8]), malformed, "too short for its argument");
    assert_eq!(reply(&[10; 9]), (7, vec![]));
    assert_eq!(reply(&[7, 0]), malformed, "bytes behind a begin");
    assert_eq!(reply(&[9, 0]), malformed, "bytes behind a sum");
    assert_eq!(reply(&[0; LONGEST + 1]), malformed, "too long");
    assert_eq!(reply(&[0; LONGEST]), (8, vec![]));
    for number in [0, ACTIONS + 1, 1 << 32 | 1, u64::MAX] {
        let mut step = vec![1];
        step.extend_from_slice(&number.to_le_bytes());
        step.resize(25, 0);
        assert_eq!(reply(&step), malformed, "action {number}");
        step[1..9].copy_from_slice(&ACTIONS.to_le_bytes());
        assert_eq!(reply(&step), (7, vec![]));
    }
    for odd in [1, 2, 3] {
        let mut start = vec![2];
        start.resize(25 + 8 + odd, 0);
        assert_eq!(reply(&start), malformed, "ids of {odd} bytes too many");
    }
    assert_eq!(reply(&[0]), (7, vec![]));
    assert_eq!(reply(&[4]), (0, b"refused 7\n".to_vec()));
}

#[test]
fn a_rehearsal_is_held_between_requests() {
    let bench = Bench::start(8, 1, &[17, 18, 65, 95], &[0, 1, 2, 3]);
    let mut after = bench.clone();
    after.lookup(0, 80);
    let (start, stated) = (bench.file(), after.file());
    let lookup = Action::Lookup { at: 0, key: 80 };
    let mut server = Server::new(Right);
    let mut ask = |request: Request| ask_of(&mut server, request);
    let next = |action: Action| Request::Next { action, stated: &stated };
    assert_eq!(ask(next(lookup)), (12, vec![]), "none is begun");
    assert_eq!(ask(Request::Begin { file: &start[..31] }), (0, vec![0, 0, 0, 0, 0]));
    assert_eq!(ask(next(lookup)), (12, vec![]));
    assert_eq!(ask(Request::Begin { file: &start }), (0, vec![1]));
    assert_eq!(ask(Request::Settled { file: &stated }), (0, vec![1]), "in between");
    assert_eq!(ask(next(lookup)), (0, vec![1]));
    assert_eq!(ask(next(lookup)), (0, vec![0, 2, 0, 0, 0]), "it waits already");
    assert_eq!(ask(next(Action::Take { place: 0 })), (12, vec![]));
    assert_eq!(ask(Request::Begin { file: &stated }), (0, vec![1]));
    let mut no_action = Vec::new();
    next(lookup).put(&mut no_action);
    no_action[1] = 0;
    assert_eq!(reply_of(&mut server, &no_action), (u32::MAX, vec![]));
    let request = Request::Next { action: Action::Lookup { at: 2, key: 200 }, stated: &start };
    assert_eq!(ask_of(&mut server, request), (0, vec![0, 1, 0, 0, 0]), "the request before it did not count");
}

#[test]
fn records_are_held_between_requests() {
    let file = Bench::start(8, 1, &[17, 18, 65, 95], &[0, 1, 2, 3]).file();
    let joining = Bench::of(8, 1, &[node(17, READY, &[], &[]), node(18, WAIT, &[], &[])]).file();
    let mut server = Server::new(Right);
    let mut ask = |request: Request| ask_of(&mut server, request);
    let place = |key: u64, rain: u64| {
        let record = Record { key, month: 5, rain, evapotranspiration: 120, runoff: 68 };
        Request::Place { record, file: &file }
    };
    let bytes = |words: &[(i64, usize)]| {
        words.iter().flat_map(|(word, width)| word.to_le_bytes()[..*width].to_vec()).collect::<Vec<u8>>()
    };
    let held = |holder: i64, copies: i64, change: i64| (0, bytes(&[(holder, 4), (copies, 8), (change, 8)]));
    let sum = |count: i64, sum: i64| (0, bytes(&[(count, 4), (sum, 8)]));
    assert_eq!(ask(Request::Sum), sum(0, 0), "none is held");
    assert_eq!(ask(place(20, 300)), held(1, 5, 112));
    assert_eq!(ask(place(200, 0)), held(0, 10, -188));
    assert_eq!(ask(Request::Sum), sum(2, -76));
    assert_eq!(ask(place(20, 0)), held(1, 5, -188), "in place of the first");
    assert_eq!(ask(place(256, 0)), (14, vec![]));
    let record = Record { key: 20, month: 5, rain: 0, evapotranspiration: 0, runoff: 0 };
    assert_eq!(ask(Request::Place { record, file: &joining }), (15, vec![]));
    assert_eq!(ask(Request::Place { record, file: &file[..31] }), (7, vec![]));
    assert_eq!(ask(Request::Begin { file: &file }), (0, vec![1]), "in between");
    assert_eq!(ask(Request::Sum), sum(2, -376));
    assert_eq!(ask(Request::Records), (0, vec![]));
    assert_eq!(ask(Request::Sum), sum(0, 0));
    let lookup = Request::Next { action: Action::Lookup { at: 9, key: 0 }, stated: &file };
    assert_eq!(ask(lookup), (0, vec![0, 1, 0, 0, 0]), "the rehearsal stands");
}

#[test]
fn the_same_seed_gives_the_same_requests() {
    let (mut one, mut two) = (Requests::new(5), Requests::new(5));
    for _ in 0..500 {
        let (mut a, mut b) = (Vec::new(), Vec::new());
        one.put(&mut a);
        two.put(&mut b);
        assert_eq!(a, b);
    }
}

#[test]
fn every_misreading_is_told_apart_or_equivalent() {
    let server = |slip: Option<Slip>| Server::new(Slipped(slip));
    let mut open: Vec<(Slip, Server<Slipped>)> =
        Slip::ALL.iter().map(|&slip| (slip, server(Some(slip)))).collect();
    assert!(open.len() >= 40);
    let (mut requests, mut model, mut none) = (Requests::new(1), Server::new(Right), server(None));
    let (mut request, mut right, mut other) = (Vec::new(), Vec::new(), Vec::new());
    for nth in 0..60_000 {
        request.clear();
        requests.put(&mut request);
        right.clear();
        model.answer(&request, &mut right);
        let mut same = |server: &mut Server<Slipped>| {
            other.clear();
            server.answer(&request, &mut other);
            other == right
        };
        assert!(same(&mut none), "request {nth}: no slip is the right reading");
        open.retain_mut(|(_, server)| same(server));
        if nth > 2_000 && open.iter().all(|(slip, _)| slip.equivalent().is_some()) {
            break;
        }
    }
    let wanted: Vec<Slip> = Slip::ALL.iter().copied().filter(|slip| slip.equivalent().is_some()).collect();
    assert_eq!(open.iter().map(|(slip, _)| *slip).collect::<Vec<Slip>>(), wanted);
}
