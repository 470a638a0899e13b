//! The states that are searched are those of the independent model; a step or a key that is wrong is noticed.

use crate::common::{by_model, engine, search, search_from, Case, How, Outcome};
use explore::engine::{Answer, Engine, Room, Words};
use explore::file::{self, Message, Node};
use explore::plan::Limits;
use explore::search::End;
use explore::state::{Key, State};
use explore::store::Store;
use explore::trouble::Trouble;

const THREE: &[u32] = &[17, 18, 65];
const FOUR: &[u32] = &[17, 18, 65, 95];
const FIVE: &[u32] = &[0, 1, 2, 9, 14];
const BOTH: &str = "join 17 at any\njoin 65 at any\n";

const CASES: [Case; 11] = [
    Case::new(8, 1, 2, FOUR, "join 95 at 18\n"),
    Case::new(8, 1, 2, THREE, BOTH),
    Case::new(8, 2, 2, THREE, BOTH),
    Case::new(8, 1, 2, FOUR, "join 95 at 18\njoin 17 at 18\nlookup 65 at 95\n"),
    Case::new(8, 1, 7, FOUR, "lookup 95 at 18\nlookup 80 at 17\nlookup 200 at 65\n"),
    Case { expiries: true, ..Case::new(8, 1, 2, &[18, 65], "join 65 at 18\n") },
    Case {
        limits: Limits { joining: Some(1), waiting: None, in_order: false },
        ..Case::new(4, 1, 17, FIVE, "join 1 at 0\njoin 2 at 0\n")
    },
    Case {
        limits: Limits { joining: None, waiting: Some(1), in_order: false },
        ..Case::new(8, 1, 2, THREE, BOTH)
    },
    Case {
        limits: Limits { joining: None, waiting: None, in_order: true },
        ..Case::new(8, 1, 2, THREE, "join 65 at 18\njoin 17 at any\n")
    },
    Case::new(32, 2, 7, &[1, 2_000_000_000, 3_000_000_000, 4_294_967_295], "join 4294967295 at 1\n"),
    // Lookups of one key meet at 65 with 0, 1 and 2 hops.
    Case::new(8, 1, 15, FOUR, "lookup 80 at 17\nlookup 80 at 18\nlookup 80 at 65\n"),
];

/// With departures and repairs (T-03).
const LEAVING: [Case; 4] = [
    // 18 joins, and its probe of 17, which is ready, may time out.
    Case::new(5, 2, 3, &[5, 17, 18], "join 18 at 17\nprobe time out 18 17\n"),
    // 17 joins, leaves and joins again while mail of its first join waits; 5 lets it go.
    Case::new(
        5,
        1,
        1,
        &[5, 17],
        "join 17 at 5
        node left 17
        resign node 17 at 5
        suspect faulty 5 17
        probe time out 5 17
        grant expired 5 17
        declare dead 5 17",
    ),
    // 95 leaves and may come back; 18 and 65 let it go and repair.
    Case::new(
        8,
        2,
        15,
        FOUR,
        "node left 95
        join 95 at 17
        suspect faulty 18 95
        probe time out 18 95
        declare dead 18 95
        ls repair 18
        suspect faulty 65 95
        probe time out 65 95
        grant expired 65 95
        declare dead 65 95
        ls repair 65",
    ),
    // 65 leaves and may come back; 17 and 18 let it go, resign while the other is ready, and recover where nobody is.
    Case::new(
        8,
        1,
        7,
        THREE,
        "node left 65
        join 65 at any
        suspect faulty 17 65
        probe time out 17 65
        grant expired 17 65
        declare dead 17 65
        resign node 17 at 18
        recover 17
        suspect faulty 18 65
        probe time out 18 65
        grant expired 18 65
        declare dead 18 65
        resign node 18 at 17
        recover 18",
    ),
];

/// The numbers of T-03's actions.
const DEPARTURES: std::ops::RangeInclusive<usize> = 9..=15;

/// One state in ten has its steps asked again.
const AUDITED: How = How { audit: 10, ..How::REMEMBERED };

/// Whether a search comes to the model's states and depth.
fn agrees(case: &Case, outcome: &Outcome) -> bool {
    let (states, depth, _) = by_model(case);
    outcome.end == End::Searched
        && outcome.count() == states.len()
        && outcome.states() == states
        && outcome.depth == depth
}

#[test]
fn remembered_steps_lead_to_the_models_states() {
    for (case, nth) in CASES.iter().chain(&LEAVING).zip(1..) {
        let outcome = search(case, AUDITED, &[]).expect("a search");
        assert!(agrees(case, &outcome), "case {nth}: {} states", outcome.count());
    }
}

#[test]
fn steps_asked_every_time_lead_to_the_models_states() {
    let cases = [&CASES[0], &CASES[4], &CASES[5], &CASES[9], &CASES[10]];
    for case in cases.into_iter().chain(&LEAVING) {
        assert!(agrees(case, &search(case, How::EVERY, &[]).expect("a search")));
    }
}

#[test]
fn every_departure_is_done_in_some_state() {
    let mut all = [0; 16];
    for (case, nth) in LEAVING.iter().zip(1..) {
        let (_, _, done) = by_model(case);
        let plan = case.plan(&file::read(&case.start(engine().as_mut())).frame);
        for number in DEPARTURES {
            let planned = plan.actions.iter().any(|action| action[0] == number as u64);
            assert_eq!(planned, done[number] > 0, "case {nth}: action {number}");
            all[number] += done[number];
        }
    }
    assert!(all[DEPARTURES].iter().all(|&count| count > 0), "{all:?}");
}

#[test]
fn a_state_is_packed_and_unpacked() {
    let state = State { nodes: vec![0, 127, 128, 70_000], messages: vec![0, 1, 130, 4_000_000, u32::MAX] };
    let (mut bytes, mut back) = (Vec::new(), State::default());
    state.pack(&mut bytes);
    back.unpack(4, &bytes);
    assert_eq!(state, back);
}

#[test]
fn a_hash_that_drops_a_field_costs_time_and_no_state() {
    let whole = search(&CASES[1], How::REMEMBERED, &[]).expect("a search");
    // Hashes that look at nothing, and at no more than the nodes.
    let hashes: [fn(&[u8]) -> u64; 2] = [|_| 7, |bytes| bytes[..3].iter().map(|&byte| u64::from(byte)).sum()];
    for hash in hashes {
        let mut store = Store::with_hash(hash);
        for number in 0..whole.count() {
            let (met, is_new) = store.insert(whole.packed(number), 0);
            assert!(is_new && met as usize == number);
        }
        for number in 0..whole.count() {
            assert_eq!(store.insert(whole.packed(number), 0), (number as u32, false));
            assert_eq!(store.state(number as u32), whole.packed(number));
        }
    }
}

/// A step that is wrong where `wrong` says so of the file, the action and the message taken.
struct Wrong<F> {
    inner: Box<dyn Engine>,
    wrong: F,
}

/// What a wrong step does.
enum Slip {
    Nothing,
    /// Refuses with 5.
    Skips,
    /// Forgets the last message.
    Forgets,
}

impl<F: Fn(&[u8], Words, Option<Message>) -> Slip> Engine for Wrong<F> {
    fn step(&mut self, table: &[u8], action: Words, out: &mut Room) -> Result<Answer, Trouble> {
        let taken =
            if (6..=8).contains(&action[0]) { file::messages(table).nth(action[1] as usize) } else { None };
        let answer = self.inner.step(table, action, out)?;
        match (self.wrong)(table, action, taken) {
            Slip::Skips => return Ok(Answer { number: 5, count: 0 }),
            Slip::Forgets if answer.number == 0 => {
                let after = file::read(&out[..answer.count]);
                let fewer = after.messages.len().saturating_sub(1);
                let mut file = Vec::new();
                file::write(
                    &after.frame,
                    after.nodes.into_iter(),
                    after.messages.into_iter().take(fewer),
                    &mut file,
                );
                out[..file.len()].copy_from_slice(&file);
                return Ok(Answer { number: 0, count: file.len() });
            }
            _ => (),
        }
        Ok(answer)
    }

    fn start(&mut self, settings: Words, ids: &[u32], out: &mut Room) -> Result<Answer, Trouble> {
        self.inner.start(settings, ids, out)
    }

    fn name(&self) -> &'static str {
        "wrong"
    }
}

/// Whether the comparison with the model, or the search itself, notices a wrong step.
fn notices(case: &Case, wrong: impl Fn(&[u8], Words, Option<Message>) -> Slip) -> bool {
    let mut engine = Wrong { inner: engine(), wrong };
    let start = case.start(&mut engine);
    let plan = case.plan(&file::read(&start).frame);
    search_from(&mut engine, &start, &plan, How::REMEMBERED, &[])
        .map_or(true, |outcome| !agrees(case, &outcome))
}

#[test]
fn a_right_step_is_not_held_to_be_wrong() {
    assert!(!notices(&CASES[1], |_, _, _| Slip::Nothing));
}

#[test]
fn a_step_that_skips_a_message_is_noticed() {
    for kind in [2, 3, 4, 5, 7, 8] {
        let skips = |_: &[u8], _: Words, taken: Option<Message>| match taken {
            Some(message) if message.kind() == kind => Slip::Skips,
            _ => Slip::Nothing,
        };
        assert!(notices(&CASES[1], skips), "kind {kind}");
    }
    // One message alone: the probe of 65 at 17.
    let skips = |_: &[u8], _: Words, taken: Option<Message>| match taken {
        Some(message) if (message.kind(), message.to(), message.word()) == (4, 0, 2) => Slip::Skips,
        _ => Slip::Nothing,
    };
    assert!(notices(&CASES[1], skips));
}

#[test]
fn a_step_that_forgets_a_message_is_noticed() {
    for action in [2, 3, 6] {
        let forgets = |_: &[u8], words: Words, _: Option<Message>| match words[0] == action {
            true => Slip::Forgets,
            false => Slip::Nothing,
        };
        assert!(notices(&CASES[1], forgets), "action {action}");
    }
}

#[test]
fn a_departure_that_is_skipped_is_noticed() {
    for number in DEPARTURES {
        let skips = |_: &[u8], words: Words, _: Option<Message>| match words[0] == number as u64 {
            true => Slip::Skips,
            false => Slip::Nothing,
        };
        assert!(LEAVING.iter().any(|case| notices(case, skips)), "action {number}");
    }
}

#[test]
fn a_step_that_looks_at_more_than_it_is_handed_is_noticed() {
    // Refused where four messages wait: what is remembered was asked with one.
    let crowded = |table: &[u8], _: Words, taken: Option<Message>| match taken {
        Some(message) if message.kind() == 4 && file::messages(table).len() >= 4 => Slip::Skips,
        _ => Slip::Nothing,
    };
    let case = &CASES[1];
    let mut engine = Wrong { inner: engine(), wrong: crowded };
    let start = case.start(&mut engine);
    let plan = case.plan(&file::read(&start).frame);
    let outcome = search_from(&mut engine, &start, &plan, AUDITED, &[]);
    assert!(matches!(outcome, Err(Trouble::Failed(_))), "the audit says so");
}

/// Whether a key that tells fewer states apart is noticed.
fn notices_key(case: &Case, key: Key) -> bool {
    search(case, How { key, audit: 0, ..How::REMEMBERED }, &[])
        .map_or(true, |outcome| !agrees(case, &outcome))
}

/// A node without its word N.
fn less_node<const N: usize>(mut node: Node) -> Node {
    node.0[N] = 0;
    node
}

/// A message without the bits of its word N that are not in KEPT.
fn less_message<const N: usize, const KEPT: u64>(mut message: Message) -> Message {
    message.0[N] &= KEPT;
    message
}

#[test]
fn a_key_that_drops_a_field_is_noticed() {
    const LOW: u64 = 0xffff_ffff;
    const HIGH: u64 = LOW << 32;
    let status: fn(Node) -> Node = |mut node| {
        node.0[0] &= LOW;
        node
    };
    let nodes: [(&str, fn(Node) -> Node); 8] = [
        ("status", status),
        ("left", less_node::<1>),
        ("right", less_node::<2>),
        ("probing", less_node::<3>),
        ("failed", less_node::<4>),
        ("routing", less_node::<5>),
        ("lease", less_node::<6>),
        ("grant", less_node::<7>),
    ];
    for (name, node) in nodes {
        let case = if name == "failed" { &LEAVING[2] } else { &CASES[1] };
        assert!(notices_key(case, Key { node, ..Key::WHOLE }), "a node's {name}");
    }
    let messages: [(&str, fn(Message) -> Message); 10] = [
        ("kind", less_message::<0, HIGH>),
        ("destination", less_message::<0, LOW>),
        ("node or key", less_message::<1, HIGH>),
        ("flag", less_message::<1, LOW>),
        ("owner", less_message::<2, HIGH>),
        ("hops", less_message::<2, LOW>),
        ("routing", less_message::<3, 0>),
        ("left", less_message::<4, 0>),
        ("right", less_message::<5, 0>),
        ("failed", less_message::<6, 0>),
    ];
    for (name, message) in messages {
        let case = match name {
            "routing" => &CASES[6],
            "hops" => &CASES[10],
            "failed" => &LEAVING[2],
            _ => &CASES[1],
        };
        assert!(notices_key(case, Key { message, ..Key::WHOLE }), "a message's {name}");
    }
}
