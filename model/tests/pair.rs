//! T-05, sentence by sentence.

mod common;

use common::{marks, node, Bench, Hop, DEAD, OK, READY, WAIT};
use model::gen::Requests;
use model::wire::Request;
use model::{Message, Sides};

fn worked() -> Bench {
    Bench::start(8, 1, &[17, 18, 65, 95], &[0, 1, 2, 3])
}

/// A message of each kind for slot 0.
fn kinds() -> [Message; 8] {
    let (sides, to) = (Sides { left: marks(&[2]), right: marks(&[0]) }, 0);
    [
        Message::Lookup { to, key: 10, hops: 0 },
        Message::JoinRequest { to, node: 2, routing: 0, hops: 0 },
        Message::JoinReply { to, owner: 1, routing: 0, sides },
        Message::LsProbe { to, node: 1, sides, failed: 0 },
        Message::LsProbeReply { to, node: 1, sides, failed: 0 },
        Message::NoLegalRoute { to, key: 10, hops: 0 },
        Message::LeaseRequest { to, node: 1 },
        Message::BroadcastLSet { to, owner: 1, sides, grant: true },
    ]
}

/// The numbers of Take, Deliver and Forward on the oldest message, and the bench after each.
fn three(bench: &Bench) -> [(u32, Bench); 3] {
    let mut after = [bench.clone(), bench.clone(), bench.clone()];
    let numbers = [after[0].take(0), after[1].deliver(0), after[2].forward(0)];
    let [take, deliver, forward] = after;
    [(numbers[0], take), (numbers[1], deliver), (numbers[2], forward)]
}

#[test]
fn a_lookup_is_delivered_where_it_is_covered_and_forwarded_where_not() {
    for (key, wanted) in [(10, [5, 0, 5]), (80, [5, 5, 0])] {
        let mut bench = worked();
        bench.lookup(0, key);
        assert_eq!(three(&bench).map(|(number, _)| number), wanted, "key {key}");
    }
    let mut bench = worked();
    bench.lookup(0, 80);
    assert_eq!(bench.forward(0), 0);
    assert_eq!(bench.waiting(), [Message::Lookup { to: 3, key: 80, hops: 1 }]);
    assert_eq!(bench.forward(0), 0);
    assert_eq!(bench.waiting(), [Message::Lookup { to: 2, key: 80, hops: 2 }]);
    assert_eq!(bench.deliver(0), 0);
    assert!(bench.waiting().is_empty());
}

#[test]
fn the_wrong_kind_is_5_whatever_the_status() {
    for status in [DEAD, WAIT, OK, READY] {
        for (kind, message) in (1..).zip(kinds()) {
            let mut bench = worked();
            bench.table.nodes[0].status = status;
            (bench.pool[0], bench.table.count) = (message, 1);
            let [take, deliver, forward] = three(&bench);
            if kind == 1 {
                assert_eq!(take, (5, bench.clone()), "Take on a Lookup, {status:?}");
            } else {
                assert_eq!(deliver, (5, bench.clone()), "Deliver on kind {kind}, {status:?}");
                assert_eq!(forward, (5, bench), "Forward on kind {kind}, {status:?}");
            }
        }
    }
}

#[test]
fn then_2_unless_ready_then_5_by_cover() {
    for (status, wanted) in [(DEAD, 2), (WAIT, 2), (OK, 2), (READY, 5)] {
        for key in [10, 80] {
            let mut bench = worked();
            bench.table.nodes[0].status = status;
            bench.lookup(0, key);
            let wrong = if key == 80 { bench.deliver(0) } else { bench.forward(0) };
            assert_eq!(wrong, wanted, "key {key}, {status:?}");
        }
    }
}

#[test]
fn a_forward_without_a_legal_route_is_done() {
    let mut bench = Bench::of(2, 1, &[node(0, DEAD, &[], &[]), node(1, READY, &[0], &[])]);
    assert_eq!(bench.hop(1, 0), Hop::NoRoute);
    bench.lookup(1, 0);
    assert_eq!(bench.forward(0), 0);
    assert_eq!(bench.waiting(), [Message::NoLegalRoute { to: 1, key: 0, hops: 0 }]);
    assert_eq!(three(&bench).map(|(number, _)| number), [5, 5, 5]);
}

/// The pair read together: at a ready node exactly one is done, at any other both answer 2, whatever the table.
#[test]
fn exactly_one_of_the_pair_is_done_at_a_ready_node() {
    let mut seen = [0; 3];
    for request in Requests::new(21).take(6_000) {
        let Some(Request::Step { file, .. } | Request::StepVia { file, .. }) = Request::parse(&request)
        else {
            continue;
        };
        let Ok(bench) = Bench::load(file) else {
            continue;
        };
        for (place, message) in bench.waiting().iter().enumerate().take(20) {
            let Message::Lookup { to, .. } = *message else {
                continue;
            };
            let numbers = [bench.clone().deliver(place), bench.clone().forward(place)];
            let wanted: &[[u32; 2]] =
                if bench.status(to.into()) == READY { &[[0, 5], [5, 0]] } else { &[[2, 2]] };
            assert!(wanted.contains(&numbers), "{numbers:?}");
            seen[[[0, 5], [5, 0], [2, 2]].iter().position(|one| *one == numbers).unwrap_or(0)] += 1;
        }
    }
    assert!(seen.iter().all(|&times| times > 200), "{seen:?}");
}
