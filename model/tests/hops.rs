//! T-07, sentence by sentence.

mod common;

use common::{marks, node, number, Bench, DEAD, READY};
use model::gen::Requests;
use model::wire::Request;
use model::{is_valid, listing, Action, Message, Ring};

/// 01's ring: 17 sends key 80 on to 95, and 95 to 65, which covers it.
fn worked() -> Bench {
    Bench::start(8, 1, &[17, 18, 65, 95], &[0, 1, 2, 3])
}

fn lookup(to: u8, key: u32, hops: u32) -> Message {
    Message::Lookup { to, key, hops }
}

/// The bench with these messages.
fn with(mut bench: Bench, messages: &[Message]) -> Bench {
    bench.pool[..messages.len()].copy_from_slice(messages);
    bench.table.count = messages.len();
    bench
}

fn valid(bench: &Bench) -> bool {
    is_valid(&bench.table, &bench.pool)
}

#[test]
fn none_on_issue_and_one_more_at_each_forwarding() {
    let mut bench = worked();
    bench.lookup(0, 80);
    assert_eq!(bench.waiting(), [lookup(0, 80, 0)]);
    assert_eq!(bench.forward(0), 0);
    assert_eq!(bench.waiting(), [lookup(3, 80, 1)]);
    assert_eq!(bench.forward(0), 0);
    assert_eq!(bench.waiting(), [lookup(2, 80, 2)]);
}

#[test]
fn other_kinds_have_none() {
    let mut bench = with(worked(), &[lookup(3, 80, 2)]);
    bench.table.nodes[3].failed = marks(&[0, 1, 2]);
    assert_eq!(bench.forward(0), 0);
    assert_eq!(bench.waiting(), [Message::NoLegalRoute { to: 3, key: 80, hops: 0 }]);
    let request = |to| Message::JoinRequest { to, node: 2, routing: 15, hops: 0 };
    let mut bench = with(worked(), &[request(0)]);
    assert_eq!(bench.take(0), 0);
    assert_eq!(bench.waiting(), [request(3)], "its routings are not counted");
}

#[test]
fn the_earlier_message_stays_with_its_own_number() {
    for waits in 0..=2 {
        let mut bench = with(worked(), &[lookup(0, 80, 0), lookup(3, 80, waits)]);
        assert_eq!(bench.forward(0), 0);
        assert_eq!(bench.waiting(), [lookup(3, 80, waits)]);
        let mut bench = with(worked(), &[lookup(2, 80, waits), lookup(3, 80, 1)]);
        assert_eq!(bench.forward(1), 0);
        assert_eq!(bench.waiting(), [lookup(2, 80, waits)]);
    }
}

#[test]
fn equality_does_not_look_at_hops() {
    for hops in 0..=2 {
        let mut bench = with(worked(), &[lookup(3, 80, hops)]);
        assert_eq!(bench.step(Action::Lookup { at: 3, key: 80 }), 3, "it waits with {hops} hops");
        assert!(!valid(&with(worked(), &[lookup(3, 80, hops), lookup(3, 80, 1)])));
    }
    assert!(lookup(3, 80, 0).equals(&lookup(3, 80, 1)));
    assert!(!lookup(3, 80, 0).equals(&lookup(2, 80, 0)) && !lookup(3, 80, 0).equals(&lookup(3, 81, 0)));
}

/// For key 80, from the nearest: 65, 95 at the same distance, 18, 17.
#[test]
fn the_bound_is_the_number_of_nodes_farther() {
    for (to, most) in [(2, 3), (3, 2), (1, 1), (0, 0)] {
        for status in [DEAD, READY] {
            let mut bench = worked();
            (0..4).for_each(|slot| bench.table.nodes[slot].status = status);
            for hops in 0..=most {
                assert!(valid(&with(bench.clone(), &[lookup(to, 80, hops)])), "{hops} hops at {to}");
            }
            for hops in [most + 1, 255, 256, 256 + most, u32::MAX] {
                assert!(!valid(&with(bench.clone(), &[lookup(to, 80, hops)])), "{hops} hops at {to}");
            }
        }
    }
    let lone = Bench::of(2, 1, &[node(1, READY, &[], &[])]);
    assert!(valid(&with(lone.clone(), &[lookup(0, 3, 0)])) && !valid(&with(lone, &[lookup(0, 3, 1)])));
}

#[test]
fn the_sixth_word_holds_it() {
    let bench = with(worked(), &[lookup(0, 80, 0), lookup(2, 80, 3), lookup(3, 80, 1)]);
    let file = bench.file();
    let sixth = |place: usize| 32 + 64 * 4 + 56 * place + 20;
    assert_eq!([0, 1, 2].map(|place| file[sixth(place)]), [0, 3, 1]);
    assert_eq!(Bench::load(&file), Ok(bench));
    for (place, hops) in [(0, 1), (1, 4), (2, 3)] {
        let mut changed = file.clone();
        changed[sixth(place)] = hops;
        assert_eq!(number(Bench::load(&changed)), 10, "{hops} hops in place {place}");
        changed[sixth(place)] = hops - 1;
        assert_eq!(number(Bench::load(&changed)), 0, "the bound is met in place {place}");
    }
}

#[test]
fn the_listing_counts_the_routings_that_it_makes() {
    let lines =
        |hops: [u32; 2]| listing(&with(worked(), &[lookup(3, 80, hops[0]), lookup(2, 80, hops[1])]).file());
    assert_eq!(lines([0, 0]), b"key from to hops via\n80 95 65 1 l\n80 65 65 0 -\n");
    assert_eq!(lines([2, 3]), lines([0, 0]));
}

/// Every done step, departures included, leaves a valid table, and Lookups other than the forwarded one as they were.
#[test]
fn every_step_keeps_the_bound() {
    let (mut forwarded, mut left) = (0, 0);
    for request in Requests::new(7).take(12_000) {
        let Some(Request::Step { action, file } | Request::StepVia { action, file }) =
            Request::parse(&request)
        else {
            continue;
        };
        let Ok(before) = Bench::load(file) else {
            continue;
        };
        let mut after = before.clone();
        if after.step(action) != 0 {
            continue;
        }
        assert!(valid(&after), "{action:?}");
        left += u32::from(matches!(action, Action::NodeLeft { .. }));
        for message in after.waiting() {
            let Message::Lookup { to, key, hops } = *message else {
                assert_eq!(message.fields().hops, 0);
                continue;
            };
            let farther = |slot: &usize| {
                let rank = |slot: usize| Ring::new(after.table.m).rank(key, after.table.id(slot));
                rank(*slot) > rank(to.into())
            };
            assert!(hops as usize <= (0..after.table.n).filter(farther).count());
            if before.waiting().contains(message) {
                continue;
            }
            match (action, action.place().map(|place| before.pool[place])) {
                (Action::Lookup { .. }, _) => assert_eq!(hops, 0),
                (_, Some(taken)) => assert_eq!(hops, taken.fields().hops + 1),
                other => panic!("{other:?} adds {message:?}"),
            }
            forwarded += u32::from(hops > 1);
        }
    }
    assert!(forwarded > 60 && left > 20, "{forwarded} forwarded, {left} left");
}
