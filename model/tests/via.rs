//! T-01, sentence by sentence.

mod common;

use common::{marks, node, Bench, READY, WAIT};
use model::{listing, step_via, Action, Message, Via};

/// Where the hop of a step came from, which must be done.
fn via(bench: &Bench, action: Action) -> Option<Via> {
    let mut bench = bench.clone();
    step_via(&mut bench.table, &mut bench.pool, action).expect("it is done")
}

/// Four ready nodes. The sides of slot 0 have passed each other without meeting, so that its routing set counts.
fn crossed(routing: &[usize]) -> Bench {
    let mut nodes = [0, 40, 130, 160].map(|id| node(id, READY, &[], &[]));
    nodes[0] = node(0, READY, &[3], &[1]);
    nodes[0].routing = marks(routing);
    Bench::of(8, 1, &nodes)
}

/// Where the lookup of a key at slot 0 goes.
fn forwarded(bench: &Bench, key: u64) -> Option<Via> {
    let mut bench = bench.clone();
    bench.lookup(0, key);
    via(&bench, Action::Forward { place: 0 })
}

#[test]
fn a_hop_says_where_it_came_from() {
    assert_eq!(forwarded(&crossed(&[0, 2]), 110), Some(Via::Routing), "slot 2 is in the routing set alone");
    assert_eq!(forwarded(&crossed(&[0, 2]), 148), Some(Via::Leaf), "slot 3 is in the leaf set alone");
    assert_eq!(forwarded(&crossed(&[2, 3]), 148), Some(Via::Leaf), "a node in both counts as leaf set");
    assert_eq!(forwarded(&crossed(&[]), 110), Some(Via::Leaf));
    let whole = Bench::start(8, 1, &[17, 18, 65, 95], &[0, 1, 2, 3]);
    assert_eq!(forwarded(&whole, 80), Some(Via::Leaf), "in both, by the first branch");
}

#[test]
fn routed_join_requests_say_it_too() {
    let mut bench = crossed(&[0, 2]);
    (bench.pool[0], bench.table.count) = (Message::JoinRequest { to: 0, node: 2, routing: 0, hops: 0 }, 1);
    assert_eq!(via(&bench, Action::Take { place: 0 }), Some(Via::Routing));
    bench.table.nodes[0].routing = 0;
    assert_eq!(via(&bench, Action::Take { place: 0 }), Some(Via::Leaf));
    bench.table.nodes[2].id = 150;
    assert_eq!(via(&bench, Action::Take { place: 0 }), None, "it is answered");
}

#[test]
fn every_other_done_step_says_nothing() {
    let mut bench = crossed(&[0, 2]);
    assert_eq!(via(&bench, Action::Lookup { at: 0, key: 110 }), None);
    bench.table.nodes[0].lease = marks(&[1]);
    assert_eq!(via(&bench, Action::LeaseExpired { node: 0, partner: 1 }), None);
    bench.lookup(0, 0);
    assert_eq!(via(&bench, Action::Deliver { place: 0 }), None);
    let mut stuck = crossed(&[]);
    stuck.table.nodes[0].failed = marks(&[1, 2, 3]);
    assert_eq!(forwarded(&stuck, 110), None, "there is no legal route");
}

#[test]
fn it_is_said_also_where_the_message_meets_its_equal() {
    let mut bench = crossed(&[0, 2]);
    bench.lookup(0, 110);
    bench.lookup(2, 110);
    assert_eq!(via(&bench, Action::Forward { place: 0 }), Some(Via::Routing));
    assert_eq!(bench.forward(0), 0);
    assert_eq!(bench.waiting(), [Message::Lookup { to: 2, key: 110, hops: 0 }]);
}

#[test]
fn the_listing_has_a_letter_for_each_routing() {
    let mut bench = crossed(&[0, 2]);
    bench.table.nodes[2].sides.left = marks(&[3]);
    bench.table.nodes[3].status = WAIT;
    for (at, key) in [(0, 140), (0, 0), (0, 147), (3, 9)] {
        bench.lookup(at, key);
    }
    bench.table.nodes[0].failed = marks(&[3]);
    let text = "key from to hops via\n140 0 130 1 r\n0 0 0 0 -\n147 0 - 2 rl\n9 160 - 0 -\n";
    assert_eq!(String::from_utf8(listing(&bench.file())).as_deref(), Ok(text));
}

/// A chain of 64 ready nodes, each of which knows the next one down, and 256 lookups from its upper end.
#[test]
fn the_longest_listing() {
    let id = |slot: u32| 4_000_000_000 + 1_000 * slot;
    let nodes: Vec<_> = (0..64u32)
        .map(|slot| {
            node(id(slot), READY, &[], &slot.checked_sub(1).map_or(vec![], |down| vec![down as usize]))
        })
        .collect();
    let mut bench = Bench::of(32, 1, &nodes);
    for nth in 0..256 {
        bench.lookup(63, u64::from(id(0)) - nth);
    }
    let text = listing(&bench.file());
    assert_eq!(text.len(), 25_621);
    let line = format!("\n4000000000 4000063000 4000000000 63 {}\n", "l".repeat(63));
    assert!(String::from_utf8(text).expect("letters").contains(&line));
}
