//! What the notes found true or false by search: joins that work and small tables that show a need.

mod common;

use common::{marks, node, Bench, Hop, DEAD, OK, READY, WAIT};
use model::{listing, Action, Message};

/// Joins `node` at `seed` and takes what waits, oldest first, until nothing does.
fn join(bench: &mut Bench, node: usize, seed: usize) -> usize {
    let mut steps = 1;
    bench.done(Action::Join { node, seed });
    steps += drain(bench);
    assert_eq!(bench.status(node), OK);
    bench.done(Action::RequestLease { node });
    steps + 1 + drain(bench)
}

fn drain(bench: &mut Bench) -> usize {
    let mut steps = 0;
    while bench.table.count > 0 {
        assert_eq!(bench.take(0), 0);
        steps += 1;
    }
    steps
}

#[test]
fn a_lone_node_takes_a_second() {
    let mut bench = Bench::start(8, 1, &[17, 18, 65, 95], &[1]);
    bench.done(Action::Join { node: 0, seed: 1 });
    for kind in [2, 3, 4, 5] {
        assert_eq!(bench.status(0), WAIT);
        assert_eq!(bench.waiting().iter().map(|m| m.fields().kind).collect::<Vec<u32>>(), [kind]);
        assert_eq!(bench.take(0), 0);
    }
    assert_eq!(bench.status(0), OK);
    bench.done(Action::RequestLease { node: 0 });
    assert_eq!(bench.waiting(), [Message::LeaseRequest { to: 1, node: 0 }]);
    assert_eq!(bench.take(0), 0);
    assert_eq!(bench.take(0), 0);
    assert_eq!(bench.status(0), READY);
    assert!(bench.settled());
}

#[test]
fn a_whole_ring_joins() {
    let mut bench = Bench::start(8, 1, &[17, 18, 65, 95], &[1]);
    let steps = join(&mut bench, 0, 1) + join(&mut bench, 2, 1) + join(&mut bench, 3, 1);
    assert_eq!(steps, 33);
    assert!((0..4).all(|slot| bench.status(slot) == READY));
    assert!(bench.settled());
}

#[test]
fn a_short_ring_becomes_ready() {
    let mut bench = Bench::start(8, 4, &[17, 18, 65, 95], &[0, 1, 2]);
    bench.done(Action::Join { node: 3, seed: 0 });
    for _ in 0..9 {
        assert_eq!(bench.take(0), 0);
    }
    assert_eq!(bench.status(3), OK);
    bench.done(Action::RequestLease { node: 3 });
    assert_eq!(bench.take(0), 0);
    assert_eq!(bench.take(0), 0);
    assert_eq!(bench.take(0), 0, "a broadcast needs both sides full, or sides that overlap");
    assert_eq!(bench.take(0), 0);
    assert_eq!(bench.status(3), READY);
    assert!(bench.settled());
}

#[test]
fn the_routing_branch_decides_in_a_loaded_table() {
    let mut nodes = [0, 40, 100, 200].map(|id| node(id, READY, &[], &[]));
    nodes[0] = node(0, READY, &[3], &[1]);
    nodes[0].routing = marks(&[0, 1, 2, 3]);
    assert_eq!(Bench::of(8, 1, &nodes).hop(0, 110), Hop::To(2));
}

#[test]
fn a_cover_may_hold_a_key_nearer_to_a_neighbour() {
    let nodes = [node(0, READY, &[2], &[1]), node(1, READY, &[], &[]), node(2, READY, &[], &[])];
    assert_eq!(Bench::of(2, 1, &nodes).hop(0, 1), Hop::Delivered);
}

#[test]
fn a_node_with_one_empty_side() {
    let far = Bench::of(8, 1, &[node(10, READY, &[1], &[]), node(12, READY, &[], &[])]);
    assert_ne!(far.hop(0, 10), Hop::Delivered);
    let near = Bench::of(8, 1, &[node(10, READY, &[1], &[]), node(11, READY, &[], &[])]);
    assert!((0..256).all(|key| near.hop(0, key) == Hop::Delivered));
}

#[test]
fn the_bound_of_routings_is_reached() {
    let n = 16usize;
    let below = |slot: usize| if slot == 0 { vec![] } else { vec![slot - 1] };
    let nodes: Vec<_> = (0..n).map(|slot| node(slot as u32, READY, &[], &below(slot))).collect();
    let mut bench = Bench::of(8, 1, &nodes);
    bench.lookup(n - 1, 0);
    assert_eq!(listing(&bench.file()), b"key from to hops via\n0 15 0 15 lllllllllllllll\n");
}

#[test]
fn a_waiting_node_holds_a_key_up() {
    let nodes = [node(0, READY, &[1, 2], &[1]), node(1, READY, &[0], &[0]), node(2, WAIT, &[], &[])];
    let mut bench = Bench::of(2, 2, &nodes);
    assert!(!bench.settled());
    bench.lookup(0, 2);
    assert_eq!(listing(&bench.file()), b"key from to hops via\n2 0 - 1 l\n");
    assert_eq!(bench.forward(0), 0);
    assert_eq!([bench.deliver(0), bench.forward(0)], [2, 2]);
}

#[test]
fn a_wrong_neighbour_loses_a_key() {
    let left = Bench::of(2, 1, &[node(0, DEAD, &[], &[]), node(1, READY, &[0], &[])]);
    assert!(!left.settled());
    assert_eq!(left.hop(1, 0), Hop::NoRoute);
    let right = Bench::of(2, 1, &[node(0, READY, &[], &[1]), node(1, DEAD, &[], &[])]);
    assert!(!right.settled());
    assert_eq!(right.hop(0, 1), Hop::NoRoute);
}

#[test]
fn a_failed_ready_node_loses_a_key() {
    let mut nodes = [node(0, READY, &[1], &[1]), node(1, READY, &[0], &[0])];
    assert!(Bench::of(2, 1, &nodes).settled());
    nodes[0].failed = marks(&[1]);
    let bench = Bench::of(2, 1, &nodes);
    assert!(!bench.settled());
    assert_eq!(bench.hop(0, 1), Hop::NoRoute);
}

#[test]
fn two_lookups_of_a_key_merge() {
    let mut bench = Bench::start(2, 1, &[0, 2], &[0, 1]);
    bench.lookup(0, 2);
    bench.lookup(1, 2);
    assert_eq!(bench.forward(0), 0);
    assert_eq!(bench.waiting(), [Message::Lookup { to: 1, key: 2, hops: 0 }]);
    assert_eq!(bench.deliver(0), 0);
    assert!(bench.waiting().is_empty());
}

#[test]
fn a_step_between_holds_a_key_up() {
    let mut bench = Bench::start(2, 1, &[0, 2], &[0, 1]);
    bench.lookup(0, 2);
    assert_eq!(bench.forward(0), 0);
    bench.done(Action::LeaseExpired { node: 1, partner: 0 });
    assert_eq!([bench.deliver(0), bench.forward(0)], [2, 2]);
}

#[test]
fn a_key_that_nobody_covers() {
    let nodes = [node(0, READY, &[1], &[2]), node(1, WAIT, &[], &[]), node(2, READY, &[0], &[1])];
    let bench = Bench::of(2, 1, &nodes);
    assert_ne!(bench.hop(0, 1), Hop::Delivered);
    assert_ne!(bench.hop(2, 1), Hop::Delivered);
}

#[test]
fn the_tie_is_judged_on_the_ring() {
    // Key 0 lies half-way between 1 and 15; 15 is below it.
    let nodes = [node(1, READY, &[], &[]), node(8, READY, &[2], &[0]), node(15, READY, &[], &[])];
    assert_eq!(Bench::of(4, 1, &nodes).hop(1, 0), Hop::To(2));
}

#[test]
fn no_legal_route_never_leaves() {
    for status in [DEAD, WAIT, OK, READY] {
        let mut bench = Bench::of(2, 1, &[node(0, status, &[], &[])]);
        bench.pool[0] = Message::NoLegalRoute { to: 0, key: 3, hops: 0 };
        bench.table.count = 1;
        assert_eq!([bench.take(0), bench.deliver(0), bench.forward(0)], [5, 5, 5]);
    }
}
