//! T-03, sentence by sentence.

mod common;

use common::{marks, node, Bench, DEAD, OK, READY, WAIT};
use model::gen::Requests;
use model::wire::Request;
use model::{is_valid, Action, Message, Node, Sides, Status};

/// Seven ready nodes, L = 2.
fn seven() -> Bench {
    Bench::start(8, 2, &[10, 40, 80, 120, 150, 190, 230], &[0, 1, 2, 3, 4, 5, 6])
}

/// A probe from a node of its leaf set and failed.
fn probe(bench: &Bench, from: usize, to: usize) -> Message {
    let Node { sides, failed, .. } = bench.table.nodes[from];
    Message::LsProbe { to: to as u8, node: from as u8, sides, failed }
}

/// The number of an action that must be refused and leave all as it is.
fn refused(bench: &Bench, action: Action) -> u32 {
    let mut after = bench.clone();
    let number = after.step(action);
    assert!(number != 0 && after == *bench, "{action:?}");
    number
}

/// The bench after an action that must be done.
fn after(bench: &Bench, action: Action) -> Bench {
    let mut after = bench.clone();
    after.done(action);
    after
}

/// The bench with one node changed.
fn with(bench: &Bench, slot: usize, change: impl Fn(&mut Node)) -> Bench {
    let mut bench = bench.clone();
    change(&mut bench.table.nodes[slot]);
    bench
}

#[test]
fn a_node_that_left_is_dead_with_all_sets_empty() {
    for status in [WAIT, OK, READY] {
        let mut bench = with(&seven(), 2, |node| (node.status, node.probing, node.failed) = (status, 1, 2));
        bench.lookup(2, 7);
        let left = after(&bench, Action::NodeLeft { node: 2 });
        assert_eq!(left.table.nodes[2], node(80, DEAD, &[], &[]), "also the routing set");
        assert_eq!(left.waiting(), bench.waiting(), "messages stay");
        assert_eq!(refused(&left, Action::NodeLeft { node: 2 }), 2);
    }
    assert_eq!(refused(&seven(), Action::NodeLeft { node: 7 }), 1);
}

#[test]
fn a_suspect_is_probed() {
    let suspect = |partner: usize| Action::SuspectFaulty { node: 2, partner };
    let bench = with(&seven(), 2, |node| node.failed = marks(&[0]));
    for status in [OK, READY] {
        let bench = with(&bench, 2, |node| node.status = status);
        let probed = after(&bench, suspect(3));
        assert_eq!(probed, {
            let mut wanted = with(&bench, 2, |node| node.probing = marks(&[3]));
            (wanted.pool[0], wanted.table.count) = (probe(&bench, 2, 3), 1);
            wanted
        });
        assert_eq!(refused(&probed, suspect(3)), 5, "it is probed");
    }
    for status in [DEAD, WAIT] {
        assert_eq!(refused(&with(&bench, 2, |node| node.status = status), suspect(2)), 2, "2 before 5");
    }
    assert_eq!(refused(&bench, suspect(2)), 5, "i itself");
    assert_eq!(refused(&bench, suspect(6)), 5, "not in the content");
    assert_eq!(refused(&bench, suspect(0)), 5, "it has failed");
    assert_eq!(refused(&bench, suspect(7)), 1);
}

#[test]
fn a_full_pool_refuses_a_probe_unless_it_waits() {
    let mut bench = with(&seven(), 2, |_| {});
    for place in 0..256 {
        bench.pool[place] = Message::Lookup { to: (place % 7) as u8, key: place as u32, hops: 0 };
    }
    bench.table.count = 256;
    let suspect = Action::SuspectFaulty { node: 2, partner: 3 };
    assert_eq!(refused(&bench, suspect), 6);
    bench.pool[9] = probe(&bench, 2, 3);
    let probed = after(&bench, suspect);
    assert_eq!(
        (probed.table.count, probed.table.nodes[2].probing),
        (256, marks(&[3])),
        "probing gains it all the same"
    );
}

#[test]
fn a_probe_that_times_out() {
    let time_out = Action::ProbeTimeOut { node: 2, partner: 3 };
    let bench = with(&seven(), 2, |node| (node.probing, node.grant) = (marks(&[3, 5]), 0));
    for status in [WAIT, OK, READY] {
        let bench = with(&bench, 2, |node| node.status = status);
        let gone = after(&bench, time_out).table.nodes[2];
        let wanted = Node {
            probing: marks(&[5]),
            failed: marks(&[3]),
            lease: marks(&[0, 1, 2, 4, 5, 6]),
            grant: 0,
            routing: marks(&[0, 1, 2, 3, 4, 5, 6]),
            ..node(80, WAIT, &[4], &[0, 1])
        };
        assert_eq!(gone, wanted, "it leaves the leaf set, and i waits");
        let granted = with(&bench, 2, |node| node.grant = marks(&[3]));
        let kept = after(&granted, time_out).table.nodes[2];
        assert_eq!((kept.status, kept.sides), (status, bench.table.nodes[2].sides), "unless it is granted");
        assert_eq!((kept.failed, kept.probing, kept.grant), (marks(&[3]), marks(&[5]), marks(&[3])));
    }
    let other = after(&bench, Action::ProbeTimeOut { node: 2, partner: 5 });
    assert_eq!(other.status(2), READY, "it was not in the leaf set");
    let dead = with(&bench, 2, |node| node.status = DEAD);
    assert_eq!(refused(&dead, Action::ProbeTimeOut { node: 2, partner: 4 }), 2, "2 before 5");
    assert_eq!(refused(&bench, Action::ProbeTimeOut { node: 2, partner: 4 }), 5);
    assert_eq!(refused(&bench, Action::ProbeTimeOut { node: 2, partner: 2 }), 5);
}

#[test]
fn the_waiting_probes_from_i_to_j_go() {
    let mut bench = with(&seven(), 2, |node| node.probing = marks(&[3]));
    let sides = Sides { left: marks(&[3]), right: marks(&[1]) };
    let probe = |node: u8, to: u8, failed: u64| Message::LsProbe {
        to,
        node,
        sides: Sides { right: 0, ..sides },
        failed,
    };
    let other = Message::LsProbe { to: 3, node: 2, sides: Sides { left: 0, ..sides }, failed: 0 };
    let reply = |node: u8, to: u8| Message::LsProbeReply { to, node, sides: Sides::EMPTY, failed: 0 };
    let all = [
        probe(2, 3, 0),
        Message::Lookup { to: 3, key: 9, hops: 0 },
        probe(2, 3, 4),
        probe(2, 4, 0),
        probe(1, 3, 0),
        reply(2, 3),
        other,
        reply(3, 2),
    ];
    bench.pool[..8].copy_from_slice(&all);
    bench.table.count = 8;
    let gone = after(&bench, Action::ProbeTimeOut { node: 2, partner: 3 });
    assert_eq!(gone.waiting(), [all[1], all[3], all[4], all[5], all[7]], "the rest in order");
    assert!(gone.pool[5..].iter().all(|message| *message == Message::Blank));
}

#[test]
fn a_failed_member_is_declared_dead() {
    let declare = |partner: usize| Action::DeclareDead { node: 2, partner };
    let bench = with(&seven(), 2, |node| (node.failed, node.probing) = (marks(&[3, 4, 6]), marks(&[3])));
    assert_eq!(refused(&bench, declare(3)), 5, "a granted neighbour");
    let far = after(&bench, declare(4)).table.nodes[2];
    assert_eq!((far.status, far.sides.left), (WAIT, marks(&[3])), "granted, and no neighbour");
    for status in [OK, READY] {
        let free = with(&bench, 2, |node| (node.grant, node.status) = (marks(&[4]), status));
        let gone = after(&free, declare(3)).table.nodes[2];
        let wanted = Node {
            status: WAIT,
            sides: Sides { left: marks(&[4]), right: marks(&[0, 1]) },
            ..free.table.nodes[2]
        };
        assert_eq!(gone, wanted, "failed, probing, lease and grant keep it");
    }
    let free = with(&bench, 2, |node| node.grant = 0);
    assert_eq!(refused(&free, declare(1)), 5, "not failed");
    assert_eq!(refused(&free, declare(6)), 5, "not in the content");
    assert_eq!(refused(&free, declare(2)), 5, "i itself");
    for status in [DEAD, WAIT] {
        assert_eq!(refused(&with(&free, 2, |node| node.status = status), declare(1)), 2, "2 before 5");
    }
}

/// Slot 2 waits with these sides, L = 2.
fn waits(left: &[usize], right: &[usize]) -> Bench {
    with(&seven(), 2, |one| *one = Node { failed: marks(&[6]), ..node(80, WAIT, left, right) })
}

#[test]
fn a_repair_probes_the_ends_of_short_sides() {
    let repair = Action::LsRepair { node: 2 };
    for (left, right, ends) in
        [(&[3][..], &[1][..], &[1, 3][..]), (&[3], &[0, 1], &[3]), (&[3, 4], &[0], &[0])]
    {
        let bench = waits(left, right);
        let probed = after(&bench, repair);
        assert_eq!(probed.table.nodes[2], Node { probing: marks(ends), ..bench.table.nodes[2] });
        let sent: Vec<Message> = ends.iter().map(|&to| probe(&bench, 2, to)).collect();
        assert_eq!(probed.waiting(), sent, "rising");
    }
    let wide = with(&waits(&[4, 3], &[1]), 2, |_| {});
    let wide = Bench { table: model::Table { l: 3, ..wide.table }, ..wide };
    assert_eq!(after(&wide, repair).table.nodes[2].probing, marks(&[1, 4]), "the far end");
}

#[test]
fn a_repair_is_refused() {
    let repair = Action::LsRepair { node: 2 };
    for (left, right) in
        [(&[][..], &[1][..]), (&[3], &[]), (&[], &[]), (&[3, 4], &[0, 1]), (&[3], &[3]), (&[3, 1], &[1])]
    {
        let bench = waits(left, right);
        assert_eq!(refused(&bench, repair), 4, "{left:?} {right:?}");
        let busy = with(&bench, 2, |node| node.probing = 1);
        assert_eq!(refused(&busy, repair), 4, "4 before 5");
        for status in [DEAD, OK, READY] {
            assert_eq!(refused(&with(&busy, 2, |node| node.status = status), repair), 2, "2 before 4");
        }
    }
    assert_eq!(refused(&with(&waits(&[3], &[1]), 2, |node| node.probing = 1), repair), 5);
}

#[test]
fn a_node_that_resigns_begins_anew() {
    let resign = Action::ResignNode { node: 2, seed: 5 };
    for (left, right) in [(&[][..], &[][..]), (&[3], &[]), (&[], &[0, 1])] {
        let mut bench =
            with(&waits(left, right), 2, |node| (node.lease, node.grant, node.routing) = (1, 2, 4 + 8));
        let asked = Message::JoinRequest { to: 5, node: 2, routing: 0, hops: 0 };
        let wanted = Node { routing: marks(&[2]), ..node(80, WAIT, &[], &[]) };
        let resigned = after(&bench, resign);
        assert_eq!((resigned.table.nodes[2], resigned.waiting()), (wanted, &[asked][..]));
        (bench.pool[0], bench.table.count) = (asked, 1);
        assert_eq!(after(&bench, resign), resigned, "the very same request waits");
    }
}

#[test]
fn resigning_is_refused() {
    let resign = Action::ResignNode { node: 2, seed: 5 };
    let mut bench = with(&waits(&[3], &[1]), 2, |node| node.probing = 1);
    bench.pool[0] = Message::JoinReply { to: 2, owner: 5, routing: 0, sides: Sides::EMPTY };
    bench.table.count = 1;
    for status in [DEAD, OK, READY] {
        assert_eq!(refused(&with(&bench, 2, |node| node.status = status), resign), 2, "2 before 3");
    }
    for status in [DEAD, WAIT, OK] {
        assert_eq!(refused(&with(&bench, 5, |node| node.status = status), resign), 2, "the seed");
    }
    assert_eq!(refused(&bench, Action::ResignNode { node: 2, seed: 2 }), 2, "it waits itself");
    assert_eq!(refused(&bench, resign), 3, "3 before 4");
    bench.table.count = 0;
    assert_eq!(refused(&bench, resign), 4, "4 before 5");
    assert_eq!(refused(&with(&bench, 2, |node| node.sides.left = 0), resign), 5);
    assert_eq!(refused(&bench, Action::ResignNode { node: 2, seed: 7 }), 1);
}

/// As `waits`, and all others are dead.
fn deserted(left: &[usize], right: &[usize]) -> Bench {
    let mut bench = waits(left, right);
    bench.table.nodes[..7].iter_mut().filter(|node| node.status == READY).for_each(|node| node.status = DEAD);
    bench
}

#[test]
fn a_recovery_probes_the_end_of_the_one_side() {
    let recover = Action::Recover { node: 2 };
    for (left, right, end) in [(&[3, 4][..], &[][..], 4), (&[], &[0, 1], 0), (&[3], &[], 3)] {
        let bench = deserted(left, right);
        let probed = after(&bench, recover);
        assert_eq!(probed.table.nodes[2], Node { probing: marks(&[end]), ..bench.table.nodes[2] });
        assert_eq!(probed.waiting(), [probe(&bench, 2, end)]);
    }
    for (left, right) in [(&[][..], &[][..]), (&[3], &[1])] {
        let bench = with(&deserted(left, right), 2, |node| node.probing = 1);
        assert_eq!(refused(&bench, recover), 4, "4 before 5");
        for status in [OK, READY] {
            assert_eq!(refused(&with(&bench, 6, |node| node.status = status), recover), 2, "any node");
        }
        for status in [DEAD, OK, READY] {
            assert_eq!(refused(&with(&bench, 2, |node| node.status = status), recover), 2, "itself");
        }
    }
    assert_eq!(refused(&with(&deserted(&[3], &[]), 2, |node| node.probing = 1), recover), 5);
}

/// A node that left is refused while its old JoinRequest waits, and a stale JoinReply may be taken after the next Join.
#[test]
fn stale_mail() {
    let mut bench = Bench::start(8, 1, &[17, 18, 65, 95], &[0, 1, 2]);
    let join = Action::Join { node: 3, seed: 2 };
    bench.done(join);
    bench.done(Action::NodeLeft { node: 3 });
    assert_eq!(refused(&bench, join), 3);
    bench.done(Action::Take { place: 0 });
    bench.done(join);
    assert_eq!(bench.waiting().iter().map(|m| m.fields().kind).collect::<Vec<u32>>(), [3, 2]);
    bench.done(Action::Take { place: 0 });
    assert_eq!(bench.table.nodes[3].probing, marks(&[0, 2]), "by the stale one");
}

/// A wait node with overlapping sides after DeclareDead: no repair takes it.
#[test]
fn a_dead_end() {
    let mut bench = Bench::start(8, 2, &[17, 18, 65, 95], &[0, 1, 2, 3]);
    bench.done(Action::NodeLeft { node: 3 });
    bench.done(Action::SuspectFaulty { node: 0, partner: 3 });
    bench.done(Action::GrantExpired { node: 0, partner: 3 });
    bench.done(Action::ProbeTimeOut { node: 0, partner: 3 });
    assert_eq!((bench.status(0), bench.table.count), (WAIT, 0));
    assert_eq!(refused(&bench, Action::LsRepair { node: 0 }), 4);
    assert_eq!(refused(&bench, Action::ResignNode { node: 0, seed: 1 }), 4);
    assert_eq!(refused(&bench, Action::Recover { node: 0 }), 2);
}

/// Every done step of generated tables leaves a valid table with the same ids, M, L and n.
#[test]
fn validity_and_ids_are_kept() {
    let mut done = 0;
    for request in Requests::new(33).take(12_000) {
        let Some(Request::Step { action, file } | Request::StepVia { action, file }) =
            Request::parse(&request)
        else {
            continue;
        };
        let Ok(before) = Bench::load(file) else {
            continue;
        };
        let mut bench = before.clone();
        if bench.step(action) == 0 {
            done += 1;
            assert!(is_valid(&bench.table, &bench.pool), "{action:?}");
            let frame = |bench: &Bench| (bench.table.m, bench.table.l, bench.table.nodes.map(|node| node.id));
            assert_eq!(frame(&bench), frame(&before));
        }
    }
    assert!(done > 2_000, "{done}");
    assert_eq!(Status::ALL.len(), 4);
}
