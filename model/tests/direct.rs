//! Calls with tables, lists and buffers handed in directly.

mod common;

use common::{marks, node, number, Bench, DEAD, OK, READY, WAIT};
use model::{is_valid, load, settled, start, step, write, Action, Message, Node, Sides, Table};

const IDS: [u32; 4] = [17, 18, 65, 95];

fn worked() -> Bench {
    Bench::start(8, 1, &IDS, &[0, 1, 2, 3])
}

/// A bench of four with junk in the places past the count.
fn dirty() -> Bench {
    let mut bench = worked();
    bench.lookup(0, 80);
    bench.lookup(2, 200);
    for place in 2..256 {
        bench.pool[place] = Message::LeaseRequest { to: 200, node: place as u8 };
    }
    bench
}

/// Tables that are not valid, each for one reason.
fn invalid() -> Vec<(&'static str, Bench)> {
    let mut all = Vec::new();
    let mut case = |name, change: &dyn Fn(&mut Bench)| {
        let mut bench = dirty();
        change(&mut bench);
        all.push((name, bench));
    };
    case("M below 2", &|b| b.table.m = 1);
    case("M above 32", &|b| b.table.m = 33);
    case("L is 0", &|b| b.table.l = 0);
    case("L above 8", &|b| b.table.l = 9);
    case("n is 0", &|b| b.table.n = 0);
    case("n above 64", &|b| b.table.n = 65);
    case("count above 256", &|b| b.table.count = 257);
    case("ids repeat", &|b| b.table.nodes[1].id = 17);
    case("ids fall", &|b| b.table.nodes[1].id = 16);
    case("id at 2^M", &|b| b.table.nodes[3].id = 256);
    case("mark at n", &|b| b.table.nodes[0].grant |= 1 << 4);
    case("side above L", &|b| b.table.nodes[0].sides.left = marks(&[1, 2]));
    case("self in left", &|b| b.table.nodes[0].sides.left = marks(&[0]));
    case("self in right", &|b| b.table.nodes[0].sides.right = marks(&[0]));
    case("self in probing", &|b| b.table.nodes[0].probing = marks(&[0]));
    case("self in failed", &|b| b.table.nodes[0].failed = marks(&[0]));
    case("slot past n not blank", &|b| b.table.nodes[4].id = 1);
    case("blank message", &|b| b.pool[1] = Message::Blank);
    case("equal messages", &|b| b.pool[1] = b.pool[0]);
    case("destination at n", &|b| b.pool[1] = Message::Lookup { to: 4, key: 0, hops: 0 });
    case("key at 2^M", &|b| b.pool[1] = Message::Lookup { to: 0, key: 256, hops: 0 });
    case("hops above the nodes farther", &|b| b.pool[1] = Message::Lookup { to: 0, key: 200, hops: 4 });
    case("equal but for hops", &|b| b.pool[1] = Message::Lookup { to: 0, key: 80, hops: 1 });
    case("hops of a JoinRequest", &|b| {
        b.pool[1] = Message::JoinRequest { to: 0, node: 1, routing: 0, hops: 1 };
    });
    case("hops of a NoLegalRoute", &|b| b.pool[1] = Message::NoLegalRoute { to: 0, key: 80, hops: 1 });
    case("node at n", &|b| b.pool[1] = Message::LeaseRequest { to: 0, node: 4 });
    case("carried mark at n", &|b| b.pool[1] = Message::JoinRequest { to: 0, node: 1, routing: 16, hops: 0 });
    let owner =
        |owner, left| Message::BroadcastLSet { to: 0, owner, sides: Sides { left, right: 0 }, grant: true };
    case("owner at n", &|b| b.pool[1] = owner(4, 0));
    case("owner at 255", &|b| b.pool[1] = owner(255, 0));
    case("owner in its side", &|b| b.pool[1] = owner(1, 2));
    case("carried side above L", &|b| b.pool[1] = owner(0, 6));
    all
}

#[test]
fn an_invalid_table_is_10_before_anything_else() {
    assert!(is_valid(&dirty().table, &dirty().pool));
    for (name, bench) in invalid() {
        assert!(!is_valid(&bench.table, &bench.pool), "{name}");
        let mut after = bench.clone();
        assert_eq!(after.step(Action::Take { place: 999 }), 10, "{name}");
        assert_eq!(after.step(Action::Lookup { at: 0, key: 1 }), 10, "{name}");
        assert_eq!(after, bench, "{name}");
        assert_eq!(number(settled(&bench.table, &bench.pool)), 10, "{name}");
        assert_eq!(number(write(&bench.table, &bench.pool, &mut [])), 10, "{name}");
    }
}

#[test]
fn a_list_without_256_places_is_10() {
    for places in [0, 1, 255, 257] {
        let mut bench = worked();
        let before = bench.table;
        let mut pool = vec![Message::Blank; places];
        let action = Action::Lookup { at: 99, key: 0 };
        assert_eq!(number(step(&mut bench.table, &mut pool, action)), 10);
        assert_eq!(number(write(&bench.table, &pool, &mut [])), 10);
        assert_eq!(number(settled(&bench.table, &pool)), 10);
        assert_eq!(number(start(0, 0, &[], 0, &mut bench.table, &mut pool)), 10);
        assert_eq!(bench.table, before);
        let mut file = bench.file();
        assert_eq!(number(load(&file, &mut bench.table, &mut pool)), 10);
        file[28] = 1;
        assert_eq!(number(load(&file, &mut bench.table, &mut pool)), 8);
        file[28] = 0;
        file.push(0);
        assert_eq!(number(load(&file, &mut bench.table, &mut pool)), 9);
        assert_eq!(number(load(&file[..31], &mut bench.table, &mut pool)), 7);
        assert_eq!(bench.table, before);
    }
}

#[test]
fn done_steps_blank_the_places_past_the_count_and_refused_ones_do_not() {
    let mut bench = dirty();
    let before = bench.clone();
    assert_eq!(bench.step(Action::Lookup { at: 0, key: 80 }), 3);
    assert_eq!(bench, before);
    let all = marks(&[0, 1, 2, 3]);
    bench.table.nodes[0].status = OK;
    assert_eq!(bench.table.nodes[0].lease, all);
    bench.done(Action::RequestLease { node: 0 });
    assert_eq!(bench.table.count, 2, "both leases are held");
    assert!(bench.pool[2..].iter().all(|m| *m == Message::Blank));
    let mut bench = dirty();
    assert_eq!(bench.forward(0), 0);
    assert_eq!(
        bench.waiting(),
        [Message::Lookup { to: 2, key: 200, hops: 0 }, Message::Lookup { to: 3, key: 80, hops: 1 }]
    );
    assert!(bench.pool[2..].iter().all(|m| *m == Message::Blank));
}

#[test]
fn arguments_out_of_range_are_1() {
    let bench = dirty();
    let far = usize::MAX;
    let actions = [
        Action::Lookup { at: 4, key: 0 },
        Action::Lookup { at: 0, key: 256 },
        Action::Lookup { at: 0, key: 1 << 32 },
        Action::Join { node: 4, seed: 0 },
        Action::Join { node: 0, seed: far },
        Action::RequestLease { node: 64 },
        Action::LeaseExpired { node: 0, partner: 4 },
        Action::GrantExpired { node: far, partner: 0 },
        Action::Take { place: 2 },
        Action::Take { place: 256 },
        Action::Take { place: far },
        Action::Deliver { place: 2 },
        Action::Forward { place: 256 },
    ];
    for action in actions {
        let mut after = bench.clone();
        assert_eq!(after.step(action), 1, "{action:?}");
        assert_eq!(after, bench);
    }
}

#[test]
fn a_write_changes_the_first_total_bytes_only() {
    let bench = dirty();
    let file = bench.file();
    assert_eq!(file.len(), 32 + 4 * 64 + 2 * 56);
    let mut small = vec![7; file.len() - 1];
    assert_eq!(number(write(&bench.table, &bench.pool, &mut small)), 11);
    assert!(small.iter().all(|byte| *byte == 7));
    let mut large = vec![7; file.len() + 9];
    assert_eq!(write(&bench.table, &bench.pool, &mut large), Ok(file.len()));
    assert_eq!(large[..file.len()], file);
    assert_eq!(large[file.len()..], [7; 9]);
}

#[test]
fn starts_are_refused_in_order() {
    let cases: [(u64, u64, &[u32], u64, u32); 14] = [
        (8, 1, &IDS, 15, 0),
        (1, 1, &IDS, 0, 8),
        (33, 1, &IDS, 15, 8),
        (8 + (1 << 32), 1, &IDS, 15, 8),
        (8, 0, &IDS, 15, 8),
        (8, 9, &IDS, 15, 8),
        (8, 1, &[], 1, 8),
        (8, 1, &[3; 65], 1, 8),
        (8, 1, &[18, 17], 3, 10),
        (8, 1, &[17, 17], 3, 10),
        (8, 1, &[17, 256], 3, 10),
        (8, 1, &IDS, 0, 10),
        (8, 1, &IDS, 16, 10),
        (8, 1, &IDS, 31, 10),
    ];
    for (m, l, ids, ready, wanted) in cases {
        let mut bench = dirty();
        let before = bench.clone();
        let got = number(start(m, l, ids, ready, &mut bench.table, &mut bench.pool));
        assert_eq!(got, wanted, "{m} {l} {ids:?} {ready}");
        assert_eq!(bench == before, wanted != 0);
    }
}

#[test]
fn a_start_fills_the_table() {
    let bench = Bench::start(8, 1, &IDS, &[1, 3]);
    let both = marks(&[1, 3]);
    let ready = |id, other: usize| Node {
        routing: both,
        lease: both,
        grant: both,
        ..node(id, READY, &[other], &[other])
    };
    let dead = |id, slot: usize| Node { routing: marks(&[slot]), ..node(id, DEAD, &[], &[]) };
    assert_eq!(bench, Bench::of(8, 1, &[dead(17, 0), ready(18, 3), dead(65, 2), ready(95, 1)]));
    assert!(bench.settled());
}

#[test]
fn joins_are_refused_in_order() {
    let mut bench = Bench::start(8, 1, &IDS, &[1]);
    assert_eq!(bench.step(Action::Join { node: 1, seed: 1 }), 2);
    assert_eq!(bench.step(Action::Join { node: 0, seed: 2 }), 2);
    bench.done(Action::Join { node: 0, seed: 1 });
    assert_eq!(bench.step(Action::Join { node: 0, seed: 1 }), 2, "2 before 3");
    bench.table.nodes[0].status = DEAD;
    bench.table.nodes[0].sides.left = marks(&[1]);
    assert_eq!(bench.step(Action::Join { node: 0, seed: 1 }), 3, "3 before 4");
    bench.table.count = 0;
    assert_eq!(bench.step(Action::Join { node: 0, seed: 1 }), 4);
}

#[test]
fn the_pool_holds_256() {
    let mut bench = Bench::start(16, 1, &[1, 2, 3], &[0, 1, 2]);
    for key in 0..256 {
        bench.lookup(0, 1000 + key);
    }
    let before = bench.clone();
    assert_eq!(bench.step(Action::Lookup { at: 0, key: 5 }), 6);
    assert_eq!(bench.step(Action::Lookup { at: 0, key: 1000 }), 3, "3 before 6");
    assert_eq!(bench, before);
    assert_eq!(bench.forward(0), 0, "the message taken makes room");
    assert_eq!(bench.table.count, 256);
}

#[test]
fn a_full_pool_refuses_probes_that_find_no_room() {
    let mut bench =
        Bench::of(16, 1, &[node(1, WAIT, &[], &[]), node(2, READY, &[], &[]), node(3, READY, &[], &[])]);
    let sides = Sides { left: marks(&[2]), right: 0 };
    bench.pool[0] = Message::JoinReply { to: 0, owner: 1, routing: 0, sides };
    for place in 1..256 {
        bench.pool[place] = Message::Lookup { to: 0, key: place as u32, hops: 0 };
    }
    bench.table.count = 256;
    let before = bench.clone();
    assert_eq!(bench.take(0), 6, "two probes, one place");
    assert_eq!(bench, before);
    let sides = Sides { left: marks(&[1]), right: marks(&[2]) };
    bench.pool[1] = Message::LsProbe { to: 1, node: 0, sides, failed: 0 };
    assert_eq!(bench.take(0), 0, "one of the probes waits already");
    assert_eq!(bench.table.count, 256);
    assert_eq!(bench.pool[255], Message::LsProbe { to: 2, node: 0, sides, failed: 0 });
}

#[test]
fn a_table_of_64_nodes_at_32_bits() {
    let ids: Vec<u32> = (0..64u32).map(|slot| slot << 26 | slot).collect();
    let all: Vec<usize> = (0..64).collect();
    let bench = Bench::start(32, 8, &ids, &all);
    assert!(bench.settled());
    assert_eq!(Bench::load(&bench.file()), Ok(bench));
    assert_eq!(Table::BLANK.count, 0);
}
