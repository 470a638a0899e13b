//! A roof is serviced (T-03): its controller is switched off in a settled ring, the others repair, and it comes back.

mod common;

use common::{Bench, DEAD, OK, READY, WAIT};
use model::Action;

/// So many ready nodes, evenly apart.
fn estate(l: u64, n: usize) -> Bench {
    let ids: Vec<u32> = (0..n as u32).map(|slot| 10 + 15 * slot).collect();
    Bench::start(10, l, &ids, &(0..n).collect::<Vec<usize>>())
}

/// Takes what waits, oldest first, passing over what is refused, until nothing more is done; counts the steps.
fn quiet(bench: &mut Bench) -> usize {
    let mut steps = 0;
    while let Some(place) = (0..bench.table.count).find(|&place| bench.clone().take(place) == 0) {
        bench.done(Action::Take { place });
        steps += 1;
        assert!(steps < 10_000, "it does not become quiet");
    }
    steps
}

/// Whether the node has d in its leaf set.
fn knows(bench: &Bench, i: usize, d: usize) -> bool {
    let sides = bench.table.nodes[i].sides;
    (sides.left | sides.right) >> d & 1 == 1
}

/// The node i finds out that d is gone and repairs its leaf set; whether it is ok then.
fn repairs(bench: &mut Bench, i: usize, d: usize) -> bool {
    let partner = d;
    // 5 where i probes d already, told of it by another's failed.
    let number = bench.step(Action::SuspectFaulty { node: i, partner });
    assert!(number == 0 || number == 5, "{number}");
    bench.step(Action::ProbeTimeOut { node: i, partner });
    bench.step(Action::GrantExpired { node: i, partner });
    bench.step(Action::DeclareDead { node: i, partner });
    bench.step(Action::LsRepair { node: i });
    quiet(bench);
    bench.status(i) == OK
}

/// The leases of i expire, and it asks its neighbours anew; whether it is ready then. They grant once they too have
/// declared d dead.
fn renews(bench: &mut Bench, i: usize) -> bool {
    for partner in 0..bench.table.n {
        bench.step(Action::LeaseExpired { node: i, partner });
    }
    bench.step(Action::RequestLease { node: i });
    quiet(bench);
    bench.status(i) == READY
}

/// The first half: d leaves, each node that knows it repairs, then each renews its leases; whether the rest is settled.
fn switched_off(bench: &mut Bench, d: usize) -> bool {
    bench.done(Action::NodeLeft { node: d });
    let all: Vec<usize> = (0..bench.table.n).filter(|&i| i != d && knows(bench, i, d)).collect();
    all.iter().all(|&i| repairs(bench, i, d))
        && all.iter().all(|&i| renews(bench, i))
        && bench.settled()
        && (0..bench.table.n).all(|i| bench.status(i) == if i == d { DEAD } else { READY })
}

/// The second half: d joins again; whether all is settled with it.
fn switched_on(bench: &mut Bench, d: usize) -> bool {
    let seed = (d + 1) % bench.table.n;
    if bench.step(Action::Join { node: d, seed }) != 0 {
        return false;
    }
    quiet(bench);
    bench.step(Action::RequestLease { node: d });
    quiet(bench);
    bench.settled() && (0..bench.table.n).all(|i| bench.status(i) == READY)
}

#[test]
fn a_roof_is_serviced() {
    let (mut bench, d) = (estate(2, 7), 3);
    assert!(bench.settled(), "before");
    assert!(switched_off(&mut bench, d), "between");
    assert_eq!(bench.table.count, 0);
    assert!((0..7).all(|i| !knows(&bench, i, d)));
    assert!(switched_on(&mut bench, d), "after");
    assert_eq!(bench.table.count, 0);
    assert!([1, 2, 4, 5].iter().all(|&i| knows(&bench, i, d)));
}

/// Whether the order works whichever node is switched off.
fn works(l: u64, n: usize) -> bool {
    (0..n).all(|d| {
        let mut bench = estate(l, n);
        switched_off(&mut bench, d) && switched_on(&mut bench, d)
    })
}

/// The order works from 2L + 2 nodes on, L from 2. With L = 1 a side that loses its one member is empty, and LSRepair
/// answers 4; in a smaller estate the sides that are left overlap, and it answers 4 too.
#[test]
fn how_large_an_estate_must_be() {
    for l in 1..=4 {
        let fit: Vec<usize> = (2..=24).filter(|&n| works(l, n)).collect();
        println!("L = {l}: {}", ranges(&fit));
        let least = if l == 1 { 25 } else { 2 * l as usize + 2 };
        assert_eq!(fit, (least..=24).collect::<Vec<usize>>());
    }
}

/// Rising numbers in short.
fn ranges(numbers: &[usize]) -> String {
    let runs = numbers.chunk_by(|one, next| one + 1 == *next);
    let run = |run: &[usize]| match run {
        [one] => one.to_string(),
        _ => format!("{} to {}", run[0], run[run.len() - 1]),
    };
    let text: Vec<String> = runs.map(run).collect();
    if text.is_empty() {
        "none".to_string()
    } else {
        text.join(", ")
    }
}

#[test]
fn with_one_leaf_on_a_side_the_neighbours_wait() {
    let mut bench = estate(1, 7);
    assert!(!switched_off(&mut bench, 3));
    assert_eq!(bench.status(2), WAIT);
}

/// Where each node repairs and renews before the next one begins, the first neighbour of d stays ok: the other one still
/// has d as neighbour, and grants nothing. It asks again at the end.
#[test]
fn in_one_sweep_the_first_neighbour_asks_twice() {
    let (mut bench, d) = (estate(2, 7), 3);
    bench.done(Action::NodeLeft { node: d });
    for i in [1, 2, 4, 5] {
        assert!(repairs(&mut bench, i, d));
        assert_eq!(renews(&mut bench, i), i != 2, "slot {i}");
    }
    assert!(!bench.settled());
    bench.done(Action::RequestLease { node: 2 });
    quiet(&mut bench);
    assert!(bench.settled());
    assert!(switched_on(&mut bench, d));
}
