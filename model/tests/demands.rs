//! Demand 3 on generated tables: a routed lookup comes nearer, and in a settled table it is delivered
//! at the nearest ready node.

mod common;
mod slow;

use common::{Bench, Hop, READY};
use model::gen::{Requests, Rng};
use model::wire::Request;
use model::Status;

/// The valid tables among generated requests, without their messages.
fn tables(seed: u64, count: usize) -> Vec<Bench> {
    let mut requests = Requests::new(seed);
    let mut tables = Vec::new();
    for _ in 0..count {
        let mut bytes = Vec::new();
        requests.put(&mut bytes);
        let file = match Request::parse(&bytes) {
            Some(Request::Step { file, .. } | Request::StepVia { file, .. }) => file,
            Some(Request::Settled { file } | Request::List { file }) => file,
            _ => continue,
        };
        if let Ok(mut bench) = Bench::load(file) {
            bench.table.count = 0;
            tables.push(bench);
        }
    }
    tables
}

fn id(bench: &Bench, slot: usize) -> i64 {
    bench.table.nodes[slot].id.into()
}

fn slots(bench: &Bench, status: Status) -> Vec<usize> {
    (0..bench.table.n).filter(|&slot| bench.status(slot) == status).collect()
}

/// Keys of the ring: all of a small one, some of a large one.
fn keys(rng: &mut Rng, m: u32) -> Vec<i64> {
    match m {
        0..=4 => (0..1 << m).collect(),
        _ => (0..8).map(|_| (rng.any() >> (64 - m)) as i64).collect(),
    }
}

#[test]
fn a_routed_lookup_comes_nearer() {
    let mut rng = Rng::new(11);
    let mut routed = 0;
    for bench in tables(11, 6_000) {
        let m = bench.table.m;
        for at in slots(&bench, READY).into_iter().take(4) {
            for key in keys(&mut rng, m) {
                if let Hop::To(hop) = bench.hop(at, key as u64) {
                    routed += 1;
                    assert!(slow::ring::nearer(m, key, id(&bench, hop), id(&bench, at)));
                    assert_ne!(bench.status(hop), Status::Dead);
                    assert_eq!(bench.table.nodes[at].failed >> hop & 1, 0);
                }
            }
        }
    }
    assert!(routed > 10_000, "{routed}");
}

#[test]
fn a_settled_table_delivers_at_the_nearest_ready_node() {
    let mut rng = Rng::new(12);
    let mut seen = 0;
    for bench in tables(12, 10_000).into_iter().filter(Bench::settled) {
        seen += 1;
        let m = bench.table.m;
        let ready = slots(&bench, READY);
        for key in keys(&mut rng, m) {
            let farther =
                |slot: usize, than: usize| slow::ring::nearer(m, key, id(&bench, than), id(&bench, slot));
            let nearest =
                ready.iter().copied().find(|&slot| ready.iter().all(|&other| !farther(slot, other)));
            for &from in &ready {
                let mut at = from;
                let mut hops = 0;
                while let Hop::To(hop) = bench.hop(at, key as u64) {
                    at = hop;
                    hops += 1;
                }
                assert_eq!(bench.hop(at, key as u64), Hop::Delivered);
                assert_eq!(Some(at), nearest);
                assert!(hops < ready.len());
            }
        }
    }
    assert!(seen > 200, "{seen}");
}
