//! What waits for a node (T-06).

mod common;

use common::{number, Bench};
use model::{first_waiting, Action, Message};

fn first(bench: &Bench, slot: u64) -> Option<usize> {
    first_waiting(&bench.table, &bench.pool, slot).expect("the slot is listed")
}

fn firsts(bench: &Bench) -> Vec<Option<usize>> {
    (0..bench.table.n as u64).map(|slot| first(bench, slot)).collect()
}

fn refused(bench: &Bench, slot: u64) -> u32 {
    number(first_waiting(&bench.table, &bench.pool, slot))
}

/// The ring of the worked ids, with these lookups.
fn worked(lookups: &[(usize, u64)]) -> Bench {
    let mut bench = Bench::start(8, 1, &[17, 18, 65, 95], &[0, 1, 2]);
    lookups.iter().for_each(|&(at, key)| bench.lookup(at, key));
    bench
}

#[test]
fn the_first_of_each_node_is_told() {
    assert_eq!(firsts(&worked(&[])), [None; 4], "nothing waits");
    let mut bench = worked(&[(2, 0), (0, 80), (2, 200), (0, 3), (3, 3)]);
    assert_eq!(firsts(&bench), [Some(1), None, Some(0), Some(4)], "also for the dead one");
    assert_eq!(bench.forward(0), 0);
    assert_eq!(bench.waiting().last(), Some(&Message::Lookup { to: 0, key: 0, hops: 1 }));
    assert_eq!(firsts(&bench), [Some(0), None, Some(1), Some(3)], "those behind it move up");
    assert_eq!(Bench::load(&bench.file()).map(|loaded| firsts(&loaded)), Ok(firsts(&bench)));
}

#[test]
fn every_kind_waits_for_its_destination() {
    let mut bench = worked(&[]);
    bench.done(Action::Join { node: 3, seed: 1 });
    assert_eq!(firsts(&bench), [None, Some(0), None, None], "the request waits at the seed");
}

#[test]
fn the_places_past_the_count_are_not_looked_at() {
    let mut bench = worked(&[(2, 200)]);
    bench.pool[1] = Message::Lookup { to: 3, key: 9, hops: 0 };
    assert_eq!(firsts(&bench), [None, None, Some(0), None]);
}

#[test]
fn slots_that_are_not_listed_are_refused() {
    let bench = worked(&[(0, 80)]);
    for slot in [4, 5, 63, 64, 256, 1 << 32, u64::MAX] {
        assert_eq!(refused(&bench, slot), 1, "slot {slot}");
    }
    let ids: Vec<u32> = (0..64).collect();
    let full = Bench::start(8, 1, &ids, &[0]);
    assert_eq!((first(&full, 63), refused(&full, 64)), (None, 1));
}

#[test]
fn an_invalid_table_is_refused_first() {
    let mut bench = worked(&[(0, 80)]);
    assert_eq!(number(first_waiting(&bench.table, &bench.pool[..255], 9)), 10);
    bench.table.nodes[1].id = 17;
    for slot in [0, 1, 9, u64::MAX] {
        assert_eq!(refused(&bench, slot), 10, "slot {slot}");
    }
}
