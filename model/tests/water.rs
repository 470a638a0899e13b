//! T-13, sentence by sentence.

mod common;

use common::{marks, node, number, Bench, DEAD, OK, READY};
use model::{Action, Held, Record, Refusal, Store};

const MAY: Record = Record { key: 20, month: 5, rain: 300, evapotranspiration: 120, runoff: 68 };

fn worked() -> Bench {
    Bench::start(8, 1, &[17, 18, 65, 95], &[0, 1, 2, 3])
}

fn place(store: &mut Store, bench: &Bench, record: Record) -> Result<Held, Refusal> {
    store.place(&bench.table, &bench.pool, record)
}

/// Where a record of the key is held, and where copies are.
fn held(bench: &Bench, key: u64) -> (usize, u64) {
    let held = place(&mut Store::default(), bench, Record { key, ..MAY }).expect("it is accepted");
    (held.holder, held.copies)
}

/// The number that a record gets in a store, which must stay as it is.
fn refused(store: &Store, bench: &Bench, record: Record) -> u32 {
    let mut after = store.clone();
    let refusal = number(place(&mut after, bench, record));
    assert_eq!(after, *store);
    refusal
}

#[test]
fn a_record_goes_to_the_node_that_covers_its_key() {
    let held = |key: u64| held(&worked(), key).0;
    for (keys, holder) in [([185, 17], 0), ([18, 41], 1), ([42, 80], 2), ([81, 184], 3)] {
        assert_eq!(keys.map(held), [holder, holder], "{keys:?}");
    }
    assert_eq!([255, 0].map(held), [0, 0]);
}

#[test]
fn copies_go_to_both_neighbours() {
    assert_eq!(held(&worked(), 20), (1, marks(&[0, 2])));
    assert_eq!(held(&worked(), 0), (0, marks(&[1, 3])));
    let two = Bench::start(8, 2, &[17, 18, 65, 95], &[1, 3]);
    assert_eq!(held(&two, 20), (1, marks(&[3])), "one copy if they coincide");
    let lone = Bench::start(8, 1, &[17, 18, 65, 95], &[2]);
    assert_eq!(held(&lone, 20), (2, 0), "none if it is alone");
    let wide = Bench::start(8, 4, &[17, 18, 65, 95, 200], &[0, 1, 2, 3, 4]);
    assert_eq!(held(&wide, 20), (1, marks(&[0, 2])), "not to all leaves");
}

#[test]
fn the_change_is_signed() {
    let mut store = Store::default();
    let change = |held: Result<Held, Refusal>| held.expect("it is accepted").change();
    assert_eq!(change(place(&mut store, &worked(), MAY)), 112);
    let dry = Record { month: 6, rain: 0, evapotranspiration: 100_000, runoff: 100_000, ..MAY };
    assert_eq!(change(place(&mut store, &worked(), dry)), -200_000);
    assert_eq!(store.sum(), -199_888);
}

#[test]
fn numbers_out_of_range_are_14() {
    let number = |record: Record| number(place(&mut Store::default(), &worked(), record));
    for (month, wanted) in [(0, 14), (1, 0), (12, 0), (13, 14), (1 << 32 | 5, 14)] {
        assert_eq!(number(Record { month, ..MAY }), wanted, "month {month}");
    }
    for (key, wanted) in [(0, 0), (255, 0), (256, 14), (1 << 32, 14), (u64::MAX, 14)] {
        assert_eq!(number(Record { key, ..MAY }), wanted, "key {key}");
    }
    for (amount, wanted) in [(0, 0), (100_000, 0), (100_001, 14), (1 << 32, 14), (u64::MAX, 14)] {
        assert_eq!(number(Record { rain: amount, ..MAY }), wanted, "rain {amount}");
        assert_eq!(number(Record { evapotranspiration: amount, ..MAY }), wanted, "{amount}");
        assert_eq!(number(Record { runoff: amount, ..MAY }), wanted, "runoff {amount}");
    }
    let whole = Bench::start(32, 1, &[0, u32::MAX], &[0, 1]);
    assert_eq!(held(&whole, u32::MAX.into()), (1, marks(&[0])));
    assert_eq!(refused(&Store::default(), &whole, Record { key: 1 << 32, ..MAY }), 14);
}

#[test]
fn the_same_key_and_month_replaces() {
    let (mut store, bench) = (Store::default(), worked());
    for record in [MAY, Record { month: 6, ..MAY }, Record { key: 21, ..MAY }] {
        place(&mut store, &bench, record).expect("it is accepted");
    }
    assert_eq!((store.held().len(), store.sum()), (3, 336));
    let other = Bench::start(8, 1, &[17, 18, 65, 95], &[2]);
    let held = place(&mut store, &other, Record { rain: 0, ..MAY }).expect("it is accepted");
    assert_eq!((held.holder, held.copies, held.change()), (2, 0, -188));
    assert_eq!((store.held().len(), store.sum()), (3, 36));
    assert_eq!(store.held()[0], held, "the earlier one and its copies are gone");
}

/// A store of 512 records, one for each of 128 keys and 4 months.
fn full() -> Store {
    let mut store = Store::default();
    for nth in 0..512 {
        let record = Record { key: nth / 4, month: 1 + nth % 4, rain: nth, evapotranspiration: 0, runoff: 1 };
        assert_eq!(number(place(&mut store, &worked(), record)), 0, "record {nth}");
    }
    store
}

#[test]
fn there_is_room_for_512() {
    let mut store = full();
    let sum = 511 * 512 / 2 - 512;
    assert_eq!((store.held().len(), store.sum()), (512, sum));
    assert_eq!(refused(&store, &worked(), Record { key: 128, ..MAY }), 16, "a new key");
    assert_eq!(refused(&store, &worked(), MAY), 16, "a new month");
    let again = Record { key: 5, month: 2, ..MAY };
    assert_eq!(number(place(&mut store, &worked(), again)), 0, "held already");
    assert_eq!((store.held().len(), store.sum()), (512, sum - 20 + 112));
}

#[test]
fn refusals_come_in_order() {
    let store = full();
    let mut invalid = worked();
    invalid.table.nodes[1].id = 17;
    let unsettled = Bench::of(8, 1, &[node(17, READY, &[], &[]), node(18, OK, &[], &[])]);
    let dead = Bench::of(8, 1, &[node(17, DEAD, &[], &[])]);
    let out = Record { key: 256, ..MAY };
    assert_eq!(refused(&store, &invalid, out), 10);
    for bench in [&unsettled, &dead] {
        assert_eq!(refused(&store, bench, out), 14);
        assert_eq!(refused(&store, bench, Record { month: 13, ..MAY }), 14);
        assert_eq!(refused(&store, bench, MAY), 15);
    }
    assert_eq!(refused(&store, &worked(), out), 14);
    assert_eq!(refused(&store, &worked(), MAY), 16);
    assert_eq!(number(store.clone().place(&worked().table, &worked().pool[..255], MAY)), 10);
}

#[test]
fn steps_do_not_move_records() {
    let (mut store, mut bench) = (Store::default(), Bench::start(8, 1, &[17, 18, 65, 95], &[0, 2]));
    let first = place(&mut store, &bench, MAY).expect("it is accepted");
    assert_eq!((first.holder, first.copies), (0, marks(&[2])));
    bench.done(Action::Join { node: 1, seed: 0 });
    assert_eq!(refused(&store, &bench, Record { key: 21, ..MAY }), 15, "not while a node is joining");
    assert_eq!((store.held(), store.sum()), (&[first][..], 112));
}
