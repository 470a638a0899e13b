//! The worked examples of 01.

mod common;

use common::{Bench, Hop};
use model::{listing, Ring};

const IDS: [u32; 4] = [17, 18, 65, 95];

fn worked() -> Bench {
    Bench::start(8, 1, &IDS, &[0, 1, 2, 3])
}

fn covered(bench: &Bench, slot: usize) -> Vec<u64> {
    (0..256).filter(|&key| bench.hop(slot, key) == Hop::Delivered).collect()
}

#[test]
fn p1_to_p3_distances() {
    let ring = Ring::new(8);
    assert_eq!(ring.fall(18, 17), 1);
    assert_eq!(ring.fall(17, 18), 255);
    assert_eq!(ring.signed(0, 128), -128);
    assert_eq!(ring.signed(128, 0), 128);
    assert_eq!(Ring::new(32).fall(0, 4_294_967_295), 1);
}

#[test]
fn p4_to_p7_covers() {
    let bench = worked();
    assert_eq!(covered(&bench, 0), (0..=17).chain(185..=255).collect::<Vec<u64>>());
    assert_eq!(covered(&bench, 1), (18..=41).collect::<Vec<u64>>());
    assert_eq!(covered(&bench, 2), (42..=80).collect::<Vec<u64>>());
    assert_eq!(covered(&bench, 3), (81..=184).collect::<Vec<u64>>());
}

#[test]
fn p8_and_p9_hops() {
    let bench = worked();
    assert_eq!(bench.hop(3, 80), Hop::To(2));
    assert_eq!(bench.hop(2, 200), Hop::To(1));
}

#[test]
fn p10_lone_node() {
    let bench = Bench::start(8, 1, &IDS, &[0]);
    assert_eq!(bench.hop(0, 200), Hop::Delivered);
    assert_eq!(covered(&bench, 0).len(), 256);
}

#[test]
fn the_worked_listing() {
    let mut bench = worked();
    bench.lookup(0, 80);
    bench.lookup(2, 200);
    assert_eq!(listing(&bench.file()), b"key from to hops via\n80 17 65 2 ll\n200 65 17 2 ll\n");
}

#[test]
fn listings_without_lookups_and_of_refused_files() {
    let bench = worked();
    let mut file = bench.file();
    assert_eq!(listing(&file), b"key from to hops via\n");
    file[36] = 4;
    assert_eq!(listing(&file), b"refused 10\n");
    file.push(0);
    assert_eq!(listing(&file), b"refused 9\n");
    file[0] = 33;
    assert_eq!(listing(&file), b"refused 8\n");
    assert_eq!(listing(&file[..31]), b"refused 7\n");
    assert_eq!(listing(&vec![0; 100_000]), b"refused 8\n");
}
