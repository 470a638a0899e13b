//! Start requests, right and wrong.

use super::rng::Rng;
use super::tables::ring;
use crate::marks::below;
use crate::wire::Request;

pub fn start(rng: &mut Rng) -> Request<'static> {
    let ring = ring(rng);
    let mut ids: Vec<u32> = ring.listed().iter().map(|node| node.id).collect();
    let (mut m, mut l) = (u64::from(ring.m), u64::from(ring.l));
    let some = rng.any() & below(ring.n);
    let mut ready = rng.pick(&[below(ring.n), some, 1]);
    let faults = rng.pick(&[0, 0, 0, 1, 1, 2]);
    for _ in 0..faults {
        match rng.below(11) {
            0 if rng.one_in(3) => m |= 1 << 32,
            0 => m = rng.pick(&[0, 1, 33, 34, 64, 1 << 32, u64::MAX, 2, 32]),
            1 if rng.one_in(3) => l |= 1 << 32,
            1 => l = rng.pick(&[0, 9, 10, 1 << 32, u64::MAX, 1, 8]),
            2 => ids.clear(),
            3 => {
                let last = ids.last().copied().unwrap_or(0);
                let more = 60 + rng.below(10);
                ids.extend((1..=more as u32).map(|nth| last.wrapping_add(nth)));
            }
            4 | 9 => disorder(rng, &mut ids),
            5 => ready = 0,
            6 => repeat(rng, &mut ids),
            7 => ready |= 1u64.checked_shl(ids.len() as u32 + rng.below(3) as u32).unwrap_or(0),
            _ => ids.push(rng.pick(&[u32::MAX, 1u32.wrapping_shl(ring.m), ids.last().copied().unwrap_or(0)])),
        }
    }
    Request::Start { m, l, ready, ids }
}

/// Two ids that follow each other become one, or an id comes twice.
fn repeat(rng: &mut Rng, ids: &mut Vec<u32>) {
    if ids.is_empty() {
        return;
    }
    let place = rng.below(ids.len());
    if place > 0 && rng.one_in(2) {
        ids[place] = ids[place - 1];
    } else {
        ids.insert(place, ids[place]);
    }
}

fn disorder(rng: &mut Rng, ids: &mut [u32]) {
    if ids.is_empty() {
        return;
    }
    let (a, b) = (rng.below(ids.len()), rng.below(ids.len()));
    if rng.one_in(4) {
        ids[a] = ids[b];
    } else {
        ids.swap(a, b);
    }
}
