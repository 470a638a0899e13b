//! The model against a slow reading of 01 that collects every refusal that applies.

mod slow;

use model::gen::Requests;
use model::wire::Server;
use model::Right;
use slow::Memory;
use std::collections::BTreeMap;

/// Compares `each` requests of every seed; how often each number was due, and how often several were.
fn compare(seeds: std::ops::Range<u64>, each: usize) -> (BTreeMap<u32, u64>, u64) {
    let mut seen: BTreeMap<u32, u64> = BTreeMap::new();
    let mut several = 0;
    for seed in seeds {
        let (mut requests, mut model) = (Requests::new(seed), Server::new(Right));
        let mut memory = Memory::default();
        for nth in 0..each {
            let mut request = Vec::new();
            requests.put(&mut request);
            let mut reply = Vec::new();
            model.answer(&request, &mut reply);
            let verdict = slow::judge(&mut memory, &request);
            let (head, numbers) = (&request[..request.len().min(41)], &verdict.numbers);
            let got = &reply[..4];
            assert!(reply == verdict.reply(), "seed {seed} request {nth} {head:?}: {got:?} but {numbers:?}");
            *seen.entry(numbers.first().copied().unwrap_or(0)).or_default() += 1;
            several += u64::from(numbers.len() > 1);
        }
    }
    (seen, several)
}

#[test]
fn every_reply_is_the_slow_one() {
    let (seen, several) = compare(0..4, 8_000);
    let all = [0, 1, 2, 3, 4, 5, 6, 7, 8, 9, 10, 12, 14, 15, 16, u32::MAX];
    assert!(all.iter().all(|number| seen.get(number).copied().unwrap_or(0) >= 20), "{seen:?}");
    assert!(several > 500, "{several} requests have several refusals");
}

/// The same at length: `cargo test --release --test agree -- --ignored`.
#[test]
#[ignore = "takes a minute"]
fn every_reply_is_the_slow_one_at_length() {
    compare(100..120, 20_000);
}
