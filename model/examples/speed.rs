//! How long a call takes, in nanoseconds: the least of several batches.

use model::{load, settled, start, step, write, Action, Message, Pool, Sides, Table, EMPTY_POOL, LARGEST};
use std::hint::black_box;
use std::time::Instant;

const BATCH: u32 = 2_000;

fn least(mut call: impl FnMut()) -> u128 {
    let mut best = u128::MAX;
    for _ in 0..40 {
        let begun = Instant::now();
        for _ in 0..BATCH {
            call();
        }
        best = best.min(begun.elapsed().as_nanos());
    }
    best / u128::from(BATCH)
}

/// A started ring of `n` nodes with `count` messages of all kinds.
fn ring(n: usize, count: usize) -> (Table, Pool) {
    let (mut table, mut pool) = (Table::BLANK, EMPTY_POOL);
    let ids: Vec<u32> = (0..n as u32).map(|slot| slot * (u32::MAX / n as u32) + slot).collect();
    start(32, 4, &ids, u64::MAX >> (64 - n), &mut table, &mut pool).expect("the start is right");
    for (place, message) in pool[..count].iter_mut().enumerate() {
        let (to, node) = ((place % n) as u8, ((place * 7 + place / 64) % n) as u8);
        let (sides, mark) = (table.nodes[usize::from(node)].sides, 1u64 << (place % n));
        *message = match place * 5 % 8 {
            0 => Message::Lookup { to, key: place as u32, hops: 0 },
            1 => Message::JoinRequest { to, node, routing: mark, hops: 0 },
            2 => Message::JoinReply { to, owner: node, routing: mark, sides },
            3 => Message::LsProbe { to, node, sides, failed: mark },
            4 => Message::LsProbeReply { to, node, sides, failed: mark },
            5 => Message::NoLegalRoute { to, key: place as u32, hops: 0 },
            6 => Message::Lookup { to, key: (1 << 20) + place as u32, hops: 0 },
            _ => Message::BroadcastLSet { to, owner: node, sides: Sides { left: 0, ..sides }, grant: true },
        };
        table.count += 1;
    }
    assert!(model::is_valid(&table, &pool));
    (table, pool)
}

fn main() {
    for (n, count) in [(4, 0), (4, 4), (64, 0), (64, 16), (64, 240)] {
        let (table, pool) = ring(n, count);
        println!("{n} nodes, {} messages", table.count);
        let (mut t, mut p) = (table, pool);
        let refused = Action::LeaseExpired { node: 0, partner: 0 };
        let time = least(|| assert!(black_box(step(&mut t, &mut p, black_box(refused))).is_err()));
        println!("  refused step      {time:6} ns");
        let lookup = Action::Lookup { at: 0, key: 0x8000_1234 };
        let time = least(|| {
            step(&mut t, &mut p, black_box(lookup)).expect("there is room");
            let last = Action::Forward { place: t.count - 1 };
            step(&mut t, &mut p, black_box(last)).expect("it is ready");
            t.count -= 1;
        });
        println!("  lookup and hop    {time:6} ns");
        let probe = Message::LsProbe { to: 0, node: 3, sides: table.nodes[3].sides, failed: 6 };
        let time = least(|| {
            let kept = t;
            p[t.count] = black_box(probe);
            t.count += 1;
            let last = Action::Take { place: t.count - 1 };
            step(&mut t, &mut p, black_box(last)).expect("it is ready");
            t = kept;
        });
        println!("  probe             {time:6} ns");
        let mut buffer = [0; LARGEST];
        let length = write(&table, &pool, &mut buffer).expect("there is room");
        let time = least(|| assert!(write(black_box(&table), &pool, &mut buffer).is_ok()));
        println!("  write             {time:6} ns");
        let time = least(|| assert!(load(black_box(&buffer[..length]), &mut t, &mut p).is_ok()));
        println!("  load              {time:6} ns");
        let time = least(|| assert!(settled(black_box(&table), &pool).is_ok()));
        println!("  settled           {time:6} ns");
    }
}
