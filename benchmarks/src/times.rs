//! CPU time of one round: low among many short batches, the sides in turn, the lines gone through several
//! times over.

use benchmarks::lines::Line;
use benchmarks::{measured, room, Side};
use std::hint::black_box;

const PASSES: usize = 20;
const BATCHES: usize = 60;
const BATCH_NANOSECONDS: f64 = 120_000.0;
/// The bytes of a proved pool: a count, and 256 messages of 56 bytes.
pub const POOL: usize = 8 + 256 * 56;

#[repr(C)]
struct TimeSpec {
    seconds: i64,
    nanoseconds: i64,
}

extern "C" {
    fn clock_gettime(clock: i32, time: *mut TimeSpec) -> i32;
}

/// Linux's number for the CPU time of this thread.
const THREAD_CPU_TIME: i32 = 3;

fn now() -> f64 {
    let mut time = TimeSpec { seconds: 0, nanoseconds: 0 };
    // The kernel fills the struct.
    assert_eq!(unsafe { clock_gettime(THREAD_CPU_TIME, &mut time) }, 0);
    time.seconds as f64 * 1e9 + time.nanoseconds as f64
}

fn spent(side: Side, line: &Line, times: u32, out: &mut [u8]) -> f64 {
    let begun = now();
    black_box(measured(side, black_box(line), times, out));
    now() - begun
}

/// The time that a hundredth of them are below: the least would be a slip of the clock, if there was one.
fn low(mut times: Vec<f64>) -> f64 {
    times.sort_by(f64::total_cmp);
    times[times.len() / 100]
}

/// A side's times for a batch, and for no round.
struct Times {
    rounds: u32,
    batch: Vec<f64>,
    none: Vec<f64>,
}

impl Times {
    fn new(side: Side, line: &Line, out: &mut [u8]) -> Times {
        let tried = low((0..101).map(|_| spent(side, line, 32, out)).collect()) / 32.0;
        let rounds = (BATCH_NANOSECONDS / tried).clamp(16.0, 100_000.0) as u32;
        Times { rounds, batch: Vec::new(), none: Vec::new() }
    }

    fn take(&mut self, side: Side, line: &Line, out: &mut [u8]) {
        self.batch.push(spent(side, line, self.rounds, out));
        self.none.push(spent(side, line, 0, out));
    }

    fn microseconds(self) -> f64 {
        (low(self.batch) - low(self.none)) / f64::from(self.rounds) / 1000.0
    }
}

/// Microseconds to copy the bytes of a pool from each of 16 to the next, as a step goes through its stack.
pub fn of_a_copy() -> f64 {
    const POOLS: usize = 16;
    const TURNS: usize = 100;
    let mut pools = vec![1u8; POOLS * POOL];
    let mut batch = || {
        let begun = now();
        for at in (0..TURNS * POOLS).map(|turn| turn % (POOLS - 1)) {
            black_box(&mut pools).copy_within(at * POOL..(at + 1) * POOL, (at + 1) * POOL);
        }
        now() - begun
    };
    low((0..101).map(|_| batch()).collect()) / (TURNS * POOLS) as f64 / 1000.0
}

/// For each line, the microseconds of one round of each side.
pub fn of(lines: &[Line]) -> Vec<[f64; 3]> {
    let mut out = room();
    let mut times: Vec<[Times; 3]> =
        lines.iter().map(|line| Side::ALL.map(|side| Times::new(side, line, &mut out))).collect();
    for _ in 0..PASSES {
        for (line, times) in lines.iter().zip(&mut times) {
            for _ in 0..BATCHES {
                for (side, times) in Side::ALL.into_iter().zip(times.iter_mut()) {
                    times.take(side, line, &mut out);
                }
            }
        }
    }
    times.into_iter().map(|sides| sides.map(Times::microseconds)).collect()
}
