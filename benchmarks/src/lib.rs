//! The proved calls beside the model's, on the same table files.
//!
//! Both sides make a call `times` times on what a file holds, and answer the sum of what the rounds
//! answered. A side's cost for one round is the difference of two such runs, so that the load before the
//! rounds drops out.

pub mod lines;
pub mod model_side;
pub mod proved_side;

use lines::Line;

/// What is run: the proved call, the model's call, or what the model's rounds do to put the table back.
#[derive(Clone, Copy, PartialEq, Eq)]
pub enum Side {
    Proved,
    Model,
    PutBack,
}

impl Side {
    pub const ALL: [Side; 3] = [Side::Proved, Side::Model, Side::PutBack];
}

/// Runs a side's rounds; a proved write or listing goes to `out`. Its name is known to the profiler.
#[no_mangle]
#[inline(never)]
pub fn measured(side: Side, line: &Line, times: u32, out: &mut [u8]) -> u64 {
    match side {
        Side::Proved => proved_side::run(line, times, out),
        Side::Model => model_side::run(line, times),
        Side::PutBack => model_side::put_back(line, times),
    }
}

/// Room for a table file or a listing.
pub fn room() -> Vec<u8> {
    vec![0; 65_536]
}
