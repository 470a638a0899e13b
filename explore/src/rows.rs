//! 001's table 4.1 and the plans of its module MCMSPastry: M = 8, L = 1, ids 17, 18, 65 and 95.

use crate::engine::{room, Engine};
use crate::question::{Question, PROPERTIES};
use crate::search::{End, Search};
use crate::trouble::Trouble;

/// A row: 001's figures, the nodes that start ready, and the plan.
pub struct Row {
    pub name: &'static str,
    pub time: &'static str,
    pub depth: u32,
    pub states: u64,
    /// Whether TLC came to an end, with a counterexample.
    pub ended: bool,
    pub ready: u64,
    pub plan: &'static str,
}

pub const M: u64 = 8;
pub const L: u64 = 1;
pub const IDS: [u32; 4] = [17, 18, 65, 95];

/// The marks of 18, of 17 and 18, and of 17, 18 and 65.
const ONE: u64 = 2;
const TWO: u64 = 3;
const THREE: u64 = 7;

const TWO_JOIN: &str = "join 95 at 18\njoin 17 at 18\n";
const TWO_JOIN_LOOKUP: &str = "join 95 at 18\njoin 17 at 18\nlookup 65 at 95\n";
const THREE_JOIN: &str = "join 95 at 18\njoin 17 at 18\njoin 65 at 95\n";
const FACING: &str = "join 95 at 17\njoin 65 at 18\n";

const fn row(
    name: &'static str,
    time: &'static str,
    depth: u32,
    states: u64,
    plan: (u64, &'static str),
) -> Row {
    Row { name, time, depth, states, ended: states < 1_000_000_000, ready: plan.0, plan: plan.1 }
}

pub const ROWS: [Row; 8] = [
    row("NeverDeliver", "1\"", 5, 101, (THREE, "lookup 95 at 18\n")),
    row("NeverJoin", "1\"", 9, 19, (ONE, "join 95 at 18\n")),
    row("ConcurrentJoin", "3'53\"", 21, 212_719, (ONE, TWO_JOIN)),
    row("CcJoinDeliver", "23'16\"", 23, 1_141_123, (ONE, TWO_JOIN_LOOKUP)),
    row("Symmetry", "17\"", 17, 19_828, (ONE, THREE_JOIN)),
    row("Neighbor", "5'35\"", 16, 278_904, (TWO, FACING)),
    row("NeighborProp", "> 1 month", 31, 1_331_364_126, (TWO, FACING)),
    row("CorrectDeliver", "> 1 month", 21, 1_952_882_411, (ONE, THREE_JOIN)),
];

impl Row {
    /// The head of the table of `line`.
    pub const HEAD: &'static str =
        "| row | 001: time | depth | states | ended | here: s | depth | states | ended | states a second |
|---|---|---|---|---|---|---|---|---|---|";

    /// Ours beside 001's. Depths count states, as TLC does.
    pub fn line(&self, search: &Search, end: End, seconds: f64) -> String {
        let states = search.store.len();
        let theirs = if self.ended { "counterexample" } else { "no" };
        let ours = match end {
            End::Answered => "counterexample",
            End::Searched => "all searched, none",
            End::Stopped(bound) => bound,
        };
        let Row { name, time, depth, states: many, .. } = self;
        // Below some thousand states the clock tells nothing.
        let rate = if states < 1000 { "-".to_string() } else { format!("{:.0}", states as f64 / seconds) };
        let deep = search.depth() + 1;
        format!("| {name} | {time} | {depth} | {many} | {theirs} | {seconds:.2} | {deep} | {states} | {ours} | {rate} |")
    }

    /// The table file of the row's start.
    pub fn start(&self, engine: &mut dyn Engine) -> Result<Vec<u8>, Trouble> {
        let mut out = room();
        let answer = engine.start([M, L, self.ready], &IDS, &mut out)?;
        Ok(out[..answer.count].to_vec())
    }

    pub fn named(name: &str) -> Option<&'static Row> {
        ROWS.iter().find(|row| row.name == name)
    }

    pub fn question(&self) -> &'static Question {
        PROPERTIES.iter().find(|question| question.name == self.name).expect("a property for each row")
    }
}
