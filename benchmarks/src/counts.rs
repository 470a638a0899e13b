//! Instructions of one round, counted by callgrind on a second run of this program, and bytes moved, counted
//! by the program `moved` beside it.

use crate::callgrind;
use benchmarks::lines::Line;
use benchmarks::{measured, room, Side};
use std::process::Command;

/// The argument that makes this program run what is counted, in order, and nothing else.
pub const WORD: &str = "counted";
const ROUNDS: [u32; 3] = [0, 1, 11];

/// A number for each side of a line.
pub type Each = [u64; 3];

pub fn run_all(lines: &[Line]) {
    let mut out = room();
    for line in lines {
        for side in Side::ALL {
            for times in ROUNDS {
                measured(side, line, times, &mut out);
            }
        }
    }
}

/// Instructions of one round of each side, by line; none where valgrind does not count them.
pub fn of(lines: &[Line]) -> Option<Vec<Each>> {
    let calls = callgrind::of("measured", &[WORD], lines.len() * Side::ALL.len() * ROUNDS.len())?;
    let side = |at: usize| round([calls[at], calls[at + 1], calls[at + 2]]);
    Some((0..lines.len()).map(|line| [0, 1, 2].map(|s| side((line * 3 + s) * 3))).collect())
}

/// The instructions of a round, from those of no round, of one and of eleven. Later rounds must cost what
/// the first does: the compiler has left none out.
fn round([none, one, eleven]: [u64; 3]) -> u64 {
    let (first, each) = (one - none, (eleven - one) / 10);
    assert!(each * 10 >= first * 8, "a first round has {first} instructions and a later one {each}");
    each
}

/// Bytes moved by one round of each side, by line.
pub fn moved() -> Vec<Each> {
    let program = std::env::current_exe().expect("this program has a path").with_file_name("moved");
    let out = Command::new(program).output().expect("the program moved stands beside this one").stdout;
    let text = String::from_utf8(out).expect("it prints numbers");
    let numbers =
        |line: &str| line.split(' ').map(|word| word.parse().expect("a number")).collect::<Vec<u64>>();
    text.lines().map(|line| numbers(line).try_into().expect("a number for each side")).collect()
}
