//! Measures the proved calls beside the model's and prints the figures as markdown. `tools/benchmark` runs it.

mod callgrind;
mod counts;
mod numbers;
mod paint;
mod stack;
mod table;
mod times;

use benchmarks::lines::{self, Call, Line};
use benchmarks::{measured, room, Side};

/// Both sides answer the same, and what the proved one writes is what the model writes.
fn check_same(line: &Line) {
    let mut out = room();
    let [proved, model] = [Side::Proved, Side::Model].map(|side| measured(side, line, 2, &mut out));
    assert_eq!(proved, model, "{}", line.name);
    let expected = match line.call {
        Call::Write => line.file.clone(),
        Call::List => model::listing(&line.file),
        _ => return,
    };
    assert_eq!(out[..expected.len()], expected[..], "{}", line.name);
}

fn main() {
    let lines = lines::all();
    if std::env::args().nth(1).as_deref() == Some(counts::WORD) {
        return counts::run_all(&lines);
    }
    lines.iter().for_each(check_same);
    let (mut times, copy) = (times::of(&lines), times::of_a_copy());
    // A caller has the list that it lends; the loop makes it anew, and the time of that copy is taken off.
    lines
        .iter()
        .zip(&mut times)
        .filter(|(line, _)| line.core.is_some())
        .for_each(|(_, sides)| sides[0] -= copy);
    let (counts, moved, stack) = (counts::of(&lines), counts::moved(), stack::of(&lines));
    table::Figures { times, counts, moved, stack, copy }.print(&lines);
}
