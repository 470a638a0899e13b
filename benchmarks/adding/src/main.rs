//! Adding nodes to a leaf set: the proved walk beside a version that sorts a copy of all candidates for each
//! side. Prints instructions and stack as markdown. `tools/adding` runs it.

#[path = "../../src/callgrind.rs"]
mod callgrind;
mod cases;
#[path = "../../src/numbers.rs"]
mod numbers;
#[path = "../../src/paint.rs"]
mod paint;
mod sorting;

use cases::{after, Added, Case, How};
use numbers::grouped;
use std::hint::black_box;

/// Frames of the proved module's functions, as its compiler tells them.
const FRAMES: &str = include_str!(concat!(env!("NATIVE"), "/face_adding.su"));

/// How many cases by chance both versions must answer alike.
const CHANCES: usize = 200_000;

/// The functions that are counted, each with the cases that it makes.
const COUNTED: [(&str, How, bool); 4] = [
    ("leaf::with_set", How::Walk, true),
    ("leaf::with_one", How::Walk, false),
    ("sorted_with_set", How::Sort, true),
    ("sorted_with_one", How::Sort, false),
];

fn adds_set(case: &Case) -> bool {
    matches!(case.added, Added::Set(_))
}

/// All that is measured, in order.
fn measured() -> Vec<Case> {
    [cases::all(), cases::near()].concat()
}

/// Makes the calls of one function, and nothing else.
fn run(function: &str) {
    let &(_, how, set) = COUNTED.iter().find(|(name, ..)| *name == function).expect("a counted function");
    for case in measured().iter().filter(|case| adds_set(case) == set) {
        black_box(after(how, case));
    }
}

/// Instructions of each case, by the walk and by sorting.
fn instructions(cases: &[Case]) -> Vec<[u64; 2]> {
    let mut out = vec![[0; 2]; cases.len()];
    for (function, how, set) in COUNTED {
        let these: Vec<usize> = (0..cases.len()).filter(|&at| adds_set(&cases[at]) == set).collect();
        let counts = callgrind::of(function, &[function], these.len()).expect("valgrind counts");
        for (at, count) in these.into_iter().zip(counts) {
            out[at][usize::from(how == How::Sort)] = count;
        }
    }
    out
}

/// The frame of a function of the proved module.
fn frame(function: &str) -> usize {
    paint::frame(FRAMES, function).expect("the compiler tells the frame")
}

/// Bytes of stack that a case takes below its caller. By the walk: those that are written to, or the frames,
/// where these are more; the module has no other function. By sorting: those that are written to.
fn stack(case: &Case) -> [usize; 2] {
    let used = |how| {
        paint::used(&mut || {
            black_box(after(how, case));
        })
    };
    let set = frame(":leaf::with_set");
    let (call, frames) = match case.added {
        Added::Set(_) => (frame(":tarpudhriv_with_set"), set),
        Added::One(_) => (frame(":tarpudhriv_with_one"), frame(":leaf::with_one") + set),
    };
    let none = used(How::Nothing);
    [used(How::Walk).saturating_sub(none + call).max(frames), used(How::Sort).saturating_sub(none)]
}

fn check(case: &Case) {
    assert_eq!(after(How::Walk, case), after(How::Sort, case), "n {}, L {}: {}", case.n, case.l, case.name);
}

fn print_all(cases: &[Case], counts: &[[u64; 2]]) {
    println!("| L | n | added | walk: instructions | sort: instructions | walk: stack | sort: stack |");
    println!("|---|---|---|---|---|---|---|");
    for (case, counted) in cases.iter().zip(counts) {
        let [walk, sort] = counted.map(grouped);
        let [walked, sorted] = stack(case).map(|bytes| grouped(bytes as u64));
        let call = if adds_set(case) { "`with_set`" } else { "`with_one`" };
        println!(
            "| {} | {} | {call}: {} | {walk} | {sort} | {walked} | {sorted} |",
            case.l, case.n, case.name
        );
    }
}

/// The walk's instructions do not grow with n: that is seen to.
fn print_near(cases: &[Case], counts: &[[u64; 2]]) {
    println!("\n| L | n | walk: instructions | sort: instructions |\n|---|---|---|---|");
    for (case, counted) in cases.iter().zip(counts) {
        let [walk, sort] = counted.map(grouped);
        println!("| {} | {} | {walk} | {sort} |", case.l, case.n);
    }
    for (a, x) in cases.iter().zip(counts) {
        for (b, y) in cases.iter().zip(counts) {
            assert!(a.l != b.l || x[0] == y[0], "L {}: n {} and n {} differ", a.l, a.n, b.n);
        }
    }
}

fn main() {
    if let Some(function) = std::env::args().nth(1) {
        return run(&function);
    }
    assert_eq!(FRAMES.lines().count(), COUNTED.len(), "the calls and the two functions that add");
    let cases = measured();
    cases.iter().copied().chain(cases::chance(CHANCES)).for_each(|case| check(&case));
    let counts = instructions(&cases);
    let first = cases::all().len();
    print_all(&cases[..first], &counts[..first]);
    print_near(&cases[first..], &counts[first..]);
}
