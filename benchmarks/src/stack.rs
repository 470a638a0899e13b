//! Stack used by a step.

use crate::paint::{frame, used};
use benchmarks::lines::{Call, Line};
use benchmarks::{measured, model_side, room, Side};
use std::hint::black_box;

/// Frames of the proved module's functions, as its compiler tells them: `file:function`, a tab, bytes.
const FRAMES: &str = include_str!(concat!(env!("NATIVE"), "/face_timing.su"));

/// Bytes of stack.
pub struct Stack {
    /// A step of the model.
    pub model: usize,
    /// A loop of crate `face_timing` that makes one step, with all that it calls.
    pub whole: usize,
    /// The part of it below the loop's own frame; none where that is not known.
    pub step: Option<usize>,
    /// Whether the load before the step uses as much, so that the step may use less.
    pub at_most: bool,
}

fn of_line(line: &Line, nothing: usize) -> Option<Stack> {
    let Call::Step(kind, x, y) = line.call else { return None };
    let mut out = room();
    let mut proved = |times| {
        used(&mut || {
            black_box(measured(Side::Proved, line, times, &mut out));
        }) - nothing
    };
    let (load, whole) = (proved(0), proved(1));
    let action = model_side::action(kind, x, y);
    let mut held = Box::new(model_side::loaded(&line.file));
    let model = used(&mut || {
        let (table, pool) = &mut *held;
        black_box(model::step(table, pool, action)).expect("it is done");
    }) - nothing;
    let step = frame(FRAMES, ":tarpudhriv_steps").map(|own| whole - own);
    Some(Stack { model, whole, step, at_most: load >= whole })
}

/// The most stack that the steps of these lines use, less that of a call that does nothing.
pub fn of(lines: &[Line]) -> Stack {
    let nothing = used(&mut || {
        black_box(0);
    });
    let more = |a: Stack, b: Stack| Stack {
        model: a.model.max(b.model),
        whole: a.whole.max(b.whole),
        step: a.step.max(b.step),
        at_most: a.at_most && b.at_most,
    };
    lines.iter().filter_map(|line| of_line(line, nothing)).reduce(more).expect("there are steps")
}
