//! Stack used by a call: the stack below is painted, the call made, and then one looks how deep the paint is
//! gone.

use std::hint::black_box;

const ROOM: usize = 1 << 20;
const PAINT: u8 = 0xa5;

#[inline(never)]
fn paint() -> *const u8 {
    let mut room = [0u8; ROOM];
    black_box(&mut room).fill(PAINT);
    black_box(room.as_ptr())
}

/// Bytes below this frame that a call writes to.
#[inline(never)]
pub fn used(call: &mut dyn FnMut()) -> usize {
    let low = paint();
    call();
    // The room is on this thread's stack, below this frame, where nothing lives now.
    let touched = (0..ROOM).find(|&at| unsafe { low.add(at).read_volatile() } != PAINT);
    ROOM - touched.unwrap_or(ROOM)
}

/// The frame of a function, as the compiler tells it: `file:function`, a tab, bytes.
pub fn frame(frames: &str, function: &str) -> Option<usize> {
    let line =
        frames.lines().find(|line| line.split('\t').next().is_some_and(|at| at.ends_with(function)))?;
    line.split('\t').nth(1)?.parse().ok()
}
