//! The proved calls, as crate `face_timing` exports them. A Rattle slice is a pointer and a length.

use crate::lines::{Call, Line};

extern "C" {
    fn tarpudhriv_steps(file: *const u8, len: usize, kind: u64, x: u64, y: u64, times: u32) -> u64;
    fn tarpudhriv_lent_steps(file: *const u8, len: usize, kind: u64, x: u64, y: u64, times: u32) -> u64;
    fn tarpudhriv_validity(file: *const u8, len: usize, times: u32) -> u64;
    fn tarpudhriv_loads(file: *const u8, len: usize, times: u32) -> u64;
    fn tarpudhriv_writes(file: *const u8, len: usize, out: *mut u8, room: usize, times: u32) -> u64;
    fn tarpudhriv_lists(file: *const u8, len: usize, out: *mut u8, room: usize, times: u32) -> u64;
}

/// The rounds of a line; what they write goes to `out`.
#[inline(never)]
pub fn run(line: &Line, times: u32, out: &mut [u8]) -> u64 {
    let (file, len) = (line.file.as_ptr(), line.file.len());
    let (to, room) = (out.as_mut_ptr(), out.len());
    // The calls presume nothing of their arguments; the slices are whole and do not overlap.
    unsafe {
        match line.call {
            Call::Step(kind, x, y) => tarpudhriv_steps(file, len, kind, x, y, times),
            Call::LentStep(kind, x, y) => tarpudhriv_lent_steps(file, len, kind, x, y, times),
            Call::Validity => tarpudhriv_validity(file, len, times),
            Call::Load => tarpudhriv_loads(file, len, times),
            Call::Write => tarpudhriv_writes(file, len, to, room, times),
            Call::List => tarpudhriv_lists(file, len, to, room, times),
        }
    }
}
