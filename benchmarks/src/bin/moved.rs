//! Bytes handed to memcpy, memmove and memset by one round of each side: the linker sends their calls here
//! first.
//! Copies that the compiler makes without a call are not counted.

use benchmarks::lines::{self, Line};
use benchmarks::{measured, room, Side};
use std::ffi::c_void;
use std::sync::atomic::{AtomicU64, Ordering::Relaxed};

static BYTES: AtomicU64 = AtomicU64::new(0);

extern "C" {
    fn __real_memcpy(to: *mut c_void, from: *const c_void, n: usize) -> *mut c_void;
    fn __real_memmove(to: *mut c_void, from: *const c_void, n: usize) -> *mut c_void;
    fn __real_memset(to: *mut c_void, byte: i32, n: usize) -> *mut c_void;
}

/// # Safety
/// As memcpy's.
#[no_mangle]
pub unsafe extern "C" fn __wrap_memcpy(to: *mut c_void, from: *const c_void, n: usize) -> *mut c_void {
    BYTES.fetch_add(n as u64, Relaxed);
    __real_memcpy(to, from, n)
}

/// # Safety
/// As memmove's.
#[no_mangle]
pub unsafe extern "C" fn __wrap_memmove(to: *mut c_void, from: *const c_void, n: usize) -> *mut c_void {
    BYTES.fetch_add(n as u64, Relaxed);
    __real_memmove(to, from, n)
}

/// # Safety
/// As memset's.
#[no_mangle]
pub unsafe extern "C" fn __wrap_memset(to: *mut c_void, byte: i32, n: usize) -> *mut c_void {
    BYTES.fetch_add(n as u64, Relaxed);
    __real_memset(to, byte, n)
}

fn bytes(side: Side, line: &Line, times: u32) -> u64 {
    let mut out = room();
    let before = BYTES.load(Relaxed);
    measured(side, line, times, &mut out);
    BYTES.load(Relaxed) - before
}

fn main() {
    for line in lines::all() {
        let each: Vec<String> = Side::ALL
            .iter()
            .map(|&side| (bytes(side, &line, 3) - bytes(side, &line, 2)).to_string())
            .collect();
        println!("{}", each.join(" "));
    }
}
