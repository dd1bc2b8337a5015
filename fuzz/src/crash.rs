//! What is told if the library does what it must not and the system ends the
//! process: the cases that were being judged.

use std::ffi::c_void;
use std::sync::atomic::{AtomicU64, Ordering};

/// The most threads that are told of.
pub const THREADS: usize = 64;
const NONE: u64 = u64::MAX;
static CURRENT: [AtomicU64; THREADS] = [const { AtomicU64::new(NONE) }; THREADS];

extern "C" {
    fn signal(number: i32, handler: extern "C" fn(i32)) -> *mut c_void;
    fn write(fd: i32, bytes: *const u8, count: usize) -> isize;
    fn _exit(status: i32) -> !;
}

/// From now on a fault of the process is told.
pub fn watch() {
    const FAULTS: [i32; 5] = [4, 6, 7, 8, 11]; // illegal, abort, bus, arithmetic, memory
    for number in FAULTS {
        // Safety: the handler only reads atomics, writes and ends the process.
        unsafe {
            signal(number, tell);
        }
    }
}

/// This thread is at the case of that number.
pub fn at(thread: usize, index: u64) {
    CURRENT[thread].store(index, Ordering::Relaxed);
}

/// This thread is at no case.
pub fn done(thread: usize) {
    at(thread, NONE);
}

extern "C" fn tell(_signal: i32) {
    say(b"THE PROCESS FAILED at index");
    for current in &CURRENT {
        let index = current.load(Ordering::Relaxed);
        if index != NONE {
            say(b" ");
            digits(index);
        }
    }
    say(b"\n");
    // Safety: nothing is expected of the process any more.
    unsafe { _exit(3) }
}

fn digits(number: u64) {
    if number >= 10 {
        digits(number / 10);
    }
    say(&[b'0' + (number % 10) as u8]);
}

fn say(text: &[u8]) {
    // Safety: a pointer and the length of what it points to.
    unsafe {
        write(2, text.as_ptr(), text.len());
    }
}
