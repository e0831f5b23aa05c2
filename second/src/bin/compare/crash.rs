//! If the archive touches memory outside its buffers, the case at hand is printed before the run ends.

use std::ffi::c_void;
use std::ptr;
use std::sync::atomic::{AtomicPtr, AtomicUsize, Ordering};

const SIGILL: i32 = 4;
const SIGBUS: i32 = 7;
const SIGFPE: i32 = 8;
const SIGSEGV: i32 = 11;
const STANDARD_ERROR: i32 = 2;

extern "C" {
    fn signal(number: i32, handler: extern "C" fn(i32)) -> usize;
    fn write(file: i32, bytes: *const c_void, count: usize) -> isize;
    fn _exit(status: i32) -> !;
}

/// The frame of the case at hand. A handler may read nothing but atomics.
static FRAME: AtomicPtr<u8> = AtomicPtr::new(ptr::null_mut());
static LENGTH: AtomicUsize = AtomicUsize::new(0);

/// Has each signal that stops a program print the case at hand first.
pub fn report_crashes() {
    for number in [SIGILL, SIGBUS, SIGFPE, SIGSEGV] {
        // SAFETY: the handler calls nothing but `write` and `_exit`, which a handler may call.
        unsafe {
            signal(number, print_case);
        }
    }
}

/// Runs `call` with `frame` as the case at hand.
pub fn during<T>(frame: &[u8], call: impl FnOnce() -> T) -> T {
    LENGTH.store(frame.len(), Ordering::SeqCst);
    FRAME.store(frame.as_ptr().cast_mut(), Ordering::SeqCst);
    let answer = call();
    FRAME.store(ptr::null_mut(), Ordering::SeqCst);
    answer
}

extern "C" fn print_case(_signal: i32) {
    print(b"compare: the program was stopped");
    let frame = FRAME.load(Ordering::SeqCst);
    if !frame.is_null() {
        print(
            b" inside the archive, at memory outside the buffers; run again with\ncompare replay ",
        );
        for place in 0..LENGTH.load(Ordering::SeqCst) {
            // SAFETY: `during` holds the frame borrowed while its address stands in `FRAME`.
            let byte = unsafe { *frame.add(place) };
            let digit = |value: u8| b"0123456789abcdef"[usize::from(value)];
            print(&[digit(byte >> 4), digit(byte & 15)]);
        }
    }
    print(b"\n");
    // SAFETY: ends the process without running anything else.
    unsafe { _exit(3) }
}

fn print(bytes: &[u8]) {
    // SAFETY: the bytes are borrowed for the call. Nothing can be done if they cannot be written.
    let _ = unsafe { write(STANDARD_ERROR, bytes.as_ptr().cast(), bytes.len()) };
}
