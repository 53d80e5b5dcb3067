//! Says on which record a call touched a guard page, and ends the program.

use crate::sys::{_exit, sigaction, write, SigAction, SA_ONSTACK, SIGBUS, SIGSEGV, STDERR};
use std::cell::Cell;
use std::ffi::c_int;
use std::ptr::{null, null_mut};

thread_local! {
    /// The record of the call that this thread is in.
    static CALLED: Cell<(*const u8, usize)> = const { Cell::new((null(), 0)) };
}

pub fn install() {
    let action = SigAction { handler: report, mask: [0; 16], flags: SA_ONSTACK, restorer: 0 };
    for signal in [SIGSEGV, SIGBUS] {
        // the action outlives the call, and the handler the program
        let status = unsafe { sigaction(signal, &action, null_mut()) };
        assert!(status == 0, "no handler for signal {signal}");
    }
}

pub fn begins(record: &[u8]) {
    CALLED.with(|called| called.set((record.as_ptr(), record.len())));
}

pub fn ends() {
    CALLED.with(|called| called.set((null(), 0)));
}

extern "C" fn report(_signal: c_int) {
    say(b"a byte that cannot be touched was touched, in the call on\n");
    let (at, length) = CALLED.with(Cell::get);
    for index in 0..length {
        // the record of `begins`, which still stands
        let byte = unsafe { *at.add(index) };
        let digit = |number: u8| b"0123456789abcdef"[usize::from(number)];
        say(&[digit(byte / 16), digit(byte % 16)]);
    }
    say(b"\n");
    // nothing can go on
    unsafe { _exit(1) }
}

fn say(text: &[u8]) {
    // from a slice
    unsafe {
        write(STDERR, text.as_ptr().cast(), text.len());
    }
}
