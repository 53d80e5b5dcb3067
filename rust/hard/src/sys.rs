//! What is used of the C library, on x86-64 Linux.

use std::ffi::{c_int, c_long, c_void};

pub const PAGE: usize = 4096;

pub const PROT_NONE: c_int = 0;
pub const PROT_READ_WRITE: c_int = 3;
pub const MAP_PRIVATE_ANONYMOUS: c_int = 0x22;
pub const SIGBUS: c_int = 7;
pub const SIGSEGV: c_int = 11;
/// The handler runs on the stack that the thread keeps for signals.
pub const SA_ONSTACK: c_int = 0x0800_0000;
pub const STDERR: c_int = 2;

#[repr(C)]
pub struct SigAction {
    pub handler: extern "C" fn(c_int),
    pub mask: [u64; 16],
    pub flags: c_int,
    pub restorer: usize,
}

extern "C" {
    pub fn mmap(at: *mut c_void, length: usize, prot: c_int, flags: c_int, fd: c_int, offset: c_long) -> *mut c_void;
    pub fn mprotect(at: *mut c_void, length: usize, prot: c_int) -> c_int;
    pub fn munmap(at: *mut c_void, length: usize) -> c_int;
    pub fn sigaction(signal: c_int, new: *const SigAction, old: *mut SigAction) -> c_int;
    pub fn write(fd: c_int, from: *const c_void, length: usize) -> isize;
    pub fn _exit(status: c_int) -> !;
    pub fn fork() -> c_int;
    pub fn waitpid(child: c_int, status: *mut c_int, options: c_int) -> c_int;
}
