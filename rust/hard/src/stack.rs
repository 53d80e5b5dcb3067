//! A stack of 256 KiB between guard pages, painted, so that the deepest byte that was written can be found.

use crate::area::Area;
use crate::sys::PAGE;
use std::arch::asm;

pub const STACK: usize = 256 * 1024;
const PAINT: u64 = 0x9d3b_71c6_04ea_f258;

pub struct Stack {
    area: Area,
}

impl Default for Stack {
    fn default() -> Self {
        Stack::new()
    }
}

impl Stack {
    pub fn new() -> Stack {
        let mut stack = Stack { area: Area::new(STACK / PAGE) };
        stack.paint();
        stack
    }

    fn words(&mut self) -> &mut [u64] {
        // the area is aligned to a page, and nothing runs on it
        unsafe { std::slice::from_raw_parts_mut(self.area.start().cast(), STACK / 8) }
    }

    pub fn paint(&mut self) {
        self.words().fill(PAINT);
    }

    /// How many bytes below the top have been written since the stack was painted, to the deepest that is not as painted.
    pub fn deepest(&mut self) -> usize {
        let words = self.words();
        let Some(first) = words.iter().position(|&word| word != PAINT) else { return 0 };
        let intact =
            words[first].to_le_bytes().iter().zip(PAINT.to_le_bytes()).take_while(|(now, paint)| **now == *paint).count();
        STACK - 8 * first - intact
    }

    /// Runs `run` on this stack. A panic in it ends the program.
    pub fn run<F: FnMut()>(&mut self, mut run: F) {
        let top = self.area.end();
        let data: *mut F = &mut run;
        // the stack pointer is kept in r12, which a call preserves; the top is aligned to a page, as a call needs it to be to 16
        unsafe {
            asm!(
                "mov r12, rsp",
                "mov rsp, {top}",
                "call {entry}",
                "mov rsp, r12",
                top = in(reg) top,
                entry = in(reg) enter::<F>,
                in("rdi") data,
                out("r12") _,
                clobber_abi("C"),
            );
        }
    }
}

extern "C" fn enter<F: FnMut()>(run: *mut F) {
    // given by `run`, which waits
    unsafe { (*run)() }
}
