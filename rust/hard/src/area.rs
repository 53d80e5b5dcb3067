//! Memory between two guard pages, which cannot be read or written.

use crate::sys::{mmap, mprotect, munmap, MAP_PRIVATE_ANONYMOUS, PAGE, PROT_NONE, PROT_READ_WRITE};
use std::ptr::null_mut;

/// Which guard page a run of bytes touches.
#[derive(Clone, Copy, Debug, PartialEq, Eq)]
pub enum Place {
    /// The run begins right after the lower one.
    Start,
    /// It ends right before the upper one.
    End,
}

/// Bytes on the other side of a run that hold `QUIET` and must keep it.
const MARGIN: usize = 64;
const QUIET: u8 = 0xa5;

pub struct Area {
    /// The lower guard page.
    mapped: *mut u8,
    pages: usize,
}

impl Area {
    /// So many pages and a guard page on either side.
    pub fn new(pages: usize) -> Area {
        // a fresh mapping, of which the middle is opened
        unsafe {
            let mapped = mmap(null_mut(), (pages + 2) * PAGE, PROT_NONE, MAP_PRIVATE_ANONYMOUS, -1, 0);
            assert!(mapped as isize != -1, "no memory for an area");
            let opened = mprotect(mapped.add(PAGE), pages * PAGE, PROT_READ_WRITE);
            assert!(opened == 0, "an area cannot be opened");
            Area { mapped: mapped.cast(), pages }
        }
    }

    pub fn len(&self) -> usize {
        self.pages * PAGE
    }

    pub fn is_empty(&self) -> bool {
        self.pages == 0
    }

    /// The first byte after the lower guard page.
    pub fn start(&self) -> *mut u8 {
        // within the mapping
        unsafe { self.mapped.add(PAGE) }
    }

    /// The first byte of the upper guard page.
    pub fn end(&self) -> *mut u8 {
        // within the mapping
        unsafe { self.start().add(self.len()) }
    }

    /// Where a run of so many bytes begins.
    pub fn place(&self, length: usize, place: Place) -> *mut u8 {
        assert!(length <= self.len(), "an area is too small");
        match place {
            Place::Start => self.start(),
            // the run fits
            Place::End => unsafe { self.end().sub(length) },
        }
    }

    /// The bytes beside a run, on the side without a guard page.
    fn margin(&mut self, length: usize, place: Place) -> &mut [u8] {
        let many = MARGIN.min(self.len() - length);
        let run = self.place(length, place);
        // within the area, beside the run
        unsafe {
            let from = match place {
                Place::Start => run.add(length),
                Place::End => run.sub(many),
            };
            std::slice::from_raw_parts_mut(from, many)
        }
    }

    pub fn quiet_margin(&mut self, length: usize, place: Place) {
        self.margin(length, place).fill(QUIET);
    }

    pub fn margin_is_quiet(&mut self, length: usize, place: Place) -> bool {
        self.margin(length, place).iter().all(|&byte| byte == QUIET)
    }
}

impl Drop for Area {
    fn drop(&mut self) {
        // mapped by `new`, and nothing points into it any more
        unsafe {
            munmap(self.mapped.cast(), (self.pages + 2) * PAGE);
        }
    }
}
