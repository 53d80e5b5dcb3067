//! The trial finds what it is made to find.

use hard::area::{Area, Place};
use hard::stack::{Stack, STACK};
use hard::sys::{_exit, fork, waitpid, SIGSEGV};
use hard::trial::{Call, Trial};
use std::hint::black_box;

/// Whether the work ends by the signal for memory that cannot be touched. It runs in a child process.
fn faults(work: impl FnOnce()) -> bool {
    // the child does the work and ends
    unsafe {
        let child = fork();
        assert!(child >= 0, "no child");
        if child == 0 {
            work();
            _exit(0);
        }
        let mut status = 0;
        assert!(waitpid(child, &mut status, 0) == child);
        status & 0x7f == SIGSEGV
    }
}

#[test]
fn bytes_beside_an_area_cannot_be_touched() {
    let area = Area::new(1);
    let (first, past) = (area.place(10, Place::Start), area.place(10, Place::End).wrapping_add(10));
    let read = |at: *mut u8| {
        black_box(unsafe { at.read_volatile() });
    };
    assert!(!faults(|| read(first)) && !faults(|| read(past.wrapping_sub(1))));
    assert!(faults(|| read(first.wrapping_sub(1))));
    assert!(faults(|| read(past)));
    assert!(faults(|| unsafe { past.write_volatile(1) }));
}

/// Writes so many bytes of the stack.
#[inline(never)]
fn deep<const N: usize>() {
    black_box(&mut [1u8; N]);
}

#[test]
fn the_depth_of_a_call_is_measured() {
    let mut stack = Stack::new();
    stack.run(|| {});
    assert!(stack.deepest() < 1_000);
    stack.run(deep::<50_000>);
    assert!((50_000..51_000).contains(&stack.deepest()));
    stack.paint();
    assert_eq!(stack.deepest(), 0);
    assert!(!faults(|| Stack::new().run(deep::<{ STACK - 4_000 }>)));
    assert!(faults(|| Stack::new().run(deep::<{ STACK + 4_000 }>)));
}

/// Case 5 of document 01.
const RECORD: [u8; 30] = [1, 0, 27, 0, 2, 0, 2, 1, 0, 1, 1, 0, 0, 0, 0, 3, 2, 0, 1, 1, 1, 0, 0, 1, 0, 0, 0, 5, 0, 1];

fn disagreements(call: Call) -> usize {
    let mut trial = Trial::new(call, 1);
    for record in [&RECORD[..], &[1, 0], &[]] {
        (0..40).for_each(|_| trial.record(record));
    }
    trial.take().disagreements.len()
}

fn right(record: &[u8], words: &mut [u32], bytes: &mut [u8]) -> u8 {
    model::analyse(record, words, bytes)
}

#[test]
fn wrong_calls_disagree() {
    assert_eq!(disagreements(right), 0);
    let wrong: [Call; 8] = [
        |_, _, _| 1,
        |record, words, bytes| match right(record, words, bytes) {
            10 => 9,
            number => number,
        },
        // a refusal that writes
        |record, words, bytes| {
            let number = right(record, words, bytes);
            if number != 0 {
                bytes.iter_mut().for_each(|byte| *byte = !*byte);
            }
            number
        },
        // a refusal that writes only far up
        |record, words, bytes| {
            let number = right(record, words, bytes);
            if let (1..=9, Some(word)) = (number, words.get_mut(4_095)) {
                *word = !*word;
            }
            number
        },
        |record, words, bytes| {
            let number = right(record, words, bytes);
            if let (1..=9, Some(byte)) = (number, bytes.get_mut(2_063)) {
                *byte = !*byte;
            }
            number
        },
        // a verdict that is left out
        |record, words, bytes| {
            let number = right(record, words, bytes);
            if number == 0 {
                bytes[2] = 0;
            }
            number
        },
        // the word after the last
        |record, words, bytes| {
            let number = right(record, words, bytes);
            if number == 0 && words.len() > 2 {
                words[2] = 0;
            }
            number
        },
        // the byte before the first, which is no guard page if the buffer ends at one
        |record, words, bytes| {
            let number = right(record, words, bytes);
            if number == 0 && bytes.as_ptr() as usize % 4096 != 0 {
                unsafe { bytes.as_mut_ptr().sub(1).write(7) };
            }
            number
        },
    ];
    for (index, call) in wrong.into_iter().enumerate() {
        assert!(disagreements(call) > 0, "wrong call {index} is not found");
    }
    let past_the_record: Call = |record, _, _| unsafe { record.as_ptr().add(record.len()).read_volatile() };
    assert!(faults(|| {
        black_box(disagreements(past_the_record));
    }));
}
