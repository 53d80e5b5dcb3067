//! Calls on one record, compared with the model.

use crate::area::{Area, Place};
use crate::fault;
use crate::lengths::{self, Lengths};
use crate::stack::Stack;
use generate::rng::Rng;
use model::output::needs;
use std::collections::BTreeMap;

/// The call: a record and both buffers, and the number.
pub type Call = fn(&[u8], &mut [u32], &mut [u8]) -> u8;

/// What was seen.
#[derive(Default)]
pub struct Seen {
    pub records: u64,
    /// Calls by the number that the model gives.
    pub numbers: BTreeMap<u8, u64>,
    pub disagreements: Vec<Vec<u8>>,
    /// The bytes of the stack that the deepest call wrote to.
    pub deepest: usize,
}

impl Seen {
    pub fn join(&mut self, other: Seen) {
        self.records += other.records;
        for (number, calls) in other.numbers {
            *self.numbers.entry(number).or_insert(0) += calls;
        }
        self.disagreements.extend(other.disagreements);
        self.deepest = self.deepest.max(other.deepest);
    }
}

/// What the model says of a record.
enum Expected {
    Refused(u8),
    Accepted { needs: (usize, usize), answer: model::Answer },
}

impl Expected {
    fn of(record: &[u8]) -> Expected {
        match model::accept(record) {
            Err(number) => Expected::Refused(number),
            Ok(job) => Expected::Accepted { needs: needs(&job), answer: model::answer(&job) },
        }
    }

    /// The number of a call, and what becomes of the buffers.
    fn after(&self, words: &mut [u32], bytes: &mut [u8]) -> u8 {
        match self {
            Expected::Refused(number) => *number,
            Expected::Accepted { needs, .. } if words.len() < needs.0 || bytes.len() < needs.1 => 10,
            Expected::Accepted { answer, .. } => {
                model::output::write(answer, words, bytes);
                0
            }
        }
    }
}

pub struct Trial {
    call: Call,
    record: Area,
    words: Area,
    bytes: Area,
    stack: Stack,
    rng: Rng,
    seen: Seen,
}

impl Trial {
    pub fn new(call: Call, seed: u64) -> Trial {
        Trial {
            call,
            record: Area::new(18),
            words: Area::new(6),
            bytes: Area::new(2),
            stack: Stack::new(),
            rng: Rng::new(seed),
            seen: Seen::default(),
        }
    }

    /// Two calls on a record, with other buffers each.
    pub fn record(&mut self, record: &[u8]) {
        let expected = Expected::of(record);
        let calls = match expected {
            Expected::Refused(_) => lengths::refused(&mut self.rng),
            Expected::Accepted { needs, .. } => lengths::accepted(&mut self.rng, needs),
        };
        let agree = calls.map(|lengths| self.agrees(record, &expected, lengths));
        self.seen.records += 1;
        if agree.contains(&false) {
            self.seen.disagreements.push(record.to_vec());
        }
    }

    /// What was seen since the last time.
    pub fn take(&mut self) -> Seen {
        self.seen.deepest = self.stack.deepest();
        self.stack.paint();
        std::mem::take(&mut self.seen)
    }

    /// Whether a call returns the number that is expected and leaves the record, both buffers and what is beside them as expected.
    fn agrees(&mut self, record: &[u8], expected: &Expected, lengths: Lengths) -> bool {
        let mut words: Vec<u32> = (0..lengths.words).map(|_| self.rng.next() as u32).collect();
        let mut bytes: Vec<u8> = (0..lengths.bytes).map(|_| self.rng.next() as u8).collect();
        let place = lengths.place;
        let placed_record = placed(&mut self.record, record, place);
        let placed_words = placed(&mut self.words, &words, place);
        let placed_bytes = placed(&mut self.bytes, &bytes, place);

        let mut number = None;
        let call = self.call;
        fault::begins(record);
        self.stack.run(|| number = Some(call(placed_record, placed_words, placed_bytes)));
        fault::ends();

        let right = expected.after(&mut words, &mut bytes);
        *self.seen.numbers.entry(right).or_insert(0) += 1;
        number == Some(right)
            && *placed_record == *record
            && *placed_words == *words
            && *placed_bytes == *bytes
            && self.record.margin_is_quiet(record.len(), place)
            && self.words.margin_is_quiet(4 * words.len(), place)
            && self.bytes.margin_is_quiet(bytes.len(), place)
    }
}

/// A copy of the items in an area. It stands until the area gets another one.
fn placed<'a, T: Copy>(area: &mut Area, items: &[T], place: Place) -> &'a mut [T] {
    let length = std::mem::size_of_val(items);
    area.quiet_margin(length, place);
    let at: *mut T = area.place(length, place).cast();
    // the run lies within the area, which is aligned to a page, as is its end; the caller keeps the area until it is done
    unsafe {
        std::ptr::copy_nonoverlapping(items.as_ptr(), at, items.len());
        std::slice::from_raw_parts_mut(at, items.len())
    }
}
