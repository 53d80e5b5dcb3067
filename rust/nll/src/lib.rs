//! The borrow analysis of scan jobs, for a loader: a safe wrapper of the proved call in the static library `nll`.
//!
//! ```
//! // `q = &x; Init x; Use q`: case 5 of document 01
//! let record = [
//!     1, 0, 27, 0, 2, 0, 2, 1, 0, 1, 1, 0, 0, 0, 0, 3, 2, 0, 1, 1, 1, 0, 0, 1, 0, 0, 0, 5, 0, 1,
//! ];
//! let sizes = nll::sizes(&record)?;
//! let (mut words, mut bytes) = (vec![0; sizes.words], vec![0; sizes.bytes]);
//! let accepted = nll::analyse(&record, &mut words, &mut bytes)?;
//! let faults: Vec<String> = accepted.faults().map(|fault| fault.to_string()).collect();
//! assert_eq!(faults, ["point 1: a write to operand 0, which is still lent"]);
//! # Ok::<(), nll::Refusal>(())
//! ```
//!
//! A call allocates nothing and keeps nothing: calls from several threads do not touch each other. Buffers of [`MAX_WORDS`]
//! words and [`MAX_BYTES`] bytes serve every record, so a loader can keep one pair.

#![no_std]
#![deny(unsafe_code)]

mod accepted;
mod layout;
mod linked;
mod refusal;

pub use accepted::{Accepted, Fault, FaultKind};
pub use layout::{Place, Sizes};
pub use linked::call;
pub use refusal::Refusal;

use layout::Layout;

/// The most bytes of an accepted record: three, and 16,384 after them.
pub const MAX_RECORD: usize = 3 + 16_384;
pub const MAX_POINTS: usize = 1_024;
pub const MAX_REGIONS: usize = 128;
pub const MAX_DECLARED: usize = 16;
/// The most words that an accepted record needs.
pub const MAX_WORDS: usize = MAX_REGIONS * MAX_POINTS.div_ceil(32);
/// The most bytes that the answer to an accepted record needs.
pub const MAX_BYTES: usize = MAX_POINTS * 2 + MAX_DECLARED;

/// Analyses a record. The words get the regions' sets; the bytes the faults, and which declared regions are grown. What they have
/// beyond [`sizes`] is left, and a refusal changes neither.
pub fn analyse<'a>(record: &'a [u8], words: &'a mut [u32], bytes: &'a mut [u8]) -> Result<Accepted<'a>, Refusal> {
    match Refusal::of(call(record, words, bytes)) {
        None => Ok(Accepted::new(Layout::of(record), words, bytes)),
        Some(refusal) => Err(refusal),
    }
}

/// The words and bytes that the answer to a record takes, or the refusal, 1 to 9, that it gets whatever the buffers.
pub fn sizes(record: &[u8]) -> Result<Sizes, Refusal> {
    // A job has at least one point, so an answer has at least two bytes: without any, a record that passes 1 to 9 gets 10.
    match Refusal::of(call(record, &mut [], &mut [])) {
        None | Some(Refusal::Room) => Ok(Layout::of(record).sizes()),
        Some(refusal) => Err(refusal),
    }
}
