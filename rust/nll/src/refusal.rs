//! The ten refusals.

use core::error::Error;
use core::fmt;

/// Why a record is refused: the first of these that applies.
#[derive(Clone, Copy, Debug, PartialEq, Eq, Hash)]
#[repr(u8)]
pub enum Refusal {
    /// The record is empty, or its first byte is not 1.
    Version = 1,
    /// It has under three bytes, or its length is over 16,384 or is not the number of bytes that follow.
    Length = 2,
    /// A byte is missing, a tag or choice has no meaning, or bytes are left over.
    Form = 3,
    /// A count is out of its range, or a type has over 32 nodes.
    Range = 4,
    /// There are over 1,024 points or over 128 borrows.
    Size = 5,
    /// A number names nothing, declared regions exceed regions, an outlived region is not declared, or a field is numbered 0.
    Name = 6,
    /// A type's arguments do not fit its struct's parameters, or a bound stands where it has no meaning.
    Arguments = 7,
    /// A path takes a step that its type does not have, or reaches a type of over 32 nodes.
    Path = 8,
    /// An assignment or a borrow joins types of different shape.
    Shape = 9,
    /// The word buffer or the byte buffer is too short.
    Room = 10,
}

impl Refusal {
    pub const ALL: [Refusal; 10] = [
        Refusal::Version,
        Refusal::Length,
        Refusal::Form,
        Refusal::Range,
        Refusal::Size,
        Refusal::Name,
        Refusal::Arguments,
        Refusal::Path,
        Refusal::Shape,
        Refusal::Room,
    ];

    /// Document 01's number.
    pub fn number(self) -> u8 {
        self as u8
    }

    /// The refusal of a number that the call returned; none of 0.
    pub(crate) fn of(number: u8) -> Option<Refusal> {
        let index = usize::from(number).checked_sub(1)?;
        Some(Refusal::ALL[index])
    }
}

/// In an operator's words.
impl fmt::Display for Refusal {
    fn fmt(&self, f: &mut fmt::Formatter) -> fmt::Result {
        f.write_str(match self {
            Refusal::Version => "this is no job of version 1",
            Refusal::Length => "the job's length is wrong: it was cut off or is too long",
            Refusal::Form => "the job is damaged: a part is missing, unknown or left over",
            Refusal::Range => "the job has too many or too few parts of a kind",
            Refusal::Size => "the job is too large: over 1,024 points or 128 borrows",
            Refusal::Name => "the job has a number that names nothing or cannot stand there",
            Refusal::Arguments => "the job has a type whose parts do not fit together",
            Refusal::Path => "the job has a path that its types do not have, or one to a type that is too large",
            Refusal::Shape => "the job assigns or borrows between types that differ",
            Refusal::Room => "the loader lent too little room for the answer",
        })
    }
}

impl Error for Refusal {}
