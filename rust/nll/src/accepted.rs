//! The answer to an accepted job, read off the two buffers.

use core::fmt;

use crate::layout::{Layout, Place};

/// The answer to an accepted job.
#[derive(Clone, Copy, Debug)]
pub struct Accepted<'a> {
    layout: Layout<'a>,
    words: &'a [u32],
    bytes: &'a [u8],
}

/// An action that touches what is still lent.
#[derive(Clone, Copy, Debug, PartialEq, Eq)]
pub struct Fault {
    pub point: usize,
    pub kind: FaultKind,
    /// Which of the action's paths, from 0 in the record's order; of a StorageDead, 0 is its variable.
    pub operand: usize,
}

/// What a fault does to its operand.
#[derive(Clone, Copy, Debug, PartialEq, Eq, Hash)]
#[repr(u8)]
pub enum FaultKind {
    Read = 1,
    Write = 2,
    Move = 3,
    StorageDead = 4,
}

impl FaultKind {
    /// Document 01's number.
    pub fn number(self) -> u8 {
        self as u8
    }

    /// The kind of a number that the call wrote; none of 0.
    fn of(number: u8) -> Option<FaultKind> {
        match number {
            0 => None,
            1 => Some(FaultKind::Read),
            2 => Some(FaultKind::Write),
            3 => Some(FaultKind::Move),
            4 => Some(FaultKind::StorageDead),
            _ => unreachable!("a kind is at most 4"),
        }
    }
}

impl fmt::Display for FaultKind {
    fn fmt(&self, f: &mut fmt::Formatter) -> fmt::Result {
        f.write_str(match self {
            FaultKind::Read => "a read of",
            FaultKind::Write => "a write to",
            FaultKind::Move => "a move of",
            FaultKind::StorageDead => "the storage's end of",
        })
    }
}

impl fmt::Display for Fault {
    fn fmt(&self, f: &mut fmt::Formatter) -> fmt::Result {
        write!(f, "point {}: {} operand {}, which is still lent", self.point, self.kind, self.operand)
    }
}

impl<'a> Accepted<'a> {
    /// The answer that the call left in the buffers.
    pub(crate) fn new(layout: Layout<'a>, words: &'a [u32], bytes: &'a [u8]) -> Accepted<'a> {
        let sizes = layout.sizes();
        Accepted { layout, words: &words[..sizes.words], bytes: &bytes[..sizes.bytes] }
    }

    /// The number of points: the actions and the end of each block, and an end for each declared region.
    pub fn points(&self) -> usize {
        self.layout.points
    }

    pub fn regions(&self) -> usize {
        self.layout.regions
    }

    /// The number of declared regions, which are the first of the regions.
    pub fn declared(&self) -> usize {
        self.layout.declared
    }

    /// The words of the answer: [`Accepted::regions`] rows.
    pub fn words(&self) -> &'a [u32] {
        self.words
    }

    /// The bytes of the answer: two for each point, then one for each declared region.
    pub fn bytes(&self) -> &'a [u8] {
        self.bytes
    }

    /// The points of a region's set, ascending. A number that names no region has none.
    pub fn region(&self, region: usize) -> impl Iterator<Item = usize> + 'a {
        let width = self.layout.width();
        let row = self.words.chunks(width).nth(region).unwrap_or(&[]);
        (0..row.len() * 32).filter(move |p| row[p / 32] >> (p % 32) & 1 == 1)
    }

    /// The fault at a point, if there is one.
    pub fn fault(&self, point: usize) -> Option<Fault> {
        if point >= self.points() {
            return None;
        }
        let kind = FaultKind::of(self.bytes[2 * point])?;
        Some(Fault { point, kind, operand: usize::from(self.bytes[2 * point + 1]) })
    }

    /// The faults, by point.
    pub fn faults(&self) -> impl Iterator<Item = Fault> + 'a {
        let answer = *self;
        (0..answer.points()).filter_map(move |point| answer.fault(point))
    }

    /// Whether no point has a fault. Then no action conflicts with what a borrow into a plain variable lends on any path to a later
    /// use of a variable that holds the loan, until what was lent, or a prefix of its path, is overwritten.
    pub fn without_access_errors(&self) -> bool {
        self.faults().next().is_none()
    }

    /// The declared regions that are grown, ascending: such a region has to outlive more than the job declares.
    pub fn grown(&self) -> impl Iterator<Item = usize> + 'a {
        let marks = &self.bytes[2 * self.points()..];
        (0..marks.len()).filter(move |&region| marks[region] == 1)
    }

    /// What a point stands for, if there is such a point.
    pub fn place(&self, point: usize) -> Option<Place> {
        self.layout.place(point)
    }
}
