//! The counts of a record, and which part of it a point is.
//!
//! The call has judged the record before it is read here: counts are in their ranges, every tag has a meaning and nothing is
//! missing. So parts are passed over without being judged again.

use core::fmt;

/// The words and bytes that an answer takes.
#[derive(Clone, Copy, Debug, PartialEq, Eq)]
pub struct Sizes {
    pub words: usize,
    pub bytes: usize,
}

/// What a point stands for.
#[derive(Clone, Copy, Debug, PartialEq, Eq)]
pub enum Place {
    Action { block: usize, action: usize },
    BlockEnd { block: usize },
    RegionEnd { region: usize },
}

impl fmt::Display for Place {
    fn fmt(&self, f: &mut fmt::Formatter) -> fmt::Result {
        match self {
            Place::Action { block, action } => write!(f, "block {block}, action {action}"),
            Place::BlockEnd { block } => write!(f, "end of block {block}"),
            Place::RegionEnd { region } => write!(f, "end of region {region}"),
        }
    }
}

/// A record that passes refusals 1 to 9.
#[derive(Clone, Copy, Debug)]
pub(crate) struct Layout<'a> {
    pub regions: usize,
    pub declared: usize,
    pub points: usize,
    blocks: Blocks<'a>,
}

impl<'a> Layout<'a> {
    /// Panics on a record that is not well-formed: the call would have refused it.
    pub fn of(record: &'a [u8]) -> Layout<'a> {
        Layout::read(record).expect("an accepted record is well-formed")
    }

    fn read(record: &'a [u8]) -> Option<Layout<'a>> {
        let mut parts = Parts { rest: record.get(3..)? };
        let [structs, regions, declared, variables, blocks] =
            [parts.byte()?, parts.byte()?, parts.byte()?, parts.byte()?, parts.byte()?];
        parts.times(structs, Parts::pass_struct)?;
        parts.times(declared, Parts::pass_numbers)?;
        parts.times(variables, Parts::pass_type)?;
        let blocks = Blocks { left: blocks, parts };
        let mut read = blocks;
        let code: usize = read.by_ref().map(|actions| actions + 1).sum();
        (read.left == 0 && read.parts.rest.is_empty()).then_some(Layout {
            regions,
            declared,
            points: code + declared,
            blocks,
        })
    }

    /// The words of a region.
    pub fn width(&self) -> usize {
        self.points.div_ceil(32)
    }

    pub fn sizes(&self) -> Sizes {
        Sizes { words: self.regions * self.width(), bytes: self.points * 2 + self.declared }
    }

    /// What a point stands for, if there is such a point.
    pub fn place(&self, point: usize) -> Option<Place> {
        let mut first = 0;
        for (block, actions) in self.blocks.enumerate() {
            let end = first + actions;
            if point < end {
                return Some(Place::Action { block, action: point - first });
            }
            if point == end {
                return Some(Place::BlockEnd { block });
            }
            first = end + 1;
        }
        (point < self.points).then(|| Place::RegionEnd { region: point - first })
    }
}

/// The blocks that are left, each by the number of its actions.
#[derive(Clone, Copy, Debug)]
struct Blocks<'a> {
    left: usize,
    parts: Parts<'a>,
}

impl Iterator for Blocks<'_> {
    type Item = usize;

    fn next(&mut self) -> Option<usize> {
        if self.left == 0 {
            return None;
        }
        let actions = self.parts.pass_block()?;
        self.left -= 1;
        Some(actions)
    }
}

/// The parts of a record that are left, passed over one by one; none where a byte is missing.
#[derive(Clone, Copy, Debug)]
struct Parts<'a> {
    rest: &'a [u8],
}

impl Parts<'_> {
    fn byte(&mut self) -> Option<usize> {
        let (&first, rest) = self.rest.split_first()?;
        self.rest = rest;
        Some(usize::from(first))
    }

    fn pass(&mut self, bytes: usize) -> Option<()> {
        self.rest = self.rest.get(bytes..)?;
        Some(())
    }

    fn times(&mut self, count: usize, part: fn(&mut Self) -> Option<()>) -> Option<()> {
        (0..count).try_for_each(|_| part(self))
    }

    /// A count and so many parts.
    fn counted(&mut self, part: fn(&mut Self) -> Option<()>) -> Option<usize> {
        let count = self.byte()?;
        self.times(count, part)?;
        Some(count)
    }

    fn pass_struct(&mut self) -> Option<()> {
        self.counted(|parts| parts.pass(3))?;
        self.counted(|field| {
            field.pass(1)?;
            field.pass_type()
        })?;
        Some(())
    }

    fn pass_numbers(&mut self) -> Option<()> {
        let count = self.byte()?;
        self.pass(count)
    }

    /// Calls itself at most 32 deep, the nodes of a type.
    fn pass_type(&mut self) -> Option<()> {
        match self.byte()? {
            // a Ref: its kind, its region in two bytes, and the type it refers to
            1 => {
                self.pass(3)?;
                self.pass_type()
            }
            // a struct: its number, and arguments
            2 => {
                self.pass(1)?;
                self.counted(Self::pass_argument)?;
                Some(())
            }
            // a bound: its index
            3 => self.pass(1),
            _ => Some(()),
        }
    }

    fn pass_argument(&mut self) -> Option<()> {
        match self.byte()? {
            0 => self.pass(2),
            _ => self.pass_type(),
        }
    }

    /// The number of a block's actions.
    fn pass_block(&mut self) -> Option<usize> {
        self.pass_numbers()?;
        self.counted(Self::pass_action)
    }

    fn pass_action(&mut self) -> Option<()> {
        match self.byte()? {
            // Init: a destination, and sources
            1 => {
                self.pass_path()?;
                self.counted(Self::pass_path)?;
                Some(())
            }
            // Borrow: a destination, a region and a kind, and a source
            2 => {
                self.pass_path()?;
                self.pass(2)?;
                self.pass_path()
            }
            // Assign: a destination and a source
            3 => self.times(2, Self::pass_path),
            // Constraint: two regions
            4 => self.pass(2),
            // Use, Drop
            5 | 6 => self.pass_path(),
            // StorageDead: a variable
            7 => self.pass(1),
            // Noop
            _ => Some(()),
        }
    }

    fn pass_path(&mut self) -> Option<()> {
        let steps = self.byte()?;
        self.pass(1 + steps)
    }
}
