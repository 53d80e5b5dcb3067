//! "The record that comes in": refusals 1 to 5.

use crate::syntax::*;

pub const MAX_LENGTH: usize = 16_384;
pub const MAX_NODES: usize = 32;
pub const MAX_POINTS: usize = 1_024;
pub const MAX_BORROWS: usize = 128;

/// The upper ends of the ranges of the counts.
pub mod most {
    pub const STRUCTS: u8 = 16;
    pub const REGIONS: u8 = 128;
    pub const DECLARED: u8 = 16;
    pub const VARIABLES: u8 = 64;
    pub const BLOCKS: u8 = 64;
    pub const PARAMS: u8 = 4;
    pub const FIELDS: u8 = 8;
    pub const OUTLIVED: u8 = 16;
    pub const SUCCESSORS: u8 = 8;
    pub const ACTIONS: u8 = 64;
    pub const STEPS: u8 = 6;
    pub const SOURCES: u8 = 8;
}

/// The job, or refusal 1 to 5.
pub fn decode(record: &[u8]) -> Result<Job, u8> {
    let job = read(body(record)?)?;
    let borrows = job.actions().filter(|a| matches!(a, Action::Borrow(..))).count();
    if job.points() > MAX_POINTS || borrows > MAX_BORROWS {
        return Err(5);
    }
    Ok(job)
}

/// What follows the length: refusals 1 and 2.
fn body(record: &[u8]) -> Result<&[u8], u8> {
    if record.first() != Some(&1) {
        return Err(1);
    }
    if record.len() < 3 {
        return Err(2);
    }
    let length = usize::from(record[1]) * 256 + usize::from(record[2]);
    let body = &record[3..];
    if length > MAX_LENGTH || length != body.len() {
        return Err(2);
    }
    Ok(body)
}

/// Reads front to back: refusals 3 and 4.
fn read(body: &[u8]) -> Result<Job, u8> {
    let mut input = Input { rest: body };
    let job = input.job()?;
    if input.rest.is_empty() {
        Ok(job)
    } else {
        Err(3)
    }
}

struct Input<'a> {
    rest: &'a [u8],
}

impl Input<'_> {
    fn byte(&mut self) -> Result<u8, u8> {
        let (&first, rest) = self.rest.split_first().ok_or(3)?;
        self.rest = rest;
        Ok(first)
    }

    fn number(&mut self) -> Result<usize, u8> {
        Ok(usize::from(self.byte()?))
    }

    fn count(&mut self, least: u8, most: u8) -> Result<usize, u8> {
        let count = self.byte()?;
        if least <= count && count <= most {
            Ok(usize::from(count))
        } else {
            Err(4)
        }
    }

    /// A byte that says which of the choices is meant.
    fn choice<T: Copy>(&mut self, choices: &[T]) -> Result<T, u8> {
        let tag = self.number()?;
        choices.get(tag).copied().ok_or(3)
    }

    fn items<T>(&mut self, count: usize, item: impl Fn(&mut Self) -> Result<T, u8>) -> Result<Vec<T>, u8> {
        (0..count).map(|_| item(self)).collect()
    }

    fn counted<T>(&mut self, most: u8, item: impl Fn(&mut Self) -> Result<T, u8>) -> Result<Vec<T>, u8> {
        let count = self.count(0, most)?;
        self.items(count, item)
    }

    fn job(&mut self) -> Result<Job, u8> {
        let structs = self.count(0, most::STRUCTS)?;
        let regions = self.count(0, most::REGIONS)?;
        let declared = self.count(0, most::DECLARED)?;
        let variables = self.count(0, most::VARIABLES)?;
        let blocks = self.count(1, most::BLOCKS)?;
        Ok(Job {
            structs: self.items(structs, Self::struct_decl)?,
            regions,
            outlives: self.items(declared, |input| input.counted(most::OUTLIVED, Self::number))?,
            variables: self.items(variables, Self::ty)?,
            blocks: self.items(blocks, Self::block)?,
        })
    }

    fn struct_decl(&mut self) -> Result<StructDecl, u8> {
        Ok(StructDecl { params: self.counted(most::PARAMS, Self::param)?, fields: self.counted(most::FIELDS, Self::field)? })
    }

    fn param(&mut self) -> Result<Param, u8> {
        Ok(Param {
            variance: self.choice(&[Variance::Co, Variance::Contra, Variance::In])?,
            may_dangle: self.choice(&[false, true])?,
            kind: self.choice(&[Kind::Region, Kind::Type])?,
        })
    }

    fn field(&mut self) -> Result<Field, u8> {
        Ok(Field { number: self.byte()?, ty: self.ty()? })
    }

    fn ty(&mut self) -> Result<Ty, u8> {
        self.node(&mut 0)
    }

    /// A node of a type of which `nodes` are read.
    fn node(&mut self, nodes: &mut usize) -> Result<Ty, u8> {
        let tag = self.byte()?;
        if *nodes == MAX_NODES {
            return Err(4);
        }
        *nodes += 1;
        match tag {
            0 => Ok(Ty::Unit),
            1 => {
                let kind = self.borrow_kind()?;
                let region = self.region()?;
                Ok(Ty::Ref(kind, region, Box::new(self.node(nodes)?)))
            }
            2 => {
                let name = self.number()?;
                let count = self.count(0, most::PARAMS)?;
                let mut args = vec![];
                for _ in 0..count {
                    args.push(self.arg(nodes)?);
                }
                Ok(Ty::Struct(name, args))
            }
            3 => Ok(Ty::Bound(self.number()?)),
            _ => Err(3),
        }
    }

    fn arg(&mut self, nodes: &mut usize) -> Result<Arg, u8> {
        match self.byte()? {
            0 => Ok(Arg::Region(self.region()?)),
            1 => Ok(Arg::Ty(self.node(nodes)?)),
            _ => Err(3),
        }
    }

    fn region(&mut self) -> Result<Region, u8> {
        match self.byte()? {
            0 => Ok(Region::Free(self.number()?)),
            1 => Ok(Region::Bound(self.number()?)),
            _ => Err(3),
        }
    }

    fn borrow_kind(&mut self) -> Result<BorrowKind, u8> {
        self.choice(&[BorrowKind::Mut, BorrowKind::Shared])
    }

    fn block(&mut self) -> Result<Block, u8> {
        Ok(Block {
            successors: self.counted(most::SUCCESSORS, Self::number)?,
            actions: self.counted(most::ACTIONS, Self::action)?,
        })
    }

    fn action(&mut self) -> Result<Action, u8> {
        match self.byte()? {
            0 => Ok(Action::Noop),
            1 => Ok(Action::Init(self.path()?, self.counted(most::SOURCES, Self::path)?)),
            2 => Ok(Action::Borrow(self.path()?, self.number()?, self.borrow_kind()?, self.path()?)),
            3 => Ok(Action::Assign(self.path()?, self.path()?)),
            4 => Ok(Action::Constraint { sup: self.number()?, sub: self.number()? }),
            5 => Ok(Action::Use(self.path()?)),
            6 => Ok(Action::Drop(self.path()?)),
            7 => Ok(Action::StorageDead(self.number()?)),
            _ => Err(3),
        }
    }

    fn path(&mut self) -> Result<Path, u8> {
        let count = self.count(0, most::STEPS)?;
        Ok(Path { base: self.number()?, steps: self.items(count, Self::byte)? })
    }
}
