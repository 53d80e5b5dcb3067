//! The parts of a job, as the record names them.

pub type RegionName = usize;
pub type StructName = usize;
pub type FieldName = u8;
pub type Variable = usize;
pub type BlockIndex = usize;
pub type Point = usize;

/// The step through a Ref.
pub const STAR: FieldName = 0;

#[derive(Clone, Copy, Debug, PartialEq, Eq)]
pub enum BorrowKind {
    Mut,
    Shared,
}

#[derive(Clone, Copy, Debug, PartialEq, Eq)]
pub enum Variance {
    Co,
    Contra,
    In,
}

/// What a struct's parameter stands for.
#[derive(Clone, Copy, Debug, PartialEq, Eq)]
pub enum Kind {
    Region,
    Type,
}

/// A region in a type: a name, or a parameter of the struct around it by its bound index.
#[derive(Clone, Copy, Debug, PartialEq, Eq)]
pub enum Region {
    Free(RegionName),
    Bound(usize),
}

#[derive(Clone, Debug, PartialEq, Eq)]
pub enum Ty {
    Unit,
    Ref(BorrowKind, Region, Box<Ty>),
    Struct(StructName, Vec<Arg>),
    Bound(usize),
}

/// An argument of a struct.
#[derive(Clone, Debug, PartialEq, Eq)]
pub enum Arg {
    Region(Region),
    Ty(Ty),
}

#[derive(Clone, Copy, Debug, PartialEq, Eq)]
pub struct Param {
    pub variance: Variance,
    pub may_dangle: bool,
    pub kind: Kind,
}

#[derive(Clone, Debug, PartialEq, Eq)]
pub struct Field {
    pub number: FieldName,
    pub ty: Ty,
}

#[derive(Clone, Debug, PartialEq, Eq)]
pub struct StructDecl {
    pub params: Vec<Param>,
    pub fields: Vec<Field>,
}

/// A variable and the steps from it, the first first.
#[derive(Clone, Debug, PartialEq, Eq)]
pub struct Path {
    pub base: Variable,
    pub steps: Vec<FieldName>,
}

#[derive(Clone, Debug, PartialEq, Eq)]
pub enum Action {
    Noop,
    Init(Path, Vec<Path>),
    Borrow(Path, RegionName, BorrowKind, Path),
    Assign(Path, Path),
    Constraint { sup: RegionName, sub: RegionName },
    Use(Path),
    Drop(Path),
    StorageDead(Variable),
}

#[derive(Clone, Debug, PartialEq, Eq)]
pub struct Block {
    pub successors: Vec<BlockIndex>,
    pub actions: Vec<Action>,
}

/// A whole record. `outlives` has an entry for each declared region; declared are the first of the regions.
#[derive(Clone, Debug, PartialEq, Eq)]
pub struct Job {
    pub structs: Vec<StructDecl>,
    pub regions: usize,
    pub outlives: Vec<Vec<RegionName>>,
    pub variables: Vec<Ty>,
    pub blocks: Vec<Block>,
}

impl Job {
    pub fn declared(&self) -> usize {
        self.outlives.len()
    }

    /// The actions of all blocks, unreached ones too.
    pub fn actions(&self) -> impl Iterator<Item = &Action> {
        self.blocks.iter().flat_map(|block| &block.actions)
    }

    /// Every action and every block's end is a point, and every declared region has an end.
    pub fn points(&self) -> usize {
        self.actions().count() + self.blocks.len() + self.declared()
    }
}

impl Action {
    /// The paths, in record order.
    pub fn paths(&self) -> Vec<&Path> {
        match self {
            Action::Noop | Action::Constraint { .. } | Action::StorageDead(_) => vec![],
            Action::Init(dest, sources) => std::iter::once(dest).chain(sources).collect(),
            Action::Borrow(dest, _, _, source) | Action::Assign(dest, source) => vec![dest, source],
            Action::Use(path) | Action::Drop(path) => vec![path],
        }
    }
}

impl Path {
    pub fn variable(base: Variable) -> Path {
        Path { base, steps: vec![] }
    }

    /// A path without steps.
    pub fn is_plain(&self) -> bool {
        self.steps.is_empty()
    }
}
