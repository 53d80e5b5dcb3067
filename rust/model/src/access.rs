//! Which accesses an action makes, and the first that conflicts with a loan in scope.

use crate::graph::Graph;
use crate::loans::Loan;
use crate::syntax::*;

/// A fault's kind and operand; 0 and 0 where there is none.
#[derive(Clone, Copy, Debug, Default, PartialEq, Eq)]
pub struct Verdict {
    pub kind: u8,
    pub operand: u8,
}

pub const READ: u8 = 1;
pub const WRITE: u8 = 2;
pub const MOVE: u8 = 3;
pub const STORAGE_DEAD: u8 = 4;

enum Access {
    /// The source of an Init, Assign or Shared Borrow, or what a Use names.
    Read,
    /// The source of a Mut Borrow.
    MutBorrow,
    /// What a Drop names.
    Move,
    /// A written destination.
    Write,
    StorageDead,
}

impl Access {
    fn fault(&self) -> u8 {
        match self {
            Access::Read => READ,
            Access::MutBorrow | Access::Write => WRITE,
            Access::Move => MOVE,
            Access::StorageDead => STORAGE_DEAD,
        }
    }

    fn conflicts(&self, job: &Job, path: &Path, loan: &Loan) -> bool {
        match self {
            Access::Read => loan.kind == BorrowKind::Mut && intersects(job, path, loan),
            Access::MutBorrow | Access::Move => intersects(job, path, loan),
            Access::Write | Access::StorageDead => freezes(job, path, loan),
        }
    }
}

fn intersects(job: &Job, path: &Path, loan: &Loan) -> bool {
    loan.path.is_prefix_of(path) || job.supporting_prefixes(loan.path).contains(path)
}

fn freezes(job: &Job, path: &Path, loan: &Loan) -> bool {
    loan.path.is_prefix_of(path) || job.frozen_prefixes(loan.path).contains(path)
}

/// The operands in record order: the destination first, then the sources.
fn accesses(action: &Action) -> Vec<(Access, Path)> {
    match action {
        Action::Noop | Action::Constraint { .. } => vec![],
        Action::Init(dest, sources) => {
            let mut all = vec![(Access::Write, dest.clone())];
            all.extend(sources.iter().map(|source| (Access::Read, source.clone())));
            all
        }
        Action::Borrow(dest, _, BorrowKind::Mut, source) => {
            vec![(Access::Write, dest.clone()), (Access::MutBorrow, source.clone())]
        }
        Action::Borrow(dest, _, BorrowKind::Shared, source) | Action::Assign(dest, source) => {
            vec![(Access::Write, dest.clone()), (Access::Read, source.clone())]
        }
        Action::Use(path) => vec![(Access::Read, path.clone())],
        Action::Drop(path) => vec![(Access::Move, path.clone())],
        Action::StorageDead(variable) => vec![(Access::StorageDead, Path::variable(*variable))],
    }
}

/// The verdict at a point of a block.
pub fn verdict(graph: &Graph, loans: &[Loan], p: Point) -> Verdict {
    let Some(action) = graph.actions[p] else { return Verdict::default() };
    for (operand, (access, path)) in accesses(action).iter().enumerate() {
        if loans.iter().any(|loan| loan.in_scope[p] && access.conflicts(graph.job, path, loan)) {
            return Verdict { kind: access.fault(), operand: operand as u8 };
        }
    }
    Verdict::default()
}
