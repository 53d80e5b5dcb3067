//! Loans, and at which points they are in scope.

use crate::graph::Graph;
use crate::regions::Sets;
use crate::syntax::*;

/// A Borrow of a walked block.
pub struct Loan<'job> {
    pub point: Point,
    pub region: RegionName,
    pub kind: BorrowKind,
    pub path: &'job Path,
    /// By point of a block.
    pub in_scope: Vec<bool>,
}

pub fn loans<'job>(graph: &Graph<'job>, sets: &Sets) -> Vec<Loan<'job>> {
    let mut found = vec![];
    for point in graph.walked_points() {
        if let Some(Action::Borrow(_, region, kind, path)) = graph.actions[point] {
            let in_scope = scope(graph, &sets[*region], path, point);
            found.push(Loan { point, region: *region, kind: *kind, path, in_scope });
        }
    }
    found
}

/// The points that a path reaches from the borrow, by one step or more, through points of the
/// region, before an action overwrites the loan's path or a prefix. The borrow's own action counts.
fn scope(graph: &Graph, region: &[bool], path: &Path, borrow: Point) -> Vec<bool> {
    let mut in_scope = vec![false; graph.actions.len()];
    let mut pending = vec![borrow];
    while let Some(p) = pending.pop() {
        if overwrites(graph.actions[p], path) {
            continue;
        }
        for &next in &graph.successors[p] {
            if region[next] && !in_scope[next] {
                in_scope[next] = true;
                pending.push(next);
            }
        }
    }
    in_scope
}

/// Whether an action overwrites a path or a prefix of it.
fn overwrites(action: Option<&Action>, path: &Path) -> bool {
    match action {
        Some(Action::Borrow(dest, ..) | Action::Init(dest, _) | Action::Assign(dest, _)) => dest.is_prefix_of(path),
        _ => false,
    }
}
