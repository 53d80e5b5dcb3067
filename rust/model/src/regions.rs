//! Seeds, and the least region sets that hold them and meet the constraints.

use crate::constraints::Outlives;
use crate::graph::Graph;
use crate::liveness::{drop_regions, Liveness};
use crate::syntax::*;

/// Row by region: whether each point is in it.
pub type Sets = Vec<Vec<bool>>;

/// The sets that the solver starts from.
pub fn seeds(graph: &Graph) -> Sets {
    let job = graph.job;
    let mut sets = vec![vec![false; graph.points]; job.regions];
    for region in 0..job.declared() {
        for p in graph.walked_points() {
            sets[region][p] = true;
        }
        for outlived in outlived_by(job, region) {
            sets[region][graph.declared_end(outlived)] = true;
        }
    }
    let live = Liveness::new(graph);
    for (variable, ty) in job.variables.iter().enumerate() {
        let used = ty.regions();
        let dropped = drop_regions(job, ty);
        for p in graph.walked_points() {
            if live.is_used(p, variable) {
                used.iter().for_each(|&region| sets[region][p] = true);
            }
            if live.is_dropped(p, variable) {
                dropped.iter().for_each(|&region| sets[region][p] = true);
            }
        }
    }
    sets
}

/// The region itself and all that it outlives, transitively.
fn outlived_by(job: &Job, region: RegionName) -> Vec<RegionName> {
    let mut found = vec![];
    let mut pending = vec![region];
    while let Some(next) = pending.pop() {
        if !found.contains(&next) {
            found.push(next);
            pending.extend(&job.outlives[next]);
        }
    }
    found
}

/// Applies every constraint until none adds a point.
pub fn solve(graph: &Graph, seeds: &Sets, constraints: &[Outlives]) -> Sets {
    let mut sets = seeds.clone();
    let mut changed = true;
    while changed {
        changed = false;
        for constraint in constraints {
            for p in passed(graph, &sets[constraint.sub], constraint.point) {
                changed |= !sets[constraint.sup][p];
                sets[constraint.sup][p] = true;
            }
        }
    }
    sets
}

/// The points met on a walk from `start` through points held by `inner`, and every declared end if
/// the walk meets a point without successors.
fn passed(graph: &Graph, inner: &[bool], start: Point) -> Vec<Point> {
    let mut visited = vec![false; graph.actions.len()];
    let mut found = vec![];
    let mut ends = false;
    let mut pending = vec![start];
    while let Some(p) = pending.pop() {
        if inner[p] && !visited[p] {
            visited[p] = true;
            found.push(p);
            ends |= graph.successors[p].is_empty();
            pending.extend(&graph.successors[p]);
        }
    }
    if ends {
        found.extend((0..graph.job.declared()).map(|region| graph.declared_end(region)));
    }
    found
}

/// By declared region: whether it exceeds its seed.
pub fn grown(job: &Job, seeds: &Sets, sets: &Sets) -> Vec<bool> {
    (0..job.declared()).map(|region| sets[region] != seeds[region]).collect()
}
