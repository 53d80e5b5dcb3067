//! Points, their successors, and which are walked.

use crate::syntax::*;

/// Points are numbered block by block, actions first, then the block's end; then one end per declared region.
pub struct Graph<'job> {
    pub job: &'job Job,
    /// All points, the declared ends too.
    pub points: usize,
    /// For each point of a block: the action, or none at the block's end.
    pub actions: Vec<Option<&'job Action>>,
    /// For each point of a block: the points that can come next.
    pub successors: Vec<Vec<Point>>,
    /// For each point of a block: whether the block is reached from block 0.
    pub walked: Vec<bool>,
}

impl<'job> Graph<'job> {
    pub fn new(job: &'job Job) -> Self {
        let first = first_points(job);
        let reached = reached_blocks(job);
        let mut graph = Graph { job, points: job.points(), actions: vec![], successors: vec![], walked: vec![] };
        for (index, block) in job.blocks.iter().enumerate() {
            for action in &block.actions {
                graph.actions.push(Some(action));
                graph.successors.push(vec![graph.actions.len()]);
                graph.walked.push(reached[index]);
            }
            graph.actions.push(None);
            graph.successors.push(block.successors.iter().map(|&next| first[next]).collect());
            graph.walked.push(reached[index]);
        }
        graph
    }

    /// The points of walked blocks.
    pub fn walked_points(&self) -> impl Iterator<Item = Point> + '_ {
        (0..self.actions.len()).filter(|&p| self.walked[p])
    }

    /// The end of a declared region.
    pub fn declared_end(&self, region: RegionName) -> Point {
        self.actions.len() + region
    }
}

fn first_points(job: &Job) -> Vec<Point> {
    let mut next = 0;
    let mut first = vec![];
    for block in &job.blocks {
        first.push(next);
        next += block.actions.len() + 1;
    }
    first
}

fn reached_blocks(job: &Job) -> Vec<bool> {
    let mut reached = vec![false; job.blocks.len()];
    let mut pending = vec![0];
    while let Some(block) = pending.pop() {
        if !reached[block] {
            reached[block] = true;
            pending.extend(&job.blocks[block].successors);
        }
    }
    reached
}
