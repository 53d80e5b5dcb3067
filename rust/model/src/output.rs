//! "What goes out": the answer to a job, and how it is written into the lent buffers.

use crate::access::{verdict, Verdict};
use crate::constraints::constraints;
use crate::graph::Graph;
use crate::loans::loans;
use crate::regions::{grown, seeds, solve, Sets};
use crate::syntax::Job;

pub struct Answer {
    pub points: usize,
    pub sets: Sets,
    /// By point, the declared ends too.
    pub verdicts: Vec<Verdict>,
    /// By declared region.
    pub grown: Vec<bool>,
    /// The number of pairs of a loan and a point that it is in scope at. It is not written.
    pub loans_in_scope: usize,
}

impl Answer {
    pub fn has_fault(&self) -> bool {
        self.verdicts.iter().any(|v| v.kind != 0)
    }
}

/// The answer to an accepted job.
pub fn answer(job: &Job) -> Answer {
    let graph = Graph::new(job);
    let seeds = seeds(&graph);
    let sets = solve(&graph, &seeds, &constraints(&graph));
    let loans = loans(&graph, &sets);
    let mut verdicts: Vec<Verdict> = (0..graph.actions.len()).map(|p| verdict(&graph, &loans, p)).collect();
    verdicts.resize(graph.points, Verdict::default());
    Answer {
        points: graph.points,
        grown: grown(job, &seeds, &sets),
        verdicts,
        loans_in_scope: loans.iter().flat_map(|loan| &loan.in_scope).filter(|&&held| held).count(),
        sets,
    }
}

/// How many words and bytes an accepted job needs.
pub fn needs(job: &Job) -> (usize, usize) {
    let words_per_region = job.points().div_ceil(32);
    (job.regions * words_per_region, job.points() * 2 + job.declared())
}

/// The call: 0 or a refusal's number. A refusal changes neither buffer.
pub fn analyse(record: &[u8], words: &mut [u32], bytes: &mut [u8]) -> u8 {
    let job = match crate::accept(record) {
        Ok(job) => job,
        Err(refusal) => return refusal,
    };
    let (words_needed, bytes_needed) = needs(&job);
    if words.len() < words_needed || bytes.len() < bytes_needed {
        return 10;
    }
    write(&answer(&job), words, bytes);
    0
}

/// Writes an answer into buffers that are long enough.
pub fn write(answer: &Answer, words: &mut [u32], bytes: &mut [u8]) {
    let words_per_region = answer.points.div_ceil(32);
    for (region, set) in answer.sets.iter().enumerate() {
        let row = &mut words[region * words_per_region..][..words_per_region];
        row.fill(0);
        for (p, &held) in set.iter().enumerate() {
            if held {
                row[p / 32] |= 1 << (p % 32);
            }
        }
    }
    for (p, verdict) in answer.verdicts.iter().enumerate() {
        bytes[2 * p] = verdict.kind;
        bytes[2 * p + 1] = verdict.operand;
    }
    for (region, &grown) in answer.grown.iter().enumerate() {
        bytes[2 * answer.points + region] = u8::from(grown);
    }
}
