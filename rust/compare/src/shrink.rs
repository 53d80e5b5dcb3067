//! A smaller record with the same property.

use model::encode::encode;
use model::syntax::*;

/// Takes parts of the job away as long as `holds` of the record.
pub fn shrink(record: &[u8], holds: &mut dyn FnMut(&[u8]) -> bool) -> Vec<u8> {
    let Ok(mut job) = model::accept(record) else { return record.to_vec() };
    let mut best = record.to_vec();
    while let Some((smaller, bytes)) = smaller_jobs(&job)
        .into_iter()
        .filter_map(|job| encode(&job).map(|bytes| (job, bytes)))
        .find(|(_, bytes)| bytes.len() < best.len() && model::accept(bytes).is_ok() && holds(bytes))
    {
        job = smaller;
        best = bytes;
    }
    best
}

/// Jobs with one part less. Not all of them are accepted.
fn smaller_jobs(job: &Job) -> Vec<Job> {
    let mut found = vec![];
    let mut with = |change: &dyn Fn(&mut Job)| {
        let mut copy = job.clone();
        change(&mut copy);
        found.push(copy);
    };
    for (b, block) in job.blocks.iter().enumerate() {
        with(&|job| remove_block(job, b));
        for a in 0..block.actions.len() {
            with(&|job| drop(job.blocks[b].actions.remove(a)));
            with(&|job| job.blocks[b].actions[a] = Action::Noop);
        }
        for s in 0..block.successors.len() {
            with(&|job| {
                job.blocks[b].successors.remove(s);
            });
        }
    }
    with(&|job| drop(job.variables.pop()));
    with(&|job| drop(job.structs.pop()));
    with(&|job| drop(job.outlives.pop()));
    for d in 0..job.declared() {
        with(&|job| job.outlives[d].clear());
    }
    for v in 0..job.variables.len() {
        with(&|job| job.variables[v] = Ty::Unit);
    }
    for s in 0..job.structs.len() {
        with(&|job| drop(job.structs[s].fields.pop()));
    }
    found
}

/// Removes a block and the edges to it.
fn remove_block(job: &mut Job, gone: BlockIndex) {
    job.blocks.remove(gone);
    for block in &mut job.blocks {
        block.successors.retain(|&next| next != gone);
        block.successors.iter_mut().filter(|next| **next > gone).for_each(|next| *next -= 1);
    }
}
