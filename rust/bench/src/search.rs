//! A search for accepted records that take the proved call long: from a record, changes are kept where it takes longer.

use crate::measure::proved_seconds;
use compare::engine::Engine;
use generate::rng::Rng;
use model::encode::encode;
use model::syntax::*;
use std::time::{Duration, Instant};

pub struct Found {
    pub record: Vec<u8>,
    pub seconds: f64,
}

/// Climbs from a record for so long.
pub fn climb(start: &[u8], time: Duration, rng: &mut Rng, proved: &mut dyn Engine) -> Found {
    let started = Instant::now();
    let mut best = Found { record: start.to_vec(), seconds: proved_seconds(start, proved) };
    let mut job = model::accept(start).expect("an accepted record");
    while started.elapsed() < time {
        let mut changed = job.clone();
        for _ in 0..rng.between(1, 4) {
            change(rng, &mut changed);
        }
        let Some(record) = encode(&changed) else { continue };
        if model::accept(&record).is_err() {
            continue;
        }
        let seconds = proved_seconds(&record, proved);
        if seconds > best.seconds {
            best = Found { record, seconds };
            job = changed;
        }
    }
    best
}

/// Changes one thing of a job, or a stretch of actions.
fn change(rng: &mut Rng, job: &mut Job) {
    let blocks = job.blocks.len();
    let (a, b) = (rng.below(blocks), rng.below(blocks));
    match rng.below(8) {
        0 => job.blocks.swap(a, b),
        1 => job.blocks[a].successors = vec![b],
        2 if job.blocks[a].successors.len() < 3 => job.blocks[a].successors.push(b),
        3 => job.blocks[a].actions.reverse(),
        4 => job.blocks[a].actions = job.blocks[b].actions.clone(),
        5 => swap_actions(rng, job),
        6 => copy_action(rng, job),
        _ => change_region(rng, job),
    }
}

/// The place of an action; none if its block is empty.
fn place(rng: &mut Rng, job: &Job) -> Option<(usize, usize)> {
    let block = rng.below(job.blocks.len());
    let count = job.blocks[block].actions.len();
    (count > 0).then(|| (block, rng.below(count)))
}

fn swap_actions(rng: &mut Rng, job: &mut Job) {
    if let (Some(a), Some(b)) = (place(rng, job), place(rng, job)) {
        let action = job.blocks[a.0].actions[a.1].clone();
        job.blocks[a.0].actions[a.1] = job.blocks[b.0].actions[b.1].clone();
        job.blocks[b.0].actions[b.1] = action;
    }
}

fn copy_action(rng: &mut Rng, job: &mut Job) {
    if let (Some(a), Some(b)) = (place(rng, job), place(rng, job)) {
        job.blocks[a.0].actions[a.1] = job.blocks[b.0].actions[b.1].clone();
    }
}

/// Another region somewhere in a variable's type, or a Constraint for an action.
fn change_region(rng: &mut Rng, job: &mut Job) {
    if job.regions == 0 {
        return;
    }
    let name = rng.below(job.regions);
    if rng.chance(50) && !job.variables.is_empty() {
        let at = rng.below(job.variables.len());
        return rename(rng, &mut job.variables[at], name);
    }
    if let Some(at) = place(rng, job) {
        job.blocks[at.0].actions[at.1] = Action::Constraint { sup: name, sub: rng.below(job.regions) };
    }
}

/// Gives one region of a type another name.
fn rename(rng: &mut Rng, ty: &mut Ty, name: RegionName) {
    match ty {
        Ty::Unit | Ty::Bound(_) => {}
        Ty::Ref(_, region, referent) => match rng.chance(30) {
            true => *region = Region::Free(name),
            false => rename(rng, referent, name),
        },
        Ty::Struct(_, args) if !args.is_empty() => {
            let at = rng.below(args.len());
            match &mut args[at] {
                Arg::Region(region) => *region = Region::Free(name),
                Arg::Ty(ty) => rename(rng, ty, name),
            }
        }
        Ty::Struct(..) => {}
    }
}
