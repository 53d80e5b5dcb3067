//! Copies of an accepted record with something wrong, most with the length put right.

use crate::rng::Rng;
use model::encode::{encode, with_length};
use model::syntax::*;

pub fn damage(rng: &mut Rng, job: &Job, record: &[u8]) -> Vec<u8> {
    match rng.weighted(&[45, 50, 2, 1, 2]) {
        0 => damage_bytes(rng, &record[3..]),
        1 => damage_job(rng, job),
        2 => wrong_length(rng, record),
        3 => wrong_version(rng, record),
        _ => record[..rng.below(record.len())].to_vec(),
    }
}

fn wrong_length(rng: &mut Rng, record: &[u8]) -> Vec<u8> {
    let mut copy = record.to_vec();
    copy[rng.between(1, 2)] = rng.below(256) as u8;
    copy
}

fn wrong_version(rng: &mut Rng, record: &[u8]) -> Vec<u8> {
    let mut copy = record.to_vec();
    copy[0] = rng.below(256) as u8;
    copy
}

// ---- The body as bytes

fn damage_bytes(rng: &mut Rng, body: &[u8]) -> Vec<u8> {
    let mut copy = body.to_vec();
    for _ in 0..rng.weighted(&[0, 70, 20, 10]) {
        change(rng, &mut copy);
    }
    with_length(&copy).expect("a short body")
}

fn change(rng: &mut Rng, body: &mut Vec<u8>) {
    if body.is_empty() {
        return body.push(small(rng));
    }
    let at = rng.below(body.len());
    match rng.below(9) {
        0 => body[at] = rng.below(256) as u8,
        1 | 2 => body[at] = small(rng),
        3 => body[at] = body[at].wrapping_add(1),
        4 => body[at] = body[at].wrapping_sub(1),
        5 => drop(body.remove(at)),
        6 => body.insert(at, small(rng)),
        7 => body.truncate(at),
        _ => body.push(small(rng)),
    }
}

fn small(rng: &mut Rng) -> u8 {
    rng.below(10) as u8
}

// ---- The job

fn damage_job(rng: &mut Rng, job: &Job) -> Vec<u8> {
    let mut copy = job.clone();
    for _ in 0..rng.weighted(&[0, 80, 20]) {
        change_job(rng, &mut copy);
    }
    encode(&copy).expect("a short record")
}

fn change_job(rng: &mut Rng, job: &mut Job) {
    if rng.chance(1) {
        return about_the_limits_of_5(rng, job);
    }
    match rng.below(10) {
        0 => change_counts(rng, job),
        1 => change_field(rng, job),
        2 => change_outlives(rng, job),
        3 | 4 => change_variable(rng, job),
        5 => change_successors(rng, job),
        _ => change_action(rng, job),
    }
}

fn change_counts(rng: &mut Rng, job: &mut Job) {
    match rng.below(4) {
        0 => job.regions = rng.below(job.regions + 1),
        1 => drop(job.variables.pop()),
        2 => drop(job.structs.pop()),
        _ => job.outlives.push(vec![]),
    }
}

/// Nearly 1,024 points, or nearly 128 borrows.
fn about_the_limits_of_5(rng: &mut Rng, job: &mut Job) {
    let borrow = job.actions().find(|action| matches!(action, Action::Borrow(..))).cloned();
    let (action, wanted) = match borrow {
        Some(borrow) if rng.chance(50) => (borrow, rng.between(126, 130)),
        _ => (Action::Noop, rng.between(1_022, 1_026) - job.points().min(1_000)),
    };
    let mut left = wanted;
    while left > 0 && job.blocks.len() < 64 {
        let actions = left.saturating_sub(1).min(63);
        job.blocks.push(Block { successors: vec![0], actions: vec![action.clone(); actions] });
        left -= actions + 1;
    }
}

fn change_field(rng: &mut Rng, job: &mut Job) {
    let (structs, regions) = (job.structs.len(), job.regions);
    if structs == 0 {
        return;
    }
    let decl = &mut job.structs[rng.below(structs)];
    match rng.below(6) {
        0 => drop(decl.params.pop()),
        1 if !decl.params.is_empty() => {
            let at = rng.below(decl.params.len());
            decl.params[at].kind = *rng.pick(&[Kind::Region, Kind::Type]);
        }
        _ if !decl.fields.is_empty() => {
            let at = rng.below(decl.fields.len());
            let field = &mut decl.fields[at];
            match rng.below(4) {
                0 => field.number = 0,
                1 => field.number = field.number.wrapping_add(1),
                _ => change_ty(rng, &mut field.ty, structs, regions),
            }
        }
        _ => {}
    }
}

fn change_outlives(rng: &mut Rng, job: &mut Job) {
    let declared = job.declared();
    if declared > 0 {
        let at = rng.below(declared);
        job.outlives[at].push(rng.below(declared + 2));
    }
}

fn change_variable(rng: &mut Rng, job: &mut Job) {
    let (structs, regions) = (job.structs.len(), job.regions);
    if !job.variables.is_empty() {
        let at = rng.below(job.variables.len());
        change_ty(rng, &mut job.variables[at], structs, regions);
    }
}

/// Changes a type at one of its nodes.
fn change_ty(rng: &mut Rng, ty: &mut Ty, structs: usize, regions: usize) {
    if rng.chance(50) {
        match ty {
            Ty::Ref(_, _, referent) => return change_ty(rng, referent, structs, regions),
            Ty::Struct(_, args) if !args.is_empty() => {
                let at = rng.below(args.len());
                return change_arg(rng, &mut args[at], structs, regions);
            }
            _ => {}
        }
    }
    *ty = match ty.clone() {
        Ty::Unit => match rng.below(3) {
            0 => Ty::Bound(rng.below(3)),
            1 => Ty::Struct(rng.below(structs + 1), vec![]),
            _ => Ty::Ref(BorrowKind::Shared, Region::Free(rng.below(regions + 1)), Box::new(Ty::Unit)),
        },
        Ty::Ref(kind, region, referent) => match rng.below(4) {
            0 => Ty::Ref(other(kind), region, referent),
            1 => Ty::Ref(kind, change_region(rng, regions), referent),
            2 => *referent,
            _ => Ty::Ref(kind, region, Box::new(Ty::Unit)),
        },
        Ty::Struct(name, mut args) => match rng.below(3) {
            0 => Ty::Struct(rng.below(structs + 1), args),
            1 => {
                args.pop();
                Ty::Struct(name, args)
            }
            _ => {
                args.push(Arg::Region(change_region(rng, regions)));
                Ty::Struct(name, args)
            }
        },
        Ty::Bound(index) => rng.pick(&[Ty::Bound(index + 1), Ty::Unit, Ty::Bound(index / 2)]).clone(),
    }
}

fn change_arg(rng: &mut Rng, arg: &mut Arg, structs: usize, regions: usize) {
    match arg {
        Arg::Ty(ty) if rng.chance(80) => change_ty(rng, ty, structs, regions),
        Arg::Ty(_) => *arg = Arg::Region(change_region(rng, regions)),
        Arg::Region(region) if rng.chance(70) => *region = change_region(rng, regions),
        Arg::Region(_) => *arg = Arg::Ty(Ty::Unit),
    }
}

fn change_region(rng: &mut Rng, regions: usize) -> Region {
    if rng.chance(50) {
        Region::Free(rng.below(regions + 1))
    } else {
        Region::Bound(rng.below(3))
    }
}

fn other(kind: BorrowKind) -> BorrowKind {
    match kind {
        BorrowKind::Mut => BorrowKind::Shared,
        BorrowKind::Shared => BorrowKind::Mut,
    }
}

fn change_successors(rng: &mut Rng, job: &mut Job) {
    let count = job.blocks.len();
    let at = rng.below(count);
    job.blocks[at].successors.push(rng.below(count + 1));
}

fn change_action(rng: &mut Rng, job: &mut Job) {
    let (variables, regions) = (job.variables.len(), job.regions);
    let at = rng.below(job.blocks.len());
    let actions = &mut job.blocks[at].actions;
    if actions.is_empty() {
        return actions.push(Action::Use(Path::variable(rng.below(variables + 1))));
    }
    let at = rng.below(actions.len());
    match &mut actions[at] {
        Action::Noop => actions[at] = Action::StorageDead(rng.below(variables + 1)),
        Action::Init(dest, sources) => match sources.last_mut() {
            Some(source) if rng.chance(50) => change_path(rng, source, variables),
            _ => change_path(rng, dest, variables),
        },
        Action::Borrow(dest, region, kind, source) => match rng.below(4) {
            0 => change_path(rng, dest, variables),
            1 => change_path(rng, source, variables),
            2 => *kind = other(*kind),
            _ => *region = rng.below(regions + 1),
        },
        Action::Assign(dest, source) => {
            let path = if rng.chance(50) { dest } else { source };
            change_path(rng, path, variables);
        }
        Action::Constraint { sup, .. } => *sup = rng.below(regions + 2),
        Action::Use(path) | Action::Drop(path) => change_path(rng, path, variables),
        Action::StorageDead(variable) => *variable = rng.below(variables + 2),
    }
}

fn change_path(rng: &mut Rng, path: &mut Path, variables: usize) {
    match rng.below(4) {
        0 => path.base = rng.below(variables + 1),
        1 => path.steps.push(rng.below(5) as u8),
        2 => drop(path.steps.pop()),
        _ => match path.steps.last_mut() {
            Some(step) => *step = rng.below(5) as u8,
            None => path.base = rng.below(variables.max(1)),
        },
    }
}
