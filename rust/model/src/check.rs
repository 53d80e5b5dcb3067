//! Refusals 6 to 9, over all blocks.

use crate::decode::MAX_NODES;
use crate::syntax::*;
use crate::types::bound;

/// The first refusal that applies.
pub fn check(job: &Job) -> Result<(), u8> {
    if !numbers_name_something(job) {
        return Err(6);
    }
    if !types_fit(job) {
        return Err(7);
    }
    if !paths_fit(job) {
        return Err(8);
    }
    if !shapes_fit(job) {
        return Err(9);
    }
    Ok(())
}

// 6

fn numbers_name_something(job: &Job) -> bool {
    job.declared() <= job.regions
        && job.structs.iter().flat_map(|decl| &decl.fields).all(|f| f.number != 0 && type_named(job, &f.ty))
        && job.outlives.iter().flatten().all(|&region| region < job.declared())
        && job.variables.iter().all(|ty| type_named(job, ty))
        && job.blocks.iter().flat_map(|block| &block.successors).all(|&block| block < job.blocks.len())
        && job.actions().all(|action| action_named(job, action))
}

fn type_named(job: &Job, ty: &Ty) -> bool {
    match ty {
        Ty::Unit | Ty::Bound(_) => true,
        Ty::Ref(_, region, referent) => region_named(job, *region) && type_named(job, referent),
        Ty::Struct(name, args) => *name < job.structs.len() && args.iter().all(|arg| arg_named(job, arg)),
    }
}

fn arg_named(job: &Job, arg: &Arg) -> bool {
    match arg {
        Arg::Region(region) => region_named(job, *region),
        Arg::Ty(ty) => type_named(job, ty),
    }
}

fn region_named(job: &Job, region: Region) -> bool {
    match region {
        Region::Free(name) => name < job.regions,
        Region::Bound(_) => true,
    }
}

fn action_named(job: &Job, action: &Action) -> bool {
    let regions_named = match action {
        Action::Borrow(_, region, _, _) => *region < job.regions,
        Action::Constraint { sup, sub } => *sup < job.regions && *sub < job.regions,
        _ => true,
    };
    let dead_named = match action {
        Action::StorageDead(variable) => *variable < job.variables.len(),
        _ => true,
    };
    regions_named && dead_named && action.paths().iter().all(|path| path.base < job.variables.len())
}

// 7

fn types_fit(job: &Job) -> bool {
    let fields_fit = job.structs.iter().all(|decl| decl.fields.iter().all(|f| type_fits(job, &decl.params, &f.ty)));
    fields_fit && job.variables.iter().all(|ty| type_fits(job, &[], ty))
}

/// Whether a type fits; `params` are those of the struct that it stands in, and none for a variable's.
fn type_fits(job: &Job, params: &[Param], ty: &Ty) -> bool {
    match ty {
        Ty::Unit => true,
        Ty::Ref(_, region, referent) => region_fits(params, *region) && type_fits(job, params, referent),
        Ty::Struct(name, args) => {
            let expected = &job.structs[*name].params;
            args.len() == expected.len()
                && args.iter().zip(expected).all(|(arg, param)| arg_fits(job, params, arg, param.kind))
        }
        Ty::Bound(index) => bound_fits(params, *index, Kind::Type),
    }
}

fn arg_fits(job: &Job, params: &[Param], arg: &Arg, kind: Kind) -> bool {
    match arg {
        Arg::Region(region) => kind == Kind::Region && region_fits(params, *region),
        Arg::Ty(ty) => kind == Kind::Type && type_fits(job, params, ty),
    }
}

fn region_fits(params: &[Param], region: Region) -> bool {
    match region {
        Region::Free(_) => true,
        Region::Bound(index) => bound_fits(params, index, Kind::Region),
    }
}

fn bound_fits(params: &[Param], index: usize, kind: Kind) -> bool {
    index < params.len() && bound(params, index).kind == kind
}

// 8

fn paths_fit(job: &Job) -> bool {
    job.actions().flat_map(Action::paths).all(|path| path_fits(job, path))
}

fn path_fits(job: &Job, path: &Path) -> bool {
    let mut ty = job.variables[path.base].clone();
    for &field in &path.steps {
        match ty.step(&job.structs, field) {
            Some(next) if next.nodes() <= MAX_NODES => ty = next,
            _ => return false,
        }
    }
    true
}

// 9

fn shapes_fit(job: &Job) -> bool {
    job.actions().all(|action| match action {
        Action::Assign(dest, source) => job.path_type(dest).same_shape(&job.path_type(source)),
        Action::Borrow(dest, region, kind, source) => {
            let reference = Ty::Ref(*kind, Region::Free(*region), Box::new(job.path_type(source)));
            job.path_type(dest).same_shape(&reference)
        }
        _ => true,
    })
}
