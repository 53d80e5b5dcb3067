//! Structs and types at random.

use crate::rng::Rng;
use model::decode::MAX_NODES;
use model::syntax::*;

/// What a type may name.
pub struct Scope<'a> {
    /// The parameters of every struct.
    pub structs: &'a [Vec<Param>],
    pub regions: usize,
    /// The parameters of the struct that the type stands in, and none for a variable's.
    pub params: &'a [Param],
}

pub fn params(rng: &mut Rng) -> Vec<Param> {
    let count = rng.weighted(&[15, 35, 30, 12, 8]);
    (0..count)
        .map(|_| Param {
            variance: *rng.pick(&[Variance::Co, Variance::Contra, Variance::In]),
            may_dangle: rng.chance(40),
            kind: *rng.pick(&[Kind::Region, Kind::Type]),
        })
        .collect()
}

/// Fields, some of them with equal numbers.
pub fn fields(rng: &mut Rng, scope: &Scope) -> Vec<Field> {
    let count = rng.weighted(&[10, 30, 25, 15, 8, 5, 3, 2, 2]);
    (0..count)
        .map(|_| Field {
            number: if rng.chance(90) { rng.between(1, 4) as u8 } else { rng.between(1, 255) as u8 },
            ty: ty(rng, scope, 3),
        })
        .collect()
}

/// A type of at most 32 nodes, at most `depth` below its root.
pub fn ty(rng: &mut Rng, scope: &Scope, depth: usize) -> Ty {
    loop {
        let ty = any_ty(rng, scope, depth);
        if ty.nodes() <= MAX_NODES {
            return ty;
        }
    }
}

fn any_ty(rng: &mut Rng, scope: &Scope, depth: usize) -> Ty {
    let bound = bounds(scope.params, Kind::Type);
    let inner = usize::from(depth > 0);
    let region = any_region(rng, scope);
    let weights = [
        25,
        if region.is_some() { 35 * inner } else { 0 },
        if scope.structs.is_empty() { 0 } else { 45 * inner },
        if bound.is_empty() { 0 } else { 60 },
    ];
    match rng.weighted(&weights) {
        0 => Ty::Unit,
        1 => Ty::Ref(borrow_kind(rng), region.unwrap(), Box::new(any_ty(rng, scope, depth - 1))),
        2 => {
            let name = rng.below(scope.structs.len());
            struct_ty(rng, scope, depth, name).unwrap_or(Ty::Unit)
        }
        _ => Ty::Bound(*rng.pick(&bound)),
    }
}

/// A struct with arguments that fit; none if it needs a region and there is none.
fn struct_ty(rng: &mut Rng, scope: &Scope, depth: usize, name: StructName) -> Option<Ty> {
    let mut args = vec![];
    for param in &scope.structs[name] {
        args.push(match param.kind {
            Kind::Region => Arg::Region(any_region(rng, scope)?),
            Kind::Type => Arg::Ty(any_ty(rng, scope, depth - 1)),
        });
    }
    Some(Ty::Struct(name, args))
}

fn any_region(rng: &mut Rng, scope: &Scope) -> Option<Region> {
    let bound = bounds(scope.params, Kind::Region);
    if !bound.is_empty() && (scope.regions == 0 || rng.chance(75)) {
        Some(Region::Bound(*rng.pick(&bound)))
    } else if scope.regions > 0 {
        Some(Region::Free(rng.below(scope.regions)))
    } else {
        None
    }
}

/// The bound indices of the parameters of a kind.
fn bounds(params: &[Param], kind: Kind) -> Vec<usize> {
    (0..params.len()).filter(|&index| params[params.len() - 1 - index].kind == kind).collect()
}

pub fn borrow_kind(rng: &mut Rng) -> BorrowKind {
    *rng.pick(&[BorrowKind::Mut, BorrowKind::Shared])
}

/// The regions of a job: how many there are, and how many of them are declared.
#[derive(Clone, Copy)]
pub struct Regions {
    pub all: usize,
    pub declared: usize,
}

impl Regions {
    /// Any of them, the declared ones somewhat more often.
    pub fn pick(&self, rng: &mut Rng) -> RegionName {
        if self.declared > 0 && rng.chance(25) {
            rng.below(self.declared)
        } else {
            rng.below(self.all)
        }
    }
}

/// The same type with other regions.
pub fn with_other_regions(rng: &mut Rng, ty: &Ty, regions: Regions) -> Ty {
    match ty {
        Ty::Unit | Ty::Bound(_) => ty.clone(),
        Ty::Ref(kind, _, referent) => {
            Ty::Ref(*kind, Region::Free(regions.pick(rng)), Box::new(with_other_regions(rng, referent, regions)))
        }
        Ty::Struct(name, args) => {
            let args = args.iter().map(|arg| match arg {
                Arg::Region(_) => Arg::Region(Region::Free(regions.pick(rng))),
                Arg::Ty(ty) => Arg::Ty(with_other_regions(rng, ty, regions)),
            });
            Ty::Struct(*name, args.collect())
        }
    }
}
