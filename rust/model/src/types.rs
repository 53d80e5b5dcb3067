//! Types: nodes, regions, substitution, shape, and the type that a step reaches.

use crate::syntax::*;

impl Ty {
    /// The number of type tags.
    pub fn nodes(&self) -> usize {
        match self {
            Ty::Unit | Ty::Bound(_) => 1,
            Ty::Ref(_, _, referent) => 1 + referent.nodes(),
            Ty::Struct(_, args) => 1 + args.iter().map(Arg::nodes).sum::<usize>(),
        }
    }

    /// All regions that stand in the type.
    pub fn regions(&self) -> Vec<RegionName> {
        match self {
            Ty::Unit | Ty::Bound(_) => vec![],
            Ty::Ref(_, region, referent) => {
                let mut all = vec![region.name()];
                all.extend(referent.regions());
                all
            }
            Ty::Struct(_, args) => args.iter().flat_map(Arg::regions).collect(),
        }
    }

    /// The type with a struct's arguments in the place of its bound indices.
    pub fn subst(&self, args: &[Arg]) -> Ty {
        match self {
            Ty::Unit => Ty::Unit,
            Ty::Ref(kind, region, referent) => Ty::Ref(*kind, region.subst(args), Box::new(referent.subst(args))),
            Ty::Struct(name, inner) => Ty::Struct(*name, inner.iter().map(|arg| arg.subst(args)).collect()),
            Ty::Bound(index) => match bound(args, *index) {
                Arg::Ty(ty) => ty.clone(),
                Arg::Region(_) => panic!("refusal 7 leaves no such bound"),
            },
        }
    }

    /// Whether two types are alike at every node. Regions do not count.
    pub fn same_shape(&self, other: &Ty) -> bool {
        match (self, other) {
            (Ty::Unit, Ty::Unit) => true,
            (Ty::Ref(kind, _, referent), Ty::Ref(other_kind, _, other_referent)) => {
                kind == other_kind && referent.same_shape(other_referent)
            }
            (Ty::Struct(name, args), Ty::Struct(other_name, other_args)) => {
                name == other_name && args.iter().zip(other_args).all(|(a, b)| a.same_shape(b))
            }
            _ => false,
        }
    }

    /// The type that a step reaches: none from Unit, by non-star from a Ref, or by an absent field.
    pub fn step(&self, structs: &[StructDecl], field: FieldName) -> Option<Ty> {
        match self {
            Ty::Unit | Ty::Bound(_) => None,
            Ty::Ref(_, _, referent) => (field == STAR).then(|| (**referent).clone()),
            Ty::Struct(name, args) => {
                let found = structs[*name].fields.iter().find(|f| f.number == field)?;
                Some(found.ty.subst(args))
            }
        }
    }
}

impl Arg {
    fn nodes(&self) -> usize {
        match self {
            Arg::Region(_) => 0,
            Arg::Ty(ty) => ty.nodes(),
        }
    }

    fn regions(&self) -> Vec<RegionName> {
        match self {
            Arg::Region(region) => vec![region.name()],
            Arg::Ty(ty) => ty.regions(),
        }
    }

    fn subst(&self, args: &[Arg]) -> Arg {
        match self {
            Arg::Region(region) => Arg::Region(region.subst(args)),
            Arg::Ty(ty) => Arg::Ty(ty.subst(args)),
        }
    }

    fn same_shape(&self, other: &Arg) -> bool {
        match (self, other) {
            (Arg::Region(_), Arg::Region(_)) => true,
            (Arg::Ty(a), Arg::Ty(b)) => a.same_shape(b),
            _ => false,
        }
    }
}

impl Region {
    /// The name of a region in a type without bounds.
    pub fn name(self) -> RegionName {
        match self {
            Region::Free(name) => name,
            Region::Bound(_) => panic!("refusal 7 leaves no bound in a variable's type"),
        }
    }

    fn subst(self, args: &[Arg]) -> Region {
        match self {
            Region::Free(_) => self,
            Region::Bound(index) => match bound(args, index) {
                Arg::Region(region) => *region,
                Arg::Ty(_) => panic!("refusal 7 leaves no such bound"),
            },
        }
    }
}

/// Bound index b means parameter count−1−b.
pub fn bound<T>(of: &[T], index: usize) -> &T {
    &of[of.len() - 1 - index]
}
