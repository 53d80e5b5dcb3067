//! The paths that actions can name, with their types.

use crate::rng::Rng;
use model::decode::{most, MAX_NODES};
use model::syntax::*;

pub struct Typed {
    pub path: Path,
    pub ty: Ty,
}

/// Some paths of each variable: all short ones, up to a limit, and a long one at random.
pub fn typed_paths(rng: &mut Rng, structs: &[StructDecl], variables: &[Ty]) -> Vec<Typed> {
    let mut found = vec![];
    for (base, ty) in variables.iter().enumerate() {
        let first = found.len();
        found.push(Typed { path: Path::variable(base), ty: ty.clone() });
        let mut next = first;
        while next < found.len() && found.len() - first < 10 {
            let longer = one_step_longer(structs, &found[next]);
            found.extend(longer);
            next += 1;
        }
        found.push(long_path(rng, structs, base, ty));
    }
    found
}

fn one_step_longer(structs: &[StructDecl], typed: &Typed) -> Vec<Typed> {
    if typed.path.steps.len() == usize::from(most::STEPS) {
        return vec![];
    }
    let mut fields = fields_of(structs, &typed.ty);
    fields.dedup();
    fields.into_iter().filter_map(|field| stepped(structs, typed, field)).collect()
}

fn fields_of(structs: &[StructDecl], ty: &Ty) -> Vec<FieldName> {
    match ty {
        Ty::Unit | Ty::Bound(_) => vec![],
        Ty::Ref(..) => vec![STAR],
        Ty::Struct(name, _) => structs[*name].fields.iter().map(|field| field.number).collect(),
    }
}

fn stepped(structs: &[StructDecl], typed: &Typed, field: FieldName) -> Option<Typed> {
    let ty = typed.ty.step(structs, field)?;
    let mut path = typed.path.clone();
    path.steps.push(field);
    (ty.nodes() <= MAX_NODES).then_some(Typed { path, ty })
}

fn long_path(rng: &mut Rng, structs: &[StructDecl], base: Variable, ty: &Ty) -> Typed {
    let mut typed = Typed { path: Path::variable(base), ty: ty.clone() };
    loop {
        let longer = one_step_longer(structs, &typed);
        if longer.is_empty() {
            return typed;
        }
        let index = rng.below(longer.len());
        typed = longer.into_iter().nth(index).unwrap();
    }
}
