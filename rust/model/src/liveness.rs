//! Which variables are live on entry to each point, for a use and for a drop.

use crate::graph::Graph;
use crate::syntax::*;

/// A set of variables, one bit each: there are at most 64.
type Variables = u64;

fn only(variable: Variable) -> Variables {
    1 << variable
}

fn bases<'a>(paths: impl IntoIterator<Item = &'a Path>) -> Variables {
    paths.into_iter().fold(0, |set, path| set | only(path.base))
}

/// What an action does to the sets.
struct Effect {
    defined: Variables,
    used: Variables,
    dropped: Variables,
}

fn effect(action: Option<&Action>) -> Effect {
    let nothing = Effect { defined: 0, used: 0, dropped: 0 };
    match action {
        Some(Action::Borrow(dest, _, _, source)) => Effect { defined: only(dest.base), used: only(source.base), ..nothing },
        Some(Action::Init(dest, sources)) => written(dest, bases(sources)),
        Some(Action::Assign(dest, source)) => written(dest, only(source.base)),
        Some(Action::Use(path)) => Effect { used: only(path.base), ..nothing },
        Some(Action::Drop(path)) => Effect { dropped: only(path.base), ..nothing },
        Some(Action::Noop | Action::Constraint { .. } | Action::StorageDead(_)) | None => nothing,
    }
}

/// Init and Assign define a plain variable, or use the base of a stepped destination.
fn written(dest: &Path, sources: Variables) -> Effect {
    if dest.is_plain() {
        Effect { defined: only(dest.base), used: sources, dropped: 0 }
    } else {
        Effect { defined: 0, used: sources | only(dest.base), dropped: 0 }
    }
}

/// Row by point of a block: the variables whose value is used later, and those whose value is dropped later.
pub struct Liveness {
    used: Vec<Variables>,
    dropped: Vec<Variables>,
}

impl Liveness {
    pub fn new(graph: &Graph) -> Self {
        let effects: Vec<Effect> = graph.actions.iter().map(|&action| effect(action)).collect();
        let points = effects.len();
        let mut live = Liveness { used: vec![0; points], dropped: vec![0; points] };
        let mut changed = true;
        while changed {
            changed = false;
            for p in (0..points).rev() {
                let used = after(&live.used, &graph.successors[p]) & !effects[p].defined | effects[p].used;
                let dropped = after(&live.dropped, &graph.successors[p]) & !effects[p].defined | effects[p].dropped;
                changed |= used != live.used[p] || dropped != live.dropped[p];
                live.used[p] = used;
                live.dropped[p] = dropped;
            }
        }
        live
    }

    pub fn is_used(&self, p: Point, variable: Variable) -> bool {
        self.used[p] & only(variable) != 0
    }

    pub fn is_dropped(&self, p: Point, variable: Variable) -> bool {
        self.dropped[p] & only(variable) != 0
    }
}

/// What is live on entry to some next point.
fn after(live: &[Variables], next: &[Point]) -> Variables {
    next.iter().fold(0, |set, &q| set | live[q])
}

/// The regions that dropping a value of a type needs.
pub fn drop_regions(job: &Job, ty: &Ty) -> Vec<RegionName> {
    match ty {
        Ty::Unit | Ty::Ref(..) | Ty::Bound(_) => vec![],
        Ty::Struct(name, args) => {
            let params = &job.structs[*name].params;
            args.iter().zip(params).flat_map(|(arg, param)| dropped_argument(job, arg, param.may_dangle)).collect()
        }
    }
}

fn dropped_argument(job: &Job, arg: &Arg, may_dangle: bool) -> Vec<RegionName> {
    match (arg, may_dangle) {
        (Arg::Region(region), false) => vec![region.name()],
        (Arg::Region(_), true) => vec![],
        (Arg::Ty(ty), false) => ty.regions(),
        (Arg::Ty(ty), true) => drop_regions(job, ty),
    }
}
