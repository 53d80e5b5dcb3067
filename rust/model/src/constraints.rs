//! The constraints that the actions of walked blocks make.

use crate::graph::Graph;
use crate::syntax::*;

/// "sup outlives sub at point".
#[derive(Clone, Copy, Debug, PartialEq, Eq)]
pub struct Outlives {
    pub sup: RegionName,
    pub sub: RegionName,
    pub point: Point,
}

impl Variance {
    fn inverted(self) -> Variance {
        match self {
            Variance::Co => Variance::Contra,
            Variance::Contra => Variance::Co,
            Variance::In => Variance::In,
        }
    }

    /// The variance of an argument whose parameter has variance `param`, in a struct related under `self`.
    fn of_argument(self, param: Variance) -> Variance {
        match self {
            Variance::Co => param,
            Variance::Contra => param.inverted(),
            Variance::In => Variance::In,
        }
    }

    /// The variance of what a Ref refers to, in a Ref related under `self`.
    fn of_referent(self, kind: BorrowKind) -> Variance {
        match kind {
            BorrowKind::Mut => Variance::In,
            BorrowKind::Shared => self,
        }
    }
}

/// All constraints.
pub fn constraints(graph: &Graph) -> Vec<Outlives> {
    let mut found = vec![];
    for p in graph.walked_points() {
        if let Some(action) = graph.actions[p] {
            at_point(graph.job, action, p, &mut found);
        }
    }
    found
}

fn at_point(job: &Job, action: &Action, p: Point, found: &mut Vec<Outlives>) {
    // the next point: an action is never the last point of its block
    let next = p + 1;
    match action {
        Action::Constraint { sup, sub } => found.push(Outlives { sup: *sup, sub: *sub, point: p }),
        Action::Assign(dest, source) => {
            Relation { job, point: next, found }.types(Variance::Co, &job.path_type(source), &job.path_type(dest));
        }
        Action::Borrow(dest, region, kind, source) => {
            let reference = Ty::Ref(*kind, Region::Free(*region), Box::new(job.path_type(source)));
            Relation { job, point: next, found }.types(Variance::Contra, &job.path_type(dest), &reference);
            for sup in supporting_regions(job, source) {
                found.push(Outlives { sup, sub: *region, point: next });
            }
        }
        Action::Noop | Action::Init(..) | Action::Use(_) | Action::Drop(_) | Action::StorageDead(_) => {}
    }
}

/// The region of each Ref among the bases of a path's supporting prefixes.
fn supporting_regions(job: &Job, source: &Path) -> Vec<RegionName> {
    let mut found = vec![];
    for prefix in job.supporting_prefixes(source) {
        if let Some((_, base)) = prefix.steps.split_last() {
            let base = Path { base: prefix.base, steps: base.to_vec() };
            if let Ty::Ref(_, region, _) = job.path_type(&base) {
                found.push(region.name());
            }
        }
    }
    found
}

struct Relation<'a> {
    job: &'a Job,
    point: Point,
    found: &'a mut Vec<Outlives>,
}

impl Relation<'_> {
    fn types(&mut self, variance: Variance, a: &Ty, b: &Ty) {
        match (a, b) {
            (Ty::Ref(kind, region_a, referent_a), Ty::Ref(_, region_b, referent_b)) => {
                self.regions(variance.inverted(), *region_a, *region_b);
                self.types(variance.of_referent(*kind), referent_a, referent_b);
            }
            (Ty::Struct(name, args_a), Ty::Struct(_, args_b)) => {
                let params = &self.job.structs[*name].params;
                for (param, (a, b)) in params.iter().zip(args_a.iter().zip(args_b)) {
                    self.arguments(variance.of_argument(param.variance), a, b);
                }
            }
            _ => {}
        }
    }

    fn arguments(&mut self, variance: Variance, a: &Arg, b: &Arg) {
        match (a, b) {
            (Arg::Region(a), Arg::Region(b)) => self.regions(variance, *a, *b),
            (Arg::Ty(a), Arg::Ty(b)) => self.types(variance, a, b),
            _ => {}
        }
    }

    fn regions(&mut self, variance: Variance, a: Region, b: Region) {
        let (a, b) = (a.name(), b.name());
        match variance {
            Variance::Co => self.outlives(b, a),
            Variance::Contra => self.outlives(a, b),
            Variance::In => {
                self.outlives(a, b);
                self.outlives(b, a);
            }
        }
    }

    fn outlives(&mut self, sup: RegionName, sub: RegionName) {
        self.found.push(Outlives { sup, sub, point: self.point });
    }
}
