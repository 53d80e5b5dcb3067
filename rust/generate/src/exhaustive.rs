//! All jobs of a few actions from small menus, in a few graphs.

use model::encode::encode;
use model::syntax::*;

/// The records of all menus, with at most so many actions.
pub fn records(most: usize) -> impl Iterator<Item = Vec<u8>> {
    menus().into_iter().flat_map(move |menu| {
        (0..=most).flat_map(move |length| {
            let menu = menu.clone();
            let count = menu.actions.len().pow(length as u32);
            (0..count).flat_map(move |number| {
                let actions = menu.sequence(number, length);
                graphs(&actions).into_iter().map(|blocks| record(&menu.job, blocks)).collect::<Vec<_>>()
            })
        })
    })
}

#[derive(Clone)]
struct Menu {
    /// All but the blocks.
    job: Job,
    actions: Vec<Action>,
}

impl Menu {
    /// The actions whose places in the menu are the digits of a number.
    fn sequence(&self, mut number: usize, length: usize) -> Vec<Action> {
        let mut found = vec![];
        for _ in 0..length {
            found.push(self.actions[number % self.actions.len()].clone());
            number /= self.actions.len();
        }
        found
    }
}

fn record(job: &Job, blocks: Vec<Block>) -> Vec<u8> {
    encode(&Job { blocks, ..job.clone() }).expect("a short record")
}

/// The actions in one block, in a block that is its own successor, and with all but the first in a
/// loop after it.
fn graphs(actions: &[Action]) -> Vec<Vec<Block>> {
    let block =
        |successors: &[BlockIndex], actions: &[Action]| Block { successors: successors.to_vec(), actions: actions.to_vec() };
    let mut found = vec![vec![block(&[], actions)], vec![block(&[0], actions)]];
    if let Some((first, rest)) = actions.split_first() {
        found.push(vec![block(&[1, 2], std::slice::from_ref(first)), block(&[1, 2], rest), block(&[], &[])]);
    }
    found
}

fn menus() -> Vec<Menu> {
    let mut all = vec![references(), fields()];
    for outlives in [vec![vec![], vec![]], vec![vec![], vec![0]], vec![vec![], vec![0], vec![1]]] {
        all.push(declared(outlives));
    }
    for variance in [Variance::Co, Variance::Contra, Variance::In] {
        for may_dangle in [false, true] {
            all.push(structs(variance, may_dangle));
        }
    }
    all
}

fn reference(kind: BorrowKind, region: RegionName, referent: Ty) -> Ty {
    Ty::Ref(kind, Region::Free(region), Box::new(referent))
}

fn var(base: Variable) -> Path {
    Path::variable(base)
}

fn path(base: Variable, steps: &[FieldName]) -> Path {
    Path { base, steps: steps.to_vec() }
}

fn init(dest: Path) -> Action {
    Action::Init(dest, vec![])
}

use BorrowKind::{Mut, Shared};

/// A value, two Mut references and a Shared one.
fn references() -> Menu {
    let (x, p, q, s) = (0, 1, 2, 3);
    let variables = vec![Ty::Unit, reference(Mut, 0, Ty::Unit), reference(Mut, 1, Ty::Unit), reference(Shared, 2, Ty::Unit)];
    Menu {
        job: Job { structs: vec![], regions: 4, outlives: vec![], variables, blocks: vec![] },
        actions: vec![
            init(var(x)),
            init(path(p, &[STAR])),
            init(var(p)),
            Action::Borrow(var(p), 3, Mut, var(x)),
            Action::Borrow(var(q), 3, Mut, path(p, &[STAR])),
            Action::Borrow(var(p), 3, Mut, path(p, &[STAR])),
            Action::Borrow(var(s), 3, Shared, var(x)),
            Action::Borrow(var(s), 3, Shared, path(p, &[STAR])),
            Action::Borrow(var(s), 3, Shared, path(s, &[STAR])),
            Action::Assign(var(p), var(q)),
            Action::Assign(path(q, &[STAR]), path(s, &[STAR])),
            Action::Use(var(p)),
            Action::Use(var(q)),
            Action::Use(var(s)),
            Action::Use(var(x)),
            Action::Drop(var(p)),
            Action::StorageDead(x),
            Action::StorageDead(p),
        ],
    }
}

/// A struct of two fields, one a Mut reference, and borrows of parts of it.
fn fields() -> Menu {
    let decl = StructDecl {
        params: vec![Param { variance: Variance::Co, may_dangle: false, kind: Kind::Region }],
        fields: vec![
            Field { number: 1, ty: Ty::Unit },
            Field { number: 2, ty: Ty::Ref(Mut, Region::Bound(0), Box::new(Ty::Unit)) },
            Field { number: 1, ty: Ty::Struct(0, vec![Arg::Region(Region::Bound(0))]) },
        ],
    };
    let pair = |region| Ty::Struct(0, vec![Arg::Region(Region::Free(region))]);
    let (a, b, p, s) = (0, 1, 2, 3);
    let variables = vec![pair(0), pair(1), reference(Mut, 2, Ty::Unit), reference(Shared, 3, pair(2))];
    Menu {
        job: Job { structs: vec![decl], regions: 5, outlives: vec![], variables, blocks: vec![] },
        actions: vec![
            init(var(a)),
            init(path(a, &[1])),
            init(path(a, &[2])),
            init(path(a, &[2, STAR])),
            Action::Borrow(var(p), 4, Mut, path(a, &[1])),
            Action::Borrow(var(p), 4, Mut, path(a, &[2, STAR])),
            Action::Borrow(path(a, &[2]), 4, Mut, path(b, &[1])),
            Action::Borrow(var(s), 4, Shared, var(a)),
            Action::Borrow(var(p), 4, Mut, path(s, &[STAR, 2, STAR])),
            Action::Assign(var(a), var(b)),
            Action::Assign(path(b, &[2]), var(p)),
            Action::Use(path(a, &[1])),
            Action::Use(path(a, &[2])),
            Action::Use(var(p)),
            Action::Use(var(s)),
            Action::Drop(var(a)),
            Action::Drop(path(a, &[2])),
            Action::StorageDead(a),
        ],
    }
}

/// Declared regions that outlive each other as given, and one more region.
fn declared(outlives: Vec<Vec<RegionName>>) -> Menu {
    let last = outlives.len();
    let (a, b, c, x) = (0, 1, 2, 3);
    let variables =
        vec![reference(Shared, 0, Ty::Unit), reference(Shared, 1, Ty::Unit), reference(Shared, last, Ty::Unit), Ty::Unit];
    Menu {
        job: Job { structs: vec![], regions: last + 1, outlives, variables, blocks: vec![] },
        actions: vec![
            Action::Noop,
            Action::Assign(var(a), var(b)),
            Action::Assign(var(b), var(a)),
            Action::Assign(var(a), var(c)),
            Action::Assign(var(c), var(b)),
            Action::Borrow(var(a), last, Shared, var(x)),
            Action::Borrow(var(c), 1, Shared, var(x)),
            Action::Constraint { sup: 0, sub: 1 },
            Action::Constraint { sup: 1, sub: last },
            Action::Constraint { sup: last, sub: 0 },
            Action::Use(var(a)),
            Action::Use(var(c)),
            Action::StorageDead(x),
            init(var(x)),
        ],
    }
}

/// A struct of a region and a type, with one variance and one may_dangle for both.
fn structs(variance: Variance, may_dangle: bool) -> Menu {
    let param = |kind| Param { variance, may_dangle, kind };
    let decl = StructDecl {
        params: vec![param(Kind::Region), param(Kind::Type)],
        fields: vec![Field { number: 1, ty: Ty::Bound(0) }],
    };
    let of = |region, ty| Ty::Struct(0, vec![Arg::Region(Region::Free(region)), Arg::Ty(ty)]);
    let shared = |region| reference(Shared, region, Ty::Unit);
    let (a, b, r, m, x) = (0, 1, 2, 3, 4);
    let variables = vec![
        of(0, shared(1)),
        of(2, shared(3)),
        reference(Shared, 4, of(0, shared(1))),
        reference(Mut, 4, of(2, shared(3))),
        Ty::Unit,
    ];
    Menu {
        job: Job { structs: vec![decl], regions: 6, outlives: vec![], variables, blocks: vec![] },
        actions: vec![
            Action::Assign(var(a), var(b)),
            Action::Assign(path(a, &[1]), path(b, &[1])),
            Action::Borrow(var(r), 5, Shared, var(b)),
            Action::Borrow(var(m), 5, Mut, var(a)),
            Action::Borrow(path(a, &[1]), 5, Shared, var(x)),
            Action::Assign(path(m, &[STAR]), var(b)),
            Action::Assign(var(b), path(r, &[STAR])),
            Action::Use(var(a)),
            Action::Use(var(r)),
            Action::Use(var(m)),
            Action::Drop(var(a)),
            Action::Drop(var(b)),
            init(var(x)),
            init(var(a)),
        ],
    }
}

#[cfg(test)]
mod tests {
    use super::*;

    #[test]
    fn each_menu_is_accepted() {
        for menu in menus() {
            for blocks in graphs(&menu.actions) {
                let record = record(&menu.job, blocks);
                assert!(model::accept(&record).is_ok());
            }
        }
    }

    #[test]
    fn the_records_are_all_different_sequences() {
        let menu = references();
        let count = menu.actions.len().pow(2);
        let mut sequences: Vec<String> = (0..count).map(|number| format!("{:?}", menu.sequence(number, 2))).collect();
        sequences.sort();
        sequences.dedup();
        assert_eq!(sequences.len(), count);
    }
}
