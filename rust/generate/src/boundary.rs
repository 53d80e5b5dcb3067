//! Records on both sides of the boundary of each refusal, with the number that document 01 gives.

use model::encode::{encode, with_length};
use model::syntax::*;

// the limits, as document 01 has them
const MAX_LENGTH: usize = 16_384;
const MAX_NODES: usize = 32;

pub struct Case {
    pub name: String,
    /// The refusal, or 0, of a call with long enough buffers.
    pub number: u8,
    pub record: Vec<u8>,
}

pub fn cases() -> Vec<Case> {
    let mut cases = Cases { found: vec![] };
    cases.header();
    cases.counts();
    cases.tags();
    cases.missing_and_extra_bytes();
    cases.nodes();
    cases.earlier_of_3_and_4();
    cases.points_and_borrows();
    cases.numbers();
    cases.arguments_and_bounds();
    cases.paths();
    cases.shapes();
    cases.first_that_applies();
    cases.found
}

// ---- Parts of jobs

fn free(name: RegionName) -> Region {
    Region::Free(name)
}

fn shared(region: RegionName, referent: Ty) -> Ty {
    Ty::Ref(BorrowKind::Shared, free(region), Box::new(referent))
}

fn unique(region: RegionName, referent: Ty) -> Ty {
    Ty::Ref(BorrowKind::Mut, free(region), Box::new(referent))
}

fn path(base: Variable, steps: &[FieldName]) -> Path {
    Path { base, steps: steps.to_vec() }
}

fn param(variance: Variance, may_dangle: bool, kind: Kind) -> Param {
    Param { variance, may_dangle, kind }
}

fn field(number: FieldName, ty: Ty) -> Field {
    Field { number, ty }
}

/// One block, and nothing in it.
fn plain() -> Job {
    Job { structs: vec![], regions: 0, outlives: vec![], variables: vec![], blocks: vec![block(vec![])] }
}

fn block(actions: Vec<Action>) -> Block {
    Block { successors: vec![], actions }
}

/// A pair struct of a region and a type, an empty struct, and one action of each kind.
fn rich() -> Job {
    let pair = StructDecl {
        params: vec![param(Variance::Co, false, Kind::Region), param(Variance::In, true, Kind::Type)],
        fields: vec![
            field(1, Ty::Ref(BorrowKind::Shared, Region::Bound(1), Box::new(Ty::Bound(0)))),
            field(2, Ty::Bound(0)),
            field(1, Ty::Unit),
        ],
    };
    let pair_of = |region, ty| Ty::Struct(0, vec![Arg::Region(free(region)), Arg::Ty(ty)]);
    Job {
        structs: vec![pair, StructDecl { params: vec![], fields: vec![] }],
        regions: 4,
        outlives: vec![vec![1], vec![]],
        variables: vec![pair_of(2, Ty::Unit), unique(3, pair_of(2, Ty::Unit)), shared(3, Ty::Unit), Ty::Unit],
        blocks: vec![
            Block {
                successors: vec![1, 0],
                actions: vec![
                    Action::Noop,
                    Action::Init(path(0, &[]), vec![path(3, &[]), path(2, &[0])]),
                    Action::Borrow(path(1, &[]), 3, BorrowKind::Mut, path(0, &[])),
                    Action::Borrow(path(2, &[]), 2, BorrowKind::Shared, path(1, &[0, 1, 0])),
                    Action::Assign(path(2, &[]), path(0, &[1])),
                ],
            },
            block(vec![
                Action::Constraint { sup: 0, sub: 3 },
                Action::Use(path(2, &[])),
                Action::Drop(path(0, &[])),
                Action::StorageDead(3),
            ]),
            Block { successors: vec![1], actions: vec![Action::Assign(path(3, &[]), path(0, &[2]))] },
        ],
    }
}

/// A job with an action added to its last block, which is unreached in `rich`.
fn with_action(mut job: Job, action: Action) -> Job {
    job.blocks.last_mut().unwrap().actions.push(action);
    job
}

/// A job with an action added to the block that starts.
fn with_walked_action(mut job: Job, action: Action) -> Job {
    job.blocks[0].actions.push(action);
    job
}

/// A job with a variable added. Its number is 4 in `rich`.
fn with_variable(mut job: Job, ty: Ty) -> Job {
    job.variables.push(ty);
    job
}

fn changed(change: impl FnOnce(&mut Job)) -> Job {
    let mut job = rich();
    change(&mut job);
    job
}

/// A chain of Refs with so many nodes in all.
fn chain(nodes: usize) -> Ty {
    (1..nodes).fold(Ty::Unit, |ty, _| shared(0, ty))
}

fn repeated<T: Clone>(item: T, count: usize) -> Vec<T> {
    vec![item; count]
}

struct Cases {
    found: Vec<Case>,
}

impl Cases {
    fn bytes(&mut self, name: &str, number: u8, record: Vec<u8>) {
        self.found.push(Case { name: name.to_string(), number, record });
    }

    fn body(&mut self, name: &str, number: u8, body: &[u8]) {
        self.bytes(name, number, with_length(body).expect("a length of two bytes"));
    }

    fn job(&mut self, name: &str, number: u8, job: &Job) {
        self.bytes(name, number, encode(job).expect("a length of two bytes"));
    }

    /// A job with one more action, in an unreached block and in a walked one.
    fn action(&mut self, name: &str, number: u8, job: &Job, action: Action) {
        self.job(name, number, &with_action(job.clone(), action.clone()));
        self.job(name, number, &with_walked_action(job.clone(), action));
    }

    // ---- 1 and 2

    fn header(&mut self) {
        let record = encode(&plain()).unwrap();
        self.bytes("empty", 1, vec![]);
        for version in [0, 2, 3, 255] {
            let mut other = record.clone();
            other[0] = version;
            self.bytes("version", 1, other);
            self.bytes("version alone", 1, vec![version]);
        }
        for length in 1..3 {
            self.bytes("short header", 2, record[..length].to_vec());
        }
        self.bytes("no body", 3, vec![1, 0, 0]);
        for wrong in [6, 8, 0, 255] {
            let mut other = record.clone();
            other[2] = wrong;
            self.bytes("wrong length", 2, other);
        }
        self.bytes("only a length of 16,385", 2, vec![1, 0x40, 1]);
        self.job("16,384 bytes", 0, &of_length(MAX_LENGTH));
        self.job("16,385 bytes", 2, &of_length(MAX_LENGTH + 1));
        self.body("16,385 meaningless bytes", 2, &repeated(0xff, MAX_LENGTH + 1));
        self.body("16,384 meaningless bytes", 4, &repeated(0xff, MAX_LENGTH));
    }

    // ---- 4: counts

    fn counts(&mut self) {
        for over in [0, 1, 100] {
            let number = if over == 0 { 0 } else { 4 };
            let of = |most: usize| (most + over).min(255);
            let empty = StructDecl { params: vec![], fields: vec![] };
            self.job("structs", number, &Job { structs: repeated(empty.clone(), of(16)), ..plain() });
            self.job("regions", number, &Job { regions: of(128), ..plain() });
            self.job("declared", number, &Job { regions: 128, outlives: repeated(vec![], of(16)), ..plain() });
            self.job("variables", number, &Job { variables: repeated(Ty::Unit, of(64)), ..plain() });
            self.job("blocks", number, &Job { blocks: repeated(block(vec![]), of(64)), ..plain() });

            let params = repeated(param(Variance::Co, false, Kind::Type), of(4));
            self.job("parameters", number, &changed(|job| job.structs[1].params = params.clone()));
            let fields = repeated(field(1, Ty::Unit), of(8));
            self.job("fields", number, &changed(|job| job.structs[1].fields = fields));
            self.job("outlived", number, &changed(|job| job.outlives[1] = repeated(0, of(16))));
            self.job("successors", number, &changed(|job| job.blocks[2].successors = repeated(1, of(8))));
            self.job("actions", number, &changed(|job| job.blocks[2].actions = repeated(Action::Noop, of(64))));
            let sources = repeated(path(3, &[]), of(8));
            self.action("sources", number, &rich(), Action::Init(path(3, &[]), sources));
            let deep = with_variable(rich(), chain(20));
            let steps = repeated(STAR, of(6));
            self.action("steps", number, &deep, Action::Use(path(4, &steps)));
            let wide = changed(|job| job.structs[1].params = repeated(param(Variance::In, false, Kind::Type), 4));
            let args = repeated(Arg::Ty(Ty::Unit), of(4));
            self.job("arguments", number, &with_variable(wide, Ty::Struct(1, args)));
        }
        self.job("no block", 4, &Job { blocks: vec![], ..plain() });
    }

    // ---- 3: tags and choices

    fn tags(&mut self) {
        // a struct with one parameter and no field, and one block
        for (at, most) in [(6, 2), (7, 1), (8, 1)] {
            for value in [0, 1, 2, 3, 255] {
                let mut body = vec![1, 0, 0, 0, 1, 1, 0, 0, 0, 0, 0, 0];
                body[at] = value;
                self.body("parameter", if value <= most { 0 } else { 3 }, &body);
            }
        }
        for tag in [4, 5, 255] {
            self.body("type tag", 3, &[0, 1, 0, 1, 1, tag, 0, 0, 0, 0, 0]);
        }
        for (kind, region) in [(0, 0), (1, 0), (2, 0), (255, 0), (0, 1), (0, 2), (0, 255)] {
            let number = match (kind, region) {
                (0 | 1, 0) => 0,
                (0, 1) => 7,
                _ => 3,
            };
            self.body("Ref", number, &[0, 1, 0, 1, 1, 1, kind, region, 0, 0, 0, 0]);
        }
        for tag in [2, 3, 255] {
            self.body("argument", 3, &[1, 1, 0, 1, 1, 1, 0, 0, 0, 0, 2, 0, 1, tag, 0, 0, 0, 0]);
        }
        self.body("argument", 0, &[1, 1, 0, 1, 1, 1, 0, 0, 0, 0, 2, 0, 1, 0, 0, 0, 0, 0]);
        for tag in [8, 9, 255] {
            self.body("action", 3, &[0, 0, 0, 0, 1, 0, 1, tag]);
        }
        for kind in [2, 255] {
            self.body("borrow kind", 3, &[0, 1, 0, 2, 1, 0, 1, 1, 0, 0, 0, 0, 1, 2, 0, 1, 0, kind, 0, 0]);
        }
        self.body("borrow kind", 0, &[0, 1, 0, 2, 1, 0, 1, 1, 0, 0, 0, 0, 1, 2, 0, 1, 0, 1, 0, 0]);
    }

    fn missing_and_extra_bytes(&mut self) {
        let record = encode(&rich()).unwrap();
        let body = &record[3..];
        self.body("rich", 0, body);
        for length in 0..body.len() {
            self.body("cut", 3, &body[..length]);
        }
        for extra in [0, 1, 255] {
            let mut longer = body.to_vec();
            longer.push(extra);
            self.body("extra byte", 3, &longer);
        }
    }

    // ---- 4: nodes of a type

    fn nodes(&mut self) {
        let before = [0, 1, 0, 1, 1];
        let refs: Vec<u8> = repeated([1u8, 1, 0, 0], MAX_NODES - 1).concat();
        let after = [0, 0];
        self.body("32 nodes", 0, &[&before[..], &refs, &[0], &after].concat());
        for tag in [0, 1, 2, 3, 4, 255] {
            self.body("33rd node", 4, &[&before[..], &refs, &[1, 1, 0, 0, tag], &after].concat());
        }
        self.body("33rd node missing", 3, &[&before[..], &refs, &[1, 1, 0, 0]].concat());
        for tag in [4, 255] {
            self.body("32nd node meaningless", 3, &[&before[..], &refs, &[tag], &after].concat());
        }
        let in_field = |nodes| changed(|job| job.structs[1].fields = vec![field(1, chain(nodes))]);
        self.job("32 nodes in a field", 0, &in_field(MAX_NODES));
        self.job("33 nodes in a field", 4, &in_field(MAX_NODES + 1));
        // a tree: three arguments of ten nodes and one of one make 32, one more makes 33
        let wide = || changed(|job| job.structs[1].params = repeated(param(Variance::Co, false, Kind::Type), 4));
        for (last, number) in [(1, 0), (2, 4)] {
            let args = [10, 10, 10, last].map(|nodes| Arg::Ty(chain(nodes))).to_vec();
            self.job("nodes of a tree", number, &with_variable(wide(), Ty::Struct(1, args)));
        }
        self.job("each type counts for itself", 0, &with_variable(with_variable(rich(), chain(32)), chain(32)));
    }

    fn earlier_of_3_and_4(&mut self) {
        self.body("a count, then a tag", 4, &[0, 0, 0, 1, 65, 9, 0, 0]);
        self.body("a tag, then a count", 3, &[0, 0, 0, 1, 1, 9, 9, 65]);
        self.body("a count, then nothing", 4, &[17]);
        self.body("a count, then nothing", 4, &[0, 129]);
        self.body("a count, then too much", 4, &[0, 0, 0, 0, 65, 0, 0, 0, 0]);
        self.body("too much, then a count", 3, &[0, 0, 0, 0, 1, 0, 0, 65]);
        self.body("a tag, then nothing", 3, &[0, 0, 0, 0, 1, 0, 1, 8]);
    }

    // ---- 5

    fn points_and_borrows(&mut self) {
        let noops = |count| block(repeated(Action::Noop, count));
        let full = || repeated(noops(63), 16);
        self.job("1,024 points", 0, &Job { blocks: full(), ..plain() });
        let with_end = Job { blocks: full(), regions: 1, outlives: vec![vec![]], ..plain() };
        self.job("1,025 points by a declared end", 5, &with_end);
        self.job("1,025 points by a block", 5, &Job { blocks: [full(), vec![noops(0)]].concat(), ..plain() });
        let mut longer = full();
        longer[15] = noops(64);
        self.job("1,025 points by an action", 5, &Job { blocks: longer, ..plain() });
        let mut shorter = full();
        shorter[15] = noops(62);
        let with_end = Job { blocks: shorter, regions: 1, outlives: vec![vec![]], ..plain() };
        self.job("1,024 points with a declared end", 0, &with_end);
        self.job("64 blocks of 64", 5, &Job { blocks: repeated(noops(64), 64), ..plain() });

        let borrow = Action::Borrow(path(1, &[]), 0, BorrowKind::Shared, path(0, &[]));
        let borrows = |counts: &[usize]| Job {
            regions: 1,
            variables: vec![Ty::Unit, shared(0, Ty::Unit)],
            blocks: counts.iter().map(|&count| block(repeated(borrow.clone(), count))).collect(),
            ..plain()
        };
        self.job("128 borrows", 0, &borrows(&[64, 64]));
        self.job("129 borrows", 5, &borrows(&[64, 64, 1]));
        self.job("129 borrows", 5, &borrows(&[43, 43, 43]));
    }

    // ---- 6

    fn numbers(&mut self) {
        self.job("declared", 0, &Job { regions: 2, outlives: repeated(vec![], 2), ..plain() });
        self.job("declared", 6, &Job { regions: 1, outlives: repeated(vec![], 2), ..plain() });
        for (outlived, number) in [(0, 0), (1, 0), (2, 6), (3, 6), (255, 6)] {
            self.job("outlived", number, &changed(|job| job.outlives[1] = vec![outlived]));
        }
        for (region, number) in [(3, 0), (4, 6), (255, 6)] {
            self.job("region of a variable's Ref", number, &with_variable(rich(), shared(region, Ty::Unit)));
            let pair = Ty::Struct(0, vec![Arg::Region(free(region)), Arg::Ty(Ty::Unit)]);
            self.job("region argument", number, &with_variable(rich(), pair));
            self.job(
                "region in a field",
                number,
                &changed(|job| job.structs[1].fields = vec![field(1, shared(region, Ty::Unit))]),
            );
            let inner = Ty::Struct(0, vec![Arg::Region(free(0)), Arg::Ty(shared(region, Ty::Unit))]);
            self.job("region in an argument's type", number, &with_variable(rich(), inner));
            self.action("sup", number, &rich(), Action::Constraint { sup: region, sub: 0 });
            self.action("sub", number, &rich(), Action::Constraint { sup: 0, sub: region });
            let borrow = Action::Borrow(path(2, &[]), region, BorrowKind::Shared, path(3, &[]));
            self.action("region of a borrow", number, &rich(), borrow);
        }
        for (name, number) in [(1, 0), (2, 6), (255, 6)] {
            self.job("struct of a variable", number, &with_variable(rich(), Ty::Struct(name, vec![])));
            self.job(
                "struct of a field",
                number,
                &changed(|job| job.structs[1].fields = vec![field(1, Ty::Struct(name, vec![]))]),
            );
        }
        for (variable, number) in [(3, 0), (4, 6), (255, 6)] {
            let here = || path(variable, &[]);
            self.action("StorageDead", number, &rich(), Action::StorageDead(variable));
            self.action("Use", number, &rich(), Action::Use(here()));
            self.action("Drop", number, &rich(), Action::Drop(here()));
            self.action("Init", number, &rich(), Action::Init(here(), vec![]));
            self.action("Init's source", number, &rich(), Action::Init(path(0, &[]), vec![here()]));
            self.action("Assign's source", number, &rich(), Action::Assign(path(3, &[]), here()));
            self.action("Assign", number, &rich(), Action::Assign(here(), path(3, &[])));
            let borrow = Action::Borrow(path(2, &[]), 0, BorrowKind::Shared, here());
            self.action("Borrow's source", number, &rich(), borrow);
        }
        for (next, number) in [(2, 0), (3, 6), (255, 6)] {
            self.job("successor", number, &changed(|job| job.blocks[2].successors = vec![next]));
        }
        for (name, number) in [(0, 6), (1, 0), (255, 0)] {
            self.job("field number", number, &changed(|job| job.structs[1].fields = vec![field(name, Ty::Unit)]));
        }
    }

    // ---- 7

    fn arguments_and_bounds(&mut self) {
        let (region, ty) = (Arg::Region(free(0)), Arg::Ty(Ty::Unit));
        for (args, number) in [
            (vec![region.clone(), ty.clone()], 0),
            (vec![], 7),
            (vec![region.clone()], 7),
            (vec![region.clone(), ty.clone(), ty.clone()], 7),
            (vec![ty.clone(), region.clone()], 7),
            (vec![region.clone(), region.clone()], 7),
            (vec![ty.clone(), ty.clone()], 7),
            (vec![region.clone(), Arg::Ty(Ty::Struct(0, vec![]))], 7),
        ] {
            self.job("arguments of a variable", number, &with_variable(rich(), Ty::Struct(0, args.clone())));
            let in_ref = shared(0, Ty::Struct(0, args.clone()));
            self.job("arguments below a Ref", number, &with_variable(rich(), in_ref));
            let in_field = changed(|job| job.structs[1].fields = vec![field(1, Ty::Struct(0, args))]);
            self.job("arguments in a field", number, &in_field);
        }
        self.job("a bound in a variable", 7, &with_variable(rich(), Ty::Bound(0)));
        let bound_ref = Ty::Ref(BorrowKind::Shared, Region::Bound(0), Box::new(Ty::Unit));
        self.job("a bound region in a variable", 7, &with_variable(rich(), bound_ref));
        let bound_arg = Ty::Struct(0, vec![Arg::Region(Region::Bound(0)), Arg::Ty(Ty::Unit)]);
        self.job("a bound argument in a variable", 7, &with_variable(rich(), bound_arg));
        // the parameters of struct 0: index 1 is its region, index 0 its type
        for (index, as_type, as_region) in [(0, 0, 7), (1, 7, 0), (2, 7, 7), (255, 7, 7)] {
            let of = |ty: Ty| changed(|job| job.structs[0].fields.push(field(9, ty)));
            self.job("bound type", as_type, &of(Ty::Bound(index)));
            let reference = Ty::Ref(BorrowKind::Mut, Region::Bound(index), Box::new(Ty::Unit));
            self.job("bound region", as_region, &of(reference));
            let pair = |r, t| Ty::Struct(0, vec![Arg::Region(r), Arg::Ty(t)]);
            self.job("bound region argument", as_region, &of(pair(Region::Bound(index), Ty::Unit)));
            self.job("bound type argument", as_type, &of(pair(free(0), Ty::Bound(index))));
        }
        self.job("a bound without parameters", 7, &changed(|job| job.structs[1].fields = vec![field(1, Ty::Bound(0))]));
    }

    // ---- 8

    fn paths(&mut self) {
        for (base, steps, number) in [
            (3, &[][..], 0),
            (3, &[0], 8),
            (3, &[1], 8),
            (2, &[0], 0),
            (2, &[1], 8),
            (2, &[255], 8),
            (2, &[0, 0], 8),
            (0, &[0], 8),
            (0, &[1], 0),
            (0, &[1, 0], 0),
            (0, &[2], 0),
            (0, &[3], 8),
            (0, &[1, 1], 8),
            (1, &[0, 1, 0], 0),
            (1, &[0, 1, 0, 0], 8),
            (1, &[1], 8),
        ] {
            let here = || path(base, steps);
            self.action("Use", number, &rich(), Action::Use(here()));
            self.action("Drop", number, &rich(), Action::Drop(here()));
            self.action("Init", number, &rich(), Action::Init(here(), vec![]));
            self.action("Init's source", number, &rich(), Action::Init(path(3, &[]), vec![path(3, &[]), here()]));
            self.action("Assign to itself", number, &rich(), Action::Assign(here(), here()));
        }
        self.types_after_substitution();
    }

    /// A field whose type has its struct's argument twice, below a Struct of two arguments.
    fn types_after_substitution(&mut self) {
        let two = StructDecl {
            params: repeated(param(Variance::Co, false, Kind::Type), 2),
            fields: vec![
                field(1, Ty::Struct(0, vec![Arg::Ty(Ty::Bound(0)), Arg::Ty(Ty::Bound(0))])),
                field(2, Ty::Bound(0)),
            ],
        };
        let job = |nodes| Job {
            structs: vec![two.clone()],
            regions: 1,
            variables: vec![Ty::Struct(0, vec![Arg::Ty(Ty::Unit), Arg::Ty(chain(nodes))])],
            ..plain()
        };
        let using = |nodes, steps: &[FieldName]| with_action(job(nodes), Action::Use(path(0, steps)));
        self.job("31 nodes", 0, &using(15, &[1]));
        self.job("33 nodes at the last step", 8, &using(16, &[1]));
        self.job("33 nodes before the last step", 8, &using(16, &[1, 2]));
        self.job("30 nodes by another field", 0, &using(30, &[2]));
        self.job("63 nodes nowhere reached", 0, &using(30, &[]));
        let one = StructDecl {
            params: vec![param(Variance::Co, false, Kind::Type)],
            fields: vec![field(1, shared(0, Ty::Bound(0))), field(2, shared(0, shared(0, Ty::Bound(0))))],
        };
        let job = |step| Job {
            structs: vec![one.clone()],
            regions: 1,
            variables: vec![Ty::Struct(0, vec![Arg::Ty(chain(31))])],
            blocks: vec![block(vec![Action::Use(path(0, &[step]))])],
            ..plain()
        };
        self.job("32 nodes", 0, &job(1));
        self.job("33 nodes", 8, &job(2));
    }

    // ---- 9

    fn shapes(&mut self) {
        let pair = |region, ty| Ty::Struct(0, vec![Arg::Region(free(region)), Arg::Ty(ty)]);
        let types = [
            Ty::Unit,
            shared(0, Ty::Unit),
            shared(1, Ty::Unit),
            unique(0, Ty::Unit),
            Ty::Struct(1, vec![]),
            pair(0, Ty::Unit),
            pair(1, Ty::Unit),
            pair(0, shared(1, Ty::Unit)),
            pair(0, unique(1, Ty::Unit)),
            shared(0, shared(0, Ty::Unit)),
        ];
        let shape = [0, 1, 1, 3, 4, 5, 5, 7, 8, 9];
        let base = types.iter().fold(rich(), |job, ty| with_variable(job, ty.clone()));
        for a in 0..types.len() {
            for b in 0..types.len() {
                let (dest, source) = (path(4 + a, &[]), path(4 + b, &[]));
                let alike = if shape[a] == shape[b] { 0 } else { 9 };
                self.action("Assign", alike, &base, Action::Assign(dest.clone(), source.clone()));
                for kind in [BorrowKind::Mut, BorrowKind::Shared] {
                    let fits = match (kind, shape[a], shape[b]) {
                        (BorrowKind::Shared, 1, 0) | (BorrowKind::Mut, 3, 0) | (BorrowKind::Shared, 9, 1) => 0,
                        _ => 9,
                    };
                    let borrow = Action::Borrow(dest.clone(), 2, kind, source.clone());
                    self.action("Borrow", fits, &base, borrow);
                }
            }
        }
    }

    // ---- Of two refusals the first applies, wherever they stand

    fn first_that_applies(&mut self) {
        let too_many = || {
            let mut job = rich();
            job.blocks.splice(2..2, repeated(block(repeated(Action::Noop, 64)), 16));
            job
        };
        let six = Action::StorageDead(200);
        let eight = Action::Use(path(3, &[1]));
        let nine = Action::Assign(path(2, &[]), path(3, &[]));
        let seven = Ty::Bound(0);
        self.job("5 before 6", 5, &with_action(too_many(), six.clone()));
        self.job("5 before 7", 5, &with_variable(too_many(), seven.clone()));
        self.job("6 before 7", 6, &with_action(with_variable(rich(), seven.clone()), six.clone()));
        self.job("6 before 8", 6, &with_action(with_action(rich(), eight.clone()), six.clone()));
        self.job("6 before 9", 6, &with_action(with_action(rich(), nine.clone()), six));
        self.job("7 before 8", 7, &with_action(with_variable(rich(), seven.clone()), eight.clone()));
        self.job("7 before 9", 7, &with_action(with_variable(rich(), seven), nine.clone()));
        self.job("8 before 9", 8, &with_action(with_action(rich(), nine.clone()), eight.clone()));
        self.action("8 alone", 8, &rich(), eight);
        self.action("9 alone", 9, &rich(), nine);
    }
}

/// A job whose record has a body of so many bytes.
fn of_length(bytes: usize) -> Job {
    let long = Action::Init(path(0, &[0; 6]), repeated(path(0, &[0; 6]), 8));
    let mut job = Job { regions: 1, variables: vec![chain(32)], ..plain() };
    job.blocks = repeated(block(vec![]), 8);
    let length = |job: &Job| encode(job).expect("a length of two bytes").len() - 3;
    let action_length = 1 + 9 * 8 + 1;
    let mut next = 0;
    while length(&job) + action_length <= bytes {
        job.blocks[next % 8].actions.push(long.clone());
        next += 1;
    }
    while length(&job) < bytes {
        job.blocks[next % 8].actions.push(Action::Noop);
        next += 1;
    }
    job
}

#[cfg(test)]
mod tests {
    use super::*;

    #[test]
    fn the_model_gives_each_number() {
        let cases = cases();
        assert!(cases.len() > 700, "{}", cases.len());
        for case in &cases {
            let got = model::accept(&case.record).err().unwrap_or(0);
            assert_eq!(got, case.number, "{} of {} bytes", case.name, case.record.len());
        }
    }

    #[test]
    fn each_refusal_occurs() {
        let cases = cases();
        for number in 0..=9 {
            assert!(cases.iter().any(|case| case.number == number), "{}", number);
        }
    }
}
