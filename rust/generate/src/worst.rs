//! Accepted jobs that are much work for an analysis, or need much stack.

use model::decode::{MAX_BORROWS, MAX_LENGTH, MAX_NODES, MAX_POINTS};
use model::encode::encode;
use model::syntax::*;

const REGIONS: usize = 128;
const ACTIONS: usize = 64;

fn record(job: &Job) -> Vec<u8> {
    encode(job).expect("a short record")
}

// ---- Parts of jobs

/// Full blocks, each followed by the next.
fn in_a_row(actions: &[Action]) -> Vec<Block> {
    let count = actions.chunks(ACTIONS).len();
    let block = |(index, actions): (usize, &[Action])| Block {
        successors: if index + 1 < count { vec![index + 1] } else { vec![] },
        actions: actions.to_vec(),
    };
    actions.chunks(ACTIONS).enumerate().map(block).collect()
}

fn path(base: Variable, steps: Vec<FieldName>) -> Path {
    Path { base, steps }
}

fn init(variable: Variable, sources: &[Variable]) -> Action {
    Action::Init(Path::variable(variable), sources.iter().map(|&source| Path::variable(source)).collect())
}

fn assign(to: Variable, from: Variable) -> Action {
    Action::Assign(Path::variable(to), Path::variable(from))
}

fn reference(kind: BorrowKind, name: RegionName, referent: Ty) -> Ty {
    Ty::Ref(kind, Region::Free(name), Box::new(referent))
}

fn invariant(kind: Kind) -> Param {
    Param { variance: Variance::In, may_dangle: false, kind }
}

/// Struct 0 has four regions, struct 1 has three and a type.
fn regions_and_a_type() -> Vec<StructDecl> {
    let mut three = vec![invariant(Kind::Region); 3];
    three.push(invariant(Kind::Type));
    vec![
        StructDecl { params: vec![invariant(Kind::Region); 4], fields: vec![] },
        StructDecl { params: three, fields: vec![] },
    ]
}

fn three_and(names: [RegionName; 3], ty: Ty) -> Ty {
    three_of(1, names, ty)
}

fn three_of(name: StructName, names: [RegionName; 3], ty: Ty) -> Ty {
    let mut args = names.map(|name| Arg::Region(Region::Free(name))).to_vec();
    args.push(Arg::Ty(ty));
    Ty::Struct(name, args)
}

/// A type of so many nodes with as many regions as these can have: 97 for 32 nodes.
fn large_type(nodes: usize, name: impl Fn(usize) -> RegionName) -> Ty {
    let leaf = Ty::Struct(0, (0..4).map(|i| Arg::Region(Region::Free(name(i)))).collect());
    let around = |ty, node| three_and([1, 2, 3].map(|i| name(3 * node + i)), ty);
    (1..nodes).fold(leaf, around)
}

/// Structs with one parameter, a type, that is the argument of the next one in their only field; the last one's field is of that type.
fn in_turn(first: StructName, count: usize) -> impl Iterator<Item = StructDecl> {
    let argument = || Ty::Bound(0);
    (1..=count).map(move |index| {
        let ty = if index < count { Ty::Struct(first + index, vec![Arg::Ty(argument())]) } else { argument() };
        StructDecl { params: vec![invariant(Kind::Type)], fields: vec![Field { number: 1, ty }] }
    })
}

/// A type with the regions of a range.
fn holding(names: std::ops::Range<RegionName>) -> Ty {
    let last = names.end - 1;
    names.step_by(3).fold(Ty::Unit, |ty, name| three_and([name, last.min(name + 1), last.min(name + 2)], ty))
}

// ---- Many rounds of many constraints

/// A job of many rounds, in each of which the regions get two points. By two Constraints, a lower region and an upper one outlive each
/// other. Assignments relate the lower regions with each other, and the upper ones. After them come points of which the lower regions
/// hold every other one, and the upper regions those between: a walk through a region ends at the first that is missing, and only as
/// far gets the region that outlives it.
#[derive(Clone, Copy, Debug)]
pub struct Clock {
    /// Each relates 97 pairs of regions, both ways, or 94 where the paths have more than one step.
    pub assignments: usize,
    /// The points after the assignments, two a round.
    pub ticks: usize,
    /// Whether the regions are not quite equal: at the end, where no walk comes, all regions hold a point and only some the next.
    pub apart: bool,
    /// The steps of the assigned paths. The first of two or more goes to a type that is the argument of a struct, and each further one to a
    /// type made by substitution.
    pub steps: usize,
}

/// How many groups of regions there are where a clock's are apart, and the regions of each.
const GROUPS: usize = 16;
const GROUP: usize = REGIONS / GROUPS;

impl Clock {
    /// So many assignments, and as many points after them as there is room for.
    pub fn of(assignments: usize) -> Clock {
        Clock { assignments, ticks: MAX_POINTS - 4 * GROUPS - 20 - assignments, apart: false, steps: 1 }
    }
}

/// The variables of a clock: two that have the related types, two that give the points after the assignments, one that uses both, and
/// one for each group of regions.
const RELATED: [Variable; 2] = [0, 1];
const LOWER: Variable = 2;
const UPPER: Variable = 3;
const BOTH: Variable = 4;
const IN_GROUP: Variable = 5;

pub fn clock(clock: &Clock) -> Vec<u8> {
    let half = REGIONS / 2;
    let mut actions = vec![Action::Constraint { sup: half, sub: 0 }, Action::Constraint { sup: 0, sub: half }];
    let (structs, related) = related(clock.steps, half);
    let [to, from] = related.each_ref().map(|(_, path)| path.clone());
    actions.extend(vec![Action::Assign(to, from); clock.assignments]);
    actions.push(init(BOTH, &[LOWER, UPPER]));
    actions.extend((1..clock.ticks).map(|tick| match tick % 2 {
        1 => init(UPPER, &[LOWER]),
        _ => init(LOWER, &[UPPER]),
    }));
    if clock.apart {
        let apart = |v| [init(LOWER, &[]), init(UPPER, &[]), init(v, &[LOWER, UPPER]), Action::Use(Path::variable(v))];
        actions.extend((IN_GROUP..IN_GROUP + GROUPS).flat_map(apart));
    }
    let mut variables: Vec<Ty> = related.into_iter().map(|(ty, _)| ty).collect();
    variables.extend([holding(0..half), holding(half..REGIONS), Ty::Unit]);
    variables.extend((0..GROUPS).map(|group| holding(GROUP * group..GROUP * (group + 1))));
    record(&Job { structs, regions: REGIONS, outlives: vec![], variables, blocks: in_a_row(&actions) })
}

/// The structs of a clock, and for each of the two related types a variable's type and the path to it.
fn related(steps: usize, half: usize) -> (Vec<StructDecl>, [(Ty, Path); 2]) {
    // of 97 regions 48 are lower ones
    let ty = |nodes, shift: usize| large_type(nodes, move |i| (i + shift) % 48 + if i < 48 { 0 } else { half });
    let mut structs = regions_and_a_type();
    let around = structs.len();
    if steps == 1 {
        let fields = [ty(MAX_NODES, 0), ty(MAX_NODES, 7)].into_iter().zip(1..).map(|(ty, number)| Field { number, ty });
        structs.push(StructDecl { params: vec![], fields: fields.collect() });
        let whole = || Ty::Struct(around, vec![]);
        return (structs, [(whole(), path(RELATED[0], vec![1])), (whole(), path(RELATED[1], vec![2]))]);
    }
    structs.extend(in_turn(around, steps));
    let variable = |index: usize| Ty::Struct(around, vec![Arg::Ty(ty(MAX_NODES - 1, 7 * index))]);
    (structs, [0, 1].map(|index| (variable(index), path(RELATED[index], vec![1; steps]))))
}

// ---- Many rounds of few changes

/// A job in which a point goes through a chain of regions, one further in each round: each region outlives the one before it by a
/// Constraint, and these stand in the order against that of the rounds. After them come points of which the first region of the chain
/// holds every other one, and the others those between, as in a clock: each goes once through the chain before the next one does.
#[derive(Clone, Copy, Debug)]
pub struct Relay {
    /// The regions of the chain but the first.
    pub hops: usize,
    /// Each relates 97 pairs of regions: of other regions, both ways.
    pub assignments: usize,
    /// The points after the chain.
    pub ticks: usize,
    /// Whether the assignments have other regions outlive those of the chain instead.
    pub fed: bool,
    /// The steps of the assigned paths, each to a type that is the argument of a struct or made by substitution.
    pub steps: usize,
    /// In how many parts the assignments stand, at least 1. The chain's Constraints stand after the parts, those of following regions after
    /// different ones, in the order against that of the chain.
    pub parts: usize,
}

impl Relay {
    /// As many points after the chain as there is room for.
    pub fn of(hops: usize, assignments: usize, fed: bool, steps: usize) -> Relay {
        Relay { hops, assignments, ticks: MAX_POINTS - 24 - hops - assignments, fed, steps, parts: 1 }
    }
}

pub fn relay(relay: &Relay) -> Vec<u8> {
    let (to, from, lower, upper, both) = (0, 1, 2, 3, 4);
    let mut actions = vec![Action::Constraint { sup: 0, sub: relay.hops }];
    let related = |variable| path(variable, vec![1; relay.steps]);
    for part in 0..relay.parts {
        let until = |part| relay.assignments * part / relay.parts;
        actions.extend(vec![Action::Assign(related(to), related(from)); until(part + 1) - until(part)]);
        let after = |hop: &usize| hop % relay.parts == relay.parts - 1 - part;
        actions.extend((0..relay.hops).rev().filter(after).map(|hop| Action::Constraint { sup: hop + 1, sub: hop }));
    }
    actions.push(init(both, &[lower, upper]));
    actions.extend((1..relay.ticks).map(|tick| if tick % 2 == 1 { init(upper, &[lower]) } else { init(lower, &[upper]) }));
    let chain = relay.hops + 1;
    let other = |index: usize| chain + index % (REGIONS - chain);
    let source = |index: usize| if relay.fed { index % chain } else { other(index + 5) };
    let mut structs = regions_and_a_type();
    let around = structs.len();
    structs.extend(in_turn(around, relay.steps));
    if relay.fed {
        structs.iter_mut().flat_map(|decl| &mut decl.params).for_each(|param| param.variance = Variance::Co);
    }
    let within = |ty| if relay.steps == 0 { ty } else { Ty::Struct(around, vec![Arg::Ty(ty)]) };
    let nodes = MAX_NODES - relay.steps.min(1);
    let [to, from] = [large_type(nodes, other), large_type(nodes, source)].map(within);
    let variables = vec![to, from, holding(1..chain), holding(0..1), Ty::Unit];
    record(&Job { structs, regions: REGIONS, outlives: vec![], variables, blocks: in_a_row(&actions) })
}

/// Relays that take the original and the model some seconds at most.
pub fn small_relays() -> Vec<Vec<u8>> {
    let one = Relay { hops: 12, assignments: 3, ticks: 20, fed: false, steps: 0, parts: 1 };
    let relays = [
        one,
        Relay { ticks: 60, fed: true, steps: 2, parts: 3, ..one },
        Relay { assignments: 60, fed: true, steps: 2, parts: 4, ..one },
        Relay { hops: 30, assignments: 10, ticks: 60, parts: 5, ..one },
        Relay { hops: 60, assignments: 10, ticks: 60, fed: true, steps: 6, parts: 12 },
        Relay { hops: 90, assignments: 1, ticks: 8, fed: true, ..one },
    ];
    relays.iter().map(relay).collect()
}

// ---- Tokens

/// Tokens are points that the regions of a chain lack at first. They stand in areas, and the last area is followed by the first. A token goes
/// from the first region of the chain to the last by constraints of its area, which the job has to have. Then others bring the next token,
/// which is in the next area, to the first region. So the first token of each area comes, then the second of each, and so on.
struct Tokens {
    /// The regions of the chain, from region 0 on. Those of the tokens come after them.
    chain: usize,
    /// An even number.
    areas: usize,
    /// The tokens of an area, which stand in a row.
    each: usize,
    /// The first of their variables: for areas of even and of odd number, what is assigned and what to, to bring the next token; one that
    /// gives the first token; those of the bringing regions.
    variables: Variable,
}

impl Tokens {
    fn calling(&self, area: usize) -> Variable {
        self.variables + area % 2
    }

    fn called(&self, area: usize) -> Variable {
        self.variables + 2 + area % 2
    }

    /// The variable that gives the first token. It has to be set in each area before the tokens.
    fn first(&self) -> Variable {
        self.variables + 4
    }

    fn bringing(&self, token: usize) -> Variable {
        self.variables + 5 + 2 * (token / self.areas) + token % 2
    }

    /// The first variable after these.
    fn end(&self) -> Variable {
        self.variables + 5 + 2 * self.each
    }

    /// Brings the token after one of this area to a region outside the chain, and a token of this area from such a one to region 0.
    fn call(&self, area: usize) -> [Action; 2] {
        [init(self.calling(area), &[]), assign(self.called(area), self.calling(area))]
    }

    /// The tokens of an area.
    fn row(&self, area: usize) -> impl Iterator<Item = Action> + '_ {
        (0..self.each).map(move |index| match self.areas * index + area {
            0 => init(self.bringing(0), &[self.first()]),
            token => init(self.bringing(token), &[self.bringing(token - 1)]),
        })
    }

    /// Regions that go from a token to the next one, where the first is in an area of even or odd number.
    fn bringing_regions(&self, odd: usize) -> impl Iterator<Item = RegionName> {
        let chain = self.chain;
        (0..self.each).map(move |index| chain + 2 * index + odd)
    }

    /// The region that gets the next token from them.
    fn brought(&self, odd: usize) -> RegionName {
        self.chain + 2 * self.each + odd
    }

    /// The first region after these.
    fn end_of_regions(&self) -> RegionName {
        self.brought(2)
    }

    /// The types of the variables, by a struct of three regions and a type that is covariant: what is assigned to outlives what is assigned.
    fn types(&self, covariant: StructName) -> Vec<Ty> {
        let last = || vec![self.chain - 1; self.each].into_iter();
        let calling = |odd| last().chain(self.bringing_regions(odd)).chain([self.brought(1 - odd)]).collect();
        let called = |odd| self.bringing_regions(odd).chain(vec![self.brought(odd); self.each]).chain([0]).collect();
        let pointer = |name| reference(BorrowKind::Shared, name, Ty::Unit);
        let mut types = [calling(0), calling(1), called(0), called(1)]
            .map(|names: Vec<RegionName>| in_threes(covariant, names))
            .to_vec();
        types.push(pointer(0));
        types.extend((self.chain..self.brought(0)).map(pointer));
        types
    }
}

/// A type with these regions, by a struct of three regions and a type.
fn in_threes(name: StructName, names: Vec<RegionName>) -> Ty {
    let around = |ty, names: &[RegionName]| three_of(name, [0, 1, 2].map(|i| names[i.min(names.len() - 1)]), ty);
    names.chunks(3).fold(Ty::Unit, around)
}

/// Struct 1, but covariant.
fn covariant(structs: &[StructDecl]) -> StructDecl {
    let params = structs[1].params.iter().map(|param| Param { variance: Variance::Co, ..*param }).collect();
    StructDecl { params, fields: vec![] }
}

// ---- Many rounds, in each of which all constraints are run

/// A job in which tokens go through a chain of regions, one token after another. Each region of the chain outlives the one before it by
/// an assignment at the start of the record or by one near its end, in turn, so that a token goes two regions further in a round. Such a
/// pair of assignments and a row of tokens make up an area, and no walk through the chain's regions leaves its area. So the constraints
/// of an area are used again only after those of all others.
///
/// Between the two assignments of each area stand others, which relate two regions that hold nearly all points. Each of the two has a
/// point that the other lacks, so that only a walk finds that a constraint adds nothing, and it goes through all blocks.
#[derive(Clone, Copy, Debug)]
pub struct Gates {
    /// The regions of the chain, an even number. There are four others, and two for each token of an area.
    pub chain: usize,
    /// An even number.
    pub areas: usize,
    /// The tokens of an area.
    pub tokens: usize,
    /// The assignments between, each of 94 pairs of regions, or of 97 without steps, both ways.
    pub assignments: usize,
    /// The steps of their paths, each to a type that is the argument of a struct or made by substitution.
    pub steps: usize,
    /// Whether the assignments between relate the chain's regions with themselves instead, so that each of them may have something to do in
    /// each round.
    pub held: bool,
}

impl Gates {
    /// All 128 regions and 1,024 points.
    pub fn largest() -> Gates {
        Gates { chain: 100, areas: 26, tokens: 12, assignments: 439, steps: 6, held: false }
    }

    fn in_areas(&self) -> Tokens {
        Tokens { chain: self.chain, areas: self.areas, each: self.tokens, variables: LARGE[1] + 1 }
    }

    /// The two variables of the assignments between.
    fn related(&self) -> [Variable; 2] {
        let after_all = self.in_areas().end();
        if self.held {
            [after_all, after_all + 1]
        } else {
            LARGE
        }
    }

    /// The assignments between, by blocks. Variables of the chain's regions are set anew at the start of each block, so that they are live
    /// in these blocks only.
    fn between(&self) -> Vec<Vec<Action>> {
        let set = if self.held { self.related().map(|variable| init(variable, &[])).to_vec() } else { vec![] };
        let [to, from] = self.related().map(|variable| path(variable, vec![1; self.steps]));
        let assigned = vec![Action::Assign(to, from); self.assignments];
        assigned.chunks(ACTIONS - set.len()).map(|assigned| [&set, assigned].concat()).collect()
    }
}

/// The variables of gates: the chain's even regions, its odd ones, and those after these; two of large types; those of the tokens; and,
/// where the assignments between are of the chain's regions, two of these.
const EVEN: Variable = 0;
const ODD: Variable = 1;
const AFTER_ODD: Variable = 2;
const LARGE: [Variable; 2] = [3, 4];

pub fn gates(gates: &Gates) -> Vec<u8> {
    let Gates { chain, steps, held, .. } = *gates;
    let tokens = gates.in_areas();
    let mut structs = regions_and_a_type();
    let around = structs.len();
    structs.extend(in_turn(around, steps));
    structs.push(covariant(&structs));
    let covariant = structs.len() - 1;
    let every_other =
        |first: usize| in_threes(covariant, (first..first + chain).step_by(2).map(|name| name.min(chain - 1)).collect());
    let full = |index: usize| tokens.end_of_regions() + index;
    let within = |ty| if steps == 0 { ty } else { Ty::Struct(around, vec![Arg::Ty(ty)]) };
    let nodes = MAX_NODES - steps.min(1);
    let large = |index| within(large_type(nodes, |_| full(index)));
    let mut variables = [0, 1, 2].map(every_other).to_vec();
    variables.extend([large(0), large(1)]);
    variables.extend(tokens.types(covariant));
    if held {
        variables.extend([0, 1].map(|_| within(large_type(nodes, |index| index % chain))));
    }
    record(&Job { structs, regions: full(2), outlives: vec![], variables, blocks: gates_blocks(gates) })
}

/// The first assignments of the areas, those between, an end, a block whose point no region holds, and the areas.
fn gates_blocks(gates: &Gates) -> Vec<Block> {
    let areas = gates.areas;
    let tokens = gates.in_areas();
    let between = gates.between();
    let end = areas + between.len();
    let shut = end + 1;
    let area_at = |area: usize| shut + 1 + area % areas;
    // a walk looks at all eight successors
    let block = |mut successors: Vec<BlockIndex>, actions| {
        successors.resize(8, shut);
        Block { successors, actions }
    };
    let mut blocks = vec![];
    for area in 0..areas {
        blocks.push(block(vec![area_at(area), area + 1], vec![init(EVEN, &[]), assign(ODD, EVEN)]));
    }
    for actions in between {
        blocks.push(block(vec![0, blocks.len() + 1], actions));
    }
    let [to, from] = LARGE;
    let apart = vec![init(tokens.first(), &LARGE), init(to, &[]), init(from, &[to]), Action::Use(Path::variable(from))];
    blocks.extend([apart, vec![]].map(|actions| Block { successors: vec![], actions }));
    for area in 0..areas {
        let mut actions = tokens.call(area).to_vec();
        actions.extend([assign(AFTER_ODD, ODD), init(tokens.first(), &[EVEN, ODD])]);
        actions.extend(tokens.row(area));
        actions.extend([init(EVEN, &[]), init(ODD, &[])]);
        blocks.push(block(vec![area_at(area + 1), end], actions));
    }
    blocks
}

/// Gates that take the original and the model some seconds at most: of few points and many, each with few constraints and many.
pub fn small_gates() -> Vec<Vec<u8>> {
    let few = Gates { chain: 8, areas: 4, tokens: 2, assignments: 1, steps: 0, held: false };
    let plain = [
        few,
        Gates { chain: 4, areas: 2, tokens: 1, assignments: 30, ..few },
        Gates { chain: 20, areas: 6, assignments: 10, ..few },
        Gates { assignments: 60, steps: 2, ..few },
    ];
    let held = plain.map(|gates| Gates { held: true, ..gates });
    plain.iter().chain(&held).map(gates).collect()
}

// ---- More constraints in use than fit into a list

/// A job in which tokens go through a chain of regions, one token after another, as in gates; but an area is a strip of a few points that
/// follow each other, so that there are more areas. The constraints by which the tokens go on, one for each strip and region of the chain,
/// may be more than 4,096, and those of a strip are used again only after those of all others.
///
/// The regions of the chain are in parts: region r in part r % parts. A strip has an assignment for each part, by which the next region
/// after each of the part and this one outlive each other. These stand in the order against that of the parts, so that in a round a token
/// goes on by one of them, or by the first one and then the last.
///
/// Before the strips stand other assignments, of the chain's regions to themselves. Each assignment may have something to do in each round.
#[derive(Clone, Copy, Debug)]
pub struct Strips {
    /// The regions of the chain, at most 94. There are two others, and two for each token of a strip.
    pub chain: usize,
    /// The parts of the chain, which are the assignments of a strip.
    pub parts: usize,
    /// An even number.
    pub strips: usize,
    /// The tokens of a strip.
    pub tokens: usize,
    /// The assignments before the strips. Each, as those of the strips, is of 94 pairs of regions, or of 97 without steps, both ways.
    pub assignments: usize,
    /// The steps of the assigned paths, each to a type that is the argument of a struct or made by substitution.
    pub steps: usize,
}

/// The variables of strips: the chain's regions; two that are assigned before the strips; those of the tokens; and for each part one that it
/// is assigned to.
const CHAIN: Variable = 0;
const BEFORE: [Variable; 2] = [1, 2];

impl Strips {
    /// The most work of those tried. It has 1,023 points.
    pub fn largest() -> Strips {
        Strips { chain: 94, parts: 10, strips: 40, tokens: 10, assignments: 40, steps: 6 }
    }

    fn in_areas(&self) -> Tokens {
        Tokens { chain: self.chain, areas: self.strips, each: self.tokens, variables: BEFORE[1] + 1 }
    }

    fn assigned(&self, variable: Variable) -> Path {
        path(variable, vec![1; self.steps])
    }

    /// The assignments before the strips, by blocks.
    fn before(&self) -> Vec<Vec<Action>> {
        let set = BEFORE.map(|variable| init(variable, &[]));
        let [to, from] = BEFORE.map(|variable| self.assigned(variable));
        let assigned = vec![Action::Assign(to, from); self.assignments];
        assigned.chunks(ACTIONS - set.len()).map(|assigned| [&set, assigned].concat()).collect()
    }

    /// The points of a strip. The chain's regions hold those after the first one, where their variable is set, up to the tokens.
    fn strip(&self, strip: usize) -> Vec<Action> {
        let tokens = self.in_areas();
        let after = |part| Path::variable(tokens.end() + part);
        let mut actions = vec![init(CHAIN, &[])];
        actions.extend(tokens.call(strip));
        actions.extend((0..self.parts).rev().map(|part| Action::Assign(after(part), self.assigned(CHAIN))));
        actions.push(init(tokens.first(), &[CHAIN]));
        actions.extend(tokens.row(strip));
        actions
    }

    /// Blocks in a row, of whole strips, and the first with strips after the last.
    fn blocks(&self) -> Vec<Block> {
        let mut found = self.before();
        let first = found.len();
        let strips: Vec<Vec<Action>> = (0..self.strips).map(|strip| self.strip(strip)).collect();
        found.extend(strips.chunks(ACTIONS / strips[0].len()).map(|strips| strips.concat()));
        let count = found.len();
        let next = |index| if index + 1 < count { index + 1 } else { first };
        found.into_iter().enumerate().map(|(index, actions)| Block { successors: vec![next(index)], actions }).collect()
    }
}

pub fn strips(strips: &Strips) -> Vec<u8> {
    let Strips { chain, parts, steps, .. } = *strips;
    let tokens = strips.in_areas();
    let mut structs = regions_and_a_type();
    let around = structs.len();
    structs.extend(in_turn(around, steps));
    structs.push(covariant(&structs));
    let large = |after: Option<usize>| {
        let next = |index: usize| if after == Some(index % parts) { index + 1 } else { index };
        large_type(MAX_NODES - steps.min(1), |index| next(index).min(chain - 1))
    };
    let within = |ty| if steps == 0 { ty } else { Ty::Struct(around, vec![Arg::Ty(ty)]) };
    let mut variables = [CHAIN, BEFORE[0], BEFORE[1]].map(|_| within(large(None))).to_vec();
    variables.extend(tokens.types(structs.len() - 1));
    variables.extend((0..parts).map(|part| large(Some(part))));
    record(&Job { structs, regions: tokens.end_of_regions(), outlives: vec![], variables, blocks: strips.blocks() })
}

/// Strips that take the original and the model some seconds at most, of at most 32 points, at most 128 and more.
pub fn small_strips() -> Vec<Vec<u8>> {
    let found = [
        Strips { chain: 40, parts: 2, strips: 2, tokens: 2, assignments: 1, steps: 0 },
        Strips { chain: 60, parts: 3, strips: 8, tokens: 2, assignments: 8, steps: 2 },
        Strips { chain: 30, parts: 5, strips: 10, tokens: 3, assignments: 4, steps: 2 },
    ];
    found.iter().map(strips).collect()
}

// ---- Many loans, much that is live, sets that go far

/// 128 loans that are in scope at all points after them, and as many operands as fit, none of which conflicts. Loans and operands
/// have paths of so many steps that differ in the last one only.
pub fn loans(steps: usize) -> Vec<u8> {
    // struct i has two fields of the next one
    let structs = (0..7).map(|level| {
        let ty = if level < 6 { Ty::Struct(level + 1, vec![]) } else { Ty::Unit };
        StructDecl { params: vec![], fields: [1, 2].map(|number| Field { number, ty: ty.clone() }).to_vec() }
    });
    let (lent, read, holder, other, pointer) = (0, if steps == 0 { 1 } else { 0 }, 2, 3, 4);
    let steps_to = |last: FieldName| (1..=steps).map(|step| if step == steps { last } else { 1 }).collect();
    let reached = if steps < 7 { Ty::Struct(steps, vec![]) } else { Ty::Unit };
    let borrow = Action::Borrow(Path::variable(pointer), 0, BorrowKind::Mut, path(lent, steps_to(1)));
    let init = Action::Init(Path::variable(other), vec![path(read, steps_to(2)); 8]);
    let mut actions = vec![borrow; MAX_BORROWS];
    // what an Init takes, and the room that is left
    let length = 13 + 8 * steps + 7;
    let room = (MAX_LENGTH - 2_200) / length;
    actions.extend(vec![init; room.min(MAX_POINTS - MAX_BORROWS - 20)]);
    actions.push(Action::Use(Path::variable(holder)));
    let whole = Ty::Struct(0, vec![]);
    let variables = vec![
        whole.clone(),
        whole,
        reference(BorrowKind::Shared, 0, Ty::Unit),
        Ty::Unit,
        reference(BorrowKind::Mut, 0, reached),
    ];
    record(&Job { structs: structs.collect(), regions: 1, outlives: vec![], variables, blocks: in_a_row(&actions) })
}

/// Blocks whose path goes down through their numbers, so that a pass over the points in either order brings what is live, or in
/// scope, one block further. All variables are live and all loans in scope to the end.
pub fn far() -> Vec<u8> {
    let blocks = 64;
    let pointer = |v: usize| reference(BorrowKind::Shared, v, Ty::Unit);
    let borrow = |v: usize| Action::Borrow(Path::variable(v), v, BorrowKind::Shared, Path::variable(63));
    let use_of = |v: usize| Action::Use(Path::variable(v));
    let block = |index: usize| Block {
        successors: match index {
            0 => vec![blocks - 1],
            1 => vec![],
            _ => vec![index - 1],
        },
        actions: match index {
            0 => (0..60).map(borrow).collect(),
            1 => (0..60).map(use_of).collect(),
            _ => vec![Action::Noop; 13],
        },
    };
    let mut variables: Vec<Ty> = (0..63).map(pointer).collect();
    variables.push(Ty::Unit);
    record(&Job { structs: vec![], regions: REGIONS, outlives: vec![], variables, blocks: (0..blocks).map(block).collect() })
}

/// As many variables of large types as fit, all live at all points.
pub fn live() -> Vec<u8> {
    let variables: Vec<Ty> = (0..26).map(|v| large_type(MAX_NODES, move |i| (i + v) % REGIONS)).collect();
    let mut actions = vec![Action::Noop; MAX_POINTS - 16 - variables.len()];
    actions.extend((0..variables.len()).map(|v| Action::Use(Path::variable(v))));
    let structs = regions_and_a_type();
    record(&Job { structs, regions: REGIONS, outlives: vec![], variables, blocks: in_a_row(&actions) })
}

// ---- Deep types

/// Types as deep as 32 nodes can be, of Refs or of a struct with one to four parameters, one of them a type. Each is a variable's,
/// a field's and the result of a substitution; it is related, borrowed, used and dropped.
pub fn deep() -> Vec<Vec<u8>> {
    let mut found = vec![deep_job(&Nest::Refs)];
    for params in 1..=4 {
        for inner in 0..params {
            found.extend([false, true].map(|may_dangle| deep_job(&Nest::Structs { params, inner, may_dangle })));
        }
    }
    found
}

/// What goes around a type in a deep one.
enum Nest {
    Refs,
    /// A struct with so many parameters, of which number `inner` is the type.
    Structs {
        params: usize,
        inner: usize,
        may_dangle: bool,
    },
}

impl Nest {
    fn params(&self) -> Vec<Param> {
        match *self {
            Nest::Refs => vec![],
            Nest::Structs { params, inner, may_dangle } => {
                let kind = |index| if index == inner { Kind::Type } else { Kind::Region };
                (0..params).map(|index| Param { variance: Variance::In, may_dangle, kind: kind(index) }).collect()
            }
        }
    }

    /// A type with so many nodes more.
    fn around(&self, nodes: usize, ty: Ty) -> Ty {
        (0..nodes).fold(ty, |ty, node| match *self {
            Nest::Refs => reference(BorrowKind::Mut, node % 8, ty),
            Nest::Structs { params, inner, .. } => {
                let mut args: Vec<Arg> = (1..params).map(|index| Arg::Region(Region::Free((node + index) % 8))).collect();
                args.insert(inner, Arg::Ty(ty));
                Ty::Struct(0, args)
            }
        })
    }
}

/// Struct 0 is what goes around, 1 has a deep field, 2 a field that becomes deep by its argument.
fn deep_job(nest: &Nest) -> Vec<u8> {
    let whole = nest.around(MAX_NODES - 1, Ty::Unit);
    let less = nest.around(MAX_NODES - 2, Ty::Unit);
    let field = |params, ty| StructDecl { params, fields: vec![Field { number: 1, ty }] };
    let structs = vec![
        StructDecl { params: nest.params(), fields: vec![] },
        field(vec![], whole.clone()),
        field(vec![invariant(Kind::Type)], nest.around(MAX_NODES / 2, Ty::Bound(0))),
    ];
    let variables = vec![
        whole.clone(),
        whole,
        Ty::Struct(1, vec![]),
        Ty::Struct(2, vec![Arg::Ty(nest.around(MAX_NODES / 2 - 1, Ty::Unit))]),
        less.clone(),
        reference(BorrowKind::Mut, 3, less),
    ];
    let mut actions = vec![
        Action::Assign(Path::variable(0), Path::variable(1)),
        Action::Assign(path(2, vec![1]), path(3, vec![1])),
        Action::Borrow(Path::variable(5), 3, BorrowKind::Mut, Path::variable(4)),
        Action::Assign(Path::variable(4), path(5, vec![STAR])),
    ];
    for v in 0..variables.len() {
        actions.extend([Action::Use(Path::variable(v)), Action::Drop(Path::variable(v))]);
    }
    record(&Job { structs, regions: 8, outlives: vec![vec![]; 4], variables, blocks: in_a_row(&actions) })
}

#[cfg(test)]
mod tests {
    use super::*;
    use model::constraints::constraints;
    use model::graph::Graph;

    #[test]
    fn all_are_accepted() {
        let of = |assignments, steps| clock(&Clock { apart: assignments > 1, steps, ..Clock::of(assignments) });
        let clocks = [1, 2, 100, 450, 600].map(|assignments| [1, 2, 6].map(|steps| of(assignments, steps)));
        let mut records: Vec<Vec<u8>> = clocks.concat();
        records.extend([0, 1, 6].map(|steps| relay(&Relay::of(60, 300, steps > 0, steps))));
        records.extend([2, 12, 30].map(|parts| relay(&Relay { parts, ..Relay::of(90, 600, false, 6) })));
        for held in [false, true] {
            let few = |steps| Gates { chain: 4, areas: 2, tokens: 1, assignments: 1, steps, held };
            let many = |steps| Gates { tokens: 11, assignments: 400, steps, held, ..Gates::largest() };
            records.extend([few(0), few(1), few(6), many(0), many(6)].iter().map(gates));
        }
        records.push(gates(&Gates::largest()));
        records.extend([0, 1, 6].map(|steps| strips(&Strips { steps, ..Strips::largest() })));
        records.extend(small_relays());
        records.extend(small_gates());
        records.extend(small_strips());
        records.extend((0..7).map(loans));
        records.extend(deep());
        records.extend([far(), live()]);
        for (index, record) in records.iter().enumerate() {
            assert!(
                model::accept(record).is_ok(),
                "record {index}: {:?}, {} bytes",
                model::accept(record).err(),
                record.len()
            );
        }
    }

    #[test]
    fn small_strips_have_few_and_many_points() {
        let points: Vec<usize> = small_strips().iter().map(|record| model::accept(record).unwrap().points()).collect();
        assert_eq!(points, [21, 85, 129]);
    }

    #[test]
    fn small_gates_have_few_and_many_points_and_constraints() {
        let sizes = |record: &Vec<u8>| {
            let job = model::accept(record).unwrap();
            (job.points() > 64, constraints(&Graph::new(&job)).len() > 4_096)
        };
        let found: Vec<(bool, bool)> = small_gates().iter().map(sizes).collect();
        let each = [(false, false), (false, true), (true, false), (true, true)];
        assert_eq!(found, [each, each].concat());
    }
}
