//! Jobs at random that are accepted.

use crate::paths::{typed_paths, Typed};
use crate::rng::Rng;
use crate::types::{self, with_other_regions, Regions, Scope};
use model::decode::{MAX_BORROWS, MAX_LENGTH, MAX_NODES, MAX_POINTS};
use model::syntax::*;

/// How large a job may be: least and most of each count.
#[derive(Clone, Copy)]
pub struct Size {
    pub structs: (usize, usize),
    pub regions: (usize, usize),
    pub declared: usize,
    pub variables: (usize, usize),
    pub blocks: (usize, usize),
    pub actions: (usize, usize),
    pub depth: usize,
}

pub const TINY: Size =
    Size { structs: (0, 1), regions: (1, 4), declared: 2, variables: (1, 3), blocks: (1, 3), actions: (0, 4), depth: 1 };
pub const SMALL: Size =
    Size { structs: (0, 3), regions: (2, 10), declared: 3, variables: (2, 6), blocks: (1, 6), actions: (0, 8), depth: 2 };
pub const MEDIUM: Size =
    Size { structs: (0, 5), regions: (4, 24), declared: 6, variables: (4, 14), blocks: (2, 12), actions: (0, 12), depth: 2 };
pub const LARGE: Size = Size {
    structs: (2, 12),
    regions: (16, 100),
    declared: 16,
    variables: (10, 40),
    blocks: (6, 30),
    actions: (2, 14),
    depth: 2,
};
pub const LARGEST: Size = Size {
    structs: (16, 16),
    regions: (128, 128),
    declared: 16,
    variables: (64, 64),
    blocks: (64, 64),
    actions: (13, 16),
    depth: 2,
};

/// A size, the smaller ones more often.
pub fn any_size(rng: &mut Rng) -> Size {
    match rng.weighted(&[180, 470, 335, 15]) {
        0 => TINY,
        1 => SMALL,
        2 => MEDIUM,
        _ => LARGE,
    }
}

/// An accepted job and its record.
pub fn accepted(rng: &mut Rng, size: &Size) -> (Job, Vec<u8>) {
    loop {
        let job = job(rng, size);
        if let Some(record) = model::encode::encode(&job) {
            if record.len() - 3 <= MAX_LENGTH && model::check::check(&job).is_ok() {
                return (job, record);
            }
        }
    }
}

fn job(rng: &mut Rng, size: &Size) -> Job {
    let all = rng_between(rng, size.regions);
    let declared = if rng.chance(55) { rng.below(size.declared.min(all) + 1) } else { 0 };
    let regions = Regions { all, declared };
    let structs = struct_decls(rng, size, regions);
    let variables = variable_types(rng, size, &structs, regions);
    let outlives = outlives(rng, declared);
    let paths = typed_paths(rng, &structs, &variables);
    let blocks = Actions::new(rng, regions, variables.len(), &paths).blocks(rng, size);
    Job { structs, regions: all, outlives, variables, blocks }
}

fn rng_between(rng: &mut Rng, range: (usize, usize)) -> usize {
    rng.between(range.0, range.1)
}

fn struct_decls(rng: &mut Rng, size: &Size, regions: Regions) -> Vec<StructDecl> {
    let count = rng_between(rng, size.structs);
    let params: Vec<Vec<Param>> = (0..count).map(|_| types::params(rng)).collect();
    params
        .iter()
        .map(|own| {
            let scope = Scope { structs: &params, regions: regions.all, params: own };
            StructDecl { params: own.clone(), fields: types::fields(rng, &scope) }
        })
        .collect()
}

/// Types of few shapes, so that many can be assigned to each other, and Refs to these shapes.
fn variable_types(rng: &mut Rng, size: &Size, structs: &[StructDecl], regions: Regions) -> Vec<Ty> {
    let params: Vec<Vec<Param>> = structs.iter().map(|decl| decl.params.clone()).collect();
    let scope = Scope { structs: &params, regions: regions.all, params: &[] };
    let count = rng_between(rng, size.variables);
    let shapes: Vec<Ty> = (0..1 + count / 4).map(|_| types::ty(rng, &scope, size.depth)).collect();
    let mut found = vec![];
    while found.len() < count {
        let mut ty = rng.pick(&shapes).clone();
        for _ in 0..rng.weighted(&[35, 55, 10]) {
            ty = Ty::Ref(types::borrow_kind(rng), Region::Free(0), Box::new(ty));
        }
        if ty.nodes() <= MAX_NODES {
            found.push(with_other_regions(rng, &ty, regions));
        }
    }
    if count > 1 && rng.chance(80) {
        // some variable can be borrowed by another
        let referent = with_other_regions(rng, &found[0], regions);
        let reference = Ty::Ref(types::borrow_kind(rng), Region::Free(regions.pick(rng)), Box::new(referent));
        if reference.nodes() <= MAX_NODES {
            found[1] = reference;
        }
    }
    found
}

/// A chain, a few pairs at random, or nothing.
fn outlives(rng: &mut Rng, declared: usize) -> Vec<Vec<RegionName>> {
    let density = *rng.pick(&[0, 10, 30, 60]);
    let chain = rng.chance(30);
    (0..declared)
        .map(|region| {
            let mut outlived: Vec<RegionName> = (0..declared).filter(|_| rng.chance(density)).collect();
            if chain && region + 1 < declared && outlived.len() < 16 {
                outlived.push(region + 1);
            }
            outlived
        })
        .collect()
}

/// A job that is much work: 64 blocks in a loop, all full, and variables that are chains of Mut Refs
/// with so many nodes, most of which are assigned to each other. Each assignment relates all regions both ways.
pub fn dense(rng: &mut Rng, nodes: usize) -> Vec<u8> {
    model::encode::encode(&dense_job(rng, nodes, 128)).expect("a short record")
}

/// The same with the upper half of the regions in no type: each of these outlives the one below it, by
/// constraints that come in the wrong order for the original, so that each round of its solver grows one.
pub fn slow(rng: &mut Rng, nodes: usize) -> Vec<u8> {
    let mut job = dense_job(rng, nodes, 65);
    for (index, block) in job.blocks.iter_mut().enumerate().take(63) {
        *block.actions.last_mut().unwrap() = Action::Constraint { sup: 127 - index, sub: 126 - index };
    }
    model::encode::encode(&job).expect("a short record")
}

fn dense_job(rng: &mut Rng, nodes: usize, regions_in_types: usize) -> Job {
    let (variables, blocks) = (64, 64);
    let chain = |rng: &mut Rng| {
        let reference = |ty, _| Ty::Ref(BorrowKind::Mut, Region::Free(rng.below(regions_in_types)), Box::new(ty));
        (1..nodes).fold(Ty::Unit, reference)
    };
    let action = |rng: &mut Rng| {
        let (dest, source) = (rng.below(variables), rng.below(variables));
        match rng.below(10) {
            0 => Action::Use(Path::variable(dest)),
            _ => Action::Assign(Path::variable(dest), Path::variable(source)),
        }
    };
    let block = |rng: &mut Rng, index: usize| Block {
        successors: vec![(index + 1) % blocks, rng.below(blocks)],
        actions: (0..14).map(|_| action(rng)).collect(),
    };
    Job {
        structs: vec![],
        regions: 128,
        outlives: vec![vec![]; 16],
        variables: (0..variables).map(|_| chain(rng)).collect(),
        blocks: (0..blocks).map(|index| block(rng, index)).collect(),
    }
}

/// What the actions of one job are drawn from.
struct Actions<'a> {
    regions: Regions,
    variables: usize,
    paths: &'a [Typed],
    /// By path: the paths of the same shape.
    alike: Vec<Vec<usize>>,
    /// The paths that can take a borrow of some path: their number, and the paths that they can borrow.
    borrowers: Vec<(usize, Vec<usize>)>,
    /// Noop, Init, Borrow, Assign, Constraint, Use, Drop, StorageDead.
    weights: [usize; 8],
    /// How many of a hundred destinations are plain variables where there is a choice.
    plain: usize,
    borrows: usize,
}

impl<'a> Actions<'a> {
    fn new(rng: &mut Rng, regions: Regions, variables: usize, paths: &'a [Typed]) -> Self {
        let alike = |ty: &Ty| -> Vec<usize> { (0..paths.len()).filter(|&i| paths[i].ty.same_shape(ty)).collect() };
        let borrowers = paths.iter().enumerate().filter_map(|(dest, typed)| match &typed.ty {
            Ty::Ref(_, _, referent) => Some((dest, alike(referent))).filter(|(_, sources)| !sources.is_empty()),
            _ => None,
        });
        Actions {
            regions,
            variables,
            paths,
            alike: paths.iter().map(|typed| alike(&typed.ty)).collect(),
            borrowers: borrowers.collect(),
            weights: *rng.pick(&[
                [4, 12, 26, 12, 6, 22, 8, 8],
                [2, 6, 40, 10, 2, 30, 6, 6],
                [2, 2, 30, 8, 4, 45, 2, 1],
                [4, 4, 20, 30, 14, 20, 8, 4],
                [2, 20, 25, 8, 2, 20, 12, 14],
                [1, 1, 40, 2, 1, 50, 0, 0],
            ]),
            plain: *rng.pick(&[50, 80, 95]),
            borrows: 0,
        }
    }

    fn blocks(&mut self, rng: &mut Rng, size: &Size) -> Vec<Block> {
        let count = rng_between(rng, size.blocks);
        let mut points = MAX_POINTS - self.regions.declared - count;
        let mut blocks = vec![];
        for index in 0..count {
            let wanted = rng_between(rng, size.actions).min(points).min(64);
            points -= wanted;
            let mut actions: Vec<Action> = (0..wanted).map(|_| self.action(rng)).collect();
            if !actions.is_empty() && self.regions.declared > 0 && rng.chance(4) {
                actions[0] = self.constraint(rng);
            }
            blocks.push(Block { successors: successors(rng, index, count), actions });
        }
        blocks
    }

    fn action(&mut self, rng: &mut Rng) -> Action {
        match rng.weighted(&self.weights) {
            0 => Action::Noop,
            1 => self.init(rng),
            2 => self.borrow(rng),
            3 => self.assign(rng),
            4 => self.constraint(rng),
            5 => Action::Use(self.any_path(rng)),
            6 => Action::Drop(self.any_path(rng)),
            _ => Action::StorageDead(rng.below(self.variables)),
        }
    }

    fn any_path(&self, rng: &mut Rng) -> Path {
        if rng.chance(self.plain) {
            Path::variable(rng.below(self.variables))
        } else {
            rng.pick(self.paths).path.clone()
        }
    }

    fn init(&self, rng: &mut Rng) -> Action {
        let count = rng.weighted(&[45, 30, 12, 5, 3, 2, 1, 1, 1]);
        Action::Init(self.any_path(rng), (0..count).map(|_| self.any_path(rng)).collect())
    }

    fn borrow(&mut self, rng: &mut Rng) -> Action {
        if self.borrowers.is_empty() || self.borrows == MAX_BORROWS {
            return Action::Use(self.any_path(rng));
        }
        self.borrows += 1;
        let mut chosen = rng.pick(&self.borrowers);
        while !self.paths[chosen.0].path.is_plain() && rng.chance(self.plain) {
            chosen = rng.pick(&self.borrowers);
        }
        let (dest, sources) = chosen;
        let source = &self.paths[*rng.pick(sources)];
        let Ty::Ref(kind, region, _) = &self.paths[*dest].ty else { unreachable!() };
        let region = if rng.chance(40) { region.name() } else { self.regions.pick(rng) };
        Action::Borrow(self.paths[*dest].path.clone(), region, *kind, source.path.clone())
    }

    fn assign(&self, rng: &mut Rng) -> Action {
        let mut dest = rng.below(self.paths.len());
        while !self.paths[dest].path.is_plain() && rng.chance(self.plain) {
            dest = rng.below(self.paths.len());
        }
        let source = *rng.pick(&self.alike[dest]);
        Action::Assign(self.paths[dest].path.clone(), self.paths[source].path.clone())
    }

    fn constraint(&self, rng: &mut Rng) -> Action {
        Action::Constraint { sup: self.regions.pick(rng), sub: self.regions.pick(rng) }
    }
}

/// Mostly the next block, with branches, loops, leaves and blocks that nothing leads to.
fn successors(rng: &mut Rng, index: usize, count: usize) -> Vec<BlockIndex> {
    let last = index + 1 == count;
    // fewer leaves among many blocks, so that most of them are walked
    let leaf = if last { 150 } else { 1 + 40 / count };
    let wanted = rng.weighted(&[leaf, 55, 24, 4, 1, 1, 1, 1, 1]);
    (0..wanted).map(|_| if !last && rng.chance(60) { index + 1 } else { rng.below(count) }).collect()
}
