//! The generated records have what they are meant to have, and depend on the seed alone.

use generate::jobs::{LARGE, LARGEST, MEDIUM, SMALL, TINY};
use model::graph::Graph;
use model::syntax::*;
use std::collections::BTreeMap;

const RECORDS: u64 = 3_000;

fn jobs() -> impl Iterator<Item = Job> {
    (0..RECORDS).map(|seed| model::accept(&generate::accepted(seed)).expect("an accepted record"))
}

#[test]
fn a_seed_gives_one_record() {
    for seed in 0..200 {
        assert_eq!(generate::accepted(seed), generate::accepted(seed));
        assert_eq!(generate::damaged(seed), generate::damaged(seed));
    }
    assert_ne!(generate::accepted(1), generate::accepted(2));
}

#[test]
fn records_of_every_size_are_accepted_and_encoded_alike() {
    for size in [TINY, SMALL, MEDIUM, LARGE, LARGEST] {
        for seed in 0..5 {
            let record = generate::accepted_of(seed, &size);
            let job = model::accept(&record).expect("an accepted record");
            assert_eq!(model::encode::encode(&job), Some(record));
        }
    }
}

#[test]
fn the_largest_have_over_960_points_and_128_regions() {
    let job = model::accept(&generate::accepted_of(1, &LARGEST)).unwrap();
    assert!(job.points() > 960 && job.regions == 128 && job.variables.len() == 64 && job.blocks.len() == 64);
}

#[test]
fn each_feature_occurs() {
    let mut found: BTreeMap<String, u64> = BTreeMap::new();
    for job in jobs() {
        let mut features = features(&job);
        features.sort();
        features.dedup();
        for feature in features {
            *found.entry(feature).or_insert(0) += 1;
        }
    }
    for feature in wanted() {
        let count = found.get(&feature).copied().unwrap_or(0);
        assert!(count >= RECORDS / 100, "{feature}: {count} of {RECORDS}");
    }
}

fn wanted() -> Vec<String> {
    let mut all: Vec<String> = [
        "Noop",
        "Init",
        "Borrow Mut",
        "Borrow Shared",
        "Assign",
        "Constraint",
        "Use",
        "Drop",
        "StorageDead",
        "several sources",
        "stepped Init",
        "stepped Borrow",
        "stepped Assign",
        "stepped Drop",
        "reborrow",
        "reborrow of itself",
        "field of a struct",
        "path of three steps",
        "nested Ref",
        "equal field numbers",
        "Constraint at action 0",
        "loop",
        "unreached block",
        "unreached block leads into a walked one",
        "empty block",
        "block with several successors",
        "declared",
        "outlives",
        "outlives chain",
        "undeclared",
        "dropped struct that may dangle",
        "dropped struct that may not dangle",
        "struct argument of a struct",
        "a fault",
        "loans in scope and no fault",
        "no loans in scope",
        "grown",
    ]
    .map(String::from)
    .to_vec();
    for variance in [Variance::Co, Variance::Contra, Variance::In] {
        for kind in [Kind::Region, Kind::Type] {
            all.push(format!("assigned {variance:?} {kind:?}"));
        }
    }
    all
}

fn features(job: &Job) -> Vec<String> {
    let mut found = vec![];
    let mut has = |feature: &str, holds: bool| {
        if holds {
            found.push(feature.to_string());
        }
    };
    for action in job.actions() {
        action_features(job, action, &mut has);
    }
    for ty in &job.variables {
        has("nested Ref", matches!(ty, Ty::Ref(_, _, inner) if matches!(**inner, Ty::Ref(..))));
        has("struct argument of a struct", struct_in_struct(ty));
    }
    for decl in &job.structs {
        let numbers: Vec<_> = decl.fields.iter().map(|field| field.number).collect();
        has("equal field numbers", (1..numbers.len()).any(|i| numbers[..i].contains(&numbers[i])));
    }
    block_features(job, &mut has);
    let answer = model::answer(job);
    has("a fault", answer.has_fault());
    has("loans in scope and no fault", !answer.has_fault() && answer.loans_in_scope > 0);
    has("no loans in scope", answer.loans_in_scope == 0);
    has("grown", answer.grown.contains(&true));
    found
}

fn action_features(job: &Job, action: &Action, has: &mut dyn FnMut(&str, bool)) {
    match action {
        Action::Noop => has("Noop", true),
        Action::Init(dest, sources) => {
            has("Init", true);
            has("several sources", sources.len() > 1);
            has("stepped Init", !dest.is_plain());
        }
        Action::Borrow(dest, _, kind, source) => {
            has(if *kind == BorrowKind::Mut { "Borrow Mut" } else { "Borrow Shared" }, true);
            has("stepped Borrow", !dest.is_plain());
            has("reborrow", source.steps.contains(&STAR));
            has("reborrow of itself", source.steps.contains(&STAR) && dest.base == source.base);
        }
        Action::Assign(dest, source) => {
            has("Assign", true);
            has("stepped Assign", !dest.is_plain());
            if let Ty::Struct(name, _) = job.path_type(source) {
                for param in &job.structs[name].params {
                    has(&format!("assigned {:?} {:?}", param.variance, param.kind), true);
                }
            }
        }
        Action::Constraint { .. } => has("Constraint", true),
        Action::Use(_) => has("Use", true),
        Action::Drop(path) => {
            has("Drop", true);
            has("stepped Drop", !path.is_plain());
            if let Ty::Struct(name, _) = &job.variables[path.base] {
                let params = &job.structs[*name].params;
                has("dropped struct that may dangle", params.iter().any(|p| p.may_dangle));
                has("dropped struct that may not dangle", params.iter().any(|p| !p.may_dangle));
            }
        }
        Action::StorageDead(_) => has("StorageDead", true),
    }
    for path in action.paths() {
        has("field of a struct", path.steps.iter().any(|&step| step != STAR));
        has("path of three steps", path.steps.len() >= 3);
    }
}

fn block_features(job: &Job, has: &mut dyn FnMut(&str, bool)) {
    let graph = Graph::new(job);
    let mut first = 0;
    let mut walked = vec![];
    for block in &job.blocks {
        walked.push(graph.walked[first]);
        first += block.actions.len() + 1;
    }
    for (index, block) in job.blocks.iter().enumerate() {
        has("Constraint at action 0", matches!(block.actions.first(), Some(Action::Constraint { .. })));
        has("loop", walked[index] && block.successors.iter().any(|&next| next <= index));
        has("unreached block", !walked[index]);
        has("unreached block leads into a walked one", !walked[index] && block.successors.iter().any(|&next| walked[next]));
        has("empty block", block.actions.is_empty());
        has("block with several successors", block.successors.len() > 1);
    }
    has("declared", job.declared() > 0);
    has("undeclared", job.declared() == 0);
    has("outlives", job.outlives.iter().any(|outlived| !outlived.is_empty()));
    let chain = job.outlives.iter().enumerate().any(|(region, outlived)| {
        outlived.iter().any(|&next| next != region && job.outlives[next].iter().any(|&last| last != next && last != region))
    });
    has("outlives chain", chain);
}

fn struct_in_struct(ty: &Ty) -> bool {
    match ty {
        Ty::Struct(_, args) => args.iter().any(|arg| matches!(arg, Arg::Ty(Ty::Struct(..)))),
        Ty::Ref(_, _, referent) => struct_in_struct(referent),
        _ => false,
    }
}
