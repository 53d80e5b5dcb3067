//! The header: it compiles as strict C and C++, and its constants are the wrapper's and the model's.

mod common;

use std::process::Command;

use common::{compile, printed, text_of, Compiler, C, CPP};
use model::decode::{most, MAX_BORROWS, MAX_NODES};
use nll::{FaultKind, Refusal};

/// The constants in the order in which they are printed, each with the number that the wrapper or the model has, or else document 01.
fn constants() -> Vec<(String, usize)> {
    let limits = [
        ("VERSION", 1),
        ("MAX_RECORD", nll::MAX_RECORD),
        ("MAX_STRUCTS", most::STRUCTS.into()),
        ("MAX_REGIONS", nll::MAX_REGIONS),
        ("MAX_DECLARED", nll::MAX_DECLARED),
        ("MAX_VARIABLES", most::VARIABLES.into()),
        ("MAX_BLOCKS", most::BLOCKS.into()),
        ("MAX_PARAMETERS", most::PARAMS.into()),
        ("MAX_FIELDS", most::FIELDS.into()),
        ("MAX_OUTLIVED", most::OUTLIVED.into()),
        ("MAX_SUCCESSORS", most::SUCCESSORS.into()),
        ("MAX_ACTIONS", most::ACTIONS.into()),
        ("MAX_STEPS", most::STEPS.into()),
        ("MAX_SOURCES", most::SOURCES.into()),
        ("MAX_NODES", MAX_NODES),
        ("MAX_POINTS", nll::MAX_POINTS),
        ("MAX_BORROWS", MAX_BORROWS),
        ("MAX_WORDS", nll::MAX_WORDS),
        ("MAX_BYTES", nll::MAX_BYTES),
        ("ACCEPTED", 0),
    ];
    let faults = [
        ("FAULT_NONE", 0),
        ("FAULT_READ", FaultKind::Read.number().into()),
        ("FAULT_WRITE", FaultKind::Write.number().into()),
        ("FAULT_MOVE", FaultKind::Move.number().into()),
        ("FAULT_STORAGE_DEAD", FaultKind::StorageDead.number().into()),
        ("UNWRITTEN", 0xff),
    ];
    let named = |(name, number): (&str, usize)| (format!("NLL_{name}"), number);
    let refused = |refusal: Refusal| (format!("NLL_REFUSED_{refusal:?}").to_uppercase(), refusal.number().into());
    limits.map(named).into_iter().chain(Refusal::ALL.map(refused)).chain(faults.map(named)).collect()
}

/// The program prints the constants, and nothing else unless a call of the library or a function of the header is wrong.
fn prints_the_constants(compiler: &Compiler) {
    let program = compile(compiler, "rust/nll/tests/header.c");
    let expected: String = constants().iter().map(|(name, number)| format!("{name} {number}\n")).collect();
    assert_eq!(printed(&mut Command::new(program)), expected);
}

#[test]
fn as_c() {
    prints_the_constants(&C);
}

#[test]
fn as_cpp() {
    prints_the_constants(&CPP);
}

#[test]
fn no_constant_is_left_out() {
    let header = text_of("include/nll.h");
    let words = header.split(|c: char| !c.is_ascii_alphanumeric() && c != '_');
    let mut found: Vec<&str> = words.filter(|word| word.starts_with("NLL_") && *word != "NLL_H").collect();
    found.sort();
    found.dedup();
    let mut expected: Vec<String> = constants().into_iter().map(|(name, _)| name).collect();
    expected.sort();
    assert_eq!(found, expected);
}
