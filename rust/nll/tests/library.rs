//! What docs/INTEGRATION.md says of the static library and of the wrapper's package.

mod common;

use std::process::Command;

use common::{printed, text_of};

#[test]
fn only_memcpy_and_memset_are_needed() {
    let listed = printed(Command::new("nm").args(["-u", env!("NLL_ARCHIVE")]));
    // a line is a member's name and a colon, or a kind and a symbol
    let mut needed: Vec<&str> =
        listed.lines().filter_map(|line| line.trim().split_once(' ')).map(|(_, name)| name).collect();
    needed.sort();
    needed.dedup();
    assert_eq!(needed, ["memcpy", "memset"], "what {} needs", env!("NLL_ARCHIVE"));
}

#[test]
fn no_section_can_be_written() {
    let listed = printed(Command::new("readelf").args(["-SW", env!("NLL_ARCHIVE")]));
    let sections: Vec<&str> = listed.lines().filter(|line| line.trim_start().starts_with('[')).collect();
    // the last columns are the entries' size, the flags if there are any, and three numbers; a size has no capital letter
    let with_flag = |flag: char| {
        let has = move |line: &&str| line.split_whitespace().nth_back(3).is_some_and(|flags| flags.contains(flag));
        sections.iter().copied().filter(has).collect::<Vec<_>>()
    };
    assert!(!with_flag('X').is_empty(), "no code in {}:\n{listed}", env!("NLL_ARCHIVE"));
    let written = with_flag('W');
    assert!(written.is_empty(), "sections of {} that can be written:\n{}", env!("NLL_ARCHIVE"), written.join("\n"));
}

#[test]
fn the_wrapper_has_no_dependencies_and_no_std() {
    let manifest = text_of("rust/nll/Cargo.toml");
    let tables: Vec<&str> = manifest.lines().filter(|line| line.contains("dependencies")).collect();
    assert_eq!(tables, ["[dev-dependencies]"]);
    let lib = text_of("rust/nll/src/lib.rs");
    assert!(lib.lines().any(|line| line == "#![no_std]") && !lib.contains("extern crate"));
}
