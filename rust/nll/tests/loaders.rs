//! The example loaders say the same, and the documents have what they say.

mod common;

use std::env;
use std::path::{Path, PathBuf};
use std::process::{Command, Output};
use std::sync::OnceLock;

use common::{compile, job, repository, text_of, C};
use nll::{FaultKind, Refusal};

fn in_c() -> &'static Path {
    static PROGRAM: OnceLock<PathBuf> = OnceLock::new();
    PROGRAM.get_or_init(|| compile(&C, "examples/c/loader.c"))
}

/// target/PROFILE/examples/loader, which `cargo test -p nll` builds; this test is in target/PROFILE/deps.
fn in_rust() -> PathBuf {
    env::current_exe().unwrap().parent().unwrap().join("../examples/loader")
}

/// What a loader says of a job, and its status.
fn run(loader: &Path, job: &Path) -> (String, Option<i32>) {
    let Output { stdout, status, .. } =
        Command::new(loader).arg(job).output().unwrap_or_else(|error| panic!("{}: {error}", loader.display()));
    (String::from_utf8(stdout).unwrap(), status.code())
}

/// The place of a fault, which the example in C does not say.
fn without_place(line: &str) -> &str {
    line.split(" (block").next().unwrap()
}

#[test]
fn both_say_the_same_of_every_job() {
    let mut jobs = 0;
    for job in std::fs::read_dir(repository().join("jobs")).unwrap().map(|entry| entry.unwrap().path()) {
        if job.extension().is_some_and(|extension| extension == "hex") {
            let (said, status) = run(in_c(), &job);
            let (expected, expected_status) = run(&in_rust(), &job);
            assert!(said.lines().eq(expected.lines().map(without_place)), "{}", job.display());
            assert_eq!(status, expected_status, "{}", job.display());
            jobs += 1;
        }
    }
    assert!(jobs > 20);
}

#[test]
fn the_worked_job_is_the_sample() {
    let document = text_of("docs/INTEGRATION.md");
    let table =
        document.lines().skip_while(|line| !line.starts_with("| bytes |")).skip(2).take_while(|line| !line.is_empty());
    let bytes: Vec<&str> = table.flat_map(|row| row.split('`').nth(1).unwrap().split(' ')).collect();
    assert_eq!(bytes, text_of("jobs/frames.hex").split_whitespace().collect::<Vec<_>>());
}

#[test]
fn the_worked_job_has_what_the_loaders_say() {
    let document = text_of("docs/INTEGRATION.md");
    let lines: Vec<&str> = document.lines().map(str::trim).collect();
    let sample = repository().join("jobs/frames.hex");
    let (said, status) = run(&in_rust(), &sample);
    let said: Vec<&str> = said.lines().collect();
    assert_eq!((said.len(), status), (3, Some(1)));
    assert!(lines.windows(said.len()).any(|window| window == said), "the document has not:\n{}", said.join("\n"));
    let (said_in_c, status) = run(in_c(), &sample);
    assert!(said_in_c.lines().eq(said.into_iter().map(without_place)));
    assert_eq!(status, Some(1));
}

fn joined<T: ToString>(numbers: &[T], between: &str) -> String {
    numbers.iter().map(T::to_string).collect::<Vec<_>>().join(between)
}

#[test]
fn the_worked_job_has_the_words_and_bytes() {
    let document = text_of("docs/INTEGRATION.md");
    let record = job("frames");
    let (mut words, mut bytes) = ([0; nll::MAX_WORDS], [0; nll::MAX_BYTES]);
    let answer = nll::analyse(&record, &mut words, &mut bytes).unwrap();
    let points: Vec<String> = answer.bytes().chunks(2).map(|pair| joined(pair, " ")).collect();
    for written in [format!("`{}`", joined(answer.words(), " ")), format!("`{}`", points.join("  "))] {
        assert!(document.contains(&written), "the document has not: {written}");
    }
}

const KINDS: [FaultKind; 4] = [FaultKind::Read, FaultKind::Write, FaultKind::Move, FaultKind::StorageDead];

#[test]
fn the_document_has_the_message_of_every_number() {
    let document = text_of("docs/INTEGRATION.md");
    let refusals = Refusal::ALL.map(|refusal| (refusal.number(), refusal.to_string()));
    let kinds = KINDS.map(|kind| (kind.number(), kind.to_string()));
    for (number, message) in refusals.into_iter().chain(kinds) {
        let row = format!("| {number} | {message} |");
        assert!(document.lines().any(|line| line.starts_with(&row)), "the document has no row: {row}");
    }
}

/// The strings of an array in C.
fn strings<'a>(text: &'a str, array: &str) -> Vec<&'a str> {
    let (_, from) = text.split_once(&format!("{array}[] = {{")).unwrap();
    let (items, _) = from.split_once("};").unwrap();
    items.split('"').skip(1).step_by(2).collect()
}

#[test]
fn the_loader_in_c_has_the_message_of_every_number() {
    let loader = text_of("examples/c/loader.c");
    assert_eq!(strings(&loader, "refusals")[1..], Refusal::ALL.map(|refusal| refusal.to_string()));
    assert_eq!(strings(&loader, "kinds")[1..], KINDS.map(|kind| kind.to_string()));
}
