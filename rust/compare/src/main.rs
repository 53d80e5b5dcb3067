//! Compares two engines, times the original, and records its answers. `rust/README.md` has the commands.

use compare::engine::named;
use compare::shrink::shrink;
use compare::trial::Trial;
use compare::{bytes_of, hex, recorded, speed};
use generate::jobs::{dense, slow, LARGEST};
use generate::rng::Rng;
use std::process::exit;
use std::time::Instant;

const USAGE: &str = "usage:
  compare FIRST SECOND [ACCEPTED DAMAGED [SEED]]   compare two engines: original, answering, model (or proved)
  compare few FIRST SECOND MOST                    the same on all jobs of so many actions from the menus
  compare one FIRST SECOND HEX                     the same on one record
  compare speed [COUNT [SEED]]                     time the original on the largest records
  compare speed-dense NODES..                      the same on records that are much work,
  compare speed-slow NODES..                       and on such that take the original many rounds
  compare record FILE                              write the recorded answers
  compare answers                                  read records, one to a line in hexadecimal, and print what is
                                                   recorded of each: the number, the words, the bytes";

fn main() {
    let words: Vec<String> = std::env::args().skip(1).collect();
    let words: Vec<&str> = words.iter().map(String::as_str).collect();
    let agree = match words[..] {
        ["speed", ref rest @ ..] => {
            let (count, seed) = (number(rest, 0, 20), number(rest, 1, 1));
            let records: Vec<_> = (seed..seed + count).map(|seed| generate::accepted_of(seed, &LARGEST)).collect();
            speed::measure(&records);
            true
        }
        [kind @ ("speed-dense" | "speed-slow"), ref nodes @ ..] => {
            let record = if kind == "speed-dense" { dense } else { slow };
            let nodes = (0..nodes.len()).map(|index| number(nodes, index, 0) as usize);
            let records: Vec<_> = nodes.map(|nodes| record(&mut Rng::new(1), nodes)).collect();
            speed::measure(&records);
            true
        }
        ["record", file] => {
            let entries = recorded::entries();
            let bytes = recorded::write(&entries);
            std::fs::write(file, &bytes).unwrap_or_else(|e| panic!("{file}: {e}"));
            println!("{} records, {} bytes", entries.len(), bytes.len());
            true
        }
        ["answers"] => {
            let lines = std::io::stdin().lines().map(|line| line.expect("a line of text"));
            lines.for_each(|line| print_entry(&recorded::entry(bytes_of(&line).unwrap_or_else(|| usage()))));
            true
        }
        ["one", first, second, record] => {
            let record = bytes_of(record).unwrap_or_else(|| usage());
            families(first, second, vec![("one", 0, Box::new(std::iter::once(record)))])
        }
        ["few", first, second, most] => {
            let most = number(&[most], 0, 0) as usize;
            families(first, second, vec![("few actions", 0, Box::new(generate::exhaustive::records(most)))])
        }
        [first, second, ref rest @ ..] => {
            let (accepted, damaged, seed) = (number(rest, 0, 200_000), number(rest, 1, 200_000), number(rest, 2, 1));
            families(first, second, all_families(accepted, damaged, seed))
        }
        _ => usage(),
    };
    exit(if agree { 0 } else { 1 })
}

fn usage() -> ! {
    eprintln!("{USAGE}");
    exit(2)
}

fn number(words: &[&str], index: usize, default: u64) -> u64 {
    match words.get(index) {
        Some(word) => word.parse().unwrap_or_else(|_| usage()),
        None => default,
    }
}

type Family = (&'static str, u64, Box<dyn Iterator<Item = Vec<u8>>>);

fn all_families(accepted: u64, damaged: u64, seed: u64) -> Vec<Family> {
    vec![
        ("boundary", seed, Box::new(generate::boundary::cases().into_iter().map(|case| case.record))),
        ("short strings", seed, Box::new(generate::short::strings())),
        ("short bodies", seed, Box::new(generate::short::bodies(8, 4))),
        ("few actions", seed, Box::new(generate::exhaustive::records(3))),
        ("largest", seed, Box::new(largest(seed))),
        ("damaged", seed, Box::new((seed..seed + damaged).map(generate::damaged))),
        ("accepted", seed, Box::new((seed..seed + accepted).map(generate::accepted))),
    ]
}

/// Records at the limits, and three of the kind that is much work.
fn largest(seed: u64) -> impl Iterator<Item = Vec<u8>> {
    let random = (seed..seed + 60).map(|seed| generate::accepted_of(seed, &LARGEST));
    random.chain((2..5).map(|nodes| dense(&mut Rng::new(1), nodes)))
}

/// Compares the engines on each family, and tells whether they agree on all.
fn families(first: &str, second: &str, families: Vec<Family>) -> bool {
    let engine = |name: &str| named(name).unwrap_or_else(|| usage());
    let (mut first_engine, mut second_engine) = (engine(first), engine(second));
    let mut agree = true;
    for (family, seed, records) in families {
        let started = Instant::now();
        let mut trial = Trial::new(&mut *first_engine, &mut *second_engine, seed);
        trial.try_refused = first == "original";
        for record in records {
            trial.record(&record);
        }
        let mut tally = trial.tally;
        tally.print(family, started.elapsed().as_secs_f64());
        tally.disagreements.sort_by_key(Vec::len);
        for record in tally.disagreements.iter().take(3) {
            println!("  disagree on {}", hex(&smallest(first, second, record)));
        }
        agree &= tally.disagreements.is_empty();
    }
    agree
}

/// A smaller record on which the engines disagree. A long record is left as it is: that would take too long.
fn smallest(first: &str, second: &str, record: &[u8]) -> Vec<u8> {
    if record.len() > 400 {
        return record.to_vec();
    }
    shrink(record, &mut |record| disagree(first, second, record))
}

fn disagree(first: &str, second: &str, record: &[u8]) -> bool {
    let (mut first, mut second) = (named(first).unwrap(), named(second).unwrap());
    (0..8).any(|seed| !Trial::new(&mut *first, &mut *second, seed).record(record))
}

fn print_entry(entry: &recorded::Entry) {
    println!("{} {} {}", entry.number, listed(&entry.words), listed(&entry.bytes));
}

/// Numbers with commas between them, in brackets.
fn listed<T: ToString>(numbers: &[T]) -> String {
    let numbers: Vec<String> = numbers.iter().map(T::to_string).collect();
    format!("[{}]", numbers.join(","))
}
