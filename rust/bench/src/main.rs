//! The benchmark. `rust/README.md` has the commands.

use bench::classes::{classes, long_classes, slowest, Class};
use bench::measure::proved_seconds;
use bench::search::climb;
use bench::table::{print, shown};
use compare::engine::{Engine, Proved};
use compare::hex;
use compare::lent::Lent;
use generate::rng::Rng;
use std::process::exit;
use std::time::{Duration, Instant};

const USAGE: &str = "usage:
  bench                      a table: the original and the proved call on each class of records
  bench only CLASS           the same on one class
  bench long                 the same on records that take the original minutes
  bench slowest              the proved call alone, on the records that take it longest of those known
  bench search SECONDS SEED  climbs to slower records, for so long from one of each class and from each of `slowest`
  bench loop CLASS SECONDS   the proved call alone on the records of a class, over and over, for a profiler";

fn main() {
    let words: Vec<String> = std::env::args().skip(1).collect();
    let words: Vec<&str> = words.iter().map(String::as_str).collect();
    match words[..] {
        [] => end(print(&classes(), &mut Proved)),
        ["only", class] => end(print(&[named(class)], &mut Proved)),
        ["long"] => end(print(&long_classes(), &mut Proved)),
        ["slowest"] => print_slowest(),
        ["search", seconds, seed] => search(number(seconds), number(seed)),
        ["loop", class, seconds] => call_over_and_over(class, number(seconds)),
        _ => usage(),
    }
}

fn end(met: bool) -> ! {
    exit(if met { 0 } else { 1 })
}

fn usage() -> ! {
    eprintln!("{USAGE}");
    exit(2)
}

fn number(word: &str) -> u64 {
    word.parse().unwrap_or_else(|_| usage())
}

fn named(name: &str) -> Class {
    classes().into_iter().find(|class| class.name == name).unwrap_or_else(|| usage())
}

fn print_slowest() {
    for (name, record) in slowest() {
        println!("{name}: {} bytes, {}", record.len(), shown(proved_seconds(&record, &mut Proved)));
    }
}

fn call_over_and_over(name: &str, seconds: u64) {
    let records = named(name).records();
    let mut lent: Vec<Lent> = records.iter().map(|record| Lent::exact(record)).collect();
    let (mut calls, started) = (0u64, Instant::now());
    while started.elapsed() < Duration::from_secs(seconds) {
        for (record, lent) in records.iter().zip(&mut lent) {
            Proved.call(record, &mut lent.words, &mut lent.bytes);
            calls += 1;
        }
    }
    println!("{calls} calls in {seconds} s");
}

fn search(seconds: u64, seed: u64) {
    let mut rng = Rng::new(seed);
    let mut starts: Vec<(String, Vec<u8>)> =
        classes().iter().map(|class| (class.name.to_string(), rng.pick(&class.records()).clone())).collect();
    starts.extend(slowest());
    let mut slowest_found = 0.0;
    for (name, start) in starts {
        let before = proved_seconds(&start, &mut Proved);
        let found = climb(&start, Duration::from_secs(seconds), &mut rng, &mut Proved);
        println!("{name}: {} at first, then {}", shown(before), shown(found.seconds));
        if found.seconds > slowest_found {
            slowest_found = found.seconds;
            println!("  {}", hex(&found.record));
        }
    }
    println!("slowest: {}", shown(slowest_found));
}
