//! The hard trial of the compiled library. `rust/README.md` has the commands.

use compare::engine::{Engine, Outcome, Proved};
use compare::hex;
use hard::classes::{classes, Class};
use hard::fault;
use hard::stack::STACK;
use hard::trial::{Seen, Trial};
use std::process::exit;
use std::sync::atomic::{AtomicU64, Ordering};
use std::time::Instant;

const USAGE: &str = "usage: hard [COUNT [SEED [THREADS]]], about COUNT records drawn at random, else 100,000";

fn main() {
    let words: Vec<String> = std::env::args().skip(1).collect();
    let number =
        |index: usize, default: u64| words.get(index).map_or(default, |word| word.parse().unwrap_or_else(|_| usage()));
    if words.len() > 3 {
        usage();
    }
    let (count, seed, threads) = (number(0, 100_000), number(1, 1), number(2, 2));
    fault::install();
    println!("stack: {STACK} bytes; the driver takes {} of them", driver());
    let mut all = Seen::default();
    let started = Instant::now();
    for class in classes(count, seed) {
        let began = Instant::now();
        let seen = try_class(&class, seed, threads);
        print(class.name, &seen, began.elapsed().as_secs_f64());
        all.join(seen);
    }
    print("all", &all, started.elapsed().as_secs_f64());
    exit(if all.disagreements.is_empty() { 0 } else { 1 })
}

fn usage() -> ! {
    eprintln!("{USAGE}");
    exit(2)
}

fn proved(record: &[u8], words: &mut [u32], bytes: &mut [u8]) -> u8 {
    match Proved.call(record, words, bytes) {
        Outcome::Number(number) => number,
        other => panic!("no number: {other:?}"),
    }
}

/// What a call that does nothing takes of the stack.
fn driver() -> usize {
    let mut trial = Trial::new(|_, _, _| 1, 1);
    trial.record(&[]);
    trial.take().deepest
}

/// The records of a class, each given to the thread that comes next.
fn try_class(class: &Class, seed: u64, threads: u64) -> Seen {
    let next = AtomicU64::new(0);
    let work = |thread: u64| {
        let mut trial = Trial::new(proved, seed.wrapping_mul(1_000).wrapping_add(thread));
        while let Some(record) = (class.source)(next.fetch_add(1, Ordering::Relaxed)) {
            trial.record(&record);
        }
        trial.take()
    };
    let mut all = Seen::default();
    std::thread::scope(|scope| {
        let running: Vec<_> = (0..threads).map(|thread| scope.spawn(move || work(thread))).collect();
        running.into_iter().for_each(|thread| all.join(thread.join().expect("a thread that ends")));
    });
    all
}

fn print(name: &str, seen: &Seen, seconds: f64) {
    let numbers: Vec<String> = seen.numbers.iter().map(|(number, calls)| format!("{number}: {calls}")).collect();
    println!("{name}: {} records, {seconds:.0} s", seen.records);
    println!("  calls by number {}", numbers.join(", "));
    println!("  deepest stack {} bytes, disagreements {}", seen.deepest, seen.disagreements.len());
    for record in seen.disagreements.iter().take(3) {
        println!("  disagree on {}", hex(record));
    }
}
