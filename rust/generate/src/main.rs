//! Prints records in hexadecimal, one to a line.
//!
//!     generate accepted SEED COUNT    accepted records of all sizes
//!     generate tiny SEED COUNT        accepted records with few points
//!     generate small SEED COUNT       somewhat larger ones
//!     generate largest SEED COUNT     accepted records at the limits
//!     generate damaged SEED COUNT     damaged copies
//!     generate boundary               both sides of each refusal

use generate::jobs::{LARGEST, SMALL, TINY};

fn main() {
    let words: Vec<String> = std::env::args().skip(1).collect();
    let words: Vec<&str> = words.iter().map(String::as_str).collect();
    match words[..] {
        ["boundary"] => generate::boundary::cases().iter().for_each(|case| print(&case.record)),
        [family, seed, count] => {
            let record = family_named(family);
            let seed: u64 = seed.parse().expect("SEED is a number");
            let count: u64 = count.parse().expect("COUNT is a number");
            (0..count).for_each(|index| print(&record(seed + index)));
        }
        _ => usage(),
    }
}

fn family_named(name: &str) -> fn(u64) -> Vec<u8> {
    match name {
        "accepted" => generate::accepted,
        "tiny" => |seed| generate::accepted_of(seed, &TINY),
        "small" => |seed| generate::accepted_of(seed, &SMALL),
        "largest" => |seed| generate::accepted_of(seed, &LARGEST),
        "damaged" => generate::damaged,
        _ => usage(),
    }
}

fn print(record: &[u8]) {
    let text: String = record.iter().map(|byte| format!("{byte:02x}")).collect();
    println!("{text}");
}

fn usage() -> ! {
    eprintln!("usage: generate accepted|tiny|small|largest|damaged SEED COUNT, or generate boundary");
    std::process::exit(2)
}
