//! A small loader: reads a job, has it analysed, tells the operator what was found and decides whether the transport may
//! move.
//!
//!     cargo run --release -p nll --example loader -- ../jobs/case5.hex
//!
//! Ends with status 0 if the transport may move, 1 if it stays for what the job does, 2 if the job is refused, 3 if it cannot
//! be read.

use std::process::ExitCode;
use std::{env, fs};

use nll::{Accepted, MAX_BYTES, MAX_WORDS};

fn main() -> ExitCode {
    let Some(file) = env::args().nth(1) else {
        eprintln!("usage: loader FILE");
        return ExitCode::from(3);
    };
    match fs::read(&file) {
        Ok(text) => load(&record_of(&text)),
        Err(error) => {
            eprintln!("{file}: {error}");
            ExitCode::from(3)
        }
    }
}

/// Analyses a job and says what was found.
fn load(record: &[u8]) -> ExitCode {
    // These serve every record, and a loader can keep them. `nll::sizes` says what one record needs.
    let (mut words, mut bytes) = (vec![0; MAX_WORDS], vec![0; MAX_BYTES]);
    match nll::analyse(record, &mut words, &mut bytes) {
        Err(refusal) => {
            println!("refused ({}): {refusal}", refusal.number());
            ExitCode::from(2)
        }
        Ok(answer) => decide(&answer),
    }
}

/// The transport moves if nothing that is lent is touched, and no declared region has to outlive more than the job declares.
fn decide(answer: &Accepted) -> ExitCode {
    println!("accepted: {} points, {} regions", answer.points(), answer.regions());
    for fault in answer.faults() {
        match answer.place(fault.point) {
            Some(place) => println!("{fault} ({place})"),
            None => println!("{fault}"),
        }
    }
    for region in answer.grown() {
        println!("region {region}: has to outlive more than the job declares");
    }
    if answer.without_access_errors() && answer.grown().next().is_none() {
        println!("the transport may move");
        ExitCode::SUCCESS
    } else {
        println!("the transport stays");
        ExitCode::from(1)
    }
}

/// A record in hexadecimal, as nll-list reads it: spaces and line ends are skipped, and other text or an odd digit is an empty
/// record.
fn record_of(text: &[u8]) -> Vec<u8> {
    let digits = text.iter().filter(|c| !b" \r\n".contains(c)).map(|&c| char::from(c).to_digit(16));
    match digits.collect::<Option<Vec<u32>>>() {
        Some(digits) if digits.len() % 2 == 0 => digits.chunks(2).map(|pair| (pair[0] * 16 + pair[1]) as u8).collect(),
        _ => Vec::new(),
    }
}
