//! The table that is printed.

use crate::classes::Class;
use crate::measure::{median, times, Times};
use compare::engine::Engine;
use compare::hex;

/// What is asked for: so many times as fast on the median of a class, and on no record slower.
const AIM: f64 = 10.0;

const HEAD: &str = "\
reading:  the original's parser, a stand-in, from text to function
analysis: the original's own code, from function to the last error that it reports
judging:  the proved call without room: refusals 1 to 9, of which the original judges none, and then 10
proved:   the whole call, from the record's bytes to both buffers written
ratio:    reading and analysis to proved, of the medians; alone: analysis to proved
least:    the same of the record on which it is least
buffers:  an exact fit, filled at random before the first call, not cleared before a call
runs:     calls of less than 20 us are timed several at a time, of the original and of the proved call alike

| class | records | bytes | points | reading | analysis | judging | proved | ratio | alone | least | least alone | proved, slowest |
|---|---|---|---|---|---|---|---|---|---|---|---|---|";

/// Times each class and prints a line for it. Tells whether the aim is met.
pub fn print(classes: &[Class], proved: &mut dyn Engine) -> bool {
    println!("{HEAD}");
    let lines: Vec<Line> = classes.iter().map(|class| Line::of(class, proved)).collect();
    let met = lines.iter().all(Line::meets_the_aim);
    println!();
    for line in lines.iter().filter(|line| line.least < 1.0) {
        println!("slower than the original, of {}: {}", line.name, hex(&line.least_record));
    }
    println!("{AIM} times on the median of each class, and slower on no record: {}", if met { "yes" } else { "no" });
    met
}

struct Line {
    name: &'static str,
    ratio: f64,
    least: f64,
    least_record: Vec<u8>,
}

impl Line {
    fn meets_the_aim(&self) -> bool {
        self.ratio >= AIM && self.least >= 1.0
    }

    /// Times a class and prints its line.
    fn of(class: &Class, proved: &mut dyn Engine) -> Line {
        let records = class.records();
        let all: Vec<Times> = records.iter().map(|record| times(record, proved)).collect();
        let middle = |measure: fn(&Times) -> f64| median(all.iter().map(measure).collect());
        let (reading, analysis) = (middle(|t| t.reading), middle(|t| t.analysis));
        let (judging, proved) = (middle(|t| t.judging), middle(|t| t.proved));
        let ratio = middle(Times::original) / proved;
        let ratios: Vec<f64> = all.iter().map(|t| t.original() / t.proved).collect();
        let (at, least) = ratios.iter().copied().enumerate().min_by(|a, b| a.1.total_cmp(&b.1)).expect("a record");
        let least_alone = all.iter().map(|t| t.analysis / t.proved).fold(f64::INFINITY, f64::min);
        let slowest = all.iter().map(|t| t.proved).fold(0.0, f64::max);
        println!(
            "| {} | {} | {} | {} | {} | {} | {} | {} | {ratio:.1} | {:.1} | {least:.1} | {least_alone:.1} | {} |",
            class.name,
            all.len(),
            median(records.iter().map(|record| record.len() as f64).collect()),
            median(records.iter().map(|record| points(record)).collect()),
            shown(reading),
            shown(analysis),
            shown(judging),
            shown(proved),
            analysis / proved,
            shown(slowest),
        );
        Line { name: class.name, ratio, least, least_record: records[at].clone() }
    }
}

fn points(record: &[u8]) -> f64 {
    model::accept(record).expect("an accepted record").points() as f64
}

/// Seconds in the unit that suits them.
pub fn shown(seconds: f64) -> String {
    match seconds {
        s if s < 1e-3 => format!("{:.1} us", s * 1e6),
        s if s < 1.0 => format!("{:.2} ms", s * 1e3),
        s => format!("{s:.2} s"),
    }
}
