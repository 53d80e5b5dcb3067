//! Counts of what the records of a run are.

use std::collections::BTreeMap;

#[derive(Default)]
pub struct Tally {
    pub records: u64,
    /// Calls by the number that the second engine returned.
    pub numbers: BTreeMap<u8, u64>,
    pub with_fault: u64,
    /// A loan is in scope somewhere, and there is no fault.
    pub loans_without_fault: u64,
    pub without_loans: u64,
    pub with_grown: u64,
    /// Fault kinds by point.
    pub fault_kinds: BTreeMap<u8, u64>,
    /// Calls of the first engine that it does not judge.
    pub not_judged: u64,
    /// Calls of the first engine whose number, words and bytes were compared.
    pub compared: u64,
    /// Panics of the first engine by message.
    pub panics: BTreeMap<String, u64>,
    /// Records on which the original panicked and its answering build was compared.
    pub compared_by_answering: u64,
    /// What the original does with records that are refused: by number, then unread, panics or answers.
    pub refused: BTreeMap<(u8, &'static str), u64>,
    pub disagreements: Vec<Vec<u8>>,
}

impl Tally {
    pub fn print(&self, family: &str, seconds: f64) {
        println!("{family}: {} records, {seconds:.0} s", self.records);
        for (number, count) in &self.numbers {
            println!("  number {number}: {count} calls");
        }
        println!("  accepted: {} with a fault, {} with loans in scope and no fault, {} without loans in scope, {} with a grown region",
            self.with_fault, self.loans_without_fault, self.without_loans, self.with_grown);
        for (kind, count) in &self.fault_kinds {
            println!("  faults of kind {kind}: {count}");
        }
        println!(
            "  calls compared: {}, by the answering build: {}, not judged by the first engine: {}",
            self.compared, self.compared_by_answering, self.not_judged
        );
        for (message, count) in &self.panics {
            println!("  panics: {count} of {message}");
        }
        for ((number, does), count) in &self.refused {
            println!("  refused by {number}, the original {does}: {count}");
        }
        println!("  disagreements: {}", self.disagreements.len());
    }
}

pub fn count<K: Ord>(map: &mut BTreeMap<K, u64>, key: K) {
    *map.entry(key).or_insert(0) += 1;
}
