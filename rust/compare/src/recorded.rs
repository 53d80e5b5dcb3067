//! Recorded answers: a file of records with what the original says of them. `crates/replay/README.md` has the format.

use crate::engine::{Answering, Engine, Model, Original, Outcome};
use crate::lent::Lent;
use generate::jobs::{LARGE, MEDIUM, SMALL, TINY};

pub struct Entry {
    pub record: Vec<u8>,
    pub number: u8,
    pub words: Vec<u32>,
    pub bytes: Vec<u8>,
}

/// The entries of the file, from fixed seeds.
pub fn entries() -> Vec<Entry> {
    let mut records: Vec<Vec<u8>> = generate::boundary::cases().into_iter().map(|case| case.record).collect();
    // the longest records say nothing that shorter ones do not
    records.retain(|record| record.len() < 1_500);
    records.extend((0..800).map(|seed| generate::accepted_of(seed, &TINY)));
    records.extend((0..700).map(|seed| generate::accepted_of(seed, &SMALL)));
    records.extend((0..150).map(|seed| generate::accepted_of(seed, &MEDIUM)));
    records.extend((0..6).map(|seed| generate::accepted_of(seed, &LARGE)));
    records.extend((0..700).map(generate::damaged));
    records.into_iter().map(entry).collect()
}

/// What the original says of an accepted record; the answering build where the original asserts at
/// action 0; the model's number where the record is refused.
pub fn entry(record: Vec<u8>) -> Entry {
    let mut lent = Lent::exact(&record);
    let mut call = |engine: &mut dyn Engine| engine.call(&record, &mut lent.words, &mut lent.bytes);
    let number = match call(&mut Original::new()) {
        Outcome::Number(number) => number,
        Outcome::Panicked(_) => number_of(call(&mut Answering::new())),
        Outcome::NotJudged => number_of(call(&mut Model)),
    };
    Entry { record, number, words: lent.words, bytes: lent.bytes }
}

fn number_of(outcome: Outcome) -> u8 {
    match outcome {
        Outcome::Number(number) => number,
        other => panic!("no answer: {other:?}"),
    }
}

pub fn write(entries: &[Entry]) -> Vec<u8> {
    let mut out = vec![];
    push_u16(&mut out, entries.len());
    for entry in entries {
        push_u16(&mut out, entry.record.len());
        out.extend(&entry.record);
        out.push(entry.number);
        push_u16(&mut out, entry.words.len());
        entry.words.iter().for_each(|word| out.extend(word.to_be_bytes()));
        push_u16(&mut out, entry.bytes.len());
        out.extend(&entry.bytes);
    }
    out
}

fn push_u16(out: &mut Vec<u8>, n: usize) {
    out.extend(u16::try_from(n).expect("a length of two bytes").to_be_bytes());
}

/// The entries of a file; none if it has another format.
pub fn read(file: &[u8]) -> Option<Vec<Entry>> {
    let mut rest = file;
    let count = take_u16(&mut rest)?;
    let mut entries = vec![];
    for _ in 0..count {
        let length = take_u16(&mut rest)?;
        let record = take(&mut rest, length)?.to_vec();
        let number = take(&mut rest, 1)?[0];
        let count = take_u16(&mut rest)?;
        let words = take(&mut rest, 4 * count)?.chunks(4).map(|w| u32::from_be_bytes(w.try_into().unwrap())).collect();
        let length = take_u16(&mut rest)?;
        let bytes = take(&mut rest, length)?.to_vec();
        entries.push(Entry { record, number, words, bytes });
    }
    rest.is_empty().then_some(entries)
}

fn take<'a>(rest: &mut &'a [u8], count: usize) -> Option<&'a [u8]> {
    let (taken, left) = rest.split_at_checked(count)?;
    *rest = left;
    Some(taken)
}

fn take_u16(rest: &mut &[u8]) -> Option<usize> {
    let pair = take(rest, 2)?;
    Some(usize::from(pair[0]) * 256 + usize::from(pair[1]))
}
