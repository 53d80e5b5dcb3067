//! The classes of records that are tried.

use generate::jobs::{dense, LARGE, LARGEST, MEDIUM, SMALL, TINY};
use generate::rng::Rng;
use generate::worst::{self, Clock};
use generate::{boundary, exhaustive, short};
use model::decode::MAX_LENGTH;
use model::encode::with_length;

/// Record number `index` of a class, if it has so many.
pub type Source = Box<dyn Fn(u64) -> Option<Vec<u8>> + Send + Sync>;

pub struct Class {
    pub name: &'static str,
    pub count: u64,
    pub source: Source,
}

/// The classes; about `count` records in all are drawn at random.
pub fn classes(count: u64, seed: u64) -> Vec<Class> {
    vec![
        listed("boundary", boundary::cases().into_iter().map(|case| case.record).collect()),
        listed("short strings", short::strings().collect()),
        listed("short bodies", short::bodies(7, 4).collect()),
        listed("few actions", exhaustive::records(2).collect()),
        listed("deep types", worst::deep()),
        listed("much work", much_work()),
        drawn("random strings", count * 15 / 100, seed, random_string),
        drawn("random bodies", count * 15 / 100, seed, random_body),
        drawn("boundary, damaged", count * 10 / 100, seed, move_boundary()),
        drawn("damaged often", count * 40 / 100, seed, damaged_often),
        drawn("damaged", count * 10 / 100, seed, generate::damaged),
        drawn("accepted", count * 10 / 100, seed, generate::accepted),
        drawn("large", count / 1_000, seed, |seed| generate::accepted_of(seed, &LARGE)),
        drawn("largest", count / 10_000, seed, |seed| generate::accepted_of(seed, &LARGEST)),
    ]
}

fn listed(name: &'static str, records: Vec<Vec<u8>>) -> Class {
    let count = records.len() as u64;
    Class { name, count, source: Box::new(move |index| records.get(index as usize).cloned()) }
}

fn drawn(name: &'static str, count: u64, seed: u64, record: impl Fn(u64) -> Vec<u8> + Send + Sync + 'static) -> Class {
    Class { name, count, source: Box::new(move |index| (index < count).then(|| record(seed + index))) }
}

/// Records that take long, short enough for the model.
fn much_work() -> Vec<Vec<u8>> {
    let clock = |assignments, ticks, apart, steps| worst::clock(&Clock { assignments, ticks, apart, steps });
    let mut found = vec![
        clock(1, 120, false, 1),
        clock(2, 60, true, 1),
        clock(3, 30, true, 1),
        clock(2, 30, true, 6),
        clock(60, 20, false, 2),
    ];
    found.extend(worst::small_relays());
    found.extend(worst::small_gates());
    found.extend(worst::small_strips());
    found.extend((0..7).map(worst::loans));
    found.extend([worst::far(), worst::live()]);
    found.extend((2..5).map(|nodes| dense(&mut Rng::new(1), nodes)));
    found
}

/// Any bytes. Some begin as a record does, with the right length or not.
fn random_string(seed: u64) -> Vec<u8> {
    let mut rng = Rng::new(seed);
    let length = match rng.below(100) {
        0 => rng.between(MAX_LENGTH - 2, MAX_LENGTH + 6),
        1 => rng.below(66_000),
        2..=20 => rng.below(600),
        _ => rng.below(60),
    };
    let mut bytes: Vec<u8> = (0..length).map(|_| rng.next() as u8).collect();
    if rng.chance(70) && length >= 3 {
        bytes[0] = 1;
        if rng.chance(90) {
            bytes[1..3].copy_from_slice(&((length - 3) as u16).to_be_bytes());
        }
    }
    bytes
}

/// A body of small numbers after the right length.
fn random_body(seed: u64) -> Vec<u8> {
    let mut rng = Rng::new(seed);
    let values = *rng.pick(&[2, 3, 4, 8]);
    let counts = [rng.below(3), rng.below(5), rng.below(2), rng.below(4), rng.between(1, 3)];
    let length = rng.below(80);
    let mut body: Vec<u8> = counts.map(|count| count as u8).to_vec();
    body.extend((0..length).map(|_| rng.below(values) as u8));
    with_length(&body).expect("a short body")
}

/// Records at the boundary of a refusal with a byte changed.
fn move_boundary() -> impl Fn(u64) -> Vec<u8> + Send + Sync {
    let records: Vec<Vec<u8>> = boundary::cases().into_iter().map(|case| case.record).filter(|r| r.len() < 4_000).collect();
    move |seed| {
        let mut rng = Rng::new(seed);
        let mut record = rng.pick(&records).clone();
        change_bytes(&mut rng, &mut record, 1);
        record
    }
}

/// A record that is accepted, the same for sixteen seeds, with one to three bytes changed.
fn damaged_often(seed: u64) -> Vec<u8> {
    let mut rng = Rng::new(seed / 16);
    let size = [TINY, SMALL, MEDIUM][rng.weighted(&[50, 40, 10])];
    let mut record = generate::accepted_of(seed / 16, &size);
    let mut rng = Rng::new(!seed);
    let changes = rng.between(1, 3);
    change_bytes(&mut rng, &mut record, changes);
    record
}

/// Changes bytes, adds or takes one away, and mostly puts the length right.
fn change_bytes(rng: &mut Rng, record: &mut Vec<u8>, changes: usize) {
    for _ in 0..changes {
        let at = rng.below(record.len() + 1);
        let value = if rng.chance(80) { rng.below(12) as u8 } else { rng.next() as u8 };
        match rng.below(8) {
            0 => record.insert(at, value),
            1 if at < record.len() => drop(record.remove(at)),
            2 => record.truncate(at),
            3 if at < record.len() => record[at] ^= 1 << rng.below(8),
            _ if at < record.len() => record[at] = value,
            _ => record.push(value),
        }
    }
    if record.len() >= 3 && rng.chance(95) {
        let length = (record.len() - 3) as u16;
        record[1..3].copy_from_slice(&length.to_be_bytes());
    }
}
