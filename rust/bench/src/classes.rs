//! The classes of records that are timed.

use generate::jobs::{dense, slow, Size, LARGE, LARGEST, MEDIUM, SMALL, TINY};
use generate::rng::Rng;
use generate::worst::{self, Clock, Gates, Relay, Strips};
use original::Order;

pub struct Class {
    pub name: &'static str,
    make: Box<dyn Fn() -> Vec<Vec<u8>>>,
}

impl Class {
    fn new(name: &'static str, make: impl Fn() -> Vec<Vec<u8>> + 'static) -> Class {
        Class { name, make: Box::new(make) }
    }

    pub fn records(&self) -> Vec<Vec<u8>> {
        (self.make)()
    }
}

/// The classes, from tiny to the worst.
pub fn classes() -> Vec<Class> {
    vec![
        random("tiny", TINY, 200),
        random("small", SMALL, 200),
        random("medium", MEDIUM, 200),
        random("large", LARGE, 100),
        random("largest", LARGEST, 40),
        Class::new("loans", || [0, 2, 4, 6].map(worst::loans).to_vec()),
        Class::new("far", || vec![worst::far()]),
        Class::new("live", || vec![worst::live()]),
        Class::new("dense", || of_nodes(dense, &[2, 3, 4, 6, 8])),
        Class::new("clock", || clocks(&[1, 2, 3].map(|assignments| Clock { ticks: 300, ..Clock::of(assignments) }))),
        Class::new("slow", || of_nodes(slow, &[2])),
        Class::new("relay", worst::small_relays),
        Class::new("gates", worst::small_gates),
        Class::new("strips", worst::small_strips),
    ]
}

/// Classes that take the original minutes.
pub fn long_classes() -> Vec<Class> {
    vec![
        Class::new("dense, long", || of_nodes(dense, &[16, 32])),
        Class::new("clock, long", || clocks(&[3, 20].map(Clock::of))),
        Class::new("slow, long", || of_nodes(slow, &[3, 8])),
    ]
}

/// Accepted records of a size, of the first seeds on whose records the original does not panic.
fn random(name: &'static str, size: Size, count: usize) -> Class {
    let answered = |record: &Vec<u8>| original::analyse(record, Order::ReversePostOrder).is_ok();
    Class::new(name, move || {
        let records = (1..).map(|seed| generate::accepted_of(seed, &size));
        records.filter(answered).take(count).collect()
    })
}

fn of_nodes(record: fn(&mut Rng, usize) -> Vec<u8>, nodes: &[usize]) -> Vec<Vec<u8>> {
    nodes.iter().map(|&nodes| record(&mut Rng::new(1), nodes)).collect()
}

fn clocks(clocks: &[Clock]) -> Vec<Vec<u8>> {
    clocks.iter().map(worst::clock).collect()
}

/// The records that are the most work for the proved call, of those that were found.
pub fn slowest() -> Vec<(String, Vec<u8>)> {
    let mut found = vec![];
    let apart = |assignments, steps| Clock { apart: true, steps, ..Clock::of(assignments) };
    for clock in [apart(20, 1), apart(100, 1), apart(450, 1), apart(450, 6), apart(600, 6), apart(740, 6)] {
        found.push((format!("{clock:?}"), worst::clock(&clock)));
    }
    let of = |hops, assignments, fed, steps, parts| Relay { parts, ..Relay::of(hops, assignments, fed, steps) };
    for relay in [
        of(60, 300, false, 0, 1),
        of(90, 440, true, 0, 1),
        of(90, 440, true, 6, 1),
        of(90, 600, false, 6, 1),
        of(90, 440, true, 0, 20),
        of(90, 600, false, 6, 12),
    ] {
        found.push((format!("{relay:?}"), worst::relay(&relay)));
    }
    let largest = Gates::largest();
    let held = |steps| Gates { tokens: 11, assignments: 400, steps, held: true, ..largest };
    for gates in [
        // few constraints in many rounds, then many constraints in few rounds
        Gates { chain: 120, areas: 8, tokens: 2, assignments: 60, ..largest },
        Gates { chain: 4, tokens: 1, ..largest },
        largest,
        held(0),
        held(6),
    ] {
        found.push((format!("{gates:?}"), worst::gates(&gates)));
    }
    let largest = Strips::largest();
    for strips in [largest, Strips { parts: 4, strips: 80, tokens: 4, assignments: 20, ..largest }] {
        found.push((format!("{strips:?}"), worst::strips(&strips)));
    }
    found.extend([2, 8, 32].map(|nodes| (format!("dense {nodes}"), dense(&mut Rng::new(1), nodes))));
    found.extend([2, 8, 32].map(|nodes| (format!("slow {nodes}"), slow(&mut Rng::new(1), nodes))));
    found.extend([0, 6].map(|steps| (format!("loans {steps}"), worst::loans(steps))));
    found.push(("far".to_string(), worst::far()));
    found.push(("live".to_string(), worst::live()));
    found
}
