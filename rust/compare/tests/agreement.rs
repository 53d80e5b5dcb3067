//! The original and the model agree on generated records, whatever the order of the blocks.

use compare::engine::{Engine, Model, Original, Outcome};
use compare::recorded;
use compare::trial::Trial;
use original::{Failure, Order};

#[test]
fn on_accepted_records() {
    let (mut first, mut second) = (Original::new(), Model);
    let mut trial = Trial::new(&mut first, &mut second, 1);
    for seed in 1_000_000..1_003_000 {
        let record = generate::accepted(seed);
        assert!(trial.record(&record), "seed {seed}");
    }
    assert!(trial.tally.with_fault > 1_000 && trial.tally.loans_without_fault > 300 && trial.tally.without_loans > 300);
}

#[test]
fn on_damaged_and_boundary_records() {
    let (mut first, mut second) = (Original::new(), Model);
    let mut trial = Trial::new(&mut first, &mut second, 1);
    trial.try_refused = true;
    let boundary = generate::boundary::cases().into_iter().map(|case| case.record);
    for record in (1_000_000..1_003_000).map(generate::damaged).chain(boundary) {
        assert!(trial.record(&record), "{}", compare::hex(&record));
    }
    for number in 0..=10 {
        assert!(trial.tally.numbers.contains_key(&number), "no record gives {number}");
    }
}

#[test]
fn in_every_order_of_the_blocks() {
    for seed in 2_000_000..2_000_500 {
        let record = generate::accepted(seed);
        let first = original_answering::analyse(&record, original_answering::Order::ReversePostOrder).expect("an answer");
        for order in
            [Order::ReversePostOrder, Order::PostOrder, Order::ByIndex, Order::Shuffled(seed), Order::Shuffled(!seed)]
        {
            match original::analyse(&record, order) {
                Ok(other) => {
                    assert_eq!((&first.regions, &first.grown), (&other.regions, &other.grown), "seed {seed}, {order:?}");
                    let verdicts: Vec<_> = other.verdicts.iter().map(|v| (v.kind, v.operand)).collect();
                    assert!(first.verdicts.iter().map(|v| (v.kind, v.operand)).eq(verdicts), "seed {seed}, {order:?}");
                }
                // whether the assert is met depends on the order
                Err(Failure::Panicked(message)) => assert!(message.contains("constraint.point.action > 0"), "{message}"),
                Err(Failure::Unread(message)) => panic!("seed {seed}: {message}"),
            }
        }
    }
}

/// An engine that forgets one bit of the first region that has any.
struct Forgetful;

impl Engine for Forgetful {
    fn call(&mut self, record: &[u8], words: &mut [u32], bytes: &mut [u8]) -> Outcome {
        let outcome = Model.call(record, words, bytes);
        if outcome == Outcome::Number(0) {
            if let Some(word) = words.iter_mut().find(|word| **word != 0) {
                *word &= *word - 1;
            }
        }
        outcome
    }
}

#[test]
fn a_lost_bit_is_a_disagreement() {
    let (mut first, mut second) = (Original::new(), Forgetful);
    let mut trial = Trial::new(&mut first, &mut second, 1);
    for seed in 0..100 {
        trial.record(&generate::accepted(seed));
    }
    assert!(trial.tally.disagreements.len() > 50);
}

/// An engine that refuses everything.
struct Refuser;

impl Engine for Refuser {
    fn call(&mut self, _record: &[u8], _words: &mut [u32], _bytes: &mut [u8]) -> Outcome {
        Outcome::Number(3)
    }
}

#[test]
fn a_wrong_refusal_is_a_disagreement() {
    let (mut first, mut second) = (Original::new(), Refuser);
    let mut trial = Trial::new(&mut first, &mut second, 1);
    for case in generate::boundary::cases() {
        assert_eq!(trial.record(&case.record), case.number == 3, "{}", case.name);
    }
}

#[test]
fn the_recorded_answers_are_the_originals() {
    let file = std::fs::read(concat!(env!("CARGO_MANIFEST_DIR"), "/../../crates/replay/data/answers.bin"))
        .expect("recorded answers");
    let entries = recorded::read(&file).expect("the format of recorded answers");
    assert!(entries.len() >= 3_000);
    assert_eq!(recorded::write(&recorded::entries()), file, "`compare record` gives another file");
    for entry in &entries {
        let (mut words, mut bytes) = (vec![0; entry.words.len()], vec![0; entry.bytes.len()]);
        assert_eq!(model::analyse(&entry.record, &mut words, &mut bytes), entry.number);
        assert!(words == entry.words && bytes == entry.bytes, "{}", compare::hex(&entry.record));
    }
}
