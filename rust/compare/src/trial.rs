//! One record before two engines.

use crate::engine::{Answering, Engine, Outcome};
use crate::lent::Lent;
use crate::tally::{count, Tally};
use generate::rng::Rng;
use model::graph::Graph;
use model::syntax::{Action, Region, Ty};
use original::Failure;

/// The message of the original's assert at action 0, in part.
const ASSERT_AT_ACTION_0: &str = "constraint.point.action > 0";

pub struct Trial<'e> {
    pub first: &'e mut dyn Engine,
    pub second: &'e mut dyn Engine,
    pub answering: Answering,
    /// Whether the original is tried on refused records too.
    pub try_refused: bool,
    pub rng: Rng,
    pub tally: Tally,
}

impl<'e> Trial<'e> {
    pub fn new(first: &'e mut dyn Engine, second: &'e mut dyn Engine, seed: u64) -> Self {
        Trial {
            first,
            second,
            answering: Answering::new(),
            try_refused: false,
            rng: Rng::new(seed),
            tally: Tally::default(),
        }
    }

    /// Compares the engines on a record, and tells whether they agree: with long enough buffers and,
    /// at times, an accepted one with too short buffers as well.
    pub fn record(&mut self, record: &[u8]) -> bool {
        let before = Lent::long_enough(&mut self.rng, record);
        let mut agree = self.with(record, &before);
        if self.rng.chance(6) && model::accept(record).is_ok() {
            let before = Lent::too_short(&mut self.rng, record);
            agree &= self.with(record, &before);
        }
        if !agree {
            self.tally.disagreements.push(record.to_vec());
        }
        self.tally.records += 1;
        agree
    }

    fn with(&mut self, record: &[u8], before: &Lent) -> bool {
        let (second, after_second) = call(self.second, record, before);
        self.describe(record, &second);
        let (first, after_first) = call(self.first, record, before);
        match first {
            Outcome::NotJudged => {
                self.tally.not_judged += 1;
                let refusal = model::accept(record).expect_err("the original judges accepted records");
                let refused = second == Outcome::Number(refusal) && after_second == *before;
                refused && (!self.try_refused || self.refused(record, refusal))
            }
            Outcome::Panicked(message) => {
                let known = message.contains(ASSERT_AT_ACTION_0);
                count(&mut self.tally.panics, message);
                let (answer, after) = call(&mut self.answering, record, before);
                self.tally.compared_by_answering += 1;
                known && answer == second && after == after_second
            }
            Outcome::Number(number) => {
                self.tally.compared += 1;
                first == second && after_first == after_second && (number == 0 || after_first == *before)
            }
        }
    }

    /// Counts what the record is, by the model.
    fn describe(&mut self, record: &[u8], outcome: &Outcome) {
        let Outcome::Number(number) = *outcome else { return };
        count(&mut self.tally.numbers, number);
        if number != 0 {
            return;
        }
        let Ok(job) = model::accept(record) else { return };
        let answer = model::answer(&job);
        let faults = answer.verdicts.iter().filter(|v| v.kind != 0);
        faults.for_each(|v| count(&mut self.tally.fault_kinds, v.kind));
        if answer.has_fault() {
            self.tally.with_fault += 1;
        } else if answer.loans_in_scope > 0 {
            self.tally.loans_without_fault += 1;
        } else {
            self.tally.without_loans += 1;
        }
        if answer.grown.contains(&true) {
            self.tally.with_grown += 1;
        }
    }

    /// A refused record. The original must read none where 1 to 3 is said, and one where 6 to 9 is.
    /// Of 8 and 9 it must panic exactly if it looks at what is wrong. Of 6 and 7 it is only counted
    /// whether it panics.
    fn refused(&mut self, record: &[u8], number: u8) -> bool {
        if matches!(number, 4 | 5) || record.len() > model::decode::MAX_LENGTH + 3 {
            return true;
        }
        let (does, right) = match original::analyse(record, original::Order::ReversePostOrder) {
            Ok(_) => ("answers", matches!(number, 6 | 7) || number > 7 && !looked_at(record)),
            Err(Failure::Panicked(message)) => {
                let elsewhere = message.contains(ASSERT_AT_ACTION_0);
                ("panics", matches!(number, 6 | 7) || number > 7 && (elsewhere || looked_at(record)))
            }
            Err(Failure::Unread(_)) => ("reads none", number <= 3),
        };
        count(&mut self.tally.refused, (number, does));
        right
    }
}

/// Whether the original looks at what is wrong in a record that is refused by 8 or 9: it takes the
/// types of the paths of the Assigns and Borrows of walked blocks, and of no others, and relates them.
fn looked_at(record: &[u8]) -> bool {
    let job = model::decode::decode(record).expect("a record that is refused by 8 or 9");
    let graph = Graph::new(&job);
    let wrong = |p: usize| match graph.actions[p] {
        Some(Action::Assign(dest, source)) => match (job.step_through(dest), job.step_through(source)) {
            (Some(dest), Some(source)) => !dest.same_shape(&source),
            _ => true,
        },
        Some(Action::Borrow(dest, region, kind, source)) => match (job.step_through(dest), job.step_through(source)) {
            (Some(dest), Some(source)) => !dest.same_shape(&Ty::Ref(*kind, Region::Free(*region), Box::new(source))),
            _ => true,
        },
        _ => false,
    };
    let found = graph.walked_points().any(wrong);
    found
}

fn call(engine: &mut dyn Engine, record: &[u8], before: &Lent) -> (Outcome, Lent) {
    let mut lent = before.clone();
    let outcome = engine.call(record, &mut lent.words, &mut lent.bytes);
    (outcome, lent)
}
