//! How long one record takes.

use crate::stopwatch::seconds;
use compare::engine::Engine;
use compare::lent::Lent;
use generate::rng::Rng;
use original::Order;

/// A record is called again until so many seconds have been counted.
const ENOUGH: f64 = 0.02;
const MOST_RUNS: usize = 1_000;

/// Calls are timed in runs of about so many seconds, at most so many in one: reading the clocks takes a good part of a microsecond, and
/// a call before which they are read takes longer.
const RUN: f64 = 20e-6;
const MOST_CALLS: usize = 64;

/// The times of a record, in seconds.
#[derive(Clone, Copy)]
pub struct Times {
    /// The original's reading of the record, which is a stand-in's, and its analysis.
    pub reading: f64,
    pub analysis: f64,
    /// The proved call without room, which ends after refusals 1 to 9 are judged. The original judges none of them.
    pub judging: f64,
    /// The proved call, which reads the record, judges it and writes the answer.
    pub proved: f64,
}

impl Times {
    pub fn original(&self) -> f64 {
        self.reading + self.analysis
    }
}

pub fn times(record: &[u8], proved: &mut dyn Engine) -> Times {
    let text = original::text_of(record);
    let parse = || original::parse(&text).expect("a record that can be read");
    let reading = median_of_runs(|calls| {
        let mut parsed = Vec::with_capacity(calls);
        seconds(|| parsed.extend((0..calls).map(|_| parse()))).0
    });
    let analysis = median_of_runs(|calls| {
        let parsed: Vec<_> = (0..calls).map(|_| parse()).collect();
        let check = |parsed| original::check(parsed, Order::ReversePostOrder).expect("a record that the original answers");
        seconds(|| parsed.into_iter().for_each(check)).0
    });
    let judging = median_of_runs(|calls| seconds(|| (0..calls).for_each(|_| drop(proved.call(record, &mut [], &mut [])))).0);
    Times { reading, analysis, judging, proved: proved_seconds(record, proved) }
}

/// The call with buffers of an exact fit. They are filled at random before the first call and are not cleared: each
/// call finds what the one before it left.
pub fn proved_seconds(record: &[u8], proved: &mut dyn Engine) -> f64 {
    let job = model::accept(record).expect("an accepted record");
    let (words, bytes) = model::output::needs(&job);
    let mut lent = Lent::filled(&mut Rng::new(1), words, bytes);
    let mut call = || drop(proved.call(record, &mut lent.words, &mut lent.bytes));
    median_of_runs(|calls| seconds(|| (0..calls).for_each(|_| call())).0)
}

/// The median, over the runs that are made until `ENOUGH`, of the seconds of one call. `run` makes so many calls and gives the seconds
/// of all. The first run is of one call, which tells how many make up a run, and counts if that is one.
fn median_of_runs(mut run: impl FnMut(usize) -> f64) -> f64 {
    let first = run(1);
    let calls = ((RUN / first) as usize).clamp(1, MOST_CALLS);
    let (mut all, mut total) = if calls == 1 { (vec![first], first) } else { (vec![], 0.0) };
    while all.is_empty() || total < ENOUGH && all.len() < MOST_RUNS {
        let seconds = run(calls);
        total += seconds;
        all.push(seconds / calls as f64);
    }
    median(all)
}

/// The middle one, the lower of two. There is at least one.
pub fn median(mut seconds: Vec<f64>) -> f64 {
    seconds.sort_by(f64::total_cmp);
    seconds[(seconds.len() - 1) / 2]
}
