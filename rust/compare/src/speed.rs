//! How long the original takes for records at the limits, and the proved call where it is linked.

#[cfg(feature = "proved")]
use crate::engine::{Engine, Proved};
#[cfg(feature = "proved")]
use crate::lent::Lent;
use std::time::Instant;

/// Times the original, the model and, where it is linked, the proved call on each record, and prints the mean and the worst.
pub fn measure(records: &[Vec<u8>]) {
    let mut original_seconds = vec![];
    let mut model_seconds = vec![];
    #[cfg(feature = "proved")]
    let mut proved_seconds = vec![];
    for record in records {
        let job = model::accept(record).expect("an accepted record");
        let started = Instant::now();
        let answer = original::analyse(record, original::Order::ReversePostOrder);
        original_seconds.push(started.elapsed().as_secs_f64());
        let started = Instant::now();
        model::answer(&job);
        model_seconds.push(started.elapsed().as_secs_f64());
        println!(
            "{} bytes, {} points, {} constraints: original {:.3} s{}, model {:.3} s",
            record.len(),
            job.points(),
            constraints(&job),
            original_seconds.last().unwrap(),
            if answer.is_err() { " (panics)" } else { "" },
            model_seconds.last().unwrap(),
        );
        #[cfg(feature = "proved")]
        {
            proved_seconds.push(proved(record));
            println!("  proved {:.6} s", proved_seconds.last().unwrap());
        }
    }
    print("original", &original_seconds);
    print("model", &model_seconds);
    #[cfg(feature = "proved")]
    print("proved", &proved_seconds);
}

/// How long the proved call takes for a record, with buffers of zeros that are an exact fit.
#[cfg(feature = "proved")]
fn proved(record: &[u8]) -> f64 {
    let mut lent = Lent::exact(record);
    let started = Instant::now();
    Proved.call(record, &mut lent.words, &mut lent.bytes);
    started.elapsed().as_secs_f64()
}

fn constraints(job: &model::Job) -> usize {
    model::constraints::constraints(&model::graph::Graph::new(job)).len()
}

fn print(name: &str, seconds: &[f64]) {
    let mean = seconds.iter().sum::<f64>() / seconds.len() as f64;
    let worst = seconds.iter().cloned().fold(0.0, f64::max);
    println!("{name}: {} records, mean {mean:.3} s, worst {worst:.3} s", seconds.len());
}
