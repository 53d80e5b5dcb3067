//! Records from a seed: accepted ones and damaged copies. And fixed ones: the boundary of each refusal, all short strings, and all
//! jobs of a few actions from a menu.

pub mod boundary;
pub mod damage;
pub mod exhaustive;
pub mod jobs;
pub mod paths;
pub mod rng;
pub mod short;
pub mod types;
pub mod worst;

use rng::Rng;

/// An accepted record.
pub fn accepted(seed: u64) -> Vec<u8> {
    let mut rng = Rng::new(seed);
    let size = jobs::any_size(&mut rng);
    jobs::accepted(&mut rng, &size).1
}

/// An accepted record of a size.
pub fn accepted_of(seed: u64, size: &jobs::Size) -> Vec<u8> {
    jobs::accepted(&mut Rng::new(seed), size).1
}

/// A damaged copy of an accepted record.
pub fn damaged(seed: u64) -> Vec<u8> {
    let mut rng = Rng::new(seed);
    let size = if rng.chance(60) { jobs::TINY } else { jobs::SMALL };
    let (job, record) = jobs::accepted(&mut rng, &size);
    damage::damage(&mut rng, &job, &record)
}
