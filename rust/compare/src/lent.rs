//! Lent buffers: their lengths and what they hold before a call.

use generate::rng::Rng;

#[derive(Clone, Debug, PartialEq, Eq)]
pub struct Lent {
    pub words: Vec<u32>,
    pub bytes: Vec<u8>,
}

impl Lent {
    /// Buffers of so many words and bytes, filled at random.
    pub fn filled(rng: &mut Rng, words: usize, bytes: usize) -> Lent {
        Lent {
            words: (0..words).map(|_| rng.next() as u32).collect(),
            bytes: (0..bytes).map(|_| rng.next() as u8).collect(),
        }
    }

    /// Buffers that are long enough: an exact fit or somewhat longer.
    pub fn long_enough(rng: &mut Rng, record: &[u8]) -> Lent {
        let (words, bytes) = needs(record);
        let (more_words, more_bytes) = if rng.chance(40) { (0, 0) } else { (rng.below(4), rng.below(6)) };
        Lent::filled(rng, words + more_words, bytes + more_bytes)
    }

    /// Buffers of which at least one is too short for an accepted record, most by one.
    pub fn too_short(rng: &mut Rng, record: &[u8]) -> Lent {
        let (words, bytes) = needs(record);
        let (words, bytes) = match rng.below(4) {
            0 if words > 0 => (words - 1, bytes + 1),
            1 if words > 0 => (words - 1, bytes - 1),
            2 => (words + 1, 0),
            _ => (words + 1, bytes - 1),
        };
        Lent::filled(rng, words, bytes)
    }

    /// Buffers that are long enough, all zero.
    pub fn exact(record: &[u8]) -> Lent {
        let (words, bytes) = if model::accept(record).is_ok() { needs(record) } else { (0, 0) };
        Lent { words: vec![0; words], bytes: vec![0; bytes] }
    }
}

/// What an accepted record needs, and some words and bytes for a refused one.
fn needs(record: &[u8]) -> (usize, usize) {
    model::accept(record).map_or((3, 5), |job| model::output::needs(&job))
}
