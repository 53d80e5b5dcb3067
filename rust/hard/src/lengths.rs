//! How long the lent buffers of a call are.

use crate::area::Place;
use generate::rng::Rng;
use model::decode::{most, MAX_POINTS};

/// The most words and bytes that an accepted record needs.
const MOST_WORDS: usize = most::REGIONS as usize * MAX_POINTS.div_ceil(32);
const MOST_BYTES: usize = 2 * MAX_POINTS + most::DECLARED as usize;

#[derive(Clone, Copy, Debug, PartialEq, Eq)]
pub struct Lengths {
    pub words: usize,
    pub bytes: usize,
    /// Where the record and both buffers lie.
    pub place: Place,
}

/// The calls on an accepted record that needs so many words and bytes: an exact fit at the end of a page, and one other.
pub fn accepted(rng: &mut Rng, needs: (usize, usize)) -> [Lengths; 2] {
    let (words, bytes) = needs;
    let place = any_place(rng);
    let (some, more) = (rng.below(9), rng.below(9));
    let other = match rng.below(8) {
        0..=2 => Lengths { words, bytes, place: Place::Start },
        3 if words > 0 => Lengths { words: words - 1, bytes, place },
        3 | 4 => Lengths { words, bytes: bytes - 1, place },
        5 => Lengths { words: words + some, bytes: bytes + more, place },
        6 if words > 0 => Lengths { words: rng.below(words), bytes: bytes + more, place },
        6 => Lengths { words: words + some, bytes: rng.below(bytes), place },
        _ => *rng.pick(&[
            Lengths { words: 0, bytes: 0, place },
            Lengths { words: words + some, bytes: 0, place },
            Lengths { words: 0, bytes: bytes + more, place },
        ]),
    };
    [Lengths { words, bytes, place: Place::End }, other]
}

/// The calls on a refused record: buffers of any lengths at either end of a page, most of them short.
pub fn refused(rng: &mut Rng) -> [Lengths; 2] {
    [Place::End, Place::Start].map(|place| {
        let (words, bytes) = match rng.below(8) {
            0 => (MOST_WORDS, MOST_BYTES),
            1 => (rng.below(MOST_WORDS), rng.below(MOST_BYTES)),
            _ => *rng.pick(&[(0, 0), (1, 1), (3, 5), (9, 40), (40, 90)]),
        };
        Lengths { words, bytes, place }
    })
}

fn any_place(rng: &mut Rng) -> Place {
    *rng.pick(&[Place::Start, Place::End])
}
