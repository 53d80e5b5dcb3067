//! What can be compared: each engine has the signature of the call.

/// What a call returns.
#[derive(Clone, Debug, PartialEq, Eq)]
pub enum Outcome {
    Number(u8),
    /// The engine panicked with this message.
    Panicked(String),
    /// The engine says nothing of such a record: the original knows no refusals, and the model's are taken.
    NotJudged,
}

pub trait Engine {
    fn call(&mut self, record: &[u8], words: &mut [u32], bytes: &mut [u8]) -> Outcome;
}

/// The engine of a name.
pub fn named(name: &str) -> Option<Box<dyn Engine>> {
    match name {
        "model" => Some(Box::new(Model)),
        "original" => Some(Box::new(Original::new())),
        "answering" => Some(Box::new(Answering::new())),
        #[cfg(feature = "proved")]
        "proved" => Some(Box::new(Proved)),
        _ => None,
    }
}

/// The model of document 01.
pub struct Model;

impl Engine for Model {
    fn call(&mut self, record: &[u8], words: &mut [u32], bytes: &mut [u8]) -> Outcome {
        Outcome::Number(model::analyse(record, words, bytes))
    }
}

/// An engine that is a build of the original. Each call visits the blocks in another order.
macro_rules! build_of_the_original {
    ($(#[$doc:meta])* $name:ident, $build:ident) => {
        $(#[$doc])*
        #[derive(Default)]
        pub struct $name {
            calls: u64,
        }

        impl $name {
            pub fn new() -> Self {
                Self::default()
            }

            fn next_order(&mut self) -> $build::Order {
                self.calls += 1;
                match self.calls % 4 {
                    0 => $build::Order::PostOrder,
                    1 => $build::Order::ReversePostOrder,
                    2 => $build::Order::ByIndex,
                    _ => $build::Order::Shuffled(self.calls),
                }
            }
        }

        impl Engine for $name {
            fn call(&mut self, record: &[u8], words: &mut [u32], bytes: &mut [u8]) -> Outcome {
                if model::accept(record).is_err() {
                    return Outcome::NotJudged;
                }
                match $build::analyse(record, self.next_order()) {
                    Ok(answer) => {
                        let verdicts: Vec<u8> = answer.verdicts.iter().flat_map(|v| [v.kind, v.operand]).collect();
                        write(&answer.regions, &verdicts, &answer.grown, words, bytes)
                    }
                    Err($build::Failure::Panicked(message)) => Outcome::Panicked(message),
                    Err($build::Failure::Unread(message)) => Outcome::Panicked(format!("unread: {message}")),
                }
            }
        }
    };
}

build_of_the_original!(
    /// The original, unchanged.
    Original,
    original
);
build_of_the_original!(
    /// The original without its assert at action 0.
    Answering,
    original_answering
);

/// Writes what the original says as document 01 lays it out: a row of words by region, the verdicts, the grown marks.
fn write(regions: &[Vec<bool>], verdicts: &[u8], grown: &[bool], words: &mut [u32], bytes: &mut [u8]) -> Outcome {
    let new_words: Vec<u32> = regions.iter().flat_map(|set| set.chunks(32).map(word)).collect();
    let new_bytes: Vec<u8> = verdicts.iter().copied().chain(grown.iter().map(|&g| u8::from(g))).collect();
    if words.len() < new_words.len() || bytes.len() < new_bytes.len() {
        return Outcome::Number(10);
    }
    words[..new_words.len()].copy_from_slice(&new_words);
    bytes[..new_bytes.len()].copy_from_slice(&new_bytes);
    Outcome::Number(0)
}

/// Up to 32 points, the first in the lowest bit.
fn word(points: &[bool]) -> u32 {
    points.iter().rev().fold(0, |word, &held| word << 1 | u32::from(held))
}

/// The proved call, from the static library `nll`.
#[cfg(feature = "proved")]
pub struct Proved;

#[cfg(feature = "proved")]
impl Engine for Proved {
    fn call(&mut self, record: &[u8], words: &mut [u32], bytes: &mut [u8]) -> Outcome {
        Outcome::Number(nll::call(record, words, bytes))
    }
}
