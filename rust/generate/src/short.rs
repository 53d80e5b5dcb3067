//! All short strings.

use model::encode::with_length;

/// All strings of up to two bytes, and all of three that begin with version 1.
pub fn strings() -> impl Iterator<Item = Vec<u8>> {
    let empty = std::iter::once(vec![]);
    let one = (0..=255u8).map(|a| vec![a]);
    let two = (0..=255u8).flat_map(|a| (0..=255u8).map(move |b| vec![a, b]));
    let three = (0..=255u8).flat_map(|a| (0..=255u8).map(move |b| vec![1, a, b]));
    empty.chain(one).chain(two).chain(three)
}

/// All records with the right length whose body has at most `most` bytes, each below `values`.
pub fn bodies(most: usize, values: u8) -> impl Iterator<Item = Vec<u8>> {
    (0..=most).flat_map(move |length| {
        let count = u64::from(values).pow(length as u32);
        (0..count).map(move |number| with_length(&digits(number, values, length)).expect("a short body"))
    })
}

/// A number's digits, the highest first.
fn digits(mut number: u64, base: u8, length: usize) -> Vec<u8> {
    let mut found = vec![0; length];
    for digit in found.iter_mut().rev() {
        *digit = (number % u64::from(base)) as u8;
        number /= u64::from(base);
    }
    found
}
