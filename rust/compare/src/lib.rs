//! Runs two engines on the same records and lent buffers and compares all that they leave.

pub mod engine;
pub mod lent;
pub mod recorded;
pub mod shrink;
pub mod speed;
pub mod tally;
pub mod trial;

/// A record in hexadecimal.
pub fn hex(record: &[u8]) -> String {
    record.iter().map(|byte| format!("{byte:02x}")).collect()
}

/// The bytes of a text in hexadecimal; none if it is not.
pub fn bytes_of(text: &str) -> Option<Vec<u8>> {
    let digits: Vec<u32> = text.chars().filter(|c| !c.is_whitespace()).map(|c| c.to_digit(16)).collect::<Option<_>>()?;
    (digits.len() % 2 == 0).then(|| digits.chunks(2).map(|pair| (pair[0] * 16 + pair[1]) as u8).collect())
}
