//! The call, as the static library exports it (include/nll.h).

extern "C" {
    fn nll_analyse(
        record: *const u8,
        record_len: usize,
        words: *mut u32,
        words_len: usize,
        bytes: *mut u8,
        bytes_len: usize,
    ) -> u8;
}

/// The call itself: 0, or a refusal's number.
#[allow(unsafe_code)]
#[inline]
pub fn call(record: &[u8], words: &mut [u32], bytes: &mut [u8]) -> u8 {
    // SAFETY: the call asks that each pointer is valid for its length and aligned, and that what is written overlaps nothing
    // else. Slices are, and `&mut` keeps the three apart. The call keeps no pointer and asks nothing of what the slices hold.
    unsafe { nll_analyse(record.as_ptr(), record.len(), words.as_mut_ptr(), words.len(), bytes.as_mut_ptr(), bytes.len()) }
}
