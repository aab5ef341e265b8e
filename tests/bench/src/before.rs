//! The proved library before, if there was one when this was built.

use crate::converter::Convert;

#[cfg(before)]
pub const BEFORE: Option<Convert> = Some(convert);
#[cfg(not(before))]
pub const BEFORE: Option<Convert> = None;

#[cfg(before)]
extern "C" {
    fn milursake_convert_before(
        file: *const u8,
        file_len: usize,
        mode: u64,
        out: *mut u8,
        out_len: usize,
        answer: *mut u64,
        answer_len: usize,
    ) -> u64;
}

#[cfg(before)]
fn convert(file: &[u8], out: &mut [u8]) -> [u64; 8] {
    let mut answer = [0; 8];
    // SAFETY: each pointer comes with the length of its own slice, the slices
    // live through the call, and the two that are written to are lent to
    // nobody else.
    unsafe {
        milursake_convert_before(
            file.as_ptr(),
            file.len(),
            crate::converter::MODE,
            out.as_mut_ptr(),
            out.len(),
            answer.as_mut_ptr(),
            answer.len(),
        );
    }
    answer
}
