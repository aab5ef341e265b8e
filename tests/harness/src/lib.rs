//! The proved converter, the proved explainer and the proved check behind safe
//! functions.

extern "C" {
    fn milursake_convert(
        file: *const u8,
        file_len: usize,
        mode: u64,
        out: *mut u8,
        out_len: usize,
        answer: *mut u64,
        answer_len: usize,
    ) -> u64;

    fn milursake_explain(
        file: *const u8,
        file_len: usize,
        mode: u64,
        room: u64,
        reason: *mut u64,
        reason_len: usize,
    ) -> u64;

    fn milursake_check_open(store: *mut u8, store_len: usize, mode: u64, room: u64);

    fn milursake_check_feed(store: *mut u8, store_len: usize, lump: *const u8, lump_len: usize);

    fn milursake_check_close(store: *mut u8, store_len: usize, answer: *mut u64, answer_len: usize) -> u64;
}

/// The length of a check's store, from the header.
pub const CHECK_STORE: usize = match usize::from_str_radix(env!("MILURSAKE_CHECK_STORE"), 10) {
    Ok(length) => length,
    Err(_) => panic!("the build script tells a number"),
};

/// Converts the file to a document in `out`. Gives the number of the refusal,
/// or 0; `answer` receives as many of the eight numbers as it has room for.
pub fn convert(file: &[u8], mode: u64, out: &mut [u8], answer: &mut [u64]) -> u64 {
    // SAFETY: each pointer comes with the length of its own slice, the slices
    // live through the call, and the two that are written to are lent to
    // nobody else.
    unsafe {
        milursake_convert(
            file.as_ptr(),
            file.len(),
            mode,
            out.as_mut_ptr(),
            out.len(),
            answer.as_mut_ptr(),
            answer.len(),
        )
    }
}

/// Names the byte for which the file is refused with a buffer of `room` bytes.
/// Gives the number of the refusal, or 0; `reason` receives as many of the five
/// numbers as it has room for.
pub fn explain(file: &[u8], mode: u64, room: u64, reason: &mut [u64]) -> u64 {
    // SAFETY: each pointer comes with the length of its own slice, the slices
    // live through the call, and the one that is written to is lent to nobody
    // else.
    unsafe { milursake_explain(file.as_ptr(), file.len(), mode, room, reason.as_mut_ptr(), reason.len()) }
}

/// Starts a check anew, whatever stands in the store.
pub fn check_open(store: &mut [u8], mode: u64, room: u64) {
    // SAFETY: the pointer comes with the length of its own slice, which lives
    // through the call and is lent to nobody else.
    unsafe { milursake_check_open(store.as_mut_ptr(), store.len(), mode, room) }
}

/// Feeds the next bytes of the file to the check.
pub fn check_feed(store: &mut [u8], lump: &[u8]) {
    // SAFETY: each pointer comes with the length of its own slice, the slices
    // live through the call, and the one that is written to is lent to nobody
    // else.
    unsafe { milursake_check_feed(store.as_mut_ptr(), store.len(), lump.as_ptr(), lump.len()) }
}

/// Closes the check. Gives the number of the refusal, or 0; `answer` receives as
/// many of the eight numbers as it has room for.
pub fn check_close(store: &mut [u8], answer: &mut [u64]) -> u64 {
    // SAFETY: each pointer comes with the length of its own slice, the slices
    // live through the call and are lent to nobody else.
    unsafe { milursake_check_close(store.as_mut_ptr(), store.len(), answer.as_mut_ptr(), answer.len()) }
}
