//! The proved judge, called as a C function.

unsafe extern "C" {
    fn bankcheck_judge(
        stream: *const u8,
        stream_len: usize,
        out: *mut u8,
        out_len: usize,
        length: *mut usize,
    ) -> bool;
}

/// Writes the lines for the stream into `out`, and answers how many bytes they have. None means that
/// there was no memory, or no room for them.
pub fn judge_stream(stream: &[u8], out: &mut [u8]) -> Option<usize> {
    let mut length = 0;
    // The function asks nothing of its arguments beyond their types: two slices, each a pointer and a
    // length, and a number, none of which overlaps another.
    let judged = unsafe {
        bankcheck_judge(stream.as_ptr(), stream.len(), out.as_mut_ptr(), out.len(), &mut length)
    };
    (judged && length <= out.len()).then_some(length)
}
