//! The proved library, as a C host calls it, for tests and benchmarks beside the Rust detectors and the Rust writer.

extern "C" {
    fn geckoneedle_detect(record: *const u8, record_len: usize, reply: *mut u8, reply_len: usize) -> i64;
    fn geckoneedle_write(opening: u32, numbers: *const i32, count: usize, record: *mut u8, record_len: usize) -> i64;
    fn geckoneedle_read(record: *const u8, record_len: usize, numbers: *mut i32, count: usize) -> i64;
}

/// The reply's length, or minus the refusal number.
pub fn detect(record: &[u8], reply: &mut [u8]) -> i64 {
    // SAFETY: two slices are what include/geckoneedle.h asks for: readable and writable for their lengths, never null, apart from
    // each other, and nobody else writes to them meanwhile.
    unsafe { geckoneedle_detect(record.as_ptr(), record.len(), reply.as_mut_ptr(), reply.len()) }
}

/// How many bytes of the record of this opening were written, or minus the refusal number.
pub fn write(opening: u32, numbers: &[i32], record: &mut [u8]) -> i64 {
    // SAFETY: as for `detect`; the numbers' length is counted in numbers, and a slice's numbers are aligned.
    unsafe { geckoneedle_write(opening, numbers.as_ptr(), numbers.len(), record.as_mut_ptr(), record.len()) }
}

/// How many numbers of the record were written, or minus the refusal number.
pub fn read(record: &[u8], numbers: &mut [i32]) -> i64 {
    // SAFETY: as for `write`.
    unsafe { geckoneedle_read(record.as_ptr(), record.len(), numbers.as_mut_ptr(), numbers.len()) }
}
