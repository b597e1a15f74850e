//! The C interface of Malluvom, as `include/cxl0.h` declares it. Nothing checks these declarations against the proved
//! source, so they are six functions on numbers and buffers; `malluvom` is the safe form.
#![no_std]

/// A verdict file has at most so many bytes, which the output must have after the offset.
pub const FILE_MOST: usize = 1544;
/// The scratch must have at least so many numbers.
pub const SCRATCH_LEAST: usize = 4096;
/// An accepted log has at most so many bytes, in edition 2; in edition 1 at most 1,512.
pub const LOG_MOST: usize = 2088;
/// The output of a conversion must have at least so many bytes.
pub const CONVERT_LEAST: usize = 4096;

extern "C" {
    /// Puts one field after the used bytes of a buffer. Bits 0 to 7: refusal; 8 to 39: the new count.
    pub fn cxl0_record(
        buf: *mut u8,
        buf_len: usize,
        used: usize,
        tag: u8,
        payload: *const u8,
        payload_len: usize,
    ) -> u64;

    /// Reads a log to its end. Bits 0 to 7: refusal; 8 to 15: machines; 16 to 23: locations; 24 to 31: events.
    pub fn cxl0_read(log: *const u8, log_len: usize) -> u64;

    /// Writes a log in the other edition from the output's first byte on. Bits 0 to 7: refusal; 8 to 31: length.
    pub fn cxl0_convert(log: *const u8, log_len: usize, out: *mut u8, out_len: usize) -> u64;

    /// Follows a log with a schedule. Bits 0 to 7: refusal; 8: yes; 16 to 23: events passed.
    pub fn cxl0_replay(log: *const u8, log_len: usize, schedule: *const u8, schedule_len: usize) -> u64;

    /// Judges a log. Bits 0 to 7: refusal; 8: allowed; 16 to 23: event; 24 to 39: steps; 40 to 55: length.
    pub fn cxl0_judge(
        log: *const u8,
        log_len: usize,
        out: *mut u8,
        out_len: usize,
        offset: usize,
        scratch: *mut u64,
        scratch_len: usize,
    ) -> u64;

    /// Says which change requests are in the library. Bits 0 to 7: 0; 8: W-201; 9: W-202 and so on.
    pub fn cxl0_version() -> u64;
}
