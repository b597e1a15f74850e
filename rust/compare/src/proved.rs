//! The proved library's five calls on slices, with their packed answers.

/// `cxl0_record`.
pub fn record(buffer: &mut [u8], used: usize, tag: u8, payload: &[u8]) -> u64 {
    // The library asks nothing but that the slices are there.
    unsafe { malluvom_sys::cxl0_record(buffer.as_mut_ptr(), buffer.len(), used, tag, payload.as_ptr(), payload.len()) }
}

/// `cxl0_read`.
pub fn read(log: &[u8]) -> u64 {
    unsafe { malluvom_sys::cxl0_read(log.as_ptr(), log.len()) }
}

/// `cxl0_replay`.
pub fn replay(log: &[u8], schedule: &[u8]) -> u64 {
    unsafe { malluvom_sys::cxl0_replay(log.as_ptr(), log.len(), schedule.as_ptr(), schedule.len()) }
}

/// `cxl0_judge`.
pub fn judge(log: &[u8], out: &mut [u8], offset: usize, scratch: &mut [u64]) -> u64 {
    let (area, numbers) = (out.as_mut_ptr(), scratch.as_mut_ptr());
    unsafe { malluvom_sys::cxl0_judge(log.as_ptr(), log.len(), area, out.len(), offset, numbers, scratch.len()) }
}

/// `cxl0_convert`.
pub fn convert(log: &[u8], out: &mut [u8]) -> u64 {
    unsafe { malluvom_sys::cxl0_convert(log.as_ptr(), log.len(), out.as_mut_ptr(), out.len()) }
}
