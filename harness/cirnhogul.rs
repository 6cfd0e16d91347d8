//! Replay as the crate `cirnhogul` exports it to C.

extern "C" {
    fn cirnhogul_replay(
        program: *const u8,
        program_length: usize,
        data: *mut u8,
        data_length: usize,
        schedule: *const u8,
        schedule_length: usize,
        result: *mut u8,
        result_length: usize,
    ) -> u32;
}

pub fn replay(program: &[u8], data: &mut [u8], schedule: &[u8], result: &mut [u8]) -> u32 {
    // SAFETY: replay requires nothing but that a slice is one; an empty slice's pointer is not null.
    unsafe {
        cirnhogul_replay(
            program.as_ptr(),
            program.len(),
            data.as_mut_ptr(),
            data.len(),
            schedule.as_ptr(),
            schedule.len(),
            result.as_mut_ptr(),
            result.len(),
        )
    }
}
