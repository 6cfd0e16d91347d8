//! What the crate `timing` exports to C, in four copies of its code at four places, which the script `benchmark` makes.

/// What many calls of the run come to.
#[repr(C)]
pub struct Timed {
    pub steps: u64,
    pub cause: u32,
    pub refusal: u32,
}

/// One copy.
pub struct Code {
    run: unsafe extern "C" fn(*const u8, usize, *mut u8, usize, u32) -> Timed,
    read: unsafe extern "C" fn(*const u32, usize, u16) -> u64,
}

macro_rules! copies {
    ($($run:ident $read:ident)*) => {
        extern "C" {
            $(
                fn $run(program: *const u8, bytes: usize, data: *mut u8, length: usize, calls: u32) -> Timed;
                fn $read(words: *const u32, count: usize, rounds: u16) -> u64;
            )*
        }

        pub const COPIES: &[Code] = &[$(Code { run: $run, read: $read }),*];
    };
}

copies! {
    timing_run_at_16 timing_read_at_16
    timing_run_at_32 timing_read_at_32
    timing_run_at_48 timing_read_at_48
    timing_run_at_64 timing_read_at_64
}

impl Code {
    pub fn run(&self, program: &[u8], data: &mut [u8], calls: u32) -> Timed {
        // SAFETY: the function requires nothing but that a slice is one.
        unsafe {
            (self.run)(
                program.as_ptr(),
                program.len(),
                data.as_mut_ptr(),
                data.len(),
                calls,
            )
        }
    }

    pub fn read(&self, words: &[u32], rounds: u16) -> u64 {
        // SAFETY: as above.
        unsafe { (self.read)(words.as_ptr(), words.len(), rounds) }
    }
}
