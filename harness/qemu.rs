//! The same loops in QEMU's user mode, as a small ELF file: the program behind one LUI that puts the data's address
//! into s0, and the data.
use std::path::Path;
use std::process::{Command, Output};
use std::time::{Duration, Instant};

const PROGRAM_AT: u32 = 0x10000;
const DATA_AT: u32 = 0x20000;
const LUI_S0_DATA: u32 = DATA_AT | 8 << 7 | 0x37;
/// ADDI a7, x0, 93 and ECALL: an exit at once.
pub const EXIT: [u32; 2] = [0x05d0_0893, 0x0000_0073];

/// One instruction a block: the option's name up to QEMU 8.0, and since.
const OPTIONS: [&str; 2] = ["-singlestep", "-one-insn-per-tb"];

fn halves(words: &[u16]) -> Vec<u8> {
    words.iter().flat_map(|h| h.to_le_bytes()).collect()
}

fn wide(words: &[u32]) -> Vec<u8> {
    words.iter().flat_map(|w| w.to_le_bytes()).collect()
}

pub fn elf(program: &[u8], data: &[u8]) -> Vec<u8> {
    const READ: u32 = 4;
    const WRITE: u32 = 2;
    const EXECUTE: u32 = 1;
    let head = 52 + 2 * 32;
    let code: Vec<u8> = [&LUI_S0_DATA.to_le_bytes(), program].concat();
    // a segment's place in the file is congruent to its address by the page
    let (code_at, data_at) = (
        0x1000,
        0x1000 + (code.len() as u32).next_multiple_of(0x1000),
    );
    let mut file = vec![0x7f, b'E', b'L', b'F', 1, 1, 1, 0, 0, 0, 0, 0, 0, 0, 0, 0];
    file.extend(halves(&[2, 243])); // an executable, RISC-V
    file.extend(wide(&[1, PROGRAM_AT, 52, 0, 0]));
    file.extend(halves(&[52, 32, 2, 40, 0, 0]));
    let segment = |at: u32, address: u32, bytes: usize, flags: u32| {
        wide(&[
            1,
            at,
            address,
            address,
            bytes as u32,
            bytes as u32,
            flags,
            0x1000,
        ])
    };
    file.extend(segment(code_at, PROGRAM_AT, code.len(), READ | EXECUTE));
    file.extend(segment(data_at, DATA_AT, data.len(), READ | WRITE));
    assert_eq!(file.len(), head);
    file.resize(code_at as usize, 0);
    file.extend(code);
    file.resize(data_at as usize, 0);
    file.extend(data);
    file
}

/// QEMU's run of a file, and how long it took with its start.
pub fn run(option: &str, file: &Path) -> Option<(Duration, Output)> {
    let began = Instant::now();
    let output = Command::new("qemu-riscv32")
        .arg(option)
        .arg(file)
        .output()
        .ok()?;
    let took = began.elapsed();
    output.status.success().then_some((took, output))
}

/// The option that this QEMU knows; none where it is not installed.
pub fn option(exit: &Path) -> Option<&'static str> {
    OPTIONS
        .into_iter()
        .find(|option| run(option, exit).is_some())
}
