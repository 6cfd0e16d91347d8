//! The speed of the in-order run beside a plain Rust interpreter and, where it is installed, QEMU with one instruction
//! a block. Started by the script `benchmark`; docs/SPEED.md says what the figures mean.
mod figures;
mod interpreter;
mod markdown;
mod qemu;
mod timing;

use figures::{at_four_places, nanoseconds, Best, BEST_OF};
use markdown::Table;
use std::fs;
use std::os::unix::fs::PermissionsExt;
use std::path::{Path, PathBuf};
use std::time::Duration;
use timing::COPIES;

/// Calls of the run, of 65,535 steps each: about two million steps in a sample, and enough for a whole loop.
const SAMPLE: u32 = 31;
const WHOLE: u32 = 1_000;
const DATA: usize = 16_384;
const WORDS: usize = 4_096;

/// The plain interpreter over as many calls, in the form of a copy's `run`.
fn plain_run(program: &[u8], data: &mut [u8], calls: u32) -> timing::Timed {
    let (mut registers, mut address) = ([0; 32], 0);
    let mut all = timing::Timed {
        steps: 0,
        cause: 0,
        refusal: 0,
    };
    for _ in 0..calls {
        let ran = interpreter::run(program, data, registers, address, u16::MAX);
        (registers, address) = (ran.registers, ran.address);
        all.steps += ran.steps as u64;
        all.cause = ran.cause as u32;
        all.refusal = ran.refusal as u32;
        if ran.cause != 0 || ran.refusal != 0 {
            break;
        }
    }
    all
}

/// The words that a run reads, after its first thousand steps.
fn words_read(program: &[u8], data: &[u8]) -> Vec<u32> {
    let mut data = data.to_vec();
    let mut ran = interpreter::run(program, &mut data, [0; 32], 0, 1_000);
    let mut words = Vec::with_capacity(WORDS);
    while words.len() < WORDS {
        words.push(interpreter::fetch(program, ran.address).expect("the loop goes on"));
        ran = interpreter::run(program, &mut data, ran.registers, ran.address, 1);
    }
    words
}

/// The whole loop on both: its steps and the data that it leaves, on which they have to agree.
fn compared(name: &str, program: &[u8], data: &[u8]) -> (u64, Vec<u8>) {
    let (mut left, mut plain_left) = (data.to_vec(), data.to_vec());
    let r = COPIES[0].run(program, &mut left, WHOLE);
    let p = plain_run(program, &mut plain_left, WHOLE);
    assert_eq!(
        (r.steps, r.cause, r.refusal),
        (p.steps, p.cause, p.refusal),
        "{name}: steps, cause, refusal"
    );
    assert!(left == plain_left, "{name}: the data differ");
    assert_eq!(r.cause, 2, "{name}: the loop ends with ECALL");
    (r.steps, left)
}

struct Times {
    reference: f64,
    read: f64,
    plain: f64,
}

fn times(program: &[u8], data: &[u8]) -> Times {
    let words = words_read(program, data);
    let rounds = (SAMPLE * 65_535 / WORDS as u32) as u16;
    let (mut reference, mut read, mut plain) = (Best::new(), Best::new(), Best::new());
    at_four_places(&mut || {
        let mut d = data.to_vec();
        for code in COPIES {
            d.copy_from_slice(data);
            reference.sample(|| code.run(program, &mut d, SAMPLE).steps);
            read.sample_parts(rounds as u64 * WORDS as u64, || code.read(&words, rounds));
        }
        d.copy_from_slice(data);
        plain.sample(|| plain_run(program, &mut d, SAMPLE).steps);
    });
    Times {
        reference: reference.0,
        read: read.0,
        plain: plain.0,
    }
}

struct Qemu {
    option: &'static str,
    /// a program that exits at once
    exit: PathBuf,
}

/// QEMU's time for the whole loop without its start, in nanoseconds a step; it has to leave the same data.
fn emulated(name: &str, q: &Qemu, file: &Path, steps: u64, left: &[u8]) -> f64 {
    let (mut start, mut whole) = (Duration::MAX, Duration::MAX);
    for _ in 0..BEST_OF {
        start = start.min(qemu::run(q.option, &q.exit).expect("QEMU runs").0);
        let (took, output) = qemu::run(q.option, file).expect("QEMU runs");
        assert!(output.stdout == left, "{name}: QEMU leaves other data");
        whole = whole.min(took);
    }
    nanoseconds(whole.saturating_sub(start), steps)
}

/// Prints the rows of a loop; the last is QEMU's, with the option that it was given.
fn print(title: &str, times: &Times, qemu: Option<(&str, f64)>) {
    let Times {
        reference,
        read,
        plain,
    } = *times;
    let table = Table([31, 8, 12, 12]);
    let row = |what: &str, ns: f64| {
        table.line([
            what,
            &format!("{:.1}", 1e3 / ns),
            &format!("{ns:.2}"),
            &format!("{:.2}", ns / plain),
        ])
    };
    table.head(title, ["", "Msteps/s", "ns/step", "ratio"]);
    row("in-order run", reference);
    row("reading a word alone", read);
    row("plain Rust interpreter", plain);
    if let Some((option, ns)) = qemu {
        row(&format!("qemu-riscv32 {option}"), ns);
    }
}

fn measure(name: &str, program: &[u8], data: &[u8], room: &Path, qemu: Option<&Qemu>) {
    let (steps, left) = compared(name, program, data);
    let times = times(program, data);
    let file = room.join(name).with_extension("elf");
    write_program(&file, &qemu::elf(program, data));
    let qemu = qemu.map(|q| (q.option, emulated(name, q, &file, steps, &left)));
    let too = match qemu {
        Some(_) => "; QEMU's data too",
        None => "",
    };
    let title =
        format!("The {name} loop, {steps} steps to its ECALL. Steps, cause and data agree{too}.");
    print(&title, &times, qemu);
}

fn write_program(path: &Path, bytes: &[u8]) {
    fs::write(path, bytes).expect("the folder can be written");
    fs::set_permissions(path, fs::Permissions::from_mode(0o755)).expect("the mode can be set");
}

fn program(hex: &str) -> Vec<u8> {
    hex.lines()
        .flat_map(|line| {
            u32::from_str_radix(line, 16)
                .expect("a word a line")
                .to_le_bytes()
        })
        .collect()
}

fn main() {
    let room = PathBuf::from(std::env::args().nth(1).expect("usage: benchmark FOLDER"));
    let exit = room.join("exit.elf");
    let code: Vec<u8> = qemu::EXIT
        .iter()
        .flat_map(|word| word.to_le_bytes())
        .collect();
    write_program(&exit, &qemu::elf(&code, &[0; DATA]));
    let qemu = qemu::option(&exit).map(|option| Qemu { option, exit });
    if qemu.is_none() {
        println!("qemu-riscv32 is left out: not installed, or without an option for one instruction a block.");
    }
    // the memory loop starts from bytes of every kind
    let mixed: Vec<u8> = (0..DATA).map(|k| (k * 181 + (k >> 8) * 59) as u8).collect();
    measure(
        "compute",
        &program(include_str!("compute.hex")),
        &[0; DATA],
        &room,
        qemu.as_ref(),
    );
    measure(
        "memory",
        &program(include_str!("memory.hex")),
        &mixed,
        &room,
        qemu.as_ref(),
    );
}
