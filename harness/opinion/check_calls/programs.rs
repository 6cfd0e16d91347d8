//! Programs and data from a seed.
use super::chance::draw;
use crate::whole::Fields;
use crate::words;

fn encoded(operation: u32, rd: u32, rs1: u32, rs2: u32, constant: u32) -> u32 {
    let both = words::encode(operation, rd, rs1, rs2, constant as i32);
    if both >> 32 == 0 {
        both as u32
    } else {
        0
    }
}

/// Mostly one of the first eight.
fn register(x: u32) -> u32 {
    if x % 8 < 6 {
        x / 8 % 8
    } else {
        x / 8 % 32
    }
}

fn computing(s: u32, kind: u32) -> u32 {
    let rd = register(draw(s, 2));
    let rs1 = register(draw(s, 3));
    let x = draw(s, 4);
    match kind {
        0..=17 => encoded(19 + x % 6, rd, rs1, 0, (x / 64 % 64).wrapping_sub(16)),
        18 | 19 => encoded(40, rd, rs1, 0, (x / 64 % 4096).wrapping_sub(2048)),
        20..=30 => encoded(28 + x % 10, rd, rs1, register(x / 16), 0),
        31..=34 => encoded(25 + x % 3, rd, rs1, 0, x / 64 % 32),
        _ => encoded(1 + x % 2, rd, 0, 0, x / 64 % 4096),
    }
}

/// Mostly x0.
fn base(x: u32) -> u32 {
    if x % 4 < 3 {
        0
    } else {
        register(x / 4)
    }
}

/// Mostly a multiple of 4 in the data.
fn offset(x: u32) -> u32 {
    if x % 8 < 7 {
        x / 8 % 11 * 4
    } else {
        x / 8 % 80
    }
}

fn memory(s: u32, kind: u32) -> u32 {
    let base = base(draw(s, 2));
    let other = register(draw(s, 3));
    let x = draw(s, 4);
    let at = offset(draw(s, 5));
    match kind {
        0..=42 => encoded(11 + x % 5, other, base, 0, at),
        _ => encoded(16 + x % 3, 0, base, other, at),
    }
}

/// Now and then no multiple of 4.
fn slip(x: u32) -> u32 {
    if x % 12 == 0 {
        2
    } else {
        0
    }
}

fn jumping(s: u32, kind: u32) -> u32 {
    let one = register(draw(s, 2));
    let other = register(draw(s, 3));
    let x = draw(s, 4);
    let slip = slip(draw(s, 5));
    let away = (x / 8 % 16 * 4).wrapping_add(slip).wrapping_sub(20);
    let to = (x / 8 % 24 * 4 + x / 1024 % 2).wrapping_add(slip);
    match kind {
        0..=56 => encoded(5 + x / 128 % 6, 0, one, other, away),
        57 | 58 => encoded(3, one, 0, 0, away),
        _ => encoded(4, one, base(draw(s, 6)), 0, to),
    }
}

/// ECALL, EBREAK, or one of three illegal words.
fn ending(s: u32, kind: u32) -> u32 {
    match (kind, draw(s, 2) % 3) {
        (61, _) => encoded(38, 0, 0, 0, 0),
        (62, _) => encoded(39, 0, 0, 0, 0),
        (_, 0) => 0,
        (_, 1) => 0xffff_ffff,
        _ => 0x0210_9093,
    }
}

fn instruction(seed: u32, k: u32) -> u32 {
    let s = draw(seed, k);
    let kind = draw(s, 1) % 64;
    match kind {
        0..=36 => computing(s, kind),
        37..=48 => memory(s, kind),
        49..=60 => jumping(s, kind),
        _ => ending(s, kind),
    }
}

/// The instruction of a seed; one of none where its word is illegal.
pub fn read(seed: u32) -> Fields {
    fields(instruction(seed, 0))
}

/// A load or a store of a seed.
pub fn read_memory(seed: u32) -> Fields {
    let kind = 37 + draw(seed, 0) % 12;
    fields(memory(draw(seed, 1), kind))
}

fn fields(word: u32) -> Fields {
    match words::fetch(&word.to_le_bytes(), 0) {
        Err(words::ECALL) => stop(38),
        Err(words::EBREAK) => stop(39),
        Err(_) => Fields::default(),
        Ok(i) => Fields {
            operation: i.operation as u8,
            rd: i.rd,
            rs1: i.rs1,
            rs2: i.rs2,
            constant: i.constant,
        },
    }
}

fn stop(operation: u8) -> Fields {
    Fields {
        operation,
        ..Fields::default()
    }
}

/// Each four bytes become a word's, the lowest first.
fn filled(length: usize, word: impl Fn(u32) -> u32) -> Vec<u8> {
    (0..length)
        .map(|at| word((at / 4 % 4096) as u32).to_le_bytes()[at % 4])
        .collect()
}

pub fn program(length: usize, seed: u32) -> Vec<u8> {
    filled(length, |k| instruction(seed, k))
}

pub fn data(length: usize, seed: u32) -> Vec<u8> {
    filled(length, |k| draw(seed, k) << 8)
}
