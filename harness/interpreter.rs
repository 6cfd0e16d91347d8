//! A plain interpreter of the same 40 instructions, written for the benchmark alone: it reads the word and does what
//! it says, with no table, no cache of read words and no unsafe code. Lengths, causes and refusals are document 01's.
#![forbid(unsafe_code)]

pub struct Ran {
    pub registers: [u32; 32],
    pub address: u32,
    pub steps: u16,
    pub cause: u8,
    pub refusal: u8,
}

const ILLEGAL: u8 = 1;
const ECALL: u8 = 2;
const EBREAK: u8 = 3;
const FETCH: u8 = 4;
const TARGET: u8 = 5;
const LOAD: u8 = 6;
const STORE: u8 = 7;

/// The word at an address of the program.
pub fn fetch(program: &[u8], address: u32) -> Result<u32, u8> {
    load(program, address).map(u32::from_le_bytes).ok_or(FETCH)
}

/// Aligned bytes of the memory.
fn load<const SIZE: usize>(memory: &[u8], address: u32) -> Option<[u8; SIZE]> {
    let at = address as usize;
    if at % SIZE != 0 {
        return None;
    }
    memory.get(at..at + SIZE)?.try_into().ok()
}

fn store<const SIZE: usize>(memory: &mut [u8], address: u32, bytes: [u8; SIZE]) -> Result<(), u8> {
    let at = address as usize;
    if at % SIZE != 0 {
        return Err(STORE);
    }
    memory
        .get_mut(at..at + SIZE)
        .ok_or(STORE)?
        .copy_from_slice(&bytes);
    Ok(())
}

fn target(address: u32) -> Result<u32, u8> {
    if address % 4 == 0 {
        Ok(address)
    } else {
        Err(TARGET)
    }
}

fn constant_i(word: u32) -> u32 {
    ((word as i32) >> 20) as u32
}

fn constant_s(word: u32) -> u32 {
    ((word as i32) >> 25 << 5) as u32 | word >> 7 & 0x1f
}

fn constant_b(word: u32) -> u32 {
    ((word as i32) >> 31 << 12) as u32
        | (word >> 7 & 1) << 11
        | (word >> 25 & 0x3f) << 5
        | (word >> 8 & 0xf) << 1
}

fn constant_j(word: u32) -> u32 {
    ((word as i32) >> 31 << 20) as u32
        | (word >> 12 & 0xff) << 12
        | (word >> 20 & 1) << 11
        | (word >> 21 & 0x3ff) << 1
}

/// One instruction; the next address, or a cause. A stopped instruction changes nothing.
fn step(program: &[u8], data: &mut [u8], x: &mut [u32; 32], address: u32) -> Result<u32, u8> {
    let word = fetch(program, address)?;
    let rd = (word >> 7 & 31) as usize;
    let rs1 = x[(word >> 15 & 31) as usize];
    let rs2 = x[(word >> 20 & 31) as usize];
    let funct3 = word >> 12 & 7;
    let funct7 = word >> 25;
    let next = address.wrapping_add(4);
    let result = match word & 0x7f {
        0x37 => word & 0xffff_f000,
        0x17 => address.wrapping_add(word & 0xffff_f000),
        0x6f => {
            let to = target(address.wrapping_add(constant_j(word)))?;
            if rd != 0 {
                x[rd] = next;
            }
            return Ok(to);
        }
        0x67 if funct3 == 0 => {
            let to = target(rs1.wrapping_add(constant_i(word)) & !1)?;
            if rd != 0 {
                x[rd] = next;
            }
            return Ok(to);
        }
        0x63 => {
            let taken = match funct3 {
                0 => rs1 == rs2,
                1 => rs1 != rs2,
                4 => (rs1 as i32) < (rs2 as i32),
                5 => (rs1 as i32) >= (rs2 as i32),
                6 => rs1 < rs2,
                7 => rs1 >= rs2,
                _ => return Err(ILLEGAL),
            };
            return if taken {
                target(address.wrapping_add(constant_b(word)))
            } else {
                Ok(next)
            };
        }
        0x03 => {
            let at = rs1.wrapping_add(constant_i(word));
            match funct3 {
                0 => i8::from_le_bytes(load(data, at).ok_or(LOAD)?) as u32,
                1 => i16::from_le_bytes(load(data, at).ok_or(LOAD)?) as u32,
                2 => u32::from_le_bytes(load(data, at).ok_or(LOAD)?),
                4 => u8::from_le_bytes(load(data, at).ok_or(LOAD)?) as u32,
                5 => u16::from_le_bytes(load(data, at).ok_or(LOAD)?) as u32,
                _ => return Err(ILLEGAL),
            }
        }
        0x23 => {
            let at = rs1.wrapping_add(constant_s(word));
            match funct3 {
                0 => store(data, at, (rs2 as u8).to_le_bytes())?,
                1 => store(data, at, (rs2 as u16).to_le_bytes())?,
                2 => store(data, at, rs2.to_le_bytes())?,
                _ => return Err(ILLEGAL),
            }
            return Ok(next);
        }
        0x13 => {
            let c = constant_i(word);
            match (funct3, funct7) {
                (0, _) => rs1.wrapping_add(c),
                (1, 0) => rs1 << (c & 31),
                (2, _) => ((rs1 as i32) < (c as i32)) as u32,
                (3, _) => (rs1 < c) as u32,
                (4, _) => rs1 ^ c,
                (5, 0) => rs1 >> (c & 31),
                (5, 0x20) => ((rs1 as i32) >> (c & 31)) as u32,
                (6, _) => rs1 | c,
                (7, _) => rs1 & c,
                _ => return Err(ILLEGAL),
            }
        }
        0x33 => match (funct3, funct7) {
            (0, 0) => rs1.wrapping_add(rs2),
            (0, 0x20) => rs1.wrapping_sub(rs2),
            (1, 0) => rs1 << (rs2 & 31),
            (2, 0) => ((rs1 as i32) < (rs2 as i32)) as u32,
            (3, 0) => (rs1 < rs2) as u32,
            (4, 0) => rs1 ^ rs2,
            (5, 0) => rs1 >> (rs2 & 31),
            (5, 0x20) => ((rs1 as i32) >> (rs2 & 31)) as u32,
            (6, 0) => rs1 | rs2,
            (7, 0) => rs1 & rs2,
            _ => return Err(ILLEGAL),
        },
        0x73 if word == 0x0000_0073 => return Err(ECALL),
        0x73 if word == 0x0010_0073 => return Err(EBREAK),
        // FENCE has no effect on one hart: the register that its field names gets what it has. An arm that returns takes a fifth more
        // time in all others.
        0x0f if funct3 == 0 => x[rd],
        _ => return Err(ILLEGAL),
    };
    if rd != 0 {
        x[rd] = result;
    }
    Ok(next)
}

/// Up to n steps, fewer at a stop.
pub fn run(program: &[u8], data: &mut [u8], registers: [u32; 32], address: u32, n: u16) -> Ran {
    let mut ran = Ran {
        registers,
        address,
        steps: 0,
        cause: 0,
        refusal: 0,
    };
    if program.len() < 4 || program.len() > 16_384 || program.len() % 4 != 0 {
        ran.refusal = 3;
        return ran;
    }
    if data.len() > 16_384 {
        ran.refusal = 4;
        return ran;
    }
    // element 0 counts as 0 and comes back as given
    ran.registers[0] = 0;
    while ran.steps < n {
        match step(program, data, &mut ran.registers, ran.address) {
            Ok(next) => ran.address = next,
            Err(cause) => {
                ran.cause = cause;
                break;
            }
        }
        ran.steps += 1;
    }
    ran.registers[0] = registers[0];
    ran
}
