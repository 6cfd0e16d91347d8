//! RV32I: words read, words written, and what an instruction does with the values it read.

/// In the order of the manual's listing without FENCE, and FENCE behind it, so that the number is the encoder's; 0 where there is
/// no instruction.
#[derive(Clone, Copy, Default, PartialEq, Eq, Debug)]
#[repr(u8)]
pub enum Operation {
    #[default]
    Nothing,
    Lui,
    Auipc,
    Jal,
    Jalr,
    Beq,
    Bne,
    Blt,
    Bge,
    Bltu,
    Bgeu,
    Lb,
    Lh,
    Lw,
    Lbu,
    Lhu,
    Sb,
    Sh,
    Sw,
    Addi,
    Slti,
    Sltiu,
    Xori,
    Ori,
    Andi,
    Slli,
    Srli,
    Srai,
    Add,
    Sub,
    Sll,
    Slt,
    Sltu,
    Xor,
    Srl,
    Sra,
    Or,
    And,
    Ecall,
    Ebreak,
    Fence,
}
use Operation::*;

#[derive(Clone, Copy, PartialEq, Eq)]
pub enum Format {
    Upper,
    Jump,
    Immediate,
    Branch,
    Store,
    Shift,
    Register,
    System,
}

pub const ILLEGAL: u8 = 1;
pub const ECALL: u8 = 2;
pub const EBREAK: u8 = 3;
pub const FETCH: u8 = 4;
pub const TARGET: u8 = 5;
pub const LOAD: u8 = 6;
pub const STORE: u8 = 7;

/// Each operation's format and the bits that no field covers.
#[rustfmt::skip]
pub const LISTING: [(Operation, Format, u32); 40] = [
    (Lui, Format::Upper, 0x37), (Auipc, Format::Upper, 0x17), (Jal, Format::Jump, 0x6f), (Jalr, Format::Immediate, 0x67),
    (Beq, Format::Branch, 0x63), (Bne, Format::Branch, 0x1063), (Blt, Format::Branch, 0x4063),
    (Bge, Format::Branch, 0x5063), (Bltu, Format::Branch, 0x6063), (Bgeu, Format::Branch, 0x7063),
    (Lb, Format::Immediate, 0x03), (Lh, Format::Immediate, 0x1003), (Lw, Format::Immediate, 0x2003),
    (Lbu, Format::Immediate, 0x4003), (Lhu, Format::Immediate, 0x5003),
    (Sb, Format::Store, 0x23), (Sh, Format::Store, 0x1023), (Sw, Format::Store, 0x2023),
    (Addi, Format::Immediate, 0x13), (Slti, Format::Immediate, 0x2013), (Sltiu, Format::Immediate, 0x3013),
    (Xori, Format::Immediate, 0x4013), (Ori, Format::Immediate, 0x6013), (Andi, Format::Immediate, 0x7013),
    (Slli, Format::Shift, 0x1013), (Srli, Format::Shift, 0x5013), (Srai, Format::Shift, 0x4000_5013),
    (Add, Format::Register, 0x33), (Sub, Format::Register, 0x4000_0033), (Sll, Format::Register, 0x1033),
    (Slt, Format::Register, 0x2033), (Sltu, Format::Register, 0x3033), (Xor, Format::Register, 0x4033),
    (Srl, Format::Register, 0x5033), (Sra, Format::Register, 0x4000_5033), (Or, Format::Register, 0x6033),
    (And, Format::Register, 0x7033), (Ecall, Format::System, 0x73), (Ebreak, Format::System, 0x0010_0073),
    (Fence, Format::Immediate, 0x0f),
];

/// Fields that the operation lacks are 0.
#[derive(Clone, Copy, Default, PartialEq, Eq, Debug)]
pub struct Instruction {
    pub operation: Operation,
    pub rd: u8,
    pub rs1: u8,
    pub rs2: u8,
    pub constant: i32,
}

impl Instruction {
    pub fn new(operation: Operation, rd: u8, rs1: u8, rs2: u8, constant: i32) -> Instruction {
        Instruction {
            operation,
            rd,
            rs1,
            rs2,
            constant,
        }
    }

    /// The registers that it reads, 0 for none. FENCE "has no operands and no destination": rd and rs1 stay in it only "so that the
    /// same word is written back".
    pub fn sources(&self) -> [u8; 2] {
        match self.operation {
            Fence => [0, 0],
            _ => [self.rs1, self.rs2],
        }
    }

    /// The register that it writes, 0 for none.
    pub fn destination(&self) -> u8 {
        match self.operation {
            Fence => 0,
            _ => self.rd,
        }
    }

    pub fn is_fence(&self) -> bool {
        self.operation == Fence
    }

    pub fn is_load(&self) -> bool {
        matches!(self.operation, Lb | Lh | Lw | Lbu | Lhu)
    }

    pub fn is_store(&self) -> bool {
        matches!(self.operation, Sb | Sh | Sw)
    }

    pub fn is_branch(&self) -> bool {
        matches!(self.operation, Beq | Bne | Blt | Bge | Bltu | Bgeu)
    }

    /// The bytes that a load or store moves.
    pub fn size(&self) -> usize {
        match self.operation {
            Lw | Sw => 4,
            Lh | Lhu | Sh => 2,
            _ => 1,
        }
    }
}

fn immediate_constant(word: u32) -> i32 {
    word as i32 >> 20
}

fn store_constant(word: u32) -> i32 {
    (word as i32 >> 25) << 5 | (word >> 7 & 31) as i32
}

fn branch_constant(word: u32) -> i32 {
    (word as i32 >> 31) << 12
        | (word >> 7 & 1) as i32 * 0x800
        | (word >> 25 & 0x3f) as i32 * 0x20
        | (word >> 8 & 15) as i32 * 2
}

fn jump_constant(word: u32) -> i32 {
    (word as i32 >> 31) << 20
        | (word & 0xf_f000) as i32
        | (word >> 20 & 1) as i32 * 0x800
        | (word >> 21 & 0x3ff) as i32 * 2
}

/// The operation of OP-IMM, where a shift by a constant needs its top seven bits.
fn immediate_operation(minor: u32, top: u32) -> Operation {
    match (minor, top) {
        (0, _) => Addi,
        (1, 0) => Slli,
        (2, _) => Slti,
        (3, _) => Sltiu,
        (4, _) => Xori,
        (5, 0) => Srli,
        (5, 0x20) => Srai,
        (6, _) => Ori,
        (7, _) => Andi,
        _ => Nothing,
    }
}

fn register_operation(minor: u32, top: u32) -> Operation {
    match (top, minor) {
        (0, _) => [Add, Sll, Slt, Sltu, Xor, Srl, Or, And][minor as usize],
        (0x20, 0) => Sub,
        (0x20, 5) => Sra,
        _ => Nothing,
    }
}

/// The operation with this number; none where no operation has it.
pub fn operation(number: u8) -> Operation {
    let row = (number as usize).checked_sub(1);
    row.and_then(|row| LISTING.get(row))
        .map_or(Nothing, |&(operation, _, _)| operation)
}

/// Each by bits 14–12.
const BRANCHES: [Operation; 8] = [Beq, Bne, Nothing, Nothing, Blt, Bge, Bltu, Bgeu];
const LOADS: [Operation; 8] = [Lb, Lh, Lw, Nothing, Lbu, Lhu, Nothing, Nothing];
const STORES: [Operation; 4] = [Sb, Sh, Sw, Nothing];

/// An instruction with these fields, or none with zero fields.
fn made(operation: Operation, rd: u32, rs1: u32, rs2: u32, constant: i32) -> Instruction {
    match operation {
        Nothing => Instruction::default(),
        _ => Instruction::new(operation, rd as u8, rs1 as u8, rs2 as u8, constant),
    }
}

/// The instruction of a word; operation `Nothing` if it is illegal.
pub fn read(word: u32) -> Instruction {
    let (minor, top) = (word >> 12 & 7, word >> 25);
    let (rd, rs1, rs2) = (word >> 7 & 31, word >> 15 & 31, word >> 20 & 31);
    let upper = (word >> 12) as i32;
    let constant = immediate_constant(word);
    match word & 0x7f {
        0x37 => made(Lui, rd, 0, 0, upper),
        0x17 => made(Auipc, rd, 0, 0, upper),
        0x6f => made(Jal, rd, 0, 0, jump_constant(word)),
        0x67 if minor == 0 => made(Jalr, rd, rs1, 0, constant),
        0x63 => made(BRANCHES[minor as usize], 0, rs1, rs2, branch_constant(word)),
        0x03 => made(LOADS[minor as usize], rd, rs1, 0, constant),
        0x0f if minor == 0 => made(Fence, rd, rs1, 0, constant),
        0x23 if minor < 4 => made(STORES[minor as usize], 0, rs1, rs2, store_constant(word)),
        0x13 => match immediate_operation(minor, top) {
            shift @ (Slli | Srli | Srai) => made(shift, rd, rs1, 0, rs2 as i32),
            other => made(other, rd, rs1, 0, constant),
        },
        0x33 => made(register_operation(minor, top), rd, rs1, rs2, 0),
        0x73 if word == 0x0000_0073 => made(Ecall, 0, 0, 0, 0),
        0x73 if word == 0x0010_0073 => made(Ebreak, 0, 0, 0, 0),
        _ => made(Nothing, 0, 0, 0, 0),
    }
}

/// The instruction at an address, or the cause that decode finds.
pub fn fetch(program: &[u8], address: u32) -> Result<Instruction, u8> {
    let place = address as usize;
    if place % 4 != 0 || place + 4 > program.len() {
        return Err(FETCH);
    }
    let bytes = [
        program[place],
        program[place + 1],
        program[place + 2],
        program[place + 3],
    ];
    let instruction = read(u32::from_le_bytes(bytes));
    match instruction.operation {
        Nothing => Err(ILLEGAL),
        Ecall => Err(ECALL),
        Ebreak => Err(EBREAK),
        _ => Ok(instruction),
    }
}

/// The bits of a constant in its format, or nothing if it is out of range.
fn constant_bits(format: Format, constant: i32) -> Option<u32> {
    let bits = constant as u32;
    let even = constant % 2 == 0;
    match format {
        Format::Upper if (0..=1_048_575).contains(&constant) => Some(bits << 12),
        Format::Jump if even && (-1_048_576..=1_048_574).contains(&constant) => Some(
            (bits >> 20 & 1) << 31
                | (bits >> 1 & 0x3ff) << 21
                | (bits >> 11 & 1) << 20
                | bits & 0xf_f000,
        ),
        Format::Immediate if (-2_048..=2_047).contains(&constant) => Some(bits << 20),
        Format::Branch if even && (-4_096..=4_094).contains(&constant) => Some(
            (bits >> 12 & 1) << 31
                | (bits >> 5 & 0x3f) << 25
                | (bits >> 1 & 15) << 8
                | (bits >> 11 & 1) << 7,
        ),
        Format::Store if (-2_048..=2_047).contains(&constant) => {
            Some((bits >> 5) << 25 | (bits & 31) << 7)
        }
        Format::Shift if (0..=31).contains(&constant) => Some(bits << 20),
        Format::Register | Format::System if constant == 0 => Some(0),
        _ => None,
    }
}

/// Whether a format has the fields rd, rs1 and rs2.
pub fn register_fields(format: Format) -> [bool; 3] {
    match format {
        Format::Upper | Format::Jump => [true, false, false],
        Format::Immediate | Format::Shift => [true, true, false],
        Format::Branch | Format::Store => [false, true, true],
        Format::Register => [true, true, true],
        Format::System => [false, false, false],
    }
}

fn written(operation: u32, registers: [u32; 3], constant: i32) -> Option<u32> {
    let row = operation.checked_sub(1)?;
    let &(_, format, fixed) = LISTING.get(row as usize)?;
    for (register, has) in registers.into_iter().zip(register_fields(format)) {
        if register > if has { 31 } else { 0 } {
            return None;
        }
    }
    let [rd, rs1, rs2] = registers;
    Some(fixed | rd << 7 | rs1 << 15 | rs2 << 20 | constant_bits(format, constant)?)
}

/// Refusal × 2^32 + word: refusal 30 with word 0 where a number or field is out of range.
pub fn encode(operation: u32, rd: u32, rs1: u32, rs2: u32, constant: i32) -> u64 {
    written(operation, [rd, rs1, rs2], constant).map_or(30 << 32, u64::from)
}

fn in_bounds(place: u32, size: usize, data_length: usize) -> bool {
    place as usize % size == 0 && place as usize + size <= data_length
}

/// The bytes of a load, extended to 32 bits; 0 where it has cause 6.
pub fn load(instruction: &Instruction, base: u32, data: &[u8]) -> u32 {
    let place = base.wrapping_add(instruction.constant as u32);
    if !in_bounds(place, instruction.size(), data.len()) {
        return 0;
    }
    let bytes = &data[place as usize..];
    match instruction.operation {
        Lb => bytes[0] as i8 as u32,
        Lbu => bytes[0] as u32,
        Lh => i16::from_le_bytes([bytes[0], bytes[1]]) as u32,
        Lhu => u16::from_le_bytes([bytes[0], bytes[1]]) as u32,
        _ => u32::from_le_bytes([bytes[0], bytes[1], bytes[2], bytes[3]]),
    }
}

/// Writes a store that has no cause.
pub fn store(instruction: &Instruction, base: u32, value: u32, data: &mut [u8]) {
    let place = base.wrapping_add(instruction.constant as u32) as usize;
    let size = instruction.size();
    data[place..place + size].copy_from_slice(&value.to_le_bytes()[..size]);
}

fn branch_taken(operation: Operation, a: u32, b: u32) -> bool {
    match operation {
        Beq => a == b,
        Bne => a != b,
        Blt => (a as i32) < b as i32,
        Bge => a as i32 >= b as i32,
        Bltu => a < b,
        _ => a >= b,
    }
}

fn computed(operation: Operation, a: u32, b: u32) -> u32 {
    match operation {
        Addi | Add => a.wrapping_add(b),
        Sub => a.wrapping_sub(b),
        Slti | Slt => ((a as i32) < b as i32) as u32,
        Sltiu | Sltu => (a < b) as u32,
        Xori | Xor => a ^ b,
        Ori | Or => a | b,
        Andi | And => a & b,
        Slli | Sll => a << (b & 31),
        Srli | Srl => a >> (b & 31),
        _ => (a as i32 >> (b & 31)) as u32,
    }
}

/// The result and the next address from the values read, where a load's second value is what it loaded; or a cause.
pub fn execute(
    instruction: &Instruction,
    address: u32,
    a: u32,
    b: u32,
    data_length: usize,
) -> Result<(u32, u32), u8> {
    let constant = instruction.constant as u32;
    let following = address.wrapping_add(4);
    let jump = |target: u32, result: u32| match target % 4 {
        0 => Ok((result, target)),
        _ => Err(TARGET),
    };
    match instruction.operation {
        Lui => Ok((constant << 12, following)),
        Auipc => Ok((address.wrapping_add(constant << 12), following)),
        Jal => jump(address.wrapping_add(constant), following),
        Jalr => jump(a.wrapping_add(constant) & !1, following),
        branch @ (Beq | Bne | Blt | Bge | Bltu | Bgeu) => match branch_taken(branch, a, b) {
            true => jump(address.wrapping_add(constant), 0),
            false => Ok((0, following)),
        },
        Lb | Lh | Lw | Lbu | Lhu => {
            match in_bounds(a.wrapping_add(constant), instruction.size(), data_length) {
                true => Ok((b, following)),
                false => Err(LOAD),
            }
        }
        Sb | Sh | Sw => {
            match in_bounds(a.wrapping_add(constant), instruction.size(), data_length) {
                true => Ok((0, following)),
                false => Err(STORE),
            }
        }
        Fence => Ok((0, following)),
        // decode meets these three first; only in a machine that no call made can an entry wait with one of the last two
        Nothing => Err(ILLEGAL),
        Ecall => Err(ECALL),
        Ebreak => Err(EBREAK),
        operation if operation as u8 <= Srai as u8 => {
            Ok((computed(operation, a, constant), following))
        }
        operation => Ok((computed(operation, a, b), following)),
    }
}
