//! Machines that no list reaches: a machine with some of its numbers changed, by the same numbers as in the test program.
use super::chance::{self, draw};
use super::programs;
use crate::whole::{Entry, Fields, Mapping, Operand, Pool, State, Whole};

fn number(limit: u8, x: u32) -> u8 {
    match x % 64 {
        0 => limit.saturating_add(1),
        1 => (x / 64 % 256) as u8,
        2..=13 => 0,
        _ => (x / 64 % (limit as u32 + 1)) as u8,
    }
}

fn address(x: u32) -> u32 {
    match x % 8 {
        0 => x.wrapping_mul(0x0101_0101),
        1 => x / 8 % 256,
        _ => x / 8 % 64 * 4,
    }
}

fn change_pool(pool: &mut Pool, limit: u8, x: u32, y: u32) {
    let value = number(limit, y);
    match x % 4 {
        0 => pool.head = value,
        1 => pool.head = 0,
        _ => pool.link[(x / 4 % 96) as usize] = value,
    }
}

fn change_mapping(mapping: &mut Mapping, names: u8, registers: u8, x: u32, y: u32) {
    match x % 4 {
        0 => mapping.name = number(names, y),
        1 => mapping.register = number(registers, y),
        2 => mapping.valid = !mapping.valid,
        _ => {
            *mapping = Mapping {
                name: number(names, y),
                register: number(registers, y / 64),
                valid: true,
            }
        }
    }
}

fn operand(names: u8, registers: u8, x: u32, y: u32) -> Operand {
    match x % 4 {
        0 => Operand::Zero,
        1 => Operand::Waiting(number(names, y)),
        _ => Operand::Ready(number(names, y), number(registers, x / 4)),
    }
}

fn change_state(e: &mut Entry, x: u32) {
    let cause = number(7, x / 8);
    let any = if x / 8 % 2 == 0 { 0 } else { cause };
    (e.state, e.cause) = match x % 8 {
        0 | 1 => (State::Waiting, 0),
        2 | 3 => (State::Issued, 0),
        4..=6 => (State::Completed, any),
        _ => (State::Waiting, cause),
    };
}

fn change_instruction(i: &mut Fields, x: u32, y: u32) {
    match x % 8 {
        0 => *i = Fields::default(),
        1 => i.operation = (y % 64) as u8,
        2 => i.rd = number(31, y),
        3 => i.constant = i.constant.wrapping_add((y % 16) as i32),
        4 | 5 => *i = programs::read_memory(x ^ y),
        _ => *i = programs::read(x ^ y),
    }
}

fn change_entry(e: &mut Entry, names: u8, registers: u8, x: u32, y: u32) {
    match x % 16 {
        0 => e.left = operand(names, registers, x / 16, y),
        1 => e.right = operand(names, registers, x / 16, y),
        2 => e.destination = number(31, y),
        3 => e.name = number(names, y),
        4 => e.previous = number(names, y),
        5 => e.predicted = address(y),
        6 => e.address = address(y),
        7 => e.first = address(y),
        8 => e.second = y.wrapping_mul(0x0101_0101),
        9 => e.result = y.wrapping_mul(0x0101_0101),
        10 | 11 => change_instruction(&mut e.instruction, x / 16, y),
        _ => change_state(e, y),
    }
}

fn change_rest(m: &mut Whole, x: u32, y: u32) {
    match x % 16 {
        0 => m.setup.window = 1 + (y % 64) as u8,
        1 => m.setup.registers = 32 + (y % 64) as u8,
        2 => m.setup.program = (y % 65 * 4) as u16,
        3 => m.setup.data = (y % 65) as u16,
        4 => m.setup.data = (y % 0x1_0000) as u16,
        5 => m.halt = number(7, y),
        6..=8 => m.fetch = address(y),
        9 | 10 => m.next = address(y),
        _ => m.count = number(m.setup.window, y),
    }
}

fn fill_zeros(m: &mut Whole, x: u32, y: u32) {
    let any = (x % 256) as u8;
    m.physical[0] = any;
    m.values[0] = y;
    m.free_registers.link[0] = any;
    m.free_names.link[0] = any;
    m.general[0] = Mapping {
        name: any,
        register: any,
        valid: y % 2 == 0,
    };
}

fn change(m: &mut Whole, seed: u32) {
    let names = m.setup.window.saturating_add(31);
    let registers = m.setup.registers;
    let x = draw(seed, 1);
    let y = draw(seed, 2);
    let place = (draw(seed, 3) % (m.count as u32 + 2) % 64) as usize;
    match draw(seed, 4) % 24 {
        0 | 1 => m.physical[(x % 96) as usize] = number(registers, y),
        2 => m.values[(x % 96) as usize] = y.wrapping_mul(0x0101_0101),
        3 | 4 => change_pool(&mut m.free_registers, registers, x, y),
        5 | 6 => change_pool(&mut m.free_names, names, x, y),
        7 | 8 => {
            let mapping = &mut m.general[(x / 4 % 32) as usize];
            change_mapping(mapping, names, registers, x, y);
        }
        9 | 10 => change_rest(m, x, y),
        11 => m.entries[place] = m.entries[(x % 64) as usize],
        12 => fill_zeros(m, x, y),
        _ => change_entry(&mut m.entries[place], names, registers, x, y),
    }
}

pub fn changed(m: &Whole, seed: u32) -> Whole {
    let mut changed = *m;
    if draw(seed, 5) % 8 != 0 {
        changed.halt = 0;
    }
    let mut seed = seed;
    for _ in 0..=draw(seed, 0) % 8 {
        seed = chance::next(seed);
        change(&mut changed, seed);
    }
    changed
}

/// With one number out of range.
pub fn damaged(m: &Whole, k: u32) -> Whole {
    let mut d = *m;
    match k % 8 {
        0 => d.count = 65,
        1 => d.free_names.head = 96,
        2 => d.free_registers.head = 96,
        3 => d.physical[1] = 96,
        4 => d.general[31].name = 96,
        5 => d.general[1].register = 96,
        6 => d.free_registers.link[32] = 255,
        _ => d.free_names.link[32] = 255,
    }
    d
}
