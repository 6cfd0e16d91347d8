//! The sum over all numbers of a machine, for comparing whole machines by one number. The order of the numbers is that of the
//! struct, and part of the format: who computes the sum elsewhere goes in the same order.
use crate::whole::{Entry, Fields, Mapping, Operand, Pool, Setup, Whole};

// FNV-1a's numbers, over numbers in place of bytes
pub const START: u64 = 0xcbf2_9ce4_8422_2325;
const FACTOR: u64 = 0x0000_0100_0000_01b3;

/// The sum with one number more.
pub fn added(sum: u64, number: u64) -> u64 {
    (sum ^ number).wrapping_mul(FACTOR)
}

/// The sum with these numbers more.
fn all_added(start: u64, numbers: &[u32]) -> u64 {
    numbers
        .iter()
        .fold(start, |sum, &number| added(sum, number as u64))
}

/// The sum with these bytes more.
pub fn sum_bytes(start: u64, bytes: &[u8]) -> u64 {
    bytes
        .iter()
        .fold(start, |sum, &byte| added(sum, byte as u64))
}

fn setup_added(sum: u64, s: &Setup) -> u64 {
    let numbers = [
        s.window as u32,
        s.registers as u32,
        s.program as u32,
        s.data as u32,
    ];
    all_added(sum, &numbers)
}

fn fields_added(sum: u64, f: &Fields) -> u64 {
    let numbers = [
        f.operation as u32,
        f.rd as u32,
        f.rs1 as u32,
        f.rs2 as u32,
        f.constant as u32,
    ];
    all_added(sum, &numbers)
}

/// The case, then the name and the register, 0 where there is none.
fn operand_added(sum: u64, operand: Operand) -> u64 {
    let numbers = match operand {
        Operand::Zero => [0, 0, 0],
        Operand::Waiting(name) => [1, name as u32, 0],
        Operand::Ready(name, register) => [2, name as u32, register as u32],
    };
    all_added(sum, &numbers)
}

fn entry_added(sum: u64, entry: &Entry) -> u64 {
    let sum = fields_added(sum, &entry.instruction);
    let sum = all_added(sum, &[entry.address]);
    let sum = operand_added(sum, entry.left);
    let sum = operand_added(sum, entry.right);
    let numbers = [
        entry.destination as u32,
        entry.name as u32,
        entry.previous as u32,
        entry.predicted,
        entry.first,
        entry.second,
        entry.result,
        entry.state as u32,
        entry.cause as u32,
    ];
    all_added(sum, &numbers)
}

fn mapping_added(sum: u64, mapping: &Mapping) -> u64 {
    let numbers = [
        mapping.name as u32,
        mapping.register as u32,
        mapping.valid as u32,
    ];
    all_added(sum, &numbers)
}

fn pool_added(sum: u64, pool: &Pool) -> u64 {
    sum_bytes(sum_bytes(sum, &[pool.head]), &pool.link)
}

impl Whole {
    pub fn checksum(&self) -> u64 {
        let sum = setup_added(START, &self.setup);
        let sum = sum_bytes(sum, &[self.count]);
        let sum = self.entries.iter().fold(sum, entry_added);
        let sum = self.general.iter().fold(sum, mapping_added);
        let sum = sum_bytes(sum, &self.physical);
        let sum = all_added(sum, &self.values);
        let sum = pool_added(sum, &self.free_registers);
        let sum = pool_added(sum, &self.free_names);
        all_added(sum, &[self.fetch, self.next, self.halt as u32])
    }
}
