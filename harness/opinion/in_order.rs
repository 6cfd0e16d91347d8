//! The program one instruction after another, without renaming: what every replay must have committed.
use crate::words;

/// One instruction; the next address, or the cause of a stop, which changes nothing.
pub(crate) fn step(
    program: &[u8],
    data: &mut [u8],
    registers: &mut [u32; 32],
    address: u32,
) -> Result<u32, u8> {
    let instruction = words::fetch(program, address)?;
    let [left, right] = instruction.sources();
    let a = registers[left as usize];
    let b = match instruction.is_load() {
        true => words::load(&instruction, a, data),
        false => registers[right as usize],
    };
    let (result, next) = words::execute(&instruction, address, a, b, data.len())?;
    if instruction.is_store() {
        words::store(&instruction, a, b, data);
    }
    let destination = instruction.destination();
    if destination != 0 {
        registers[destination as usize] = result;
    }
    Ok(next)
}

/// The registers and the next address after some steps; or the cause, if a step stops.
pub fn run(program: &[u8], data: &mut [u8], steps: u32) -> Result<([u32; 32], u32), u8> {
    let (mut registers, mut address) = ([0; 32], 0);
    for _ in 0..steps {
        address = step(program, data, &mut registers, address)?;
    }
    Ok((registers, address))
}
