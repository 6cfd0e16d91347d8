//! One call, and which one to make.
use super::chance::draw;
use crate::whole::{State, Whole};
use crate::words;

#[derive(Clone, Copy, Debug, PartialEq, Eq)]
pub enum Call {
    Decode(u32),
    Issue(usize),
    Complete(usize),
    Commit,
}

/// Makes the call on the machine; its number.
pub fn made(m: &mut Whole, program: &[u8], data: &mut [u8], call: Call) -> u8 {
    match call {
        Call::Decode(guess) => m.decode(program, data, guess),
        Call::Issue(position) => m.issue(program, data, position),
        Call::Complete(position) => m.complete(program, data, position),
        Call::Commit => m.commit(program, data),
    }
}

/// With which lengths a call is made.
#[derive(Clone, Copy, PartialEq, Eq)]
pub enum Lent {
    AsSetUp,
    OtherProgram,
    OtherData,
}

pub fn made_with(m: &mut Whole, program: &[u8], data: &mut [u8], call: Call, lengths: Lent) -> u8 {
    let mut bytes = [0u8; 3];
    match lengths {
        Lent::AsSetUp => made(m, program, data, call),
        Lent::OtherProgram => made(m, &bytes, data, call),
        Lent::OtherData => made(m, program, &mut bytes, call),
    }
}

/// k places after or before a start, around 64 places.
fn place(from: u32, k: usize, down: bool) -> usize {
    let start = (from % 64) as usize;
    if down {
        return (start + 64 - k % 64) % 64;
    }
    (start + k % 64) % 64
}

/// The position of the first entry in this state, from a start on and around.
fn position_of(m: &Whole, start: u32, down: bool, wanted: State) -> Option<usize> {
    let entries = m.entries.get(..m.count as usize)?;
    (0..64)
        .map(|k| place(start, k, down))
        .find(|&at| entries.get(at).is_some_and(|e| e.state == wanted))
}

/// The position of the first waiting entry, from a start on and around; 0 where there is none.
pub fn first_waiting(m: &Whole, start: u32) -> usize {
    position_of(m, start, false, State::Waiting).unwrap_or(0)
}

/// The same of an issued one.
pub fn first_issued(m: &Whole, start: u32) -> usize {
    position_of(m, start, false, State::Issued).unwrap_or(0)
}

/// Where the branch or jump at the fetch address would go; 0 where there is no instruction.
fn target(program: &[u8], address: u32, registers: &[u32; 32]) -> u32 {
    match words::fetch(program, address) {
        Ok(i) if i.operation == words::Operation::Jalr => {
            let [base, _] = i.sources();
            let to = registers[base as usize].wrapping_add(i.constant as u32);
            to - to % 2
        }
        Ok(i) => address.wrapping_add(i.constant as u32),
        // ECALL and EBREAK are instructions, and have the constant 0
        Err(words::ECALL | words::EBREAK) => address,
        Err(_) => 0,
    }
}

/// The next address, the target, a near address, or any number.
fn guess(program: &[u8], address: u32, registers: &[u32; 32], x: u32) -> u32 {
    match x % 8 {
        0 => x / 8 % 64 * 4,
        1 => x,
        2..=4 => target(program, address, registers),
        _ => address.wrapping_add(4),
    }
}

/// The call that an entry in this state needs next.
fn needed(state: State, position: usize) -> Call {
    match state {
        State::Waiting => Call::Issue(position),
        State::Issued => Call::Complete(position),
        State::Completed => Call::Commit,
    }
}

/// The call that document 01's further calls make on this machine.
pub fn further(m: &Whole) -> Call {
    if m.count == 0 {
        return Call::Decode(m.fetch.wrapping_add(4));
    }
    needed(m.entries[0].state, 0)
}

/// The call that an entry in this state needs, now and then at any position; a further call where no entry is in the state.
fn for_entry(m: &Whole, x: u32, state: State) -> Call {
    let position = if x % 32 == 0 {
        Some((x / 64 % 80) as usize)
    } else {
        position_of(m, x / 64, x % 4 != 0, state)
    };
    match position {
        Some(position) => needed(state, position),
        None => further(m),
    }
}

/// A call for the machine, mostly one that is not refused.
pub fn chosen(m: &Whole, program: &[u8], registers: &[u32; 32], seed: u32) -> Call {
    let pick = draw(seed, 1);
    let x = draw(seed, 2);
    let full = m.count == m.setup.window;
    let seldom = pick / 16 % 16 == 0;
    match pick % 16 {
        0..=7 if full && !seldom => for_entry(m, x, State::Waiting),
        0..=7 => Call::Decode(guess(program, m.fetch, registers, draw(seed, 3))),
        8..=10 => for_entry(m, x, State::Waiting),
        11..=13 => for_entry(m, x, State::Issued),
        _ if m.entries[0].state != State::Completed && !seldom => for_entry(m, x, State::Issued),
        _ => Call::Commit,
    }
}
