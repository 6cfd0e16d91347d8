//! Replay: a schedule's events on a fresh machine, and the 39 words that tell what came of them.
use crate::machine::{Fences, Machine};
use crate::schedule::{self, Event, Header};
use std::cmp::Ordering;

pub const RESULT: usize = 156;

/// The answers of a replay's calls.
#[derive(Clone, Default)]
pub struct Counts {
    /// How often each number was answered; 0 is accepted.
    pub answers: [u32; 17],
    pub committed: u32,
    pub steals: u32,
    pub dropped: u32,
    pub fences: Fences,
    pub halt: u8,
}

/// All that is refused, before any event.
fn check(program: &[u8], data: &[u8], schedule: &[u8], result: &[u8]) -> Result<Header, u32> {
    if !(4..=16_384).contains(&program.len()) || program.len() % 4 != 0 {
        return Err(3);
    }
    if data.len() > 16_384 {
        return Err(4);
    }
    if result.len() != RESULT {
        return Err(26);
    }
    let header = schedule::header(schedule)?;
    schedule::check_chain(schedule, header.first as usize)?;
    Ok(header)
}

/// Makes one call and hands back its answer.
pub fn call(machine: &mut Machine, program: &[u8], data: &mut [u8], event: Event) -> u32 {
    match event.kind {
        schedule::DECODE => machine.decode(program, event.guess),
        schedule::ISSUE => machine.issue(data, event.position as usize),
        schedule::COMPLETE => machine.complete(data.len(), event.position as usize),
        _ => machine.commit(data),
    }
}

/// Committed × 1000 ÷ accepted, rounded to the nearest whole number, a half to the even one; 0 if none was accepted.
fn rate(committed: u32, accepted: u32) -> u64 {
    if accepted == 0 {
        return 0;
    }
    let (dividend, divisor) = (committed as u64 * 1_000, accepted as u64);
    let (quotient, remainder) = (dividend / divisor, dividend % divisor);
    match (2 * remainder).cmp(&divisor) {
        Ordering::Less => quotient,
        Ordering::Greater => quotient + 1,
        Ordering::Equal => quotient + quotient % 2,
    }
}

fn write_result(machine: &Machine, counts: &Counts, result: &mut [u8]) {
    let accepted = counts.answers[0];
    let fields = [
        accepted,
        counts.answers[1..].iter().sum(),
        counts.committed,
        counts.steals,
        counts.dropped,
        // at most 1000: a commit is an accepted call
        rate(counts.committed, accepted) as u32,
        counts.halt as u32,
        machine.next(),
    ];
    let words = fields.into_iter().chain(machine.report());
    for (bytes, word) in result.chunks_exact_mut(4).zip(words) {
        bytes.copy_from_slice(&word.to_le_bytes());
    }
}

/// Replay that also hands back its counts; at a refusal data and result stay and the number is the error.
pub fn counted(
    program: &[u8],
    data: &mut [u8],
    schedule: &[u8],
    result: &mut [u8],
) -> Result<Counts, u32> {
    let header = check(program, data, schedule, result)?;
    let mut machine = Machine::new(header.window as usize, header.registers as usize);
    let mut counts = Counts::default();
    let mut index = header.first as usize;
    while index != 0 {
        let (event, next) = schedule::record(schedule, index);
        let answer = call(&mut machine, program, data, event);
        counts.answers[answer as usize] += 1;
        index = next;
    }
    counts.committed = machine.committed();
    counts.steals = machine.steals();
    counts.dropped = machine.dropped();
    counts.fences = machine.fences();
    counts.halt = machine.halt();
    write_result(&machine, &counts, result);
    Ok(counts)
}

/// 0, or the refusal.
pub fn replay(program: &[u8], data: &mut [u8], schedule: &[u8], result: &mut [u8]) -> u32 {
    counted(program, data, schedule, result).err().unwrap_or(0)
}
