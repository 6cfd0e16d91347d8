//! What was seen.
use super::calls::Call;
use crate::whole::{Entry, Whole};
use crate::words::Operation;
use std::fmt::{Result, Write};

#[derive(Clone, Copy, Default)]
pub struct Counts {
    pub lists: u64,
    pub calls: u64,
    pub accepted: u64,
    refused: [u64; 32],
    steals: u64,
    dropped: u64,
    wrong_predictions: u64,
    commits: u64,
    halts: [u64; 8],
    pub rounds: u64,
    pub drains: u64,
    /// Those that hold FENCE among the entries issued, committed and dropped.
    fences_issued: u64,
    fences_committed: u64,
    fences_dropped: u64,
    pub differences: u64,
}

/// A destination without a cause while no register was free.
fn is_steal(before: &Whole, after: &Whole, position: usize) -> bool {
    let entry = after.entries[position];
    before.free_registers.head == 0 && entry.destination != 0 && entry.cause == 0
}

fn holds_fence(entry: &Entry) -> bool {
    entry.instruction.operation == Operation::Fence as u8
}

/// How many of these entries hold FENCE.
fn fences(entries: &[Entry]) -> u64 {
    entries.iter().filter(|entry| holds_fence(entry)).count() as u64
}

impl Counts {
    pub fn expect_no_difference(&mut self, right: bool) {
        self.differences += !right as u64;
    }

    fn completed(&mut self, before: &Whole, after: &Whole, position: usize) {
        let gone = before.count - after.count;
        self.dropped += gone as u64;
        let dropped = &before.entries[after.count as usize..before.count as usize];
        self.fences_dropped += fences(dropped);
        self.wrong_predictions += (gone != 0 || before.fetch != after.fetch) as u64;
        self.steals += is_steal(before, after, position) as u64;
    }

    fn committed(&mut self, before: &Whole, after: &Whole) {
        if after.halt == 0 {
            self.commits += 1;
            self.fences_committed += holds_fence(&before.entries[0]) as u64;
        } else {
            self.halts[after.halt as usize] += 1;
            self.dropped += before.count as u64 - 1;
            self.fences_dropped += fences(&before.entries[1..before.count as usize]);
        }
    }

    /// A call that was made.
    pub fn made(&mut self, before: &Whole, call: Call, after: &Whole, number: u8) {
        self.calls += 1;
        if number != 0 {
            self.refused[number as usize] += 1;
            return;
        }
        self.accepted += 1;
        match call {
            Call::Decode(_) => {}
            Call::Issue(position) => {
                self.fences_issued += holds_fence(&before.entries[position]) as u64
            }
            Call::Complete(position) => self.completed(before, after, position),
            Call::Commit => self.committed(before, after),
        }
    }

    /// The violations are of what holds of every machine between calls, of which there must be none.
    pub fn print(&self, out: &mut impl Write) -> Result {
        writeln!(out, "lists {}", self.lists)?;
        writeln!(out, "calls {}", self.calls)?;
        writeln!(out, "accepted {}", self.accepted)?;
        for number in [5, 6, 10, 11, 12, 13, 14, 15, 16] {
            writeln!(out, "refused by {number} {}", self.refused[number])?;
        }
        writeln!(out, "steals {}", self.steals)?;
        writeln!(out, "dropped {}", self.dropped)?;
        writeln!(out, "wrong predictions {}", self.wrong_predictions)?;
        writeln!(out, "commits {}", self.commits)?;
        for (cause, halts) in self.halts.iter().enumerate().skip(1) {
            writeln!(out, "halts with {cause} {halts}")?;
        }
        writeln!(out, "rounds of further calls {}", self.rounds)?;
        writeln!(out, "drains {}", self.drains)?;
        writeln!(out, "fences issued {}", self.fences_issued)?;
        writeln!(out, "fences committed {}", self.fences_committed)?;
        writeln!(out, "fences dropped {}", self.fences_dropped)?;
        writeln!(out, "differences {}", self.differences)?;
        writeln!(out, "violations 0")
    }
}
