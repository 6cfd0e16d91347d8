//! The lists of calls and the machines of the test program `check_calls`, made once more, file by file, and driven on `whole`:
//! what that program has to print. The choices are the same, by the same numbers; what the calls do is written apart.
mod calls;
mod chance;
mod changes;
mod counting;
mod handed;
mod lists;
mod programs;
mod run;

use crate::whole::sum;
use counting::Counts;
use handed::Answers;
use std::fmt::{Result, Write};

/// A sum over numbers, as of a machine.
#[derive(Clone, Copy)]
struct Sum(u64);

impl Sum {
    fn start() -> Sum {
        Sum(sum::START)
    }

    fn add(&mut self, number: u64) {
        self.0 = sum::added(self.0, number);
    }

    fn bytes(&mut self, bytes: &[u8]) {
        self.add(sum::sum_bytes(sum::START, bytes));
    }

    fn words(&mut self, words: &[u32]) {
        for &word in words {
            self.add(word as u64);
        }
    }
}

/// As many as `check_calls` has: groups of ten lists, and lists of whose machines some are changed.
pub const LISTS: u32 = 200;
pub const MACHINES: u32 = 120;
pub const SEED: u32 = 0x1234_5678;

/// What `check_calls` has to print, with so many of both, from a seed.
pub fn print(out: &mut impl Write, lists: u32, machines: u32, seed: u32) -> Result {
    let mut counts = Counts::default();
    for group in 0..lists {
        let mut sum = Sum::start();
        for k in 0..10 {
            sum.add(lists::list(seed, 10 * group + k, &mut counts).total());
        }
        writeln!(out, "lists from {} on: {:016x}", 10 * group, sum.0)?;
    }
    counts.print(out)?;
    let mut answers = Answers::default();
    for k in 0..machines {
        let sum = handed::machines(seed, k, &mut answers);
        writeln!(out, "machines of list {k}: {sum:016x}")?;
    }
    answers.print(out)
}

/// What the calls of a list answer one after the other, without its drains, to find where a machine goes another way: `Run::sum` of
/// `crates/check_calls/src/run.rt` has the same numbers.
pub fn print_list(out: &mut impl Write, k: u32, seed: u32) -> Result {
    for answer in lists::list(seed, k, &mut Counts::default()).answers {
        let (machine, data) = (answer.machine, answer.data);
        writeln!(
            out,
            "{:?}: {}, machine {machine:016x}, data {data:016x}",
            answer.call, answer.number
        )?;
    }
    Ok(())
}
