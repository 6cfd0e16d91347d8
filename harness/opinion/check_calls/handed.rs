//! Machines that no list reaches, handed in: one call of each kind on each, and a drain.
use super::calls::{self, Call};
use super::chance::{self, draw};
use super::counting::Counts;
use super::run::{Run, Until};
use super::{changes, Sum};
use crate::whole::Whole;
use std::fmt::{Result, Write};

#[derive(Clone, Copy, Default)]
pub struct Answers {
    machines: u64,
    calls: [u64; 32],
    drains: [u64; 32],
    reports: [u64; 32],
    changed: u64,
}

/// A machine, with what is lent to its calls.
struct Handed<'a> {
    core: Whole,
    program: &'a [u8],
    data: &'a [u8],
}

impl Answers {
    fn call(&mut self, h: &Handed, call: Call, sum: &mut Sum) {
        let (mut after, mut data) = (h.core, h.data.to_vec());
        let number = calls::made(&mut after, h.program, &mut data, call);
        self.calls[number as usize] += 1;
        let kept = number == 0 || (after == h.core && data == h.data);
        self.changed += !kept as u64;
        sum.add(number as u64);
        sum.add(after.checksum());
        sum.bytes(&data);
    }

    fn drain(&mut self, h: &Handed, sum: &mut Sum) {
        let (mut after, mut data) = (h.core, h.data.to_vec());
        let (number, calls) = after.drain(h.program, &mut data);
        self.drains[number as usize] += 1;
        sum.add(number as u64);
        sum.add(calls as u64);
        sum.add(after.checksum());
        sum.bytes(&data);
    }

    fn report(&mut self, h: &Handed, sum: &mut Sum) {
        let (registers, number) = h.core.report();
        self.reports[number as usize] += 1;
        sum.add(number as u64);
        sum.words(&registers);
    }

    fn all(&mut self, h: &Handed, seed: u32) -> u64 {
        let mut sum = Sum::start();
        let any = (draw(seed, 12) % (h.core.count as u32 + 2)) as usize;
        for call in [
            Call::Decode(draw(seed, 10)),
            Call::Issue(calls::first_waiting(&h.core, draw(seed, 11))),
            Call::Issue(any),
            Call::Complete(calls::first_issued(&h.core, draw(seed, 11))),
            Call::Complete(any),
            Call::Commit,
        ] {
            self.call(h, call, &mut sum);
        }
        self.drain(h, &mut sum);
        self.report(h, &mut sum);
        self.machines += 1;
        sum.0
    }

    pub fn print(&self, out: &mut impl Write) -> Result {
        writeln!(out, "machines {}", self.machines)?;
        for number in [0, 5, 6, 10, 11, 12, 13, 14, 15, 16] {
            let (calls, drains) = (self.calls[number], self.drains[number]);
            let reports = self.reports[number];
            writeln!(
                out,
                "answered by {number}: calls {calls}, drains {drains}, reports {reports}"
            )?;
        }
        writeln!(out, "refused and changed {}", self.changed)
    }
}

const FROM_EACH: u32 = 50;

/// Of so many turns the last machine with the most entries.
fn fullest(run: &mut Run, seed: u32, n: u32) -> Whole {
    let mut fullest = run.core;
    let mut seed = seed;
    for _ in 0..n {
        seed = chance::next(seed);
        run.turns(seed, 1, Until::Halt);
        if run.core.count >= fullest.count {
            fullest = run.core;
        }
    }
    fullest
}

/// Of a list that breaks off so many machines, each with some changes; the sum of what their calls leave.
pub fn machines(from: u32, k: u32, answers: &mut Answers) -> u64 {
    let mut seed = draw(!from, k).wrapping_add(1);
    let mut run = Run::set_up(k | 1, seed, Counts::default());
    let fullest = fullest(&mut run, seed, 10 + draw(seed, 104) % 110);
    let mut sum = Sum::start();
    for _ in 0..FROM_EACH {
        seed = chance::next(seed);
        let handed = Handed {
            core: changes::changed(&fullest, seed),
            program: &run.program,
            data: &run.data,
        };
        sum.add(answers.all(&handed, seed));
    }
    sum.0
}
