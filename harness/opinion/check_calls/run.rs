//! A machine driven by calls, beside the run in order.
use super::calls::{self, Call, Lent};
use super::chance::{self, draw};
use super::counting::Counts;
use super::{changes, programs, Sum};
use crate::in_order;
use crate::whole::sum::{sum_bytes, START};
use crate::whole::Whole;

/// A machine with the program and data that are lent to it, the run in order with its own data, and what was seen.
pub struct Run {
    pub core: Whole,
    registers: [u32; 32],
    address: u32,
    /// The cause with which the run in order has ended, 0 if it has not.
    stop: u8,
    pub program: Vec<u8>,
    pub data: Vec<u8>,
    want: Vec<u8>,
    pub counts: Counts,
    sum: Sum,
    /// What was answered, call by call.
    pub answers: Vec<Answer>,
}

/// A call, the number that it was answered by, and the sums over the machine and the data after it.
pub struct Answer {
    pub call: Call,
    pub number: u8,
    pub machine: u64,
    pub data: u64,
}

#[derive(Clone, Copy, PartialEq, Eq)]
pub enum Until {
    Halt,
    Through,
}

const WINDOWS: [u32; 6] = [1, 2, 3, 4, 8, 64];
const REGISTERS: [u32; 8] = [32, 32, 33, 33, 34, 34, 40, 95];

fn sizes(k: u32, seed: u32) -> (u32, u32) {
    if k % 2 == 0 {
        let window = WINDOWS[(k / 2 % 6) as usize];
        let registers = REGISTERS[(k / 12 % 8) as usize];
        return (window, registers);
    }
    (1 + draw(seed, 102) % 64, 32 + draw(seed, 103) % 64)
}

fn data_length(seed: u32) -> usize {
    let x = draw(seed, 101);
    if x % 16 == 0 {
        return (x / 16 % 4 * 2) as usize;
    }
    (40 + x / 16 % 25) as usize
}

impl Run {
    pub fn set_up(k: u32, seed: u32, counts: Counts) -> Run {
        let length = 4 * (16 + draw(seed, 100) % 49) as usize;
        let bytes = data_length(seed);
        let (window, registers) = sizes(k, seed);
        let (core, _) = Whole::set_up(window, registers, length, bytes);
        let data = programs::data(bytes, seed);
        Run {
            core,
            registers: [0; 32],
            address: 0,
            stop: 0,
            program: programs::program(length, seed),
            want: data.clone(),
            data,
            counts,
            sum: Sum::start(),
            answers: Vec::new(),
        }
    }

    pub fn total(&self) -> u64 {
        self.sum.0
    }

    /// The number of an answer, the machine and the data after it, and the report.
    fn sum(&mut self, call: Call, number: u8, m: &Whole) {
        let (registers, refusal) = m.report();
        let (machine, data) = (m.checksum(), sum_bytes(START, &self.data));
        self.sum.add(number as u64);
        self.sum.add(machine);
        self.sum.add(data);
        self.sum.add(refusal as u64);
        self.sum.words(&registers);
        self.answers.push(Answer {
            call,
            number,
            machine,
            data,
        });
    }

    fn step(&mut self) {
        let stepped = in_order::step(
            &self.program,
            &mut self.want,
            &mut self.registers,
            self.address,
        );
        match stepped {
            Ok(next) => (self.address, self.stop) = (next, 0),
            Err(cause) => self.stop = cause,
        }
    }

    /// Whether report, data, next address and halt are those of the run in order.
    fn agrees(&self) -> bool {
        self.core.report() == (self.registers, 0)
            && self.data == self.want
            && self.core.next == self.address
            && self.core.halt == self.stop
    }

    fn call(&mut self, call: Call, lengths: Lent) {
        let before = self.core;
        let number = calls::made_with(&mut self.core, &self.program, &mut self.data, call, lengths);
        let accepted = number == 0;
        if accepted && call == Call::Commit {
            self.step();
        }
        self.counts.made(&before, call, &self.core, number);
        let kept = accepted || before == self.core;
        let refused = lengths == Lent::AsSetUp || number == 6;
        let agrees = self.agrees();
        self.counts.expect_no_difference(kept && refused && agrees);
        let core = self.core;
        self.sum(call, number, &core);
    }

    fn call_damaged(&mut self, call: Call, k: u32) {
        let damaged = changes::damaged(&self.core, k);
        let mut after = damaged;
        let number = calls::made(&mut after, &self.program, &mut self.data, call);
        self.counts.made(&damaged, call, &after, number);
        let refused = number == 5 && damaged.report().1 == 5;
        self.counts
            .expect_no_difference(refused && after == damaged);
        self.sum(call, number, &after);
    }

    fn drain(&mut self) {
        let mut after = self.core;
        let mut copy = self.data.clone();
        let (number, calls) = after.drain(&self.program, &mut copy);
        let ended = after.count == 0 || after.halt != 0;
        let few = calls as u32 <= 3 * self.core.count as u32;
        self.counts.drains += 1;
        self.counts
            .expect_no_difference(number == 0 && ended && few);
        self.sum.add(calls as u64);
        self.sum.add(after.checksum());
        self.sum.bytes(&copy);
    }

    fn further(&mut self) {
        let start = self.counts.accepted;
        let made = (1..=4).find(|_| {
            let call = calls::further(&self.core);
            self.call(call, Lent::AsSetUp);
            call == Call::Commit
        });
        self.counts.rounds += 1;
        let right = made.is_some_and(|made| self.counts.accepted == start + made);
        self.counts.expect_no_difference(right);
    }

    fn turn(&mut self, seed: u32) {
        let pick = draw(seed, 0) % 96;
        if pick < 2 && self.stop == 0 {
            self.further();
            return;
        }
        let call = calls::chosen(&self.core, &self.program, &self.registers, seed);
        if pick == 2 {
            self.call_damaged(call, draw(seed, 4));
            return;
        }
        let lengths = match (pick, draw(seed, 5) % 2) {
            (3, 0) => Lent::OtherProgram,
            (3, _) => Lent::OtherData,
            _ => Lent::AsSetUp,
        };
        self.call(call, lengths);
        if pick % 16 == 15 {
            self.drain();
        }
    }

    pub fn turns(&mut self, seed: u32, n: u32, until: Until) {
        let mut seed = seed;
        for _ in 0..n {
            seed = chance::next(seed);
            self.turn(seed);
            if until == Until::Halt && self.core.halt != 0 {
                break;
            }
        }
    }

    pub fn end(&mut self, seed: u32) {
        if self.core.halt != 0 {
            self.turns(seed, 5, Until::Through);
        } else {
            self.further();
        }
    }
}
