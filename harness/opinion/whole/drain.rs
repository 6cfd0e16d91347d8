//! Drain and the report on any machine.
use crate::whole::changes::look;
use crate::whole::range::OUT_OF_RANGE;
use crate::whole::{State, Whole, LOGICAL};

impl Whole {
    /// "Drain makes the calls that commit position 0 until no entry is left or the machine halts, and counts accepted calls"; "at
    /// a refused call it ends with that number, keeping what earlier calls did". The number and the calls.
    pub fn drain(&mut self, program: &[u8], data: &mut [u8]) -> (u8, u8) {
        // "It refuses by 5 and 6 at its start, with count 0."
        let refusal = self.holder_refusal(program, data);
        let (mut number, mut calls) = (refusal, 0);
        // "On a halted or empty machine it makes no call." A number other than 0 is a refused call's.
        while number == 0 && self.halt == 0 && self.count != 0 {
            number = self.call_for_oldest(program, data);
            if number == 0 {
                // "at most 3 × the entries at the start", so at most 192
                calls += 1;
            }
        }
        (number, calls)
    }

    /// The next of "the calls that commit position 0", which its state still needs.
    fn call_for_oldest(&mut self, program: &[u8], data: &mut [u8]) -> u8 {
        match self.entries[0].state {
            State::Waiting => self.issue(program, data, 0),
            State::Issued => self.complete(program, data, 0),
            State::Completed => self.commit(program, data),
        }
    }

    /// "The report gives the 31 committed registers: the maps as if all entries were dropped." Element r is register r, element 0
    /// is 0. "The report refuses by 5 only, with all values 0."
    pub fn report(&self) -> ([u32; LOGICAL], u8) {
        if !self.in_range() {
            return ([0; LOGICAL], OUT_OF_RANGE);
        }
        let mut dropped = *self;
        dropped.drop_to(0);
        let mut committed = [0; LOGICAL];
        for logical in 1..LOGICAL {
            let register = dropped.general[logical].register;
            committed[logical] = look(&dropped.values, register);
        }
        (committed, 0)
    }
}
