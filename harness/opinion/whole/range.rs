//! Refusal 5, "a number in it out of range", and refusal 6, "a lent length differs from set-up". "Entries past the count, and
//! names and registers past their limits, are not looked at", and neither is a table's index 0, which is nobody's.
use crate::whole::{setup_refusal, Entry, Fields, Operand, Pool, Setup, State, Whole};
use crate::words::{self, Instruction};

pub const OUT_OF_RANGE: u8 = 5;
pub const OTHER_LENGTH: u8 = 6;

/// The highest cause.
const LAST_CAUSE: u8 = 7;

impl Setup {
    /// "Virtual names 1 to 31 + W."
    fn last_name(&self) -> u8 {
        31 + self.window
    }

    /// "W, N, lengths": out of range here where set-up refuses them.
    fn in_range(&self) -> bool {
        let [window, registers] = [self.window, self.registers].map(u32::from);
        setup_refusal(window, registers, self.program.into(), self.data.into()) == 0
    }
}

impl Operand {
    /// Its name and its register, 0 where it has none.
    fn numbers(self) -> (u8, u8) {
        match self {
            Operand::Zero => (0, 0),
            Operand::Waiting(name) => (name, 0),
            Operand::Ready(name, register) => (name, register),
        }
    }

    /// "Name above 31 + W, register above N."
    fn in_range(self, setup: &Setup) -> bool {
        let (name, register) = self.numbers();
        name <= setup.last_name() && register <= setup.registers
    }
}

impl Fields {
    /// For numbers that are an operation's; none otherwise.
    pub fn instruction(&self) -> Instruction {
        let operation = words::operation(self.operation);
        Instruction::new(operation, self.rd, self.rs1, self.rs2, self.constant)
    }

    /// Whether it is none of those "that the encoder refuses".
    fn is_encoded(&self) -> bool {
        let [operation, rd, rs1, rs2] =
            [self.operation, self.rd, self.rs1, self.rs2].map(u32::from);
        words::encode(operation, rd, rs1, rs2, self.constant) >> 32 == 0
    }
}

impl Entry {
    /// "Operation 0 with zero fields passes in an entry completed with cause 1 or 4."
    fn instruction_in_range(&self) -> bool {
        let none = self.instruction == Fields::default();
        let entered = self.state == State::Completed && matches!(self.cause, 1 | 4);
        self.instruction.is_encoded() || none && entered
    }

    /// "Cause above 7", and "a cause in an entry not completed".
    fn cause_in_range(&self) -> bool {
        self.cause <= LAST_CAUSE && (self.cause == 0 || self.state == State::Completed)
    }

    /// "A completed store without cause that leaves the data": by its bounds, whatever its alignment.
    fn store_in_range(&self, setup: &Setup) -> bool {
        let instruction = self.instruction.instruction();
        let writes = instruction.is_store() && self.state == State::Completed && self.cause == 0;
        let place = self.first.wrapping_add(instruction.constant as u32) as usize;
        !writes || place + instruction.size() <= setup.data as usize
    }

    /// "Name above 31 + W, register above N, logical above 31", and the four above.
    fn in_range(&self, setup: &Setup) -> bool {
        let names = self.name <= setup.last_name() && self.previous <= setup.last_name();
        let operands = self.left.in_range(setup) && self.right.in_range(setup);
        let logical = self.destination <= 31;
        let instruction = self.instruction_in_range() && self.store_in_range(setup);
        names && operands && logical && instruction && self.cause_in_range()
    }
}

impl Pool {
    /// The head, and the links of 1 to `last`, reach no number above `last`.
    fn in_range(&self, last: u8) -> bool {
        let links = &self.link[1..=last as usize];
        self.head <= last && links.iter().all(|&number| number <= last)
    }
}

impl Whole {
    /// "Entry count above W", and the entries below the count.
    fn entries_in_range(&self) -> bool {
        self.count <= self.setup.window
            && self.entries[..self.count as usize]
                .iter()
                .all(|entry| entry.in_range(&self.setup))
    }

    /// The general map at x1 to x31, its register also while the valid bit is clear.
    fn general_in_range(&self) -> bool {
        self.general[1..].iter().all(|mapping| {
            mapping.name <= self.setup.last_name() && mapping.register <= self.setup.registers
        })
    }

    /// The physical map at the names 1 to 31 + W.
    fn physical_in_range(&self) -> bool {
        self.physical[1..=self.setup.last_name() as usize]
            .iter()
            .all(|&register| register <= self.setup.registers)
    }

    /// Whether no number in it is out of range. Set-up comes first, since its numbers bound the others.
    pub fn in_range(&self) -> bool {
        self.setup.in_range()
            && self.entries_in_range()
            && self.general_in_range()
            && self.physical_in_range()
            && self.free_registers.in_range(self.setup.registers)
            && self.free_names.in_range(self.setup.last_name())
            && self.halt <= LAST_CAUSE
    }

    /// "Calls check 5, 6": the first of them that applies, or 0.
    pub fn holder_refusal(&self, program: &[u8], data: &[u8]) -> u8 {
        let lengths = (self.setup.program as usize, self.setup.data as usize);
        if !self.in_range() {
            OUT_OF_RANGE
        } else if (program.len(), data.len()) != lengths {
            OTHER_LENGTH
        } else {
            0
        }
    }
}
