//! The four calls on any machine. "Calls check 5, 6, then 10 to 16 rising"; all that is refused is found before anything changes.
use crate::whole::changes::{look, put};
use crate::whole::{Entry, Fields, Mapping, Operand, State, Whole};
use crate::words::{self, Instruction, Operation};

pub const HALTED: u8 = 10;
pub const WINDOW_FULL: u8 = 11;
pub const NO_ENTRY: u8 = 12;
pub const WRONG_STATE: u8 = 13;
pub const NOT_READY: u8 = 14;
pub const OLDER_STORE: u8 = 15;
pub const NO_REGISTER: u8 = 16;

/// The instruction as the numbers that an entry holds.
fn fields_of(i: &Instruction) -> Fields {
    Fields {
        operation: i.operation as u8,
        rd: i.rd,
        rs1: i.rs1,
        rs2: i.rs2,
        constant: i.constant,
    }
}

/// "The entry enters completed with cause 4, 1, 2 or 3"; "where decode found no instruction, the entry keeps operation 0 with
/// zero fields"; ECALL and EBREAK are instructions. Predicted next is address + 4.
fn ended_entry(address: u32, cause: u8) -> Entry {
    let operation = match cause {
        words::ECALL => Operation::Ecall,
        words::EBREAK => Operation::Ebreak,
        _ => Operation::Nothing,
    };
    Entry {
        instruction: Fields {
            operation: operation as u8,
            ..Fields::default()
        },
        address,
        predicted: address.wrapping_add(4),
        state: State::Completed,
        cause,
        ..Entry::default()
    }
}

/// "Predicted next: the guess for branches and JALR, the target for JAL, else [...] address + 4."
fn predicted_next(instruction: &Instruction, address: u32, guess: u32) -> u32 {
    match instruction.operation {
        Operation::Jal => address.wrapping_add(instruction.constant as u32),
        Operation::Jalr => guess,
        _ if instruction.is_branch() => guess,
        _ => address.wrapping_add(4),
    }
}

impl Whole {
    /// Refusals 5, 6 and 10, with which every call begins.
    fn first_refusals(&self, program: &[u8], data: &[u8]) -> u8 {
        match self.holder_refusal(program, data) {
            0 if self.halt != 0 => HALTED,
            refusal => refusal,
        }
    }

    /// Those of a call on one entry: the former, "12 no entry there", "13 entry not" in the state that the call needs.
    fn entry_refusals(&self, program: &[u8], data: &[u8], position: usize, needed: State) -> u8 {
        let first = self.first_refusals(program, data);
        if first != 0 {
            return first;
        }
        match self.window().get(position) {
            None => NO_ENTRY,
            Some(entry) if entry.state != needed => WRONG_STATE,
            Some(_) => 0,
        }
    }

    /// "Decode(guess)."
    pub fn decode(&mut self, program: &[u8], data: &[u8], guess: u32) -> u8 {
        let refusal = self.first_refusals(program, data);
        if refusal != 0 {
            return refusal;
        }
        if self.count >= self.setup.window {
            return WINDOW_FULL;
        }
        let entry = match words::fetch(program, self.fetch) {
            Err(cause) => ended_entry(self.fetch, cause),
            Ok(instruction) => self.renamed(&instruction, guess),
        };
        self.entries[self.occupied()] = entry;
        self.count += 1;
        // "Fetch goes there."
        self.fetch = entry.predicted;
        0
    }

    /// "Operands come from the general map (ready if valid), then the destination takes a name [...]; the entry waits."
    fn renamed(&mut self, instruction: &Instruction, guess: u32) -> Entry {
        let [left, right] = instruction.sources().map(|logical| self.operand(logical));
        let destination = instruction.destination();
        let (name, previous) = self.rename(destination);
        Entry {
            instruction: fields_of(instruction),
            address: self.fetch,
            left,
            right,
            destination,
            name,
            previous,
            predicted: predicted_next(instruction, self.fetch, guess),
            ..Entry::default()
        }
    }

    /// "The destination takes a name, the old name is kept, valid is cleared": both names, or 0 and 0 without a destination.
    /// "The general map's register is zero while valid is clear."
    fn rename(&mut self, destination: u8) -> (u8, u8) {
        if destination == 0 {
            return (0, 0);
        }
        let name = self.free_names.take();
        let previous = look(&self.general, destination).name;
        let mapping = Mapping {
            name,
            register: 0,
            valid: false,
        };
        put(&mut self.general, destination, mapping);
        (name, previous)
    }

    /// "Issue(position)."
    pub fn issue(&mut self, program: &[u8], data: &[u8], position: usize) -> u8 {
        let refusal = self.entry_refusals(program, data, position, State::Waiting);
        if refusal != 0 {
            return refusal;
        }
        let entry = self.entries[position];
        if entry.left.is_waiting() || entry.right.is_waiting() {
            return NOT_READY;
        }
        let instruction = entry.instruction.instruction();
        if instruction.is_load() && self.has_store_before(position) {
            return OLDER_STORE;
        }
        let (first, second) = self.values_read(&entry, data);
        let issued = &mut self.entries[position];
        (issued.first, issued.second) = (first, second);
        issued.state = State::Issued;
        0
    }

    /// "15 load with an older store in the window."
    fn has_store_before(&self, position: usize) -> bool {
        self.entries[..position]
            .iter()
            .any(|entry| entry.instruction.instruction().is_store())
    }

    /// "Operand values are read, and a load reads data, extended to 32 bits, as its second value (0 where cause 6 applies)."
    fn values_read(&self, entry: &Entry, data: &[u8]) -> (u32, u32) {
        let instruction = entry.instruction.instruction();
        let first = self.operand_value(entry.left);
        let second = match instruction.is_load() {
            true => words::load(&instruction, first, data),
            false => self.operand_value(entry.right),
        };
        (first, second)
    }

    /// "Complete(position)."
    pub fn complete(&mut self, program: &[u8], data: &[u8], position: usize) -> u8 {
        let refusal = self.entry_refusals(program, data, position, State::Issued);
        if refusal != 0 {
            return refusal;
        }
        let entry = self.entries[position];
        let instruction = entry.instruction.instruction();
        // "The result (0 without a destination) and actual next address are found from the values read."
        let found = words::execute(
            &instruction,
            entry.address,
            entry.first,
            entry.second,
            data.len(),
        );
        match found {
            // "With a cause: only state and cause change."
            Err(cause) => {
                self.entries[position].state = State::Completed;
                self.entries[position].cause = cause;
                0
            }
            Ok((_, actual)) if entry.destination == 0 => self.finish(position, 0, actual),
            Ok((result, actual)) => self.complete_destination(position, result, actual),
        }
    }

    /// "Otherwise a destination takes a free register. If none is free, the search runs [...]": 16 where it finds no victim.
    fn complete_destination(&mut self, position: usize, result: u32, actual: u32) -> u8 {
        let register = match (self.free_registers.head, self.victim(position)) {
            (0, None) => return NO_REGISTER,
            (0, Some(victim)) => self.rob(victim),
            _ => self.free_registers.take(),
        };
        self.give(position, register, result);
        self.finish(position, result, actual)
    }

    /// "The search runs from the youngest entry and ends at the first one that holds a register, if it is younger than the
    /// caller."
    fn victim(&self, caller: usize) -> Option<usize> {
        let found = (0..self.occupied())
            .rev()
            .find(|&position| self.held(&self.entries[position]) != 0);
        found.filter(|&position| position > caller)
    }

    /// "The victim becomes waiting, its name loses the register, the general map's valid bit falls if it still shows that name,
    /// and operands on it are waiting again in entries of every state." The register is handed over. "A waiting entry's values
    /// and result are zero"; one that is not completed has no cause.
    fn rob(&mut self, position: usize) -> u8 {
        let register = self.held(&self.entries[position]);
        let victim = &mut self.entries[position];
        victim.state = State::Waiting;
        (victim.first, victim.second, victim.result) = (0, 0, 0);
        victim.cause = 0;
        let (name, destination) = (victim.name, victim.destination);
        put(&mut self.physical, name, 0);
        self.set_mapping_if(destination, name, 0, false);
        self.set_operands_on(name, Operand::Waiting(name));
        register
    }

    /// "The new register gets the result, both maps learn it (the general map only if it still shows the name), and operands on
    /// that name, in entries of every state, become ready with that register."
    fn give(&mut self, position: usize, register: u8, result: u32) {
        let Entry {
            name, destination, ..
        } = self.entries[position];
        put(&mut self.values, register, result);
        put(&mut self.physical, name, register);
        self.set_mapping_if(destination, name, register, true);
        self.set_operands_on(name, Operand::Ready(name, register));
    }

    /// "Last, if actual and predicted next differ, all younger entries are dropped and fetch goes to actual; predicted becomes
    /// actual."
    fn finish(&mut self, position: usize, result: u32, actual: u32) -> u8 {
        let entry = &mut self.entries[position];
        (entry.state, entry.result) = (State::Completed, result);
        if entry.predicted != actual {
            entry.predicted = actual;
            self.fetch = actual;
            self.drop_to(position + 1);
        }
        0
    }

    /// "Commit": of position 0.
    pub fn commit(&mut self, program: &[u8], data: &mut [u8]) -> u8 {
        let refusal = self.entry_refusals(program, data, 0, State::Completed);
        if refusal != 0 {
            return refusal;
        }
        let entry = self.entries[0];
        if entry.cause != 0 {
            self.halt_with(entry.cause);
        } else {
            self.retire(&entry, data);
        }
        0
    }

    /// "With a cause: the rest is dropped, then this entry; the machine halts with the cause, fetch and next address staying."
    fn halt_with(&mut self, cause: u8) {
        self.drop_to(0);
        self.halt = cause;
    }

    /// "Otherwise a store writes data, the previous name's register, then that name, are freed, and next address becomes its
    /// predicted next."
    fn retire(&mut self, entry: &Entry, data: &mut [u8]) {
        let instruction = entry.instruction.instruction();
        if instruction.is_store() {
            words::store(&instruction, entry.first, entry.second, data);
        }
        self.free_registers
            .free(look(&self.physical, entry.previous));
        self.free_name(entry.previous);
        self.next = entry.predicted;
        self.leave_oldest();
    }

    /// "Position 0 the oldest": the others move down by one, and "a place past the last entry is all zeros".
    fn leave_oldest(&mut self) {
        let occupied = self.occupied();
        self.entries.copy_within(1..occupied, 0);
        self.entries[occupied - 1] = Entry::default();
        self.count -= 1;
    }
}
