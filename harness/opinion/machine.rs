//! The machine of document 01, changed in place: pools, maps, window, and the four calls. Every machine here is reached
//! from a fresh one, so refusals 5 and 6 cannot occur.
use crate::words::{self, Instruction, Operation};

pub const HALTED: u32 = 10;
pub const WINDOW_FULL: u32 = 11;
pub const NO_ENTRY: u32 = 12;
pub const WRONG_STATE: u32 = 13;
pub const NOT_READY: u32 = 14;
pub const OLDER_STORE: u32 = 15;
pub const NO_REGISTER: u32 = 16;

/// Names go up to 31 + 64, registers up to 95; place 0 is nobody's and stays 0.
const NUMBERS: usize = 96;
/// The window is a ring, so that a commit moves nothing; the largest window is a power of two.
const PLACES: usize = 64;

/// A pool as a chain: taking takes the head, freeing puts at the head.
#[derive(Clone)]
struct FreeList {
    head: u8,
    next: [u8; NUMBERS],
}

impl FreeList {
    /// The numbers from `first` to `last`, rising.
    fn new(first: usize, last: usize) -> FreeList {
        let mut next = [0; NUMBERS];
        for number in first..last {
            next[number] = number as u8 + 1;
        }
        let head = if first <= last { first as u8 } else { 0 };
        FreeList { head, next }
    }

    /// Zero if the pool is empty.
    fn take(&mut self) -> u8 {
        let taken = self.head;
        self.head = self.next[taken as usize];
        self.next[taken as usize] = 0;
        taken
    }

    /// Freeing zero does nothing.
    fn free(&mut self, number: u8) {
        if number != 0 {
            self.next[number as usize] = self.head;
            self.head = number;
        }
    }
}

/// What the general map holds for a logical register; valid exactly where the register is not 0.
#[derive(Clone, Copy, Default)]
struct Mapping {
    name: u8,
    register: u8,
}

/// Zero (name 0), waiting on a name (register 0), or ready.
#[derive(Clone, Copy, Default)]
struct Operand {
    name: u8,
    register: u8,
}

impl Operand {
    fn is_waiting(self) -> bool {
        self.name != 0 && self.register == 0
    }
}

#[derive(Clone, Copy, Default, PartialEq, Eq, Debug)]
pub enum State {
    #[default]
    Waiting,
    Issued,
    Completed,
}

/// A reorder entry.
#[derive(Clone, Copy, Default)]
struct Entry {
    instruction: Instruction,
    address: u32,
    operands: [Operand; 2],
    name: u8,
    previous: u8,
    predicted: u32,
    values: [u32; 2],
    state: State,
    cause: u8,
}

/// How many entries that hold FENCE were issued, committed and dropped, as all entries are counted.
#[derive(Clone, Copy, Default)]
pub struct Fences {
    pub issued: u32,
    pub committed: u32,
    pub dropped: u32,
}

#[derive(Clone)]
pub struct Machine {
    window: usize,
    names: FreeList,
    registers: FreeList,
    general: [Mapping; 32],
    /// The physical map: a name's register.
    register_of: [u8; NUMBERS],
    values: [u32; NUMBERS],
    entries: [Entry; PLACES],
    oldest: usize,
    count: usize,
    fetch: u32,
    next: u32,
    halt: u8,
    steals: u32,
    dropped: u32,
    committed: u32,
    fences: Fences,
}

impl Machine {
    /// The fresh machine of a window of 1 to 64 entries and 32 to 95 registers.
    pub fn new(window: usize, registers: usize) -> Machine {
        let mut general = [Mapping::default(); 32];
        let mut register_of = [0; NUMBERS];
        for logical in 1..32 {
            let number = logical as u8;
            general[logical] = Mapping {
                name: number,
                register: number,
            };
            register_of[logical] = number;
        }
        Machine {
            window,
            names: FreeList::new(32, 31 + window),
            registers: FreeList::new(32, registers),
            general,
            register_of,
            values: [0; NUMBERS],
            entries: [Entry::default(); PLACES],
            oldest: 0,
            count: 0,
            fetch: 0,
            next: 0,
            halt: 0,
            steals: 0,
            dropped: 0,
            committed: 0,
            fences: Fences::default(),
        }
    }

    pub fn count(&self) -> usize {
        self.count
    }

    pub fn fetch(&self) -> u32 {
        self.fetch
    }

    pub fn next(&self) -> u32 {
        self.next
    }

    pub fn halt(&self) -> u8 {
        self.halt
    }

    pub fn steals(&self) -> u32 {
        self.steals
    }

    /// Entries dropped by mispredictions and halts, the halting entry aside.
    pub fn dropped(&self) -> u32 {
        self.dropped
    }

    /// Commits without a halt.
    pub fn committed(&self) -> u32 {
        self.committed
    }

    pub fn fences(&self) -> Fences {
        self.fences
    }

    /// The state, address and predicted next of an entry below the count.
    pub fn entry(&self, position: usize) -> (State, u32, u32) {
        let entry = &self.entries[self.place(position)];
        (entry.state, entry.address, entry.predicted)
    }

    fn place(&self, position: usize) -> usize {
        (self.oldest + position) % PLACES
    }

    fn operand(&self, logical: u8) -> Operand {
        let Mapping { name, register } = self.general[logical as usize];
        Operand { name, register }
    }

    pub fn decode(&mut self, program: &[u8], guess: u32) -> u32 {
        if self.halt != 0 {
            return HALTED;
        }
        if self.count == self.window {
            return WINDOW_FULL;
        }
        let address = self.fetch;
        let mut entry = Entry {
            address,
            predicted: address.wrapping_add(4),
            ..Entry::default()
        };
        match words::fetch(program, address) {
            Err(cause) => (entry.state, entry.cause) = (State::Completed, cause),
            Ok(instruction) => self.rename(&mut entry, instruction, guess),
        }
        self.fetch = entry.predicted;
        self.entries[self.place(self.count)] = entry;
        self.count += 1;
        0
    }

    /// The operands come from the general map before the destination takes its name there.
    fn rename(&mut self, entry: &mut Entry, instruction: Instruction, guess: u32) {
        entry.instruction = instruction;
        entry.operands = instruction.sources().map(|logical| self.operand(logical));
        let destination = instruction.destination();
        if destination != 0 {
            entry.name = self.names.take();
            let mapping = &mut self.general[destination as usize];
            entry.previous = mapping.name;
            *mapping = Mapping {
                name: entry.name,
                register: 0,
            };
        }
        if instruction.operation == Operation::Jal {
            entry.predicted = entry.address.wrapping_add(instruction.constant as u32);
        } else if instruction.operation == Operation::Jalr || instruction.is_branch() {
            entry.predicted = guess;
        }
    }

    pub fn issue(&mut self, data: &[u8], position: usize) -> u32 {
        if self.halt != 0 {
            return HALTED;
        }
        if position >= self.count {
            return NO_ENTRY;
        }
        let place = self.place(position);
        let Entry {
            instruction,
            operands,
            state,
            ..
        } = self.entries[place];
        if state != State::Waiting {
            return WRONG_STATE;
        }
        if operands[0].is_waiting() || operands[1].is_waiting() {
            return NOT_READY;
        }
        if instruction.is_load()
            && (0..position).any(|p| self.entries[self.place(p)].instruction.is_store())
        {
            return OLDER_STORE;
        }
        let mut values = operands.map(|operand| self.values[operand.register as usize]);
        if instruction.is_load() {
            values[1] = words::load(&instruction, values[0], data);
        }
        let entry = &mut self.entries[place];
        (entry.values, entry.state) = (values, State::Issued);
        self.fences.issued += instruction.is_fence() as u32;
        0
    }

    pub fn complete(&mut self, data_length: usize, position: usize) -> u32 {
        if self.halt != 0 {
            return HALTED;
        }
        if position >= self.count {
            return NO_ENTRY;
        }
        let place = self.place(position);
        let entry = &mut self.entries[place];
        if entry.state != State::Issued {
            return WRONG_STATE;
        }
        let [a, b] = entry.values;
        match words::execute(&entry.instruction, entry.address, a, b, data_length) {
            Err(cause) => (entry.state, entry.cause) = (State::Completed, cause),
            Ok((result, actual)) => {
                let destination = entry.instruction.destination();
                if destination != 0 && !self.give_register(position, result) {
                    return NO_REGISTER;
                }
                self.entries[place].state = State::Completed;
                self.resolve(position, actual);
            }
        }
        0
    }

    /// A free or stolen register takes the result and becomes the name's; false, and nothing changed, if there is none.
    fn give_register(&mut self, position: usize, result: u32) -> bool {
        let mut register = self.registers.take();
        if register == 0 {
            register = self.steal(position);
        }
        if register == 0 {
            return false;
        }
        self.values[register as usize] = result;
        self.map(position, register);
        true
    }

    /// The register of the youngest entry that holds one, if it is younger than the caller; else 0. The one robbed waits.
    fn steal(&mut self, position: usize) -> u8 {
        for victim in (position + 1..self.count).rev() {
            let entry = &mut self.entries[(self.oldest + victim) % PLACES];
            let register = self.register_of[entry.name as usize];
            if entry.state == State::Completed && register != 0 {
                (entry.state, entry.values) = (State::Waiting, [0, 0]);
                self.map(victim, 0);
                self.steals += 1;
                return register;
            }
        }
        0
    }

    /// Gives an entry's name a register, or 0 to take it away: in the physical map, in the general map if it still
    /// shows the name, and in operands on the name, which only younger entries can have.
    fn map(&mut self, position: usize, register: u8) {
        let entry = &self.entries[self.place(position)];
        let name = entry.name;
        let mapping = &mut self.general[entry.instruction.destination() as usize];
        if mapping.name == name {
            mapping.register = register;
        }
        self.register_of[name as usize] = register;
        for younger in position + 1..self.count {
            for operand in &mut self.entries[(self.oldest + younger) % PLACES].operands {
                if operand.name == name {
                    operand.register = register;
                }
            }
        }
    }

    /// Where the actual next address is not the predicted one, the younger entries go and fetch starts again.
    fn resolve(&mut self, position: usize, actual: u32) {
        let place = self.place(position);
        if self.entries[place].predicted != actual {
            self.drop_younger(position);
            self.fetch = actual;
            self.entries[place].predicted = actual;
        }
    }

    fn drop_younger(&mut self, position: usize) {
        while self.count > position + 1 {
            let youngest = &self.entries[self.place(self.count - 1)];
            self.fences.dropped += youngest.instruction.is_fence() as u32;
            self.drop_youngest();
            self.dropped += 1;
        }
    }

    fn drop_youngest(&mut self) {
        self.count -= 1;
        let Entry {
            instruction,
            name,
            previous,
            ..
        } = self.entries[self.place(self.count)];
        let destination = instruction.destination();
        if destination != 0 {
            self.free_name(name);
            let register = self.register_of[previous as usize];
            self.general[destination as usize] = Mapping {
                name: previous,
                register,
            };
        }
    }

    /// Frees the register that the name has, if any, then the name.
    fn free_name(&mut self, name: u8) {
        self.registers.free(self.register_of[name as usize]);
        self.register_of[name as usize] = 0;
        self.names.free(name);
    }

    pub fn commit(&mut self, data: &mut [u8]) -> u32 {
        if self.halt != 0 {
            return HALTED;
        }
        if self.count == 0 {
            return NO_ENTRY;
        }
        let entry = self.entries[self.oldest];
        if entry.state != State::Completed {
            return WRONG_STATE;
        }
        if entry.cause != 0 {
            self.drop_younger(0);
            self.drop_youngest();
            self.halt = entry.cause;
            return 0;
        }
        if entry.instruction.is_store() {
            words::store(&entry.instruction, entry.values[0], entry.values[1], data);
        }
        self.free_name(entry.previous);
        self.next = entry.predicted;
        self.oldest = self.place(1);
        self.count -= 1;
        self.committed += 1;
        self.fences.committed += entry.instruction.is_fence() as u32;
        0
    }

    /// The committed registers x1 to x31: the maps as if all entries were dropped.
    pub fn report(&self) -> [u32; 31] {
        let mut names = self.general.map(|mapping| mapping.name);
        for position in (0..self.count).rev() {
            let entry = &self.entries[self.place(position)];
            names[entry.instruction.destination() as usize] = entry.previous;
        }
        std::array::from_fn(|i| {
            let register = self.register_of[names[i + 1] as usize];
            self.values[register as usize]
        })
    }
}
