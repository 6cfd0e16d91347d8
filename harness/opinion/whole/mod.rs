//! The machine of document 01 with every number in sight, so that any machine can be built and not only one that calls reach.
//! Here are its parts and set-up. `range` judges its numbers; `calls`, with `changes`, and `drain` change it; `sum` adds all of it
//! up. It shares the instructions (`words`) with `machine`, and nothing else.
pub mod calls;
pub mod changes;
pub mod drain;
pub mod range;
pub mod sum;

/// "Names and registers past their limits": the tables reach to 31 + 64 and to 95.
pub const NUMBERS: usize = 96;
/// "Window W (1–64) entries."
pub const PLACES: usize = 64;
/// x0 to x31.
pub const LOGICAL: usize = 32;

/// W, N and the lengths of program and data.
#[derive(Clone, Copy, Debug, Default, PartialEq, Eq)]
pub struct Setup {
    pub window: u8,
    pub registers: u8,
    pub program: u16,
    pub data: u16,
}

/// "An operand is zero, waiting on a name, or ready with a name and a register."
#[derive(Clone, Copy, Debug, Default, PartialEq, Eq)]
pub enum Operand {
    #[default]
    Zero,
    Waiting(u8),
    Ready(u8, u8),
}

/// "State (waiting, issued, completed)."
#[derive(Clone, Copy, Debug, Default, PartialEq, Eq)]
pub enum State {
    #[default]
    Waiting,
    Issued,
    Completed,
}

/// An instruction as numbers; operation 1 to 39 "in the order of the manual's RV32I listing without FENCE", 40 FENCE, 0 for none.
#[derive(Clone, Copy, Debug, Default, PartialEq, Eq)]
pub struct Fields {
    pub operation: u8,
    pub rd: u8,
    pub rs1: u8,
    pub rs2: u8,
    pub constant: i32,
}

/// "An entry holds its instruction and address, operands, destination, name, previous name, predicted next address, values
/// read, result, state, cause (0 none)."
#[derive(Clone, Copy, Debug, Default, PartialEq, Eq)]
pub struct Entry {
    pub instruction: Fields,
    pub address: u32,
    pub left: Operand,
    pub right: Operand,
    pub destination: u8,
    pub name: u8,
    pub previous: u8,
    pub predicted: u32,
    pub first: u32,
    pub second: u32,
    pub result: u32,
    pub state: State,
    pub cause: u8,
}

/// "The general map holds for each logical register 1–31 a name, a register and a valid bit."
#[derive(Clone, Copy, Debug, Default, PartialEq, Eq)]
pub struct Mapping {
    pub name: u8,
    pub register: u8,
    pub valid: bool,
}

/// "Each pool is a chain: a head, and for each free number the next; zero ends it."
#[derive(Clone, Copy, Debug, PartialEq, Eq)]
pub struct Pool {
    pub head: u8,
    pub link: [u8; NUMBERS],
}

/// The machine. Index 0 of each table but the entries is nobody's.
#[derive(Clone, Copy, Debug, PartialEq, Eq)]
pub struct Whole {
    pub setup: Setup,
    pub count: u8,
    /// "In program order, position 0 the oldest."
    pub entries: [Entry; PLACES],
    pub general: [Mapping; LOGICAL],
    /// "The physical map holds for each name its register, zero once the name is freed."
    pub physical: [u8; NUMBERS],
    pub values: [u32; NUMBERS],
    pub free_registers: Pool,
    pub free_names: Pool,
    pub fetch: u32,
    pub next: u32,
    /// The cause of the halt, 0 for none.
    pub halt: u8,
}

impl Default for Pool {
    fn default() -> Pool {
        Pool {
            head: 0,
            link: [0; NUMBERS],
        }
    }
}

/// "A refused set-up returns a machine of zeros."
impl Default for Whole {
    fn default() -> Whole {
        Whole {
            setup: Setup::default(),
            count: 0,
            entries: [Entry::default(); PLACES],
            general: [Mapping::default(); LOGICAL],
            physical: [0; NUMBERS],
            values: [0; NUMBERS],
            free_registers: Pool::default(),
            free_names: Pool::default(),
            fetch: 0,
            next: 0,
            halt: 0,
        }
    }
}

impl Pool {
    /// "The rest lie in the pools in rising order": the numbers from 32 to `last`.
    fn fresh(last: u8) -> Pool {
        let mut pool = Pool {
            head: 32,
            ..Pool::default()
        };
        for number in 32..last {
            pool.link[number as usize] = number + 1;
        }
        pool
    }
}

/// "1 W out of range; 2 N out of range; 3 program length; 4 data length"; 0 if none of them.
pub fn setup_refusal(window: u32, registers: u32, program: usize, data: usize) -> u8 {
    if !(1..=64).contains(&window) {
        1
    } else if !(32..=95).contains(&registers) {
        2
    } else if !(4..=16_384).contains(&program) || program % 4 != 0 {
        3
    } else if data > 16_384 {
        4
    } else {
        0
    }
}

impl Whole {
    /// "Fresh: logical r has name r and register r, values 0; the rest lie in the pools in rising order; fetch and next
    /// address are 0."
    fn fresh(setup: Setup) -> Whole {
        let mut machine = Whole {
            setup,
            free_registers: Pool::fresh(setup.registers),
            free_names: Pool::fresh(31 + setup.window),
            ..Whole::default()
        };
        for logical in 1..32 {
            machine.general[logical as usize] = Mapping {
                name: logical,
                register: logical,
                valid: true,
            };
            machine.physical[logical as usize] = logical;
        }
        machine
    }

    /// The fresh machine with 0, or a machine of zeros with the refusal.
    pub fn set_up(window: u32, registers: u32, program: usize, data: usize) -> (Whole, u8) {
        let refusal = setup_refusal(window, registers, program, data);
        if refusal != 0 {
            return (Whole::default(), refusal);
        }
        let setup = Setup {
            window: window as u8,
            registers: registers as u8,
            program: program as u16,
            data: data as u16,
        };
        (Whole::fresh(setup), 0)
    }
}
