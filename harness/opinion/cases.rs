//! Test cases by chance: runs that mostly succeed, lists of any events, damaged files, and bytes without sense. A case
//! depends on its seed alone.
use crate::machine::Machine;
use crate::random::Random;
use crate::replay::{self, RESULT};
use crate::schedule::{self, Event, Header};
use crate::words::{self, Format, Instruction, Operation, LISTING};

pub const SORTS: [&str; 4] = [
    "plausible runs",
    "lists of any events",
    "damaged files",
    "random bytes",
];

pub struct Case {
    /// Index into `SORTS`.
    pub sort: usize,
    pub program: Vec<u8>,
    pub data: Vec<u8>,
    pub schedule: Vec<u8>,
    pub result_length: usize,
}

pub fn case(seed: u64) -> Case {
    let mut random = Random::new(seed);
    match random.below(20) {
        0..=9 => plausible(&mut random),
        10..=12 => any_events(&mut random),
        13..=18 => damaged(&mut random),
        _ => random_bytes(&mut random),
    }
}

/// How a program's instructions are drawn.
struct Style {
    words: usize,
    data_length: usize,
    /// Registers in use: few make chains of dependences, many fill the maps.
    registers: usize,
    /// Percent of words that are ECALL, EBREAK or anything at all.
    stops: usize,
    /// Percent of places and targets that are taken as they come.
    careless: usize,
}

fn style(random: &mut Random) -> Style {
    Style {
        words: match random.below(40) {
            0 => random.within(1_000, 4_096),
            1..=4 => 1,
            _ => random.within(2, 60),
        },
        data_length: match random.below(40) {
            0 => 16_384,
            1..=4 => 0,
            5..=9 => random.within(1, 16),
            _ => random.within(16, 200),
        },
        registers: random.pick(&[3, 5, 8, 16, 32, 32]),
        stops: random.pick(&[0, 0, 2, 5, 20]),
        careless: random.pick(&[0, 2, 5, 30]),
    }
}

/// A place in the data that a load or store of this size may use.
fn sensible_place(random: &mut Random, style: &Style, size: usize) -> i32 {
    let places = style.data_length.min(2_048) / size;
    (random.below(places.max(1)) * size) as i32
}

/// The offset from one word of the program to another.
fn sensible_offset(random: &mut Random, style: &Style, at: usize) -> i32 {
    let target = match random.below(3) {
        0 => random.below(style.words),
        // near and mostly forward, so that a run gets far
        _ => (at + random.within(0, 6))
            .saturating_sub(1)
            .min(style.words),
    };
    ((target as i32 - at as i32) * 4).clamp(-4_096, 4_092)
}

fn careless_constant(random: &mut Random, format: Format) -> i32 {
    let any = random.word() as i32;
    match format {
        Format::Upper => any & 0xf_ffff,
        Format::Jump => any >> 11 & !1,
        Format::Branch => any >> 19 & !1,
        Format::Shift => any & 31,
        Format::Register | Format::System => 0,
        Format::Immediate | Format::Store => any >> 20,
    }
}

/// An operation that goes on, with its format: any but ECALL and EBREAK, FENCE behind them too.
fn going_on(random: &mut Random) -> (Operation, Format) {
    let mut rows = LISTING
        .iter()
        .filter(|row| !matches!(row.0, Operation::Ecall | Operation::Ebreak));
    let drawn = random.below(rows.clone().count());
    let &(operation, format, _) = rows.nth(drawn).expect("one of those counted");
    (operation, format)
}

/// Mostly one of the FENCEs that compilers write; now and then its fields stay as they were drawn.
fn set_fence(random: &mut Random, instruction: &mut Instruction) {
    if random.percent(60) {
        (instruction.rd, instruction.rs1) = (0, 0);
        instruction.constant = random.pick(&[0x0ff, 0x033, 0x031, 0x023]);
    }
}

/// A legal word for the program's place `at`.
fn legal_word(random: &mut Random, style: &Style, at: usize) -> u32 {
    let (operation, format) = going_on(random);
    let mut instruction = Instruction {
        operation,
        ..Instruction::default()
    };
    let register = |random: &mut Random| random.below(style.registers) as u8;
    (instruction.rd, instruction.rs1, instruction.rs2) = match format {
        Format::Upper | Format::Jump => (register(random), 0, 0),
        Format::Immediate | Format::Shift => (register(random), register(random), 0),
        Format::Branch | Format::Store => (0, register(random), register(random)),
        _ => (register(random), register(random), register(random)),
    };
    let moves = instruction.is_load() || instruction.is_store();
    let careless = random.percent(style.careless);
    instruction.constant = match format {
        Format::Branch | Format::Jump if !careless => sensible_offset(random, style, at),
        _ if moves && !careless => sensible_place(random, style, instruction.size()),
        _ => careless_constant(random, format),
    };
    if moves && random.percent(95) {
        instruction.rs1 = 0;
    }
    if operation == Operation::Jalr && !careless {
        if random.percent(70) {
            instruction.rs1 = 0;
        }
        instruction.constant =
            (random.below(style.words.min(500) + 1) * 4 + random.below(2)) as i32;
    }
    if operation == Operation::Fence {
        set_fence(random, &mut instruction);
    }
    word_of(&instruction)
}

/// The word of an instruction that the encoder accepts.
pub fn word_of(i: &Instruction) -> u32 {
    let both = words::encode(
        i.operation as u32,
        i.rd as u32,
        i.rs1 as u32,
        i.rs2 as u32,
        i.constant,
    );
    assert!(both >> 32 == 0, "{i:?} is no instruction");
    both as u32
}

/// A word that stops, or that is nearly a legal one.
fn stopping_word(random: &mut Random, style: &Style, at: usize) -> u32 {
    match random.below(6) {
        0 | 1 => 0x0000_0073,
        2 => 0x0010_0073,
        3 => legal_word(random, style, at) ^ 1 << random.below(32),
        4 => random.pick(&[
            0,
            0x0000_100f,
            0x0210_9093,
            0x0200_0033,
            0x3020_0073,
            0xffff_ffff,
        ]),
        _ => random.word() as u32,
    }
}

fn program(random: &mut Random, style: &Style) -> Vec<u8> {
    let mut bytes = Vec::with_capacity(style.words * 4);
    for at in 0..style.words {
        let word = match random.percent(style.stops) {
            true => stopping_word(random, style, at),
            false => legal_word(random, style, at),
        };
        bytes.extend(word.to_le_bytes());
    }
    bytes
}

/// The sizes of a machine, more often with few registers beside many entries, so that registers are stolen.
fn sizes(random: &mut Random) -> (u8, u8) {
    let window = match random.below(4) {
        0 => random.within(1, 4),
        1 => 64,
        _ => random.within(4, 64),
    };
    let registers = match random.below(4) {
        0 => random.within(32, 95),
        _ => random.within(32, 34),
    };
    (window as u8, registers as u8)
}

/// A run's habits: how often each call is tried, and which entries.
struct Habits {
    decodes: usize,
    commits: usize,
    youngest_first: usize,
    keeps_refused: usize,
    right_guesses: usize,
}

fn habits(random: &mut Random) -> Habits {
    Habits {
        decodes: random.pick(&[8, 15, 30, 50]),
        commits: random.pick(&[2, 8, 20]),
        youngest_first: random.pick(&[0, 50, 90]),
        keeps_refused: random.pick(&[0, 3, 20]),
        right_guesses: random.pick(&[40, 80, 95]),
    }
}

/// What decode will read, if it is an instruction.
fn instruction_at(program: &[u8], address: u32) -> Instruction {
    let bytes = program
        .get(address as usize..)
        .and_then(|rest| rest.first_chunk::<4>());
    bytes.map_or(Instruction::default(), |bytes| {
        words::read(u32::from_le_bytes(*bytes))
    })
}

/// The right guess, were the committed registers the operands, or any.
fn guess(random: &mut Random, machine: &Machine, program: &[u8], right: usize) -> u32 {
    let address = machine.fetch();
    let instruction = instruction_at(program, address);
    let goes_by_guess = instruction.operation == Operation::Jalr || instruction.is_branch();
    if !goes_by_guess || !random.percent(right) {
        return match random.below(3) {
            0 => random.word() as u32,
            _ => random.below(program.len() / 4 + 1) as u32 * 4,
        };
    }
    let registers = machine.report();
    let value = |register: u8| match register {
        0 => 0,
        _ => registers[register as usize - 1],
    };
    let [a, b] = instruction.sources().map(value);
    match words::execute(&instruction, address, a, b, 0) {
        Ok((_, next)) => next,
        Err(_) => address.wrapping_add(4),
    }
}

fn position(random: &mut Random, machine: &Machine, habits: &Habits) -> u8 {
    if random.percent(2) {
        return random.word() as u8;
    }
    let count = machine.count().max(1);
    let near = random.below(count.min(4));
    match random.percent(habits.youngest_first) {
        true => (count - 1 - near) as u8,
        false => random.below(count) as u8,
    }
}

fn likely_event(random: &mut Random, machine: &Machine, program: &[u8], habits: &Habits) -> Event {
    let choice = random.below(100);
    if choice < habits.decodes {
        return schedule::decode(guess(random, machine, program, habits.right_guesses));
    }
    if choice < habits.decodes + habits.commits {
        return schedule::commit();
    }
    let position = position(random, machine, habits);
    match random.percent(50) {
        true => schedule::issue(position),
        false => schedule::complete(position),
    }
}

/// Events that a machine mostly accepts: each is tried, and one that is refused is kept now and then.
fn likely_events(
    random: &mut Random,
    machine: &mut Machine,
    program: &[u8],
    data: &mut [u8],
    wanted: usize,
) -> Vec<Event> {
    let habits = habits(random);
    let mut events = Vec::with_capacity(wanted);
    for _ in 0..wanted * 8 {
        if events.len() == wanted {
            break;
        }
        let event = likely_event(random, machine, program, &habits);
        let refused = replay::call(machine, program, data, event) != 0;
        if !refused || random.percent(habits.keeps_refused) {
            events.push(event);
        }
        if machine.halt() != 0 && random.percent(30) {
            break;
        }
    }
    events
}

fn likely_length(random: &mut Random) -> usize {
    match random.below(100) {
        0 => random.within(1_000, 8_191),
        1..=10 => random.within(0, 8),
        _ => random.within(8, 250),
    }
}

fn plausible(random: &mut Random) -> Case {
    let style = style(random);
    let program = program(random, &style);
    let data = random.bytes(style.data_length);
    let (window, registers) = sizes(random);
    let wanted = likely_length(random);
    let mut machine = Machine::new(window as usize, registers as usize);
    let events = likely_events(random, &mut machine, &program, &mut data.clone(), wanted);
    let schedule = laid_out(random, window, registers, &events);
    Case {
        sort: 0,
        program,
        data,
        schedule,
        result_length: RESULT,
    }
}

fn any_events(random: &mut Random) -> Case {
    let style = style(random);
    let program = program(random, &style);
    let data = random.bytes(style.data_length);
    let (window, registers) = sizes(random);
    let events: Vec<Event> = (0..likely_length(random))
        .map(|_| any_event(random, window))
        .collect();
    let schedule = laid_out(random, window, registers, &events);
    Case {
        sort: 1,
        program,
        data,
        schedule,
        result_length: RESULT,
    }
}

fn any_event(random: &mut Random, window: u8) -> Event {
    let position = match random.below(8) {
        0 => random.word() as u8,
        1 => random.below(window as usize + 2) as u8,
        _ => random.below(4) as u8,
    };
    match random.within(1, 4) {
        1 if random.percent(20) => schedule::decode(random.word() as u32),
        1 => schedule::decode(random.below(64) as u32 * 4),
        2 => schedule::issue(position),
        3 => schedule::complete(position),
        _ => schedule::commit(),
    }
}

/// A file of these events; the chain's order need not be the file's, and records off the chain hold anything.
fn laid_out(random: &mut Random, window: u8, registers: u8, events: &[Event]) -> Vec<u8> {
    if random.percent(40) {
        return schedule::in_order(window, registers, events);
    }
    let unused = if random.percent(50) {
        random.within(1, 20)
    } else {
        0
    };
    let records = (1 + events.len() + unused).min(schedule::LONGEST / schedule::RECORD);
    let mut places: Vec<u16> = (1..records as u16).collect();
    for i in (1..places.len()).rev() {
        places.swap(i, random.below(i + 1));
    }
    let mut file = random.bytes(records * schedule::RECORD);
    let place = |i: usize| if i < events.len() { places[i] } else { 0 };
    file[..8].copy_from_slice(
        &Header {
            window,
            registers,
            first: place(0),
        }
        .bytes(),
    );
    for (i, &event) in events.iter().enumerate() {
        let bytes = schedule::event_bytes(event, place(i + 1));
        file[place(i) as usize * schedule::RECORD..][..schedule::RECORD].copy_from_slice(&bytes);
    }
    file
}

/// One to four wrongs in a good case, so that the order of refusals matters.
fn damaged(random: &mut Random) -> Case {
    let mut case = match random.percent(70) {
        true => plausible(random),
        false => any_events(random),
    };
    case.sort = 2;
    for _ in 0..random.pick(&[1, 1, 2, 2, 3, 4]) {
        match random.below(20) {
            0 => damage_program_length(random, &mut case.program),
            1 => case.data.resize(16_384 + random.within(1, 9), 7),
            2 => case.result_length = random.pick(&[0, 1, 39, 152, 155, 157, 160, 312, 4_096]),
            3 => damage_schedule_length(random, &mut case.schedule),
            4..=6 => damage_record_0(random, &mut case.schedule),
            _ => damage_chain(random, &mut case.schedule),
        }
    }
    case
}

fn damage_program_length(random: &mut Random, program: &mut Vec<u8>) {
    match random.below(4) {
        0 => program.clear(),
        1 => program.resize(random.pick(&[16_385, 16_388, 20_000]), 0x13),
        2 => program.push(0),
        _ => program.truncate(program.len().saturating_sub(random.within(1, 3))),
    }
}

fn damage_schedule_length(random: &mut Random, file: &mut Vec<u8>) {
    match random.below(4) {
        0 => file.clear(),
        1 => file.resize(65_536 + random.pick(&[1, 8, 16, 800]), 0),
        2 => file.truncate(file.len().saturating_sub(random.within(1, 7))),
        _ => file.extend(vec![0; random.within(1, 7)]),
    }
}

fn damage_record_0(random: &mut Random, file: &mut [u8]) {
    if file.len() < 8 {
        return;
    }
    match random.below(4) {
        0 => file[0] = random.word() as u8,
        1 => file[random.within(5, 7)] = random.word() as u8,
        2 => file[1] = random.pick(&[0, 65, 66, 128, 255]),
        _ => file[4] = random.pick(&[0, 1, 30, 31, 96, 97, 200, 255]),
    }
}

/// The records that the chain reaches, so that damage is met.
fn reached(file: &[u8]) -> Vec<usize> {
    let records = file.len() / schedule::RECORD;
    let mut indices = vec![];
    if records == 0 {
        return indices;
    }
    let mut index = u16::from_le_bytes([file[2], file[3]]) as usize;
    while index != 0 && index < records && indices.len() < records {
        indices.push(index);
        index = schedule::record(file, index).1;
    }
    indices
}

fn damage_chain(random: &mut Random, file: &mut [u8]) {
    let indices = reached(file);
    if indices.is_empty() {
        return;
    }
    let at = random.below(indices.len());
    let start = indices[at] * schedule::RECORD;
    let records = (file.len() / schedule::RECORD) as u16;
    let next = match random.below(8) {
        0 => records,
        1 => records.saturating_add(random.word() as u16),
        2 => indices[random.below(at + 1)] as u16,
        3 => indices[at] as u16,
        4 => {
            file[start] = random.pick(&[0, 5, 6, 128, 255]);
            return;
        }
        5 => {
            file[start + 1] = random.word() as u8;
            return;
        }
        6 => {
            file[start + random.within(4, 7)] = random.word() as u8;
            return;
        }
        _ => {
            (file[start], file[start + 1], file[start + 4]) = (random.pick(&[0, 4, 5]), 1, 1);
            return;
        }
    };
    file[start + 2..start + 4].copy_from_slice(&next.to_le_bytes());
}

/// Bytes without sense, where half of the files at least have a good record 0.
fn random_bytes(random: &mut Random) -> Case {
    let words = random.within(0, 40);
    let records = random.within(0, 60);
    let data_length = random.within(0, 64);
    let mut case = Case {
        sort: 3,
        program: random.bytes(words * 4),
        data: random.bytes(data_length),
        schedule: random.bytes(records * schedule::RECORD),
        result_length: RESULT,
    };
    if random.percent(50) && records > 1 {
        let (window, registers) = sizes(random);
        let first = random.within(0, records) as u16;
        case.schedule[..8].copy_from_slice(
            &Header {
                window,
                registers,
                first,
            }
            .bytes(),
        );
        for index in 1..records {
            case.schedule[index * schedule::RECORD] = random.within(1, 5) as u8;
            let next = random.below(records) as u16;
            case.schedule[index * schedule::RECORD + 2..][..2].copy_from_slice(&next.to_le_bytes());
        }
    }
    if random.percent(10) {
        case.result_length = random.below(400);
    }
    if random.percent(10) {
        let length = random.below(200);
        case.schedule.truncate(length);
    }
    case
}

/// Numbers for the encoder: an operation, rd, rs1, rs2 and a constant, mostly near the edges of their ranges.
pub fn fields(seed: u64) -> (u32, u32, u32, u32, i32) {
    let mut random = Random::new(seed);
    let last = LISTING.len() as u32;
    let operation = match random.below(20) {
        0 => random.pick(&[0, last + 1, last + 2, 255, 256, 256 + last, u32::MAX]),
        _ => random.within(1, LISTING.len()) as u32,
    };
    let format = match LISTING.get(operation.wrapping_sub(1) as usize) {
        Some(row) => row.1,
        None => Format::System,
    };
    let [rd, rs1, rs2] = words::register_fields(format).map(|has| match random.below(25) {
        0 => random.pick(&[1, 32, 33, 63, 256, u32::MAX]),
        _ if has => random.below(32) as u32,
        _ => 0,
    });
    let constant = match random.below(4) {
        0 => random.word() as i32,
        1 => corner(&mut random),
        _ => careless_constant(&mut random, format),
    };
    (operation, rd, rs1, rs2, constant)
}

/// A constant at most two away from the end of some range.
fn corner(random: &mut Random) -> i32 {
    let ends = [
        0,
        31,
        -2_048,
        2_047,
        -4_096,
        4_094,
        1_048_575,
        -1_048_576,
        1_048_574,
        i32::MAX - 2,
        i32::MIN + 2,
    ];
    random.pick(&ends) + (random.below(5) as i32 - 2)
}
