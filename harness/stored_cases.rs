//! Writes the stored cases to a folder: `cases.bin` for test programs, `cases.txt` for readers. Started by the script
//! `stored_cases`. What each case expects is written down by hand (`stored_runs.txt` and the tables below) and must be
//! what the second opinion finds. A case in `cases.bin`, little endian:
//!
//!     lengths of program, data, schedule and result, expected number: five words of 4 bytes; 12 zeros
//!     program, data, schedule, expected data: each filled up with zeros to a multiple of 8 bytes
//!     expected result, 156 bytes, which are 0xa5 if the replay is refused and must leave the buffer alone; 4 zeros
use opinion::cases::word_of;
use opinion::replay::{self, RESULT};
use opinion::schedule::{self, Event, RECORD};
use opinion::words::{Instruction, LISTING};
use std::fs;
use std::path::Path;

const PATTERN: u8 = 0xa5;
const RUNS: &str = include_str!("stored_runs.txt");

struct Case {
    name: String,
    program: Vec<u8>,
    data: Vec<u8>,
    schedule: Vec<u8>,
    result_length: usize,
    expected: Expected,
}

/// What a case must give, found by hand.
enum Expected {
    Refusal(u32),
    Run {
        /// Accepted, refused, committed, steals, dropped, rate, halt, next.
        fields: Vec<u32>,
        /// The registers that are not 0.
        registers: Vec<(usize, u32)>,
        /// The data bytes that change.
        stores: Vec<(usize, u32)>,
    },
}

/// The rest of the line that starts with a key; empty if there is none.
fn line<'a>(block: &'a str, key: &str) -> &'a str {
    let found = block
        .lines()
        .find_map(|line| line.strip_prefix(key)?.strip_prefix(' '));
    found.unwrap_or("").trim()
}

fn number<T: std::str::FromStr>(text: &str) -> T {
    match text.trim().parse() {
        Ok(number) => number,
        Err(_) => panic!("{text} is no number"),
    }
}

/// An item and how often it stands there.
fn repeated(item: &str) -> (&str, usize) {
    match item.split_once('*') {
        Some((item, times)) => (item.trim(), number(times)),
        None => (item.trim(), 1),
    }
}

/// A word as written by operation and fields, or `word` and hexadecimal digits.
fn code_word(item: &str) -> u32 {
    let parts: Vec<&str> = item.split_whitespace().collect();
    if parts[0] == "word" {
        return u32::from_str_radix(parts[1], 16).expect("a hexadecimal word");
    }
    let called = |operation: &str| operation.to_lowercase() == parts[0];
    let row = LISTING
        .iter()
        .find(|row| called(&format!("{:?}", row.0)))
        .unwrap_or_else(|| panic!("no operation {item}"));
    let field = |place: usize| parts.get(place).map_or(0, |text| number(text));
    let [rd, rs1, rs2] = [1, 2, 3].map(|place| field(place) as u8);
    word_of(&Instruction::new(row.0, rd, rs1, rs2, field(4)))
}

fn code(text: &str) -> Vec<u8> {
    let mut bytes = vec![];
    for (item, times) in text.split(';').map(repeated) {
        bytes.extend(code_word(item).to_le_bytes().repeat(times));
    }
    bytes
}

fn event(text: &str) -> Event {
    let (kind, rest) = text.split_at(1);
    match (kind, rest) {
        ("d", "") => schedule::decode(0),
        ("d", guess) => schedule::decode(number(guess)),
        ("i", position) => schedule::issue(number(position)),
        ("c", position) => schedule::complete(number(position)),
        ("k", "") => schedule::commit(),
        _ => panic!("no event {text}"),
    }
}

fn events(text: &str) -> Vec<Event> {
    let mut events: Vec<Event> = vec![];
    for item in text.split_whitespace() {
        match item.strip_prefix('*') {
            // stands behind the event that it repeats
            Some(times) => {
                let last = *events.last().expect("an event to repeat");
                events.extend(vec![last; number::<usize>(times) - 1]);
            }
            None => events.push(event(item)),
        }
    }
    events
}

/// Places and hexadecimal values, as in `1=5`.
fn pairs(text: &str) -> Vec<(usize, u32)> {
    let pair = |item: &str| {
        let (place, value) = item.split_once('=').expect("place=value");
        let value = u32::from_str_radix(value, 16).expect("a hexadecimal value");
        (number(place), value)
    };
    text.split_whitespace().map(pair).collect()
}

fn numbers(text: &str) -> Vec<u32> {
    text.split_whitespace().map(number).collect()
}

fn run(block: &str) -> Case {
    let (name, block) = block.split_once('\n').expect("a name");
    let sizes = numbers(line(block, "sizes"));
    let length = match line(block, "data") {
        "" => 0,
        text => number(text),
    };
    Case {
        name: name.trim().into(),
        program: code(line(block, "code")),
        data: (0..length).map(|i| (128 + i) as u8).collect(),
        schedule: schedule::in_order(
            sizes[0] as u8,
            sizes[1] as u8,
            &events(line(block, "events")),
        ),
        result_length: RESULT,
        expected: Expected::Run {
            fields: numbers(line(block, "gives")),
            registers: pairs(line(block, "registers")),
            stores: pairs(line(block, "stores")),
        },
    }
}

/// The program of the cases below stores, so that a refusal shows that nothing is done: ADDI x1, x0, 5; SB x1, 1(x0);
/// ECALL. Its ten events are records 1 to 10: the store's four are 5 to 8.
fn good() -> Case {
    run("good
code addi 1 0 0 5; sb 0 0 1 1; ecall
data 4
sizes 2 32
events d i0 c0 k d i0 c0 k d k
gives 10 0 2 0 0 200 2 8
registers 1=5
stores 1=5")
}

/// A change of the good case.
enum Change {
    /// Cut, or filled up with zeros, to this length.
    Program(usize),
    Data(usize),
    Schedule(usize),
    ResultLength(usize),
    /// A byte of a record: its index, which of its bytes, and the value.
    Byte(usize, usize, u8),
    /// The next index of a record.
    Next(usize, u16),
}
use Change::*;

impl Change {
    fn make(&self, case: &mut Case) {
        match *self {
            Program(length) => case.program.resize(length, 0),
            Data(length) => case.data.resize(length, 0),
            Schedule(length) => case.schedule.resize(length, 0),
            ResultLength(length) => case.result_length = length,
            Byte(record, byte, value) => case.schedule[record * RECORD + byte] = value,
            Next(record, next) => set_next(case, record, next),
        }
    }
}

fn set_next(case: &mut Case, record: usize, next: u16) {
    case.schedule[record * RECORD + 2..][..2].copy_from_slice(&next.to_le_bytes());
}

/// The same events, the last one in record 1 and the first one in record 10.
fn against_the_files_order(case: &mut Case) {
    let records: Vec<Vec<u8>> = case.schedule[RECORD..]
        .chunks(RECORD)
        .map(<[u8]>::to_vec)
        .collect();
    for (i, record) in records.iter().enumerate() {
        let place = records.len() - i;
        case.schedule[place * RECORD..][..RECORD].copy_from_slice(record);
        set_next(case, place, place as u16 - 1);
    }
    set_next(case, 0, records.len() as u16);
}

/// Files that are unusual and good: they give what the good case gives.
const UNUSUAL: [(&str, fn(&mut Case)); 4] = [
    ("stores_and_halts", |_| {}),
    ("chain_against_the_files_order", against_the_files_order),
    ("records_off_the_chain_hold_anything", |case| {
        case.schedule.extend([0xff; 24])
    }),
    ("longest_schedule", |case| case.schedule.resize(65_536, 0)),
];

/// Cases that are refused: the name, the number, and how they differ from the good case.
#[rustfmt::skip]
const REFUSED: [(&str, u32, &[Change]); 46] = [
    ("refusal_3_program_empty", 3, &[Program(0)]),
    ("refusal_3_program_no_multiple_of_4", 3, &[Program(6)]),
    ("refusal_3_program_of_16388_bytes", 3, &[Program(16_388)]),
    ("refusal_4_data_of_16385_bytes", 4, &[Data(16_385)]),
    ("refusal_26_result_empty", 26, &[ResultLength(0)]),
    ("refusal_26_result_of_155_bytes", 26, &[ResultLength(155)]),
    ("refusal_26_result_of_157_bytes", 26, &[ResultLength(157)]),
    ("refusal_20_schedule_empty", 20, &[Schedule(0)]),
    ("refusal_20_schedule_no_multiple_of_8", 20, &[Schedule(20)]),
    ("refusal_20_schedule_of_65544_bytes", 20, &[Schedule(65_544)]),
    ("order_3_before_4", 3, &[Program(0), Data(16_385)]),
    ("order_4_before_26", 4, &[Data(16_385), ResultLength(155)]),
    ("order_26_before_20", 26, &[ResultLength(155), Schedule(20)]),
    ("order_20_before_21", 20, &[Byte(0, 0, 1), Schedule(20)]),

    ("refusal_21_record_0_of_kind_1", 21, &[Byte(0, 0, 1)]),
    ("refusal_21_record_0_byte_5_not_0", 21, &[Byte(0, 5, 1)]),
    ("refusal_21_record_0_byte_6_not_0", 21, &[Byte(0, 6, 1)]),
    ("refusal_21_record_0_byte_7_not_0", 21, &[Byte(0, 7, 1)]),
    ("refusal_1_window_0", 1, &[Byte(0, 1, 0)]),
    ("refusal_1_window_65", 1, &[Byte(0, 1, 65)]),
    ("refusal_2_registers_31", 2, &[Byte(0, 4, 31)]),
    ("refusal_2_registers_96", 2, &[Byte(0, 4, 96)]),
    ("order_21_before_1", 21, &[Byte(0, 7, 1), Byte(0, 1, 0)]),
    ("order_1_before_2", 1, &[Byte(0, 1, 0), Byte(0, 4, 31)]),
    ("order_2_before_22", 2, &[Byte(0, 4, 31), Next(0, 11)]),

    ("refusal_22_first_beyond_the_file", 22, &[Next(0, 11)]),
    ("refusal_22_next_beyond_the_file", 22, &[Next(4, 11)]),
    ("refusal_22_next_of_65535", 22, &[Next(10, 65_535)]),
    ("refusal_23_loop", 23, &[Next(10, 1)]),
    ("refusal_23_record_leads_to_itself", 23, &[Next(4, 4)]),
    ("refusal_24_kind_0", 24, &[Byte(4, 0, 0)]),
    ("refusal_24_kind_5", 24, &[Byte(4, 0, 5)]),
    ("refusal_24_kind_255", 24, &[Byte(10, 0, 255)]),
    ("refusal_25_decode_with_a_position", 25, &[Byte(1, 1, 1)]),
    ("refusal_25_issue_with_a_guess", 25, &[Byte(2, 4, 1)]),
    ("refusal_25_complete_with_a_guess", 25, &[Byte(3, 7, 1)]),
    ("refusal_25_commit_with_a_position", 25, &[Byte(4, 1, 1)]),
    ("refusal_25_commit_with_a_guess", 25, &[Byte(4, 5, 1)]),
    ("order_24_before_25_in_a_record", 24, &[Byte(4, 0, 5), Byte(4, 1, 1), Byte(4, 4, 1)]),
    ("order_24_before_25_with_kind_0", 24, &[Byte(4, 0, 0), Byte(4, 4, 1)]),
    ("order_24_before_22_of_the_index_after_it", 24, &[Byte(4, 0, 5), Next(4, 11)]),
    ("order_25_before_23_of_the_index_after_it", 25, &[Byte(4, 1, 1), Next(4, 4)]),
    ("order_22_before_24_later_in_the_file", 22, &[Next(4, 11), Byte(5, 0, 5)]),
    ("order_25_before_24_later_in_the_chain", 25, &[Byte(4, 1, 1), Byte(5, 0, 5)]),
    ("order_23_before_24_that_it_leaves_out", 23, &[Next(4, 2), Byte(5, 0, 5)]),
    ("refused_before_any_event", 24, &[Byte(10, 0, 5)]),
];

fn all_cases() -> Vec<Case> {
    let mut cases: Vec<Case> = RUNS.split("\ncase ").skip(1).map(run).collect();
    for (name, change) in UNUSUAL {
        let mut case = good();
        case.name = name.into();
        change(&mut case);
        cases.push(case);
    }
    for (name, number, changes) in REFUSED {
        let mut case = good();
        (case.name, case.expected) = (name.into(), Expected::Refusal(number));
        for change in changes {
            change.make(&mut case);
        }
        cases.push(case);
    }
    cases
}

/// The number, data and result that a case must give by hand.
fn by_hand(case: &Case) -> (u32, Vec<u8>, Vec<u8>) {
    let mut data = case.data.clone();
    match &case.expected {
        Expected::Refusal(number) => (*number, data, vec![PATTERN; case.result_length]),
        Expected::Run {
            fields,
            registers,
            stores,
        } => {
            let mut words = fields.clone();
            words.resize(39, 0);
            for &(register, value) in registers {
                words[7 + register] = value;
            }
            for &(place, value) in stores {
                data[place] = value as u8;
            }
            (
                0,
                data,
                words.iter().flat_map(|w| w.to_le_bytes()).collect(),
            )
        }
    }
}

/// The same by the second opinion.
fn by_opinion(case: &Case) -> (u32, Vec<u8>, Vec<u8>) {
    let (mut data, mut result) = (case.data.clone(), vec![PATTERN; case.result_length]);
    let number = replay::replay(&case.program, &mut data, &case.schedule, &mut result);
    (number, data, result)
}

fn push_filled(file: &mut Vec<u8>, bytes: &[u8]) {
    file.extend(bytes);
    file.resize(file.len().next_multiple_of(8), 0);
}

fn push_binary(file: &mut Vec<u8>, case: &Case) {
    let (number, data, mut result) = by_hand(case);
    let lengths = [
        case.program.len(),
        case.data.len(),
        case.schedule.len(),
        case.result_length,
    ];
    let words = lengths.map(|length| length as u32);
    for word in words.into_iter().chain([number]) {
        file.extend(word.to_le_bytes());
    }
    file.extend([0; 12]);
    for bytes in [&case.program, &case.data, &case.schedule, &data] {
        push_filled(file, bytes);
    }
    result.resize(RESULT, PATTERN);
    push_filled(file, &result);
}

fn text_line(case: &Case) -> String {
    let (name, names) = (
        &case.name,
        "accepted refused committed steals dropped rate halt",
    );
    match &case.expected {
        Expected::Refusal(number) => format!("{name} {number}\n"),
        Expected::Run { fields, .. } => {
            let counts: Vec<String> = names
                .split(' ')
                .zip(fields)
                .map(|(name, count)| format!("{name} {count}"))
                .collect();
            format!("{name} 0 {} next {:08x}\n", counts.join(" "), fields[7])
        }
    }
}

fn main() {
    let folder = std::env::args().nth(1).expect("a folder to write to");
    let cases = all_cases();
    let (mut binary, mut text) = (vec![], String::new());
    for (i, case) in cases.iter().enumerate() {
        let (hand, opinion) = (by_hand(case), by_opinion(case));
        assert!(
            hand == opinion,
            "{}: by hand {hand:x?}, found {opinion:x?}",
            case.name
        );
        let same = |other: &Case| other.name == case.name;
        assert!(!cases[..i].iter().any(same), "{} stands twice", case.name);
        push_binary(&mut binary, case);
        text += &text_line(case);
    }
    let folder = Path::new(&folder);
    fs::write(folder.join("cases.bin"), &binary).expect("cases.bin is written");
    fs::write(folder.join("cases.txt"), text).expect("cases.txt is written");
    println!("{} cases, {} bytes", cases.len(), binary.len());
}
