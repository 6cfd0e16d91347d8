//! Holds the product's replay and encoder against the second opinion on random cases, and what both committed against
//! the program run in order. Started by the script `compare`; arguments: how many cases, the seed, and the first case's
//! index, which lets one case be run alone.
mod cirnhogul;

use opinion::cases::{self, Case, SORTS};
use opinion::in_order;
use opinion::machine::Fences;
use opinion::random::Random;
use opinion::replay::{self, Counts};
use opinion::words;
use std::process::ExitCode;

extern "C" {
    fn cirnhogul_encode(operation: u32, rd: u32, rs1: u32, rs2: u32, constant: i32) -> u64;
}

/// One case in eight is the encoder's.
const ENCODER_SHARE: u64 = 8;
/// Differences that are told in full.
const TOLD: u64 = 5;
/// Bytes on both sides of each lent buffer, so that a write outside of it is seen.
const MARGIN: usize = 32;
const PATTERN: u8 = 0xa5;

/// A lent buffer between two margins.
struct Lent(Vec<u8>);

impl Lent {
    fn new(content: &[u8]) -> Lent {
        let margin = [PATTERN; MARGIN];
        Lent([&margin, content, &margin].concat())
    }

    fn inner(&mut self) -> &mut [u8] {
        let end = self.0.len() - MARGIN;
        &mut self.0[MARGIN..end]
    }

    /// The first byte where two differ, counted from the start of the lent part.
    fn first_difference(&self, other: &Lent) -> Option<isize> {
        let at = self.0.iter().zip(&other.0).position(|(a, b)| a != b)?;
        Some(at as isize - MARGIN as isize)
    }
}

/// What occurred, so that a reader sees what the cases met.
#[derive(Default)]
struct Tally {
    sorts: [u64; 4],
    replays: [u64; 32],
    events: [u64; 17],
    halts: [u64; 8],
    steals: u64,
    with_steals: u64,
    dropped: u64,
    with_drops: u64,
    /// Entries that held FENCE: issued, committed, dropped.
    fences: [u64; 3],
    committed: u64,
    /// Replays whose rate is an exact half: with the even neighbour below, and above.
    half_rates: [u64; 2],
    encoded: u64,
    not_encoded: u64,
}

impl Tally {
    fn add(&mut self, case: &Case, outcome: &Result<Counts, u32>) {
        self.sorts[case.sort] += 1;
        let counts = match outcome {
            Err(number) => {
                self.replays[*number as usize] += 1;
                return;
            }
            Ok(counts) => counts,
        };
        self.replays[0] += 1;
        for (all, one) in self.events.iter_mut().zip(counts.answers) {
            *all += one as u64;
        }
        self.halts[counts.halt as usize] += 1;
        self.steals += counts.steals as u64;
        self.with_steals += (counts.steals > 0) as u64;
        self.dropped += counts.dropped as u64;
        self.with_drops += (counts.dropped > 0) as u64;
        self.add_fences(counts.fences);
        self.committed += counts.committed as u64;
        if let Some(below) = below_a_half(counts) {
            self.half_rates[below as usize % 2] += 1;
        }
    }

    fn add_fences(&mut self, fences: Fences) {
        let counted = [fences.issued, fences.committed, fences.dropped];
        for (all, one) in self.fences.iter_mut().zip(counted) {
            *all += one as u64;
        }
    }

    fn print(&self) {
        for (sort, count) in SORTS.iter().zip(self.sorts) {
            println!("{sort}: {count} cases");
        }
        println!("replays made: {}", self.replays[0]);
        for number in [1, 2, 3, 4, 20, 21, 22, 23, 24, 25, 26] {
            println!("replays refused by {number}: {}", self.replays[number]);
        }
        println!("events accepted: {}", self.events[0]);
        for number in 10..=16 {
            println!("events refused by {number}: {}", self.events[number]);
        }
        println!("runs without a halt: {}", self.halts[0]);
        for cause in 1..=7 {
            println!("halts with cause {cause}: {}", self.halts[cause]);
        }
        println!("committed: {}", self.committed);
        for (neighbour, count) in ["below", "above"].iter().zip(self.half_rates) {
            println!("rates of an exact half, the even neighbour {neighbour}: {count}");
        }
        println!("steals: {} in {} runs", self.steals, self.with_steals);
        println!(
            "dropped entries: {} in {} runs",
            self.dropped, self.with_drops
        );
        let [issued, committed, dropped] = self.fences;
        println!("FENCE: {issued} issued, {committed} committed, {dropped} dropped");
        println!(
            "encoder: {} words, {} refused by 30",
            self.encoded, self.not_encoded
        );
    }
}

/// The whole number below the rate, where that is an exact half.
fn below_a_half(counts: &Counts) -> Option<u64> {
    let (dividend, divisor) = (counts.committed as u64 * 1_000, counts.answers[0] as u64);
    let half = divisor > 0 && 2 * (dividend % divisor) == divisor;
    half.then(|| dividend / divisor)
}

/// What differs in a case, if anything does.
fn compare_replay(case: &Case, tally: &mut Tally) -> Option<String> {
    let filled = vec![PATTERN; case.result_length];
    let (mut expected_data, mut expected_result) = (Lent::new(&case.data), Lent::new(&filled));
    let (mut data, mut result) = (Lent::new(&case.data), Lent::new(&filled));
    let outcome = replay::counted(
        &case.program,
        expected_data.inner(),
        &case.schedule,
        expected_result.inner(),
    );
    tally.add(case, &outcome);
    let expected = outcome.as_ref().err().copied().unwrap_or(0);
    let number = cirnhogul::replay(&case.program, data.inner(), &case.schedule, result.inner());
    if number != expected {
        return Some(format!("number {number}, expected {expected}"));
    }
    if let Some(at) = expected_data.first_difference(&data) {
        return Some(format!("number {number}, data differ from byte {at}"));
    }
    if let Some(at) = expected_result.first_difference(&result) {
        let word = at.div_euclid(4);
        return Some(format!(
            "number {number}, results differ from byte {at}, word {word}"
        ));
    }
    let counts = outcome.ok()?;
    let agrees = agrees_in_order(case, &counts, data.inner(), result.inner());
    (!agrees).then(|| "both differ from the program run in order".into())
}

/// Whether data, next address and registers are those of as many steps in order, and a halt is what the next step meets.
fn agrees_in_order(case: &Case, counts: &Counts, data: &[u8], result: &[u8]) -> bool {
    let mut in_order_data = case.data.clone();
    let ran = in_order::run(&case.program, &mut in_order_data, counts.committed);
    let Ok((registers, next)) = ran else {
        return false;
    };
    let words = [&[next], &registers[1..]].concat();
    let bytes: Vec<u8> = words.iter().flat_map(|word| word.to_le_bytes()).collect();
    let further = in_order::run(&case.program, &mut case.data.clone(), counts.committed + 1);
    let stops = counts.halt == 0 || further == Err(counts.halt);
    data == in_order_data && result[28..] == bytes && stops
}

fn compare_encode(seed: u64, tally: &mut Tally) -> Option<String> {
    let (operation, rd, rs1, rs2, constant) = cases::fields(seed);
    let expected = words::encode(operation, rd, rs1, rs2, constant);
    match expected >> 32 {
        0 => tally.encoded += 1,
        _ => tally.not_encoded += 1,
    }
    // SAFETY: the encoder takes any numbers.
    let got = unsafe { cirnhogul_encode(operation, rd, rs1, rs2, constant) };
    if got == expected {
        return None;
    }
    let fields = format!("{operation}, {rd}, {rs1}, {rs2}, {constant}");
    Some(format!(
        "encode({fields}) gives {got:#x}, expected {expected:#x}"
    ))
}

/// What a reader needs to see of a case.
fn parameters(case: &Case) -> String {
    let byte = |at: usize| case.schedule.get(at).copied().unwrap_or(0);
    format!(
        "{}, W {}, N {}, program {} bytes, data {}, schedule {}, result {}",
        SORTS[case.sort],
        byte(1),
        byte(4),
        case.program.len(),
        case.data.len(),
        case.schedule.len(),
        case.result_length
    )
}

/// Runs a case and tells what differs.
fn compare(index: u64, seed: u64, tally: &mut Tally) -> Option<String> {
    // seeds of neighbours must not make the same numbers shifted by one
    let case_seed = Random::new(seed ^ index.wrapping_mul(0xd134_2543_de82_ef95)).word();
    if index % ENCODER_SHARE == 0 {
        return compare_encode(case_seed, tally);
    }
    let case = cases::case(case_seed);
    let difference = compare_replay(&case, tally)?;
    Some(format!("{difference}; {}", parameters(&case)))
}

fn argument(place: usize, otherwise: u64) -> u64 {
    std::env::args().nth(place).map_or(otherwise, |text| {
        text.parse().expect("arguments are numbers")
    })
}

fn main() -> ExitCode {
    let (count, seed, first) = (argument(1, 100_000), argument(2, 1), argument(3, 0));
    let mut tally = Tally::default();
    let mut differences = 0;
    for index in first..first + count {
        if let Some(difference) = compare(index, seed, &mut tally) {
            differences += 1;
            if differences <= TOLD {
                println!("case {index} of seed {seed}: {difference}");
            }
        }
    }
    tally.print();
    println!("{count} cases, {differences} differences");
    ExitCode::from((differences > 0) as u8)
}
