//! Times the product's replay and the second opinion's on the same long schedules, in turn. Started by the script
//! `speed`; docs/SPEED.md says what the figures mean.
mod cirnhogul;
mod markdown;

use markdown::Table;
use opinion::long_run::{long_run, Kind, Long, EVENTS};
use opinion::replay::{self, Counts, RESULT};
use std::hint::black_box;
use std::time::{Duration, Instant};

type Replay = fn(&[u8], &mut [u8], &[u8], &mut [u8]) -> u32;

/// Samples of each replay, taken in turn; the least time counts, since others only add to it.
const SAMPLES: usize = 150;
/// A sample repeats its replay for at least this long. It is short: one that nothing else disturbs is soon among them.
const SAMPLE: Duration = Duration::from_millis(1);

/// What the events are, W and N.
const ROWS: [(Kind, u8, u8); 13] = [
    (Kind::Mixed, 1, 32),
    (Kind::Mixed, 1, 64),
    (Kind::Mixed, 1, 95),
    (Kind::Mixed, 8, 32),
    (Kind::Mixed, 8, 64),
    (Kind::Mixed, 8, 95),
    (Kind::Mixed, 64, 32),
    (Kind::Mixed, 64, 64),
    (Kind::Mixed, 64, 95),
    (Kind::LoadsAndStores, 8, 64),
    (Kind::LoadsAndStores, 64, 64),
    (Kind::MostlyRefused, 8, 35),
    (Kind::MostlyRefused, 64, 35),
];

fn name(kind: Kind) -> &'static str {
    match kind {
        Kind::Mixed => "mixed",
        Kind::LoadsAndStores => "loads and stores",
        Kind::MostlyRefused => "three of four refused",
    }
}

/// The time of this many replays, each from the same data.
fn time(replay: Replay, long: &Long, times: u32) -> Duration {
    let mut data = long.data.clone();
    let mut result = [0; RESULT];
    let began = Instant::now();
    for _ in 0..times {
        data.copy_from_slice(&long.data);
        let number = replay(&long.program, &mut data, &long.schedule, &mut result);
        assert_eq!(black_box(number), 0);
        black_box(&mut result);
    }
    began.elapsed()
}

/// How many replays make a sample.
fn repetitions(replay: Replay, long: &Long) -> u32 {
    let mut times = 1;
    while time(replay, long, times) < SAMPLE {
        times *= 2;
    }
    times
}

/// Nanoseconds an event of both, the product's first.
fn best(long: &Long) -> [f64; 2] {
    let both: [Replay; 2] = [cirnhogul::replay, replay::replay];
    let times = both.map(|replay| repetitions(replay, long));
    let mut least = [f64::INFINITY; 2];
    for _ in 0..SAMPLES {
        for (i, replay) in both.into_iter().enumerate() {
            let took = time(replay, long, times[i]).as_secs_f64();
            least[i] = least[i].min(took * 1e9 / times[i] as f64 / EVENTS as f64);
        }
    }
    least
}

/// What the second opinion counts; the product must leave the same result and data.
fn counts(long: &Long) -> Counts {
    let Long {
        program,
        data,
        schedule,
    } = long;
    let (mut ours, mut result) = (data.clone(), [0; RESULT]);
    let number = cirnhogul::replay(program, &mut ours, schedule, &mut result);
    let (mut theirs, mut expected) = (data.clone(), [0; RESULT]);
    let counts = replay::counted(program, &mut theirs, schedule, &mut expected);
    let same = (number, ours, result) == (0, theirs, expected);
    assert!(same, "the two replays differ");
    counts.expect("a schedule that replay takes")
}

/// With a comma before the last three of more digits; a count of events has at most four.
fn grouped(count: u32) -> String {
    match count {
        0..=999 => format!("{count}"),
        _ => format!("{},{:03}", count / 1_000, count % 1_000),
    }
}

const NAMES: [&str; 11] = [
    "events",
    "W",
    "N",
    "ns an event",
    "million a second",
    "second opinion, ns",
    "ratio",
    "committed",
    "steals",
    "dropped",
    "refused",
];

/// Times a row and prints it; hands back what was counted.
fn row(table: &Table<11>, kind: Kind, window: u8, registers: u8) -> Counts {
    let long = long_run(kind, window, registers);
    let counts = counts(&long);
    let [product, opinion] = best(&long);
    table.line([
        name(kind),
        &format!("{window}"),
        &format!("{registers}"),
        &format!("{product:.1}"),
        &format!("{:.2}", 1e3 / product),
        &format!("{opinion:.1}"),
        &format!("{:.2}", product / opinion),
        &grouped(counts.committed),
        &grouped(counts.steals),
        &grouped(counts.dropped),
        &grouped(counts.answers[1..].iter().sum()),
    ]);
    counts
}

/// How often each of 11 to 16 refused an event, in the rows with refused ones.
fn print_refusals(counted: &[(u8, u8, Counts)]) {
    let table = Table([10, 5, 5, 5, 5, 5, 5]);
    let names = ["", "11", "12", "13", "14", "15", "16"];
    table.head("Refused events by number.", names);
    for (window, registers, counts) in counted {
        let sizes = format!("W {window}, N {registers}");
        let [a, b, c, d, e, f] =
            [11, 12, 13, 14, 15, 16].map(|number| grouped(counts.answers[number]));
        table.line([&sizes, &a, &b, &c, &d, &e, &f]);
    }
}

fn main() {
    let table = Table([21, 2, 2, 11, 16, 18, 5, 9, 6, 7, 7]);
    let events = grouped(EVENTS as u32);
    table.head(&format!("{events} events a replay. Results agree."), NAMES);
    let mut refused = vec![];
    for (kind, window, registers) in ROWS {
        let counts = row(&table, kind, window, registers);
        if kind == Kind::MostlyRefused {
            refused.push((window, registers, counts));
        }
    }
    print_refusals(&refused);
}
