//! Long schedules for the clock: a loop that runs on and on, driven so that the window stays as full as it can.
use crate::cases::word_of;
use crate::machine::{Machine, State};
use crate::random::Random;
use crate::replay;
use crate::schedule::{self, Event};
use crate::words::{Instruction, Operation::*};
use std::collections::BTreeMap;

/// The events of the longest file.
pub const EVENTS: usize = 8_191;

/// What the events are.
#[derive(Clone, Copy, PartialEq, Eq)]
pub enum Kind {
    /// A loop of all sorts of instructions.
    Mixed,
    /// A loop of little but loads and stores.
    LoadsAndStores,
    /// Those of `Mixed`, each followed by three that are refused.
    MostlyRefused,
}

pub struct Long {
    pub program: Vec<u8>,
    pub data: Vec<u8>,
    pub schedule: Vec<u8>,
}

/// Walks 1 KiB of data again and again: loads, mixes, stores, a branch that goes by the data, a call and its return.
#[rustfmt::skip]
fn mixing() -> Vec<Instruction> {
    let row = Instruction::new;
    vec![
        row(Addi, 5, 0, 0, 0),      //  0       x5 = place
        row(Addi, 6, 0, 0, 1_024),  //  4       x6 = end
        row(Lui, 7, 0, 0, 0x1_2345),//  8       x7 = mix
        row(Lw, 10, 5, 0, 0),       // 12 word:
        row(Lbu, 11, 5, 0, 4),      // 16
        row(Xor, 12, 10, 7, 0),     // 20
        row(Slli, 13, 12, 0, 5),    // 24
        row(Srli, 14, 12, 0, 27),   // 28
        row(Or, 7, 13, 14, 0),      // 32
        row(Andi, 15, 10, 0, 3),    // 36
        row(Beq, 0, 15, 0, 12),     // 40       to 52
        row(Add, 8, 8, 11, 0),      // 44
        row(Jal, 1, 0, 0, 28),      // 48       to 76
        row(Sltu, 16, 10, 7, 0),    // 52
        row(Add, 9, 9, 16, 0),      // 56
        row(Sw, 0, 5, 12, 0),       // 60
        row(Addi, 5, 5, 0, 4),      // 64
        row(Bltu, 0, 5, 6, -56),    // 68       to 12
        row(Jal, 0, 0, 0, -72),     // 72       to 0
        row(Sub, 17, 8, 9, 0),      // 76 called:
        row(Srai, 18, 17, 0, 2),    // 80
        row(Jalr, 0, 1, 0, 0),      // 84
    ]
}

/// Copies 1 KiB of data to the next one again and again, 16 bytes a turn, by loads and stores of all sizes.
#[rustfmt::skip]
fn copying() -> Vec<Instruction> {
    let row = Instruction::new;
    vec![
        row(Addi, 5, 0, 0, 0),      //  0       x5 = place
        row(Addi, 6, 0, 0, 1_024),  //  4       x6 = end
        row(Lw, 10, 5, 0, 0),       //  8 copy:
        row(Lw, 11, 5, 0, 4),       // 12
        row(Lh, 12, 5, 0, 8),       // 16
        row(Lhu, 13, 5, 0, 10),     // 20
        row(Lb, 14, 5, 0, 12),      // 24
        row(Lbu, 15, 5, 0, 13),     // 28
        row(Lb, 16, 5, 0, 14),      // 32
        row(Lbu, 17, 5, 0, 15),     // 36
        row(Sw, 0, 5, 10, 1_024),   // 40
        row(Sw, 0, 5, 11, 1_028),   // 44
        row(Sh, 0, 5, 12, 1_032),   // 48
        row(Sh, 0, 5, 13, 1_034),   // 52
        row(Sb, 0, 5, 14, 1_036),   // 56
        row(Sb, 0, 5, 15, 1_037),   // 60
        row(Sb, 0, 5, 16, 1_038),   // 64
        row(Sb, 0, 5, 17, 1_039),   // 68
        row(Addi, 5, 5, 0, 16),     // 72
        row(Bltu, 0, 5, 6, -68),    // 76       to 8
        row(Jal, 0, 0, 0, -80),     // 80       to 0
    ]
}

/// The program that runs, and the length of its data.
fn program(kind: Kind) -> (Vec<Instruction>, usize) {
    match kind {
        Kind::Mixed | Kind::MostlyRefused => (mixing(), 1_028),
        Kind::LoadsAndStores => (copying(), 2_048),
    }
}

/// A run being recorded; guesses go by where each address went the last time.
struct Recorder {
    machine: Machine,
    program: Vec<u8>,
    data: Vec<u8>,
    last: Vec<u32>,
    events: Vec<Event>,
    /// How many refused events follow each accepted one.
    refused: usize,
    /// Draws the refused events alone, so that the accepted ones are the same without them.
    random: Random,
}

impl Recorder {
    /// Makes a call and records it, with the refused ones that follow, if it is accepted and there is room.
    fn try_call(&mut self, event: Event) -> bool {
        if self.events.len() >= EVENTS
            || replay::call(&mut self.machine, &self.program, &mut self.data, event) != 0
        {
            return false;
        }
        self.events.push(event);
        if self.refused > 0 {
            self.record_refused();
        }
        true
    }

    /// Draws one of the numbers that refuse some event now, then events that it refuses. With a number drawn for each
    /// event the second opinion took up to twice as long, most likely for branches that cannot be predicted.
    fn record_refused(&mut self) {
        let by_number = self.refused_events();
        let number = self.random.below(by_number.len());
        for _ in 0..self.refused {
            self.events.push(self.random.pick(&by_number[number]));
        }
    }

    /// The events that are refused now, those of one number together.
    fn refused_events(&self) -> Vec<Vec<Event>> {
        let mut by_number = BTreeMap::<u32, Vec<Event>>::new();
        for event in self.all_events() {
            let (mut machine, mut data) = (self.machine.clone(), self.data.clone());
            let number = replay::call(&mut machine, &self.program, &mut data, event);
            if number != 0 {
                by_number.entry(number).or_default().push(event);
            }
        }
        by_number.into_values().collect()
    }

    /// Each call at each entry, and at the first place without one.
    fn all_events(&self) -> Vec<Event> {
        let mut events = vec![schedule::decode(self.guess()), schedule::commit()];
        for position in 0..=self.machine.count() as u8 {
            events.extend([schedule::issue(position), schedule::complete(position)]);
        }
        events
    }

    fn guess(&self) -> u32 {
        let address = self.machine.fetch();
        let went = self.last.get(address as usize / 4);
        went.copied().unwrap_or(address.wrapping_add(4))
    }

    fn fill(&mut self) {
        while self.try_call(schedule::decode(self.guess())) {}
    }

    fn issue_ready(&mut self) {
        for position in 0..self.machine.count() {
            self.try_call(schedule::issue(position as u8));
        }
    }

    fn complete(&mut self, position: usize) {
        if position < self.machine.count() && self.machine.entry(position).0 == State::Issued {
            if self.try_call(schedule::complete(position as u8)) {
                let (_, address, next) = self.machine.entry(position);
                self.last[address as usize / 4] = next;
            }
        }
    }

    /// Oldest first; at times the youngest few go first, so that short register files see thefts.
    fn complete_issued(&mut self, youngest_first: bool) {
        let count = self.machine.count();
        if youngest_first {
            for position in (count.saturating_sub(8)..count).rev() {
                self.complete(position);
            }
        }
        for position in 0..count {
            self.complete(position);
        }
    }
}

pub fn long_run(kind: Kind, window: u8, registers: u8) -> Long {
    let seed = window as u64 * 256 + registers as u64;
    let mut random = Random::new(seed);
    let (instructions, length) = program(kind);
    let data = random.bytes(length);
    let words = instructions.iter().map(word_of);
    let mut recorder = Recorder {
        machine: Machine::new(window as usize, registers as usize),
        last: (0..instructions.len() as u32)
            .map(|place| place * 4 + 4)
            .collect(),
        program: words.flat_map(u32::to_le_bytes).collect(),
        data: data.clone(),
        events: vec![],
        refused: if kind == Kind::MostlyRefused { 3 } else { 0 },
        random: Random::new(seed),
    };
    while recorder.events.len() < EVENTS {
        recorder.fill();
        recorder.issue_ready();
        recorder.complete_issued(random.percent(25));
        while recorder.try_call(schedule::commit()) {}
    }
    recorder.events.truncate(EVENTS);
    Long {
        program: recorder.program,
        data,
        schedule: schedule::in_order(window, registers, &recorder.events),
    }
}
