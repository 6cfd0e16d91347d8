//! Schedules as files: records of 8 bytes, a chain that starts at record 0, and the refusals of whoever writes one.

pub const RECORD: usize = 8;
pub const LONGEST: usize = 65_536;

pub const DECODE: u8 = 1;
pub const ISSUE: u8 = 2;
pub const COMPLETE: u8 = 3;
pub const COMMIT: u8 = 4;

#[derive(Clone, Copy, PartialEq, Eq, Debug)]
pub struct Event {
    pub kind: u8,
    pub position: u8,
    pub guess: u32,
}

pub fn decode(guess: u32) -> Event {
    Event {
        kind: DECODE,
        position: 0,
        guess,
    }
}

pub fn issue(position: u8) -> Event {
    Event {
        kind: ISSUE,
        position,
        guess: 0,
    }
}

pub fn complete(position: u8) -> Event {
    Event {
        kind: COMPLETE,
        position,
        guess: 0,
    }
}

pub fn commit() -> Event {
    Event {
        kind: COMMIT,
        position: 0,
        guess: 0,
    }
}

/// Record 0: the sizes of the machine and where the chain starts.
#[derive(Clone, Copy)]
pub struct Header {
    pub window: u8,
    pub registers: u8,
    pub first: u16,
}

impl Header {
    pub fn bytes(self) -> [u8; RECORD] {
        let [low, high] = self.first.to_le_bytes();
        [0, self.window, low, high, self.registers, 0, 0, 0]
    }
}

pub fn event_bytes(event: Event, next: u16) -> [u8; RECORD] {
    let [low, high] = next.to_le_bytes();
    let [a, b, c, d] = event.guess.to_le_bytes();
    [event.kind, event.position, low, high, a, b, c, d]
}

/// The event of a record below the file's end, and the index of the next.
pub fn record(schedule: &[u8], index: usize) -> (Event, usize) {
    let bytes: [u8; RECORD] = schedule[index * RECORD..][..RECORD]
        .try_into()
        .expect("eight bytes");
    let [kind, position, low, high, a, b, c, d] = bytes;
    let guess = u32::from_le_bytes([a, b, c, d]);
    (
        Event {
            kind,
            position,
            guess,
        },
        u16::from_le_bytes([low, high]) as usize,
    )
}

/// Events in the order of the file.
pub fn in_order(window: u8, registers: u8, events: &[Event]) -> Vec<u8> {
    let first = if events.is_empty() { 0 } else { 1 };
    let mut file = Header {
        window,
        registers,
        first,
    }
    .bytes()
    .to_vec();
    for (i, &event) in events.iter().enumerate() {
        let next = if i + 1 < events.len() {
            i as u16 + 2
        } else {
            0
        };
        file.extend(event_bytes(event, next));
    }
    file
}

/// Refusals 20, 21, 1 and 2.
pub fn header(schedule: &[u8]) -> Result<Header, u32> {
    if schedule.is_empty() || schedule.len() > LONGEST || schedule.len() % RECORD != 0 {
        return Err(20);
    }
    if schedule[0] != 0 || schedule[5..8] != [0, 0, 0] {
        return Err(21);
    }
    let header = Header {
        window: schedule[1],
        registers: schedule[4],
        first: u16::from_le_bytes([schedule[2], schedule[3]]),
    };
    if !(1..=64).contains(&header.window) {
        return Err(1);
    }
    if !(32..=95).contains(&header.registers) {
        return Err(2);
    }
    Ok(header)
}

/// Refusals 22 to 25, record after record along the chain.
pub fn check_chain(schedule: &[u8], first: usize) -> Result<(), u32> {
    let mut reached = [0u64; LONGEST / RECORD / 64];
    let mut index = first;
    while index != 0 {
        if index >= schedule.len() / RECORD {
            return Err(22);
        }
        let bit = 1 << (index % 64);
        if reached[index / 64] & bit != 0 {
            return Err(23);
        }
        reached[index / 64] |= bit;
        let (event, next) = record(schedule, index);
        check_event(event)?;
        index = next;
    }
    Ok(())
}

/// Refusals 24 and 25.
fn check_event(event: Event) -> Result<(), u32> {
    let unwanted = match event.kind {
        DECODE => event.position != 0,
        ISSUE | COMPLETE => event.guess != 0,
        COMMIT => event.position != 0 || event.guess != 0,
        _ => return Err(24),
    };
    if unwanted {
        return Err(25);
    }
    Ok(())
}
