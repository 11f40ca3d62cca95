//! Random tables, states and steps, as records and as images. They stand on document 01 alone and use
//! neither side.

use crate::random::Random;

pub const CEILING: u32 = 1_000_000_000;

#[derive(Clone)]
pub struct TableRecord {
    pub n: u8,
    pub s: u16,
    pub p: u16,
    pub wakes: Vec<u32>,
}

pub struct StateRecord {
    n: u8,
    clock: u32,
    hearers: u64,
    kind: u8,
    origin: u8,
    sent: u32,
    delivery: u32,
    heads: Vec<HeadRecord>,
}

struct HeadRecord {
    phase: u8,
    slot: u8,
    timeout: u32,
}

impl TableRecord {
    pub fn image(&self) -> Vec<u8> {
        let mut image = b"HTB\x01\x00".to_vec();
        image.push(self.n);
        image.extend(self.s.to_le_bytes());
        image.extend(self.p.to_le_bytes());
        for wake in &self.wakes {
            image.extend(wake.to_le_bytes());
        }
        image
    }

    /// The length of a state image.
    pub fn state_length(&self) -> usize {
        28 + 6 * self.n as usize
    }

    /// The longest wait of head i, counted from 0, in a phase after init.
    fn longest_wait(&self, phase: u8, i: usize) -> u32 {
        let (n, s) = (self.n as u32, self.s as u32);
        match phase {
            1 => (2 * n + i as u32) * s,
            2 => (n + i as u32) * s,
            _ => s,
        }
    }
}

impl StateRecord {
    pub fn image(&self) -> Vec<u8> {
        let mut image = b"HST\x01\x00".to_vec();
        image.push(self.n);
        image.extend(self.clock.to_le_bytes());
        image.extend(self.hearers.to_le_bytes());
        image.extend([self.kind, self.origin]);
        image.extend(self.sent.to_le_bytes());
        image.extend(self.delivery.to_le_bytes());
        for head in &self.heads {
            image.extend([head.phase, head.slot]);
            image.extend(head.timeout.to_le_bytes());
        }
        image
    }
}

/// A table within the limits, often at them.
pub fn table(random: &mut Random) -> TableRecord {
    let n = match random.below(8) {
        0 => 64,
        1 | 2 => random.between(5, 64) as u8,
        _ => random.between(1, 4) as u8,
    };
    let s = match random.below(8) {
        0 => 10_000,
        1 => 3,
        2 => random.between(3, 10_000) as u16,
        _ => random.between(3, 20) as u16,
    };
    let widest = (s - 1) / 2;
    let p = match random.below(3) {
        0 => 1,
        1 => widest,
        _ => random.between(1, widest as u32) as u16,
    };
    let last_wake = random.pick(&[1, 10, 100, 100, 1_000_000]);
    let wakes = (0..n).map(|_| if random.one_in(8) { last_wake } else { random.between(1, last_wake) });
    TableRecord { n, s, p, wakes: wakes.collect() }
}

/// One number of the table moved to its limits or just past them; the wakes go along with N half of the time.
pub fn nudge_table(random: &mut Random, t: &mut TableRecord) {
    match random.below(4) {
        0 => {
            t.n = random.pick(&[0, 1, 64, 65, 255, t.n.wrapping_sub(1), t.n.wrapping_add(1)]);
            if random.one_in(2) {
                t.wakes.resize(t.n as usize, 1);
            }
        }
        1 => t.s = random.pick(&[0, 1, 2, 3, 2 * t.p, 2 * t.p + 1, 10_000, 10_001, u16::MAX]),
        2 => t.p = random.pick(&[0, 1, (t.s - 1) / 2, t.s / 2, t.s / 2 + 1, t.s, 0x8000, 0x8001, u16::MAX]),
        _ => {
            let i = random.below(t.wakes.len());
            t.wakes[i] = random.pick(&[0, 1, 1_000_000, 1_000_001, u32::MAX]);
        }
    }
}

/// A state that meets the rules against the table, though as a rule no run reaches it.
pub fn state(random: &mut Random, t: &TableRecord) -> StateRecord {
    let last_wake = *t.wakes.iter().max().unwrap();
    let clock = match random.below(8) {
        0 => 0,
        1 => random.between(0, 50),
        2 | 3 => random.between(0, last_wake),
        4 => CEILING,
        5 | 6 => CEILING - random.between(0, 2 * t.s as u32),
        _ => random.between(0, CEILING),
    };
    let due = random.below(3);
    let heads = (0..t.n as usize).map(|i| head(random, t, clock, i, due)).collect();
    let mut state =
        StateRecord { n: t.n, clock, hearers: 0, kind: 0, origin: 0, sent: 0, delivery: 0, heads };
    if t.n > 1 && !random.one_in(3) {
        frame(random, t, &mut state);
    }
    state
}

/// `due`: 0 no timer, 1 some, 2 all, as far as the phase leaves a choice.
fn head(random: &mut Random, t: &TableRecord, clock: u32, i: usize, due: usize) -> HeadRecord {
    if t.wakes[i] >= clock && random.one_in(2) {
        return HeadRecord { phase: 0, slot: 0, timeout: t.wakes[i] };
    }
    let phase = random.between(1, 3) as u8;
    let longest = t.longest_wait(phase, i);
    let wait = match random.below(4) {
        _ if due == 2 => 0,
        0 | 1 if due == 1 => 0,
        0 => 1,
        1 => longest,
        _ => random.between(1, longest),
    };
    let slot = if phase == 3 { random.between(1, t.n as u32) as u8 } else { 0 };
    HeadRecord { phase, slot, timeout: clock + wait }
}

/// Puts a frame in flight, half of the time one that is to be heard now.
fn frame(random: &mut Random, t: &TableRecord, state: &mut StateRecord) {
    let origin = random.between(1, t.n as u32) as u8;
    let others = (u64::MAX >> (64 - t.n)) & !(1 << (origin - 1));
    let hearers = if random.one_in(2) { others } else { random.bits() & others };
    if hearers == 0 {
        return;
    }
    let oldest = state.clock.min(t.p as u32);
    let age = if random.one_in(2) { oldest } else { random.between(0, oldest) };
    state.hearers = hearers;
    state.kind = random.between(1, 2) as u8;
    state.origin = origin;
    state.sent = state.clock - age;
    state.delivery = state.sent + t.p as u32;
}

/// One number of the state moved a little, or to a limit or just past it.
pub fn nudge_state(random: &mut Random, t: &TableRecord, state: &mut StateRecord) {
    let near = [0, 1, 2, 3, t.n - 1, t.n, t.n + 1, 4, 255];
    match random.below(9) {
        0 => state.clock = nudged(random, state.clock, CEILING),
        1 => state.hearers ^= 1 << random.below(64),
        2 if state.origin > 0 => state.hearers ^= 1 << (state.origin - 1),
        2 | 3 => state.kind = random.pick(&near),
        4 => state.origin = random.pick(&near),
        5 => state.sent = nudged(random, state.sent, state.clock),
        6 => state.delivery = nudged(random, state.delivery, state.clock),
        _ => {
            let i = random.below(state.heads.len());
            nudge_head(random, t, state.clock, i, &mut state.heads[i]);
        }
    }
}

fn nudge_head(random: &mut Random, t: &TableRecord, clock: u32, i: usize, head: &mut HeadRecord) {
    let near = [0, 1, 2, 3, t.n, t.n + 1, 4, 255];
    match random.below(6) {
        0 => head.phase = random.pick(&near),
        1 => head.slot = random.pick(&near),
        2 => head.timeout = nudged(random, head.timeout, clock),
        3 => head.timeout = nudged(random, head.timeout, t.wakes[i]),
        _ => {
            let last = clock.wrapping_add(t.longest_wait(head.phase, i));
            head.timeout = random.pick(&[last.wrapping_sub(1), last, last.wrapping_add(1)]);
        }
    }
}

fn nudged(random: &mut Random, value: u32, limit: u32) -> u32 {
    let from = random.pick(&[value, limit]);
    random.pick(&[from.wrapping_sub(1), from, from.wrapping_add(1), 0, u32::MAX])
}

/// A byte changed, the image cut or lengthened, or any bytes in its stead.
pub fn damage(random: &mut Random, image: &mut Vec<u8>) {
    match random.below(9) {
        0 => image.truncate(random.below(image.len())),
        1 => image.truncate(image.len() - 1),
        8 => *image = (0..random.below(500)).map(|_| random.byte()).collect(),
        2 => {
            for _ in 0..=random.below(8) {
                image.push(random.byte());
            }
        }
        3 => image[random.below(10)] ^= 1 << random.below(8),
        4 => image[random.below(6)] = random.byte(),
        5 => {
            let at = random.below(image.len());
            image[at] = random.byte();
        }
        _ => {
            let at = random.below(image.len());
            image[at] ^= 1 << random.below(8);
        }
    }
}

/// A pair of bytes that is a step more often than not.
pub fn pair(random: &mut Random, n: u8) -> (u8, u8) {
    match random.below(8) {
        0 => (0, 0),
        1 => (random.byte(), random.byte()),
        2 => (random.between(0, 3) as u8, random.pick(&[0, 1, n, n + 1, 255])),
        _ => (random.between(1, 2) as u8, random.between(1, n as u32) as u8),
    }
}

/// A mistake in a list of pairs: a pair put in, taken out or taken twice, a byte changed or lost.
pub fn mistake(random: &mut Random, n: u8, pairs: &mut Vec<u8>) {
    if pairs.len() < 2 {
        pairs.push(random.byte());
        return;
    }
    let at = 2 * random.below(pairs.len() / 2);
    match random.below(5) {
        0 => {
            let (kind, head) = pair(random, n);
            pairs.splice(at..at, [kind, head]);
        }
        1 => drop(pairs.drain(at..at + 2)),
        2 => {
            let twice = [pairs[at], pairs[at + 1]];
            pairs.splice(at..at, twice);
        }
        3 => pairs[at + random.below(2)] = random.pick(&[0, 1, 2, 3, n, n + 1, 255]),
        _ => drop(pairs.remove(at)),
    }
}
