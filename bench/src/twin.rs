//! Document 01's operations written by hand, as a good engineer would without a prover: in place, without
//! allocation, and with table and state checked once, when they are read. It shares no code with the library.

const MOST_HEADS: usize = 64;
const CEILING: u32 = 1_000_000_000;
const LONGEST_RUN: usize = 100_000;

// Mark and version, and the length of what stands before the heads.
const TABLE_MARK: &[u8] = b"HTB\x01\x00";
const STATE_MARK: &[u8] = b"HST\x01\x00";
const TABLE_FRONT: usize = 10;
const STATE_FRONT: usize = 28;

const COLDSTART_FRAME: u8 = 1;
const I_FRAME: u8 = 2;

/// The refusals by number. 13 is left out: in a fit state no hearer is the origin, and steps keep it so.
#[derive(Clone, Copy)]
enum Refusal {
    TableLength = 1,
    TableMark = 2,
    TableNumber = 3,
    StateLength = 4,
    StateMark = 5,
    StateRule = 6,
    NoSuchStep = 7,
    StillDue = 8,
    TimerNotDue = 9,
    HearNotDue = 10,
    PastCeiling = 11,
    ShortRoom = 12,
}

/// Heads are counted from 0 here, and from 1 in images and steps.
struct Table {
    n: usize,
    s: u32,
    p: u32,
    wakes: [u32; MOST_HEADS],
}

struct State {
    clock: u32,
    calendar: Calendar,
    heads: [Head; MOST_HEADS],
}

/// All zero while no hearer waits.
#[derive(Clone, Copy, Default)]
struct Calendar {
    hearers: u64,
    kind: u8,
    origin: u8,
    sent: u32,
    delivery: u32,
}

#[derive(Clone, Copy)]
struct Head {
    phase: Phase,
    timeout: u32,
}

#[derive(Clone, Copy)]
enum Phase {
    Init,
    Listen,
    Coldstart,
    Active { slot: u8 },
}

// The five operations, with the answers of the door: refusal number + 256 * count.

pub fn fresh(table: &[u8], room: &mut [u8]) -> u64 {
    written(write_fresh(table, room))
}

pub fn judge(table: &[u8], state: &[u8], kind: u8, head: u8, room: &mut [u8]) -> u64 {
    written(write_judged(table, state, kind, head, room))
}

pub fn list(table: &[u8], state: &[u8], room: &mut [u8]) -> u64 {
    written(write_list(table, state, room))
}

pub fn given(table: &[u8], state: &[u8], pairs: &[u8], room: &mut [u8]) -> u64 {
    let mut accepted = 0;
    let end = write_run(table, state, room, |t, s| {
        let (count, end) = s.given(t, pairs);
        accepted = count;
        end
    });
    answer(accepted, end)
}

pub fn policy(table: &[u8], state: &[u8], count: usize, room: &mut [u8]) -> u64 {
    by_policy(table, state, count, room, State::policy)
}

/// `policy` once more, by a sweep of the heads in place of a search.
pub fn sweep(table: &[u8], state: &[u8], count: usize, room: &mut [u8]) -> u64 {
    by_policy(table, state, count, room, State::sweep)
}

fn by_policy(
    table: &[u8],
    state: &[u8],
    count: usize,
    room: &mut [u8],
    play: impl FnOnce(&mut State, &Table, usize) -> usize,
) -> u64 {
    let mut accepted = 0;
    let end = write_run(table, state, room, |t, s| {
        accepted = play(s, t, count.min(LONGEST_RUN));
        Ok(())
    });
    answer(accepted, end)
}

fn write_fresh(table: &[u8], room: &mut [u8]) -> Result<usize, Refusal> {
    let t = Table::read(table)?;
    State::fresh(&t).write(&t, room)
}

fn write_judged(table: &[u8], state: &[u8], kind: u8, head: u8, room: &mut [u8]) -> Result<usize, Refusal> {
    let t = Table::read(table)?;
    let mut s = State::read(&t, state)?;
    s.step(&t, kind, head)?;
    s.write(&t, room)
}

fn write_list(table: &[u8], state: &[u8], room: &mut [u8]) -> Result<usize, Refusal> {
    let t = Table::read(table)?;
    State::read(&t, state)?.list(&t, room)
}

fn write_run(
    table: &[u8],
    state: &[u8],
    room: &mut [u8],
    play: impl FnOnce(&Table, &mut State) -> Result<(), Refusal>,
) -> Result<(), Refusal> {
    let t = Table::read(table)?;
    let mut s = State::read(&t, state)?;
    play(&t, &mut s)?;
    s.write(&t, room)?;
    Ok(())
}

fn written(bytes: Result<usize, Refusal>) -> u64 {
    match bytes {
        Ok(count) => answer(count, Ok(())),
        Err(refusal) => answer(0, Err(refusal)),
    }
}

fn answer(count: usize, end: Result<(), Refusal>) -> u64 {
    let number = match end {
        Ok(()) => 0,
        Err(refusal) => refusal as u64,
    };
    number + 256 * count as u64
}

impl Table {
    fn read(image: &[u8]) -> Result<Table, Refusal> {
        if image.len() < TABLE_FRONT {
            return Err(Refusal::TableLength);
        }
        if !image.starts_with(TABLE_MARK) {
            return Err(Refusal::TableMark);
        }
        let n = image[5] as usize;
        if !(1..=MOST_HEADS).contains(&n) {
            return Err(Refusal::TableNumber);
        }
        if image.len() != TABLE_FRONT + 4 * n {
            return Err(Refusal::TableLength);
        }
        let s = u16_at(image, 6) as u32;
        let p = u16_at(image, 8) as u32;
        if !(3..=10_000).contains(&s) || p < 1 || 2 * p >= s {
            return Err(Refusal::TableNumber);
        }
        let mut wakes = [0; MOST_HEADS];
        for (wake, bytes) in wakes.iter_mut().zip(image[TABLE_FRONT..].chunks_exact(4)) {
            *wake = u32_at(bytes, 0);
            if !(1..=1_000_000).contains(wake) {
                return Err(Refusal::TableNumber);
            }
        }
        Ok(Table { n, s, p, wakes })
    }

    fn all_heads(&self) -> u64 {
        u64::MAX >> (MOST_HEADS - self.n)
    }

    /// 2R + (i-1)S in document 01.
    fn listen_wait(&self, i: usize) -> u32 {
        (2 * self.n + i) as u32 * self.s
    }

    /// R + (i-1)S in document 01.
    fn coldstart_wait(&self, i: usize) -> u32 {
        (self.n + i) as u32 * self.s
    }
}

impl State {
    fn fresh(t: &Table) -> State {
        let heads = t.wakes.map(|wake| Head { phase: Phase::Init, timeout: wake });
        State { clock: 0, calendar: Calendar::default(), heads }
    }

    fn read(t: &Table, image: &[u8]) -> Result<State, Refusal> {
        if image.len() != STATE_FRONT + 6 * t.n {
            return Err(Refusal::StateLength);
        }
        if !image.starts_with(STATE_MARK) || image[5] as usize != t.n {
            return Err(Refusal::StateMark);
        }
        let clock = u32_at(image, 6);
        let calendar = Calendar::read(&image[10..STATE_FRONT]);
        if clock > CEILING || !calendar.fits(t, clock) {
            return Err(Refusal::StateRule);
        }
        let mut heads = [Head { phase: Phase::Init, timeout: 0 }; MOST_HEADS];
        for (i, bytes) in image[STATE_FRONT..].chunks_exact(6).enumerate() {
            heads[i] = Head::read(t, clock, i, bytes).ok_or(Refusal::StateRule)?;
        }
        Ok(State { clock, calendar, heads })
    }

    /// Writes the image at the front of the room and answers its length.
    fn write(&self, t: &Table, room: &mut [u8]) -> Result<usize, Refusal> {
        let length = STATE_FRONT + 6 * t.n;
        let image = room.get_mut(..length).ok_or(Refusal::ShortRoom)?;
        image[..5].copy_from_slice(STATE_MARK);
        image[5] = t.n as u8;
        image[6..10].copy_from_slice(&self.clock.to_le_bytes());
        self.calendar.write(&mut image[10..STATE_FRONT]);
        for (head, bytes) in self.heads.iter().zip(image[STATE_FRONT..].chunks_exact_mut(6)) {
            head.write(bytes);
        }
        Ok(length)
    }

    fn timer_due(&self, i: usize) -> bool {
        self.heads[i].timeout == self.clock
    }

    fn hear_due(&self, i: usize) -> bool {
        self.calendar.delivery == self.clock && self.calendar.hearers >> i & 1 == 1
    }

    /// The clock itself where something is due.
    fn next_instant(&self, t: &Table) -> u32 {
        let least = self.heads[..t.n].iter().fold(u32::MAX, |least, head| least.min(head.timeout));
        if self.calendar.hearers == 0 {
            least
        } else {
            least.min(self.calendar.delivery)
        }
    }

    fn step(&mut self, t: &Table, kind: u8, head: u8) -> Result<(), Refusal> {
        // Head 0 wraps to a place above every N.
        let i = (head as usize).wrapping_sub(1);
        match kind {
            0 if head == 0 => return self.advance(t),
            1 if i < t.n && self.timer_due(i) => self.timer(t, i),
            1 if i < t.n => return Err(Refusal::TimerNotDue),
            2 if i < t.n && self.hear_due(i) => self.hear(t, i),
            2 if i < t.n => return Err(Refusal::HearNotDue),
            _ => return Err(Refusal::NoSuchStep),
        }
        Ok(())
    }

    fn advance(&mut self, t: &Table) -> Result<(), Refusal> {
        let next = self.next_instant(t);
        if next == self.clock {
            return Err(Refusal::StillDue);
        }
        if next > CEILING {
            return Err(Refusal::PastCeiling);
        }
        self.clock = next;
        Ok(())
    }

    /// Head i's timer, which is due.
    fn timer(&mut self, t: &Table, i: usize) {
        let clock = self.clock;
        let head = &mut self.heads[i];
        match head.phase {
            Phase::Init => *head = Head { phase: Phase::Listen, timeout: clock + t.listen_wait(i) },
            Phase::Listen | Phase::Coldstart => {
                *head = Head { phase: Phase::Coldstart, timeout: clock + t.coldstart_wait(i) };
                self.send(t, COLDSTART_FRAME, i);
            }
            Phase::Active { slot } => {
                let slot = if (slot as usize) < t.n { slot + 1 } else { 1 };
                *head = Head { phase: Phase::Active { slot }, timeout: clock + t.s };
                if slot as usize == i + 1 {
                    self.send(t, I_FRAME, i);
                }
            }
        }
    }

    fn send(&mut self, t: &Table, kind: u8, i: usize) {
        if self.calendar.hearers != 0 {
            self.calendar.leave(i);
        } else if t.n > 1 {
            self.calendar = Calendar {
                hearers: t.all_heads() & !(1 << i),
                kind,
                origin: i as u8 + 1,
                sent: self.clock,
                delivery: self.clock + t.p,
            };
        }
    }

    /// Head i hears the frame, which is due.
    fn hear(&mut self, t: &Table, i: usize) {
        let Calendar { kind, origin, .. } = self.calendar;
        self.calendar.leave(i);
        let head = &mut self.heads[i];
        match head.phase {
            Phase::Init | Phase::Active { .. } => {}
            Phase::Listen if kind == COLDSTART_FRAME => {
                *head = Head { phase: Phase::Coldstart, timeout: self.clock + t.coldstart_wait(i) };
            }
            Phase::Listen | Phase::Coldstart => {
                *head = Head { phase: Phase::Active { slot: origin }, timeout: self.clock + t.s - t.p };
            }
        }
    }

    /// Plays the pairs: how many were accepted, and the refusal that ended the run.
    fn given(&mut self, t: &Table, pairs: &[u8]) -> (usize, Result<(), Refusal>) {
        for (accepted, pair) in pairs.chunks(2).enumerate() {
            let end = match *pair {
                [kind, head] => self.step(t, kind, head),
                _ => Err(Refusal::NoSuchStep),
            };
            if end.is_err() {
                return (accepted, end);
            }
        }
        (pairs.len() / 2, Ok(()))
    }

    /// Takes the first step of the step list up to `most` times and answers how many it took: the first head at
    /// which something is due, searched from head 1 anew for each step, its timer before its hearing.
    fn policy(&mut self, t: &Table, most: usize) -> usize {
        for taken in 0..most {
            match (0..t.n).find(|&i| self.timer_due(i) || self.hear_due(i)) {
                Some(i) if self.timer_due(i) => self.timer(t, i),
                Some(i) => self.hear(t, i),
                None => {
                    if self.advance(t).is_err() {
                        return taken;
                    }
                }
            }
        }
        most
    }

    /// The same steps without a search: one pass over the heads takes all that is due, in list order. It rests on
    /// a fact that is not proved here: no step makes another one due at the same clock.
    fn sweep(&mut self, t: &Table, most: usize) -> usize {
        let mut taken = 0;
        loop {
            for i in 0..t.n {
                if self.timer_due(i) {
                    if taken == most {
                        return taken;
                    }
                    self.timer(t, i);
                    taken += 1;
                }
                if self.hear_due(i) {
                    if taken == most {
                        return taken;
                    }
                    self.hear(t, i);
                    taken += 1;
                }
            }
            if taken == most || self.advance(t).is_err() {
                return taken;
            }
            taken += 1;
        }
    }

    /// Writes the step list at the front of the room and answers its length.
    fn list(&self, t: &Table, room: &mut [u8]) -> Result<usize, Refusal> {
        let mut pairs = [0; 4 * MOST_HEADS];
        let mut length = 0;
        for i in 0..t.n {
            if self.timer_due(i) {
                pairs[length..length + 2].copy_from_slice(&[1, i as u8 + 1]);
                length += 2;
            }
            if self.hear_due(i) {
                pairs[length..length + 2].copy_from_slice(&[2, i as u8 + 1]);
                length += 2;
            }
        }
        if length == 0 && self.next_instant(t) <= CEILING {
            length = 2;
        }
        room.get_mut(..length).ok_or(Refusal::ShortRoom)?.copy_from_slice(&pairs[..length]);
        Ok(length)
    }
}

impl Calendar {
    fn read(bytes: &[u8]) -> Calendar {
        Calendar {
            hearers: u64_at(bytes, 0),
            kind: bytes[8],
            origin: bytes[9],
            sent: u32_at(bytes, 10),
            delivery: u32_at(bytes, 14),
        }
    }

    fn write(&self, bytes: &mut [u8]) {
        bytes[..8].copy_from_slice(&self.hearers.to_le_bytes());
        bytes[8] = self.kind;
        bytes[9] = self.origin;
        bytes[10..14].copy_from_slice(&self.sent.to_le_bytes());
        bytes[14..18].copy_from_slice(&self.delivery.to_le_bytes());
    }

    fn fits(&self, t: &Table, clock: u32) -> bool {
        if self.hearers == 0 {
            return self.kind == 0 && self.origin == 0 && self.sent == 0 && self.delivery == 0;
        }
        self.hearers & !t.all_heads() == 0
            && (self.kind == COLDSTART_FRAME || self.kind == I_FRAME)
            && (1..=t.n).contains(&(self.origin as usize))
            && self.hearers >> (self.origin - 1) & 1 == 0
            && self.sent <= clock
            && self.delivery == self.sent + t.p
            && clock <= self.delivery
    }

    /// Head i is no hearer from now on; the last one to go takes the frame with it.
    fn leave(&mut self, i: usize) {
        self.hearers &= !(1 << i);
        if self.hearers == 0 {
            *self = Calendar::default();
        }
    }
}

impl Head {
    /// None where a state rule is broken.
    fn read(t: &Table, clock: u32, i: usize, bytes: &[u8]) -> Option<Head> {
        let timeout = u32_at(bytes, 2);
        let wait = timeout.checked_sub(clock)?;
        let (phase, fits) = match (bytes[0], bytes[1]) {
            (0, 0) => (Phase::Init, timeout == t.wakes[i]),
            (1, 0) => (Phase::Listen, wait <= t.listen_wait(i)),
            (2, 0) => (Phase::Coldstart, wait <= t.coldstart_wait(i)),
            (3, slot) => (Phase::Active { slot }, wait <= t.s && (1..=t.n).contains(&(slot as usize))),
            _ => return None,
        };
        fits.then_some(Head { phase, timeout })
    }

    fn write(&self, bytes: &mut [u8]) {
        let (phase, slot) = match self.phase {
            Phase::Init => (0, 0),
            Phase::Listen => (1, 0),
            Phase::Coldstart => (2, 0),
            Phase::Active { slot } => (3, slot),
        };
        bytes[0] = phase;
        bytes[1] = slot;
        bytes[2..6].copy_from_slice(&self.timeout.to_le_bytes());
    }
}

fn u16_at(bytes: &[u8], at: usize) -> u16 {
    u16::from_le_bytes([bytes[at], bytes[at + 1]])
}

fn u32_at(bytes: &[u8], at: usize) -> u32 {
    u32::from_le_bytes([bytes[at], bytes[at + 1], bytes[at + 2], bytes[at + 3]])
}

fn u64_at(bytes: &[u8], at: usize) -> u64 {
    u32_at(bytes, at) as u64 | (u32_at(bytes, at + 4) as u64) << 32
}
