//! One call put to either side, and to both: the answer and every byte of the room must be equal.

use crate::{door, twin};
use std::process::exit;

/// Bytes before and after each room, which neither side may touch.
const FENCE: usize = 16;

#[derive(Clone, Copy, Debug)]
pub enum Call<'a> {
    Fresh,
    Judge(u8, u8),
    List,
    Given(&'a [u8]),
    Policy(usize),
    /// The library's policy run beside the twin's sweep.
    Sweep(usize),
}

pub struct Answer {
    pub number: usize,
    pub count: usize,
    pub room: Vec<u8>,
}

impl Call<'_> {
    pub fn proved(self, table: &[u8], state: &[u8], room: &mut [u8]) -> u64 {
        match self {
            Call::Fresh => door::fresh(table, room),
            Call::Judge(kind, head) => door::judge(table, state, kind, head, room),
            Call::List => door::list(table, state, room),
            Call::Given(pairs) => door::given(table, state, pairs, room),
            Call::Policy(count) | Call::Sweep(count) => door::policy(table, state, count, room),
        }
    }

    pub fn twin(self, table: &[u8], state: &[u8], room: &mut [u8]) -> u64 {
        match self {
            Call::Fresh => twin::fresh(table, room),
            Call::Judge(kind, head) => twin::judge(table, state, kind, head, room),
            Call::List => twin::list(table, state, room),
            Call::Given(pairs) => twin::given(table, state, pairs, room),
            Call::Policy(count) => twin::policy(table, state, count, room),
            Call::Sweep(count) => twin::sweep(table, state, count, room),
        }
    }

    /// Asks both sides, with rooms filled with the same pattern, and stops the program where they differ.
    pub fn both(self, table: &[u8], state: &[u8], room_length: usize) -> Answer {
        let mut proved_room = pattern(room_length + 2 * FENCE);
        let mut twin_room = proved_room.clone();
        let room = FENCE..FENCE + room_length;
        let proved = self.proved(table, state, &mut proved_room[room.clone()]);
        let twin = self.twin(table, state, &mut twin_room[room.clone()]);
        if proved != twin || proved_room != twin_room {
            eprintln!("DIFFERENCE in {}, room of {room_length} bytes between fences of {FENCE}", self.name());
            eprintln!("table:  {}\nstate:  {}", hex(table), hex(state));
            eprintln!("proved: {}", told(proved, &proved_room));
            eprintln!("twin:   {}", told(twin, &twin_room));
            exit(1);
        }
        let room = proved_room[room].to_vec();
        Answer { number: proved as usize % 256, count: proved as usize / 256, room }
    }

    fn name(self) -> String {
        match self {
            Call::Given(pairs) => format!("given {}", hex(pairs)),
            other => format!("{other:?}").to_lowercase(),
        }
    }
}

fn pattern(length: usize) -> Vec<u8> {
    (0..length).map(|i| 0xA5 ^ (i as u8).wrapping_mul(29)).collect()
}

fn told(answer: u64, room: &[u8]) -> String {
    format!("{} + 256 * {}, room and fences {}", answer % 256, answer / 256, hex(room))
}

fn hex(bytes: &[u8]) -> String {
    bytes.iter().map(|byte| format!("{byte:02x}")).collect()
}
