//! The two sides on the same random inputs. Stops at the first difference.

use crate::call::{Answer, Call};
use crate::random::Random;
use crate::samples::{self, TableRecord};
use crate::twin;

pub const LONGEST_LIST: usize = 256;

/// Where the inputs of a comparison come from.
#[derive(Clone, Copy)]
enum Source {
    Tables,
    Made,
    Reached,
    Runs,
    LongRuns,
}

const SOURCES: [&str; 5] = [
    "random and damaged tables",
    "states made by the rules, also damaged",
    "states reached by steps",
    "runs with and without mistakes",
    "long runs",
];
const CALLS: [&str; 6] = ["fresh", "judge", "list", "given", "policy", "sweep"];

/// Makes the comparisons and counts them, by source and call and by refusal number.
pub struct Comparison {
    random: Random,
    made: [[usize; CALLS.len()]; SOURCES.len()],
    numbers: [usize; 256],
}

impl Comparison {
    pub fn new(seed: u64) -> Comparison {
        Comparison { random: Random(seed), made: Default::default(), numbers: [0; 256] }
    }

    pub fn run(&mut self) {
        (0..100_000).for_each(|_| self.table());
        (0..100_000).for_each(|_| self.made_state());
        (0..4_000).for_each(|_| self.walk());
        (0..60).for_each(|_| self.long_runs());
        (1..=3).for_each(|n| self.ceiling(n));
    }

    pub fn print(&self) {
        print!("{:<42}", "comparisons, all equal");
        CALLS.iter().for_each(|call| print!("{call:>9}"));
        println!();
        for (source, counts) in SOURCES.iter().zip(&self.made) {
            print!("  {source:<40}");
            counts.iter().for_each(|count| print!("{count:>9}"));
            println!();
        }
        print!("  {} in all; by refusal number", self.numbers.iter().sum::<usize>());
        for (number, count) in self.numbers.iter().enumerate().filter(|(_, &count)| count > 0) {
            print!("  {number}: {count}");
        }
        println!();
    }

    /// The numbers that no comparison met. 13 is not asked for: in no fit state is the origin a hearer.
    pub fn unmet(&self) -> Vec<usize> {
        (0..=12).filter(|&number| self.numbers[number] == 0).collect()
    }

    /// A policy run is compared twice: with the twin's search and with its sweep.
    fn compare(&mut self, source: Source, table: &[u8], state: &[u8], call: Call, room: usize) -> Answer {
        if let Call::Policy(count) = call {
            self.compare(source, table, state, Call::Sweep(count), room);
        }
        let column = match call {
            Call::Fresh => 0,
            Call::Judge(..) => 1,
            Call::List => 2,
            Call::Given(_) => 3,
            Call::Policy(_) => 4,
            Call::Sweep(_) => 5,
        };
        let answer = call.both(table, state, room);
        self.made[source as usize][column] += 1;
        self.numbers[answer.number] += 1;
        answer
    }

    /// The length of a room for `needed` bytes: exact, longer or too short.
    fn room(&mut self, needed: usize) -> usize {
        match self.random.below(8) {
            0 => needed.saturating_sub(1),
            1 => self.random.below(needed + 1),
            2 => needed + 1,
            3 => needed + self.random.below(300),
            _ => needed,
        }
    }

    /// A table, most often unfit or damaged: its fresh state, and now and then the rest, with some state.
    fn table(&mut self) {
        let mut table = samples::table(&mut self.random);
        let state = samples::state(&mut self.random, &table).image();
        if !self.random.one_in(3) {
            samples::nudge_table(&mut self.random, &mut table);
        }
        let mut image = table.image();
        if self.random.one_in(3) {
            samples::damage(&mut self.random, &mut image);
        }
        let room = self.room(table.state_length());
        self.compare(Source::Tables, &image, &[], Call::Fresh, room);
        let (kind, head) = samples::pair(&mut self.random, 4);
        let call = match self.random.below(16) {
            0 => Call::Judge(kind, head),
            1 => Call::List,
            2 => Call::Given(&[0, 0, 1, 1, 2, 1]),
            3 => Call::Policy(5),
            _ => return,
        };
        self.compare(Source::Tables, &image, &state, call, room);
    }

    /// A state record that meets the rules, or just not, or its image damaged.
    fn made_state(&mut self) {
        let table = samples::table(&mut self.random);
        let mut state = samples::state(&mut self.random, &table);
        let harm = self.random.below(4);
        if harm == 0 {
            samples::nudge_state(&mut self.random, &table, &mut state);
        }
        let mut image = state.image();
        if harm == 1 {
            samples::damage(&mut self.random, &mut image);
        }
        self.all_calls(Source::Made, &table, &image);
    }

    /// Everything that takes a state, with random steps.
    fn all_calls(&mut self, source: Source, table: &TableRecord, state: &[u8]) {
        let image = table.image();
        let listed = self.compare(source, &image, state, Call::List, LONGEST_LIST);
        let room = self.room(listed.count);
        self.compare(source, &image, state, Call::List, room);

        let (kind, head) = samples::pair(&mut self.random, table.n);
        let room = self.room(table.state_length());
        self.compare(source, &image, state, Call::Judge(kind, head), room);
        if listed.count > 0 {
            let at = 2 * self.random.below(listed.count / 2);
            self.compare(source, &image, state, Call::Judge(listed.room[at], listed.room[at + 1]), room);
        }

        let mut pairs = listed.room[..listed.count].to_vec();
        for _ in 0..self.random.below(3) {
            samples::mistake(&mut self.random, table.n, &mut pairs);
        }
        let room = self.room(table.state_length());
        self.compare(source, &image, state, Call::Given(&pairs), room);

        let most = self.random.pick(&[0, 1, 2, 10, 300]);
        let count = self.random.below(most + 1);
        let room = self.room(table.state_length());
        self.compare(source, &image, state, Call::Policy(count), room);
    }

    /// A walk of random accepted steps from the fresh state, then the same steps as runs.
    fn walk(&mut self) {
        let table = samples::table(&mut self.random);
        let image = table.image();
        let length = table.state_length();
        let fresh = self.compare(Source::Reached, &image, &[], Call::Fresh, length).room;
        // Half of the walks start where the policy has brought the heads.
        let ahead = if self.random.one_in(2) { 0 } else { self.random.below(3_000) };
        let start = self.compare(Source::Reached, &image, &fresh, Call::Policy(ahead), length).room;

        let mut state = start.clone();
        let mut pairs = Vec::new();
        for _ in 0..self.random.below(120) {
            let listed = self.compare(Source::Reached, &image, &state, Call::List, LONGEST_LIST);
            if listed.count == 0 {
                break;
            }
            let at = 2 * self.random.below(listed.count / 2);
            let (kind, head) = (listed.room[at], listed.room[at + 1]);
            state = self.compare(Source::Reached, &image, &state, Call::Judge(kind, head), length).room;
            pairs.extend([kind, head]);
            if self.random.one_in(8) {
                self.all_calls(Source::Reached, &table, &state);
            }
        }
        self.runs(&table, &start, &pairs);
    }

    /// The steps as a run: whole, then in part and with mistakes in them.
    fn runs(&mut self, table: &TableRecord, start: &[u8], pairs: &[u8]) {
        let image = table.image();
        self.compare(Source::Runs, &image, start, Call::Given(pairs), table.state_length());
        for mistakes in 0..6 {
            let mut pairs = pairs[..self.random.below(pairs.len() + 1)].to_vec();
            for _ in 0..mistakes {
                samples::mistake(&mut self.random, table.n, &mut pairs);
            }
            let room = self.room(table.state_length());
            self.compare(Source::Runs, &image, start, Call::Given(&pairs), room);
        }
    }

    /// Policy runs up to the longest and past it, and about as long a run of given steps.
    fn long_runs(&mut self) {
        let mut table = samples::table(&mut self.random);
        if self.random.one_in(3) {
            table = TableRecord { n: 64, wakes: vec![table.wakes[0]; 64], ..table };
        }
        let image = table.image();
        let length = table.state_length();
        let fresh = self.compare(Source::LongRuns, &image, &[], Call::Fresh, length).room;
        let few = self.random.below(100_000);
        for count in [few, 99_999, 100_000, 100_001, few + 100_000, usize::MAX] {
            let room = self.room(length);
            self.compare(Source::LongRuns, &image, &fresh, Call::Policy(count), room);
        }
        let mut pairs = policy_pairs(&image, &fresh, few + 20_000);
        self.compare(Source::LongRuns, &image, &fresh, Call::Given(&pairs), length);
        samples::mistake(&mut self.random, table.n, &mut pairs);
        self.compare(Source::LongRuns, &image, &fresh, Call::Given(&pairs), length);
    }

    /// Longest policy runs one after the other, until the next advance would pass the ceiling.
    fn ceiling(&mut self, n: u8) {
        let table = TableRecord { n, s: 10_000, p: 1 + n as u16, wakes: vec![1_000_000; n as usize] };
        let image = table.image();
        let length = table.state_length();
        let mut state = self.compare(Source::LongRuns, &image, &[], Call::Fresh, length).room;
        loop {
            let run = self.compare(Source::LongRuns, &image, &state, Call::Policy(100_000), length);
            state = run.room;
            if run.count < 100_000 {
                break;
            }
        }
        self.compare(Source::LongRuns, &image, &state, Call::Judge(0, 0), length);
        self.compare(Source::LongRuns, &image, &state, Call::List, LONGEST_LIST);
    }
}

/// The first `count` steps of the policy from a state, as pairs; fewer where the list is empty before.
pub fn policy_pairs(table: &[u8], state: &[u8], count: usize) -> Vec<u8> {
    let mut pairs = Vec::with_capacity(2 * count);
    let mut state = state.to_vec();
    let mut next = state.clone();
    let mut list = [0; LONGEST_LIST];
    while pairs.len() < 2 * count && twin::list(table, &state, &mut list) > 0 {
        twin::judge(table, &state, list[0], list[1], &mut next);
        pairs.extend([list[0], list[1]]);
        std::mem::swap(&mut state, &mut next);
    }
    pairs
}
