//! The proved library, as the archive of its C interface, beside a twin written by hand: first whether both
//! give equal answers on many inputs, then how long each takes.

mod call;
mod compare;
mod door;
mod random;
mod samples;
mod timing;
mod twin;

use call::Call;
use compare::{policy_pairs, Comparison, LONGEST_LIST};
use std::hint::black_box;
use std::process::exit;
use timing::Figure;

const STEPS: usize = 100_000;
const LONGEST_IMAGE: usize = 28 + 6 * 64;

fn main() {
    let seed = match std::env::args().nth(1).map(|word| word.parse()) {
        None => 1,
        Some(Ok(seed)) => seed,
        Some(Err(_)) => {
            eprintln!("the argument, where there is one, is the seed: a number");
            exit(2);
        }
    };
    compare_sides(seed);
    time_sides();
}

fn compare_sides(seed: u64) {
    let mut comparison = Comparison::new(seed);
    comparison.run();
    comparison.print();
    let unmet = comparison.unmet();
    if !unmet.is_empty() {
        eprintln!("no comparison met the numbers {unmet:?}: the inputs show less than they should");
        exit(1);
    }
}

fn time_sides() {
    println!("\ntimes in nanoseconds, medians{:>18}{:>12}{:>8}", "proved", "twin", "ratio");
    let mut ratios = Vec::new();
    let mut show = |what: &str, n: u8, of: &str, figure: Figure| {
        print_figure(what, n, of, &figure);
        ratios.push(format!("ratio {what} {n} {:.2}", figure.ratio));
    };
    for n in [2, 16, 64] {
        let (table, fresh) = power_up(n);
        show("policy", n, "100,000 steps", time(&table, &fresh, Call::Policy(STEPS)));
    }
    for n in [2, 16, 64] {
        let (table, fresh) = power_up(n);
        print_figure("policy", n, "against a sweep", &time(&table, &fresh, Call::Sweep(STEPS)));
    }
    for n in [2, 16, 64] {
        let (table, fresh) = power_up(n);
        let pairs = policy_pairs(&table, &fresh, STEPS);
        show("given", n, "the same steps", time(&table, &fresh, Call::Given(&pairs)));
    }
    let (table, fresh) = power_up(64);
    let (state, list) = most_due(&table, &fresh);
    show("judge", 64, "one step", time(&table, &state, Call::Judge(list[0], list[1])));
    show("list", 64, &format!("{} steps due", list.len() / 2), time(&table, &state, Call::List));
    // The door writes and reads images only for an operation: these two are the ones that do least beside it.
    show("write", 64, "policy run of 0 steps", time(&table, &state, Call::Policy(0)));
    show("read", 64, "step 3,0, refused (7)", time(&table, &state, Call::Judge(3, 0)));
    println!("  a sweep is a twin that takes all that is due in one pass over the heads, once an instant");
    println!("  write reads both images and writes the state's again; read reads both and writes nothing\n");
    ratios.iter().for_each(|line| println!("{line}"));
}

fn print_figure(what: &str, n: u8, of: &str, figure: &Figure) {
    let Figure { proved, twin, ratio } = figure;
    println!("  {what:<7}{n:>3}  {of:<22}{proved:>12.0}{twin:>12.0}{ratio:>8.2}");
}

/// The table with S 100, P 10 and wake of head i = 1 + 37(i-1) mod 1000, and its fresh state.
fn power_up(n: u8) -> (Vec<u8>, Vec<u8>) {
    let wakes = (0..n as u32).map(|i| 1 + 37 * i % 1000).collect();
    let table = samples::TableRecord { n, s: 100, p: 10, wakes };
    let fresh = Call::Fresh.both(&table.image(), &[], table.state_length());
    (table.image(), fresh.room)
}

/// The first state of the policy run with the longest step list, and that list.
fn most_due(table: &[u8], fresh: &[u8]) -> (Vec<u8>, Vec<u8>) {
    let mut state = fresh.to_vec();
    let mut longest = (Vec::new(), Vec::new());
    for _ in 0..10_000 {
        let answer = Call::List.both(table, &state, LONGEST_LIST);
        let list = &answer.room[..answer.count];
        if list.len() > longest.1.len() {
            longest = (state.clone(), list.to_vec());
        }
        state = Call::Judge(list[0], list[1]).both(table, &state, state.len()).room;
    }
    longest
}

/// Times one call on both sides, once they have been compared on it. The inputs go through a black box every
/// time, so that no work is saved because they stay the same.
fn time(table: &[u8], state: &[u8], call: Call) -> Figure {
    call.both(table, state, LONGEST_IMAGE);
    let mut proved_room = [0; LONGEST_IMAGE];
    let mut twin_room = [0; LONGEST_IMAGE];
    timing::measure(
        || {
            let (table, state, call) = black_box((table, state, call));
            black_box(call.proved(table, state, black_box(&mut proved_room)));
        },
        || {
            let (table, state, call) = black_box((table, state, call));
            black_box(call.twin(table, state, black_box(&mut twin_room)));
        },
    )
}
