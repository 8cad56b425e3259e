// differential SEED LOGS LISTS: the static libraries beside the reference, on generated logs, lists of charges, states,
// runs with moves of the root and requests to a guard.
// Prints what was compared; on a difference the case and both answers, and fails. A case can be made again from its seed
// and number.
mod compare;
mod growing;
mod guard;
mod library;
mod lists;
#[allow(dead_code)]
mod logs;
mod moves;
mod paper;
mod random;
mod reference;
mod report;
mod runs;
mod session;
mod states;
mod tally;
mod unmoved;

use random::Random;
use std::process::exit;
use tally::Tally;

const LISTS_PER_LOG: usize = 10;

fn argument(n: usize, otherwise: u64) -> u64 {
    match std::env::args().nth(n) {
        None => otherwise,
        Some(word) => word.parse().unwrap_or_else(|_| {
            eprintln!("not a number: {word}");
            exit(2)
        }),
    }
}

fn fail(seed: u64, case: &str, number: usize, difference: &str) -> ! {
    println!("DIFFERENCE: seed {seed}, {case} {number}: {difference}");
    exit(1)
}

// Each log meets the state that the one before left.
fn compare_logs(seed: u64, count: usize, tally: &mut Tally) {
    let mut before = library::Witness::nothing();
    for number in 0..count {
        let mut random = Random::of_case(seed, 5, number as u64);
        match compare::log(&logs::log(seed, number), &before, &mut random, tally) {
            Ok(replay) => *before = replay.witness,
            Err(difference) => fail(seed, "log", number, &difference),
        }
    }
}

fn compare_lists(seed: u64, count: usize, tally: &mut Tally) {
    for first in (0..count).step_by(LISTS_PER_LOG) {
        let log = logs::log_with_charges(seed, first);
        let ours = library::Witness::nothing().replay(&log).witness;
        let theirs = reference::read_log(&log).witness;
        for number in first..count.min(first + LISTS_PER_LOG) {
            let list = lists::list(seed, number, &theirs);
            if let Err(difference) = compare::list(&ours, &theirs, &list, tally) {
                fail(seed, "list", number, &difference);
            }
        }
    }
}

fn compare_states(seed: u64, count: usize, tally: &mut Tally) {
    for number in 0..count {
        let log = states::log(seed, number);
        let mut w = Box::new(library::Witness::nothing().replay(&log).witness);
        let mut random = Random::of_case(seed, 6, number as u64);
        states::change(&mut random, &mut w);
        if let Err(difference) = compare::state(&w, &log, b"FFP\x00\x01\x00\x00", &mut random, tally) {
            fail(seed, "state", number, &difference);
        }
    }
}

fn compare_runs(seed: u64, count: usize, tally: &mut Tally) {
    for number in 0..count {
        if let Err(difference) = runs::compare(seed, number, tally) {
            fail(seed, "run", number, &difference);
        }
    }
}

fn compare_guards(seed: u64, count: usize, tally: &mut Tally) {
    for number in 0..count {
        let compared = guard::requests(seed, number, tally).and_then(|()| guard::members(seed, number, tally));
        if let Err(difference) = compared {
            fail(seed, "guard", number, &difference);
        }
    }
}

fn main() {
    let (seed, logs, lists) = (argument(1, 1), argument(2, 5000) as usize, argument(3, 5000) as usize);
    session::check();
    let mut tally = Tally::default();
    compare_logs(seed, logs, &mut tally);
    compare_lists(seed, lists, &mut tally);
    let (states, runs, guards) = (lists / 4, 3 * lists / 10, lists / 10);
    compare_states(seed, states, &mut tally);
    compare_runs(seed, runs, &mut tally);
    compare_guards(seed, guards, &mut tally);
    tally.print();
    let missing = tally.missing();
    if !missing.is_empty() {
        println!("seed {seed}: never occurred: {}", missing.join(", "));
        exit(1);
    }
    println!("seed {seed}: {logs} logs, {lists} lists, {states} states, {runs} runs and {guards} guards agree");
}
