// lap LOG..: for each line of standard input reads every log once and asks row 40 of the witness that it leaves, and
// writes how long each took, in nanoseconds: two numbers for each log. The first line that it writes has, in the same
// way, how many checkpoints and votes each log leaves.
#[allow(dead_code)]
mod library;
#[allow(dead_code)]
mod reference;

use std::hint::black_box;
use std::io::BufRead;
use std::time::Instant;

// The call's time, and what it gives.
fn timed<T>(call: impl FnOnce() -> T) -> (u128, T) {
    let start = Instant::now();
    let given = black_box(call());
    (start.elapsed().as_nanos(), given)
}

fn main() {
    let nothing = library::Witness::nothing();
    let logs: Vec<Vec<u8>> = std::env::args().skip(1).map(|path| std::fs::read(path).expect("a log")).collect();
    let held: Vec<_> = logs.iter().map(|log| nothing.replay(log).witness).collect();
    let counts: Vec<_> = held.iter().map(|w| format!("{} {}", w.checkpoint_count, w.vote_count)).collect();
    println!("{}", counts.join(" "));
    for line in std::io::stdin().lock().lines() {
        line.expect("a line");
        let mut times = Vec::new();
        for (log, w) in logs.iter().zip(&held) {
            let (reading, _) = timed(|| nothing.replay(black_box(log)));
            let (row_40, sound) = timed(|| black_box(w).is_sound());
            assert!(sound);
            times.push(format!("{reading} {row_40}"));
        }
        println!("{}", times.join(" "));
    }
}
