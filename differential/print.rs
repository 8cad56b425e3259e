// Prints the reference's report of the log on standard input; with the word `list`, our list of charges; with the word
// `paper`, the board paper, or of a stopped log the report's last line alone. Built by
// rustc --edition 2021 -O differential/print.rs -o target/rust/reference_print
#[allow(dead_code)]
mod paper;
#[allow(dead_code)]
mod reference;
#[allow(dead_code)]
mod session;

use std::io::{Read, Write};

fn main() {
    session::check();
    let mut log = Vec::new();
    std::io::stdin().read_to_end(&mut log).expect("the log is read");
    let reading = reference::read_log(&log);
    let out = match std::env::args().nth(1).as_deref() {
        Some("list") => reading.witness.list(),
        Some("paper") => reading.stop_line().map_or_else(|| reading.witness.paper(), String::into_bytes),
        _ => reference::report_of(&reading).into_bytes(),
    };
    std::io::stdout().write_all(&out).expect("standard output is written");
}
