// bench: the library's time beside plain Rust's, in one run: both at -O, in turn, the least of several rounds. Times are in
// microseconds. A call of the library that takes a state checks it first (row 40); where a line says so that check's
// own time is taken off.
#[allow(dead_code)]
mod growing;
mod hashed;
#[allow(dead_code)]
mod library;
#[allow(dead_code)]
mod logs;
#[allow(dead_code)]
mod paper;
mod plain;
#[allow(dead_code)]
mod random;
#[allow(dead_code)]
mod reference;
#[allow(dead_code)]
mod session;
#[allow(dead_code)]
mod states;

use std::collections::HashMap;
use std::hint::black_box;
use std::time::Instant;

const ROUNDS: usize = 15;

// So many votes more than a witness holds: each is searched for like one that is taken, and then refused by row 36. The
// time of one record into a full witness is the time that a log takes longer with them.
const MORE: usize = 8000;

// So many bundles of 128 votes fill a witness.
const BUNDLES: usize = 32;

// What is timed: a name, and a call.
type Timed<'a> = (&'static str, Box<dyn FnMut() + 'a>);

// The result is made, and nothing is done with it.
fn done<T>(result: T) {
    black_box(result);
}

// The least time of each in microseconds, each round running all of them in turn.
fn least(mut timed: Vec<Timed>) -> HashMap<&'static str, f64> {
    let mut best: HashMap<&str, f64> = timed.iter().map(|(name, _)| (*name, f64::INFINITY)).collect();
    for _ in 0..ROUNDS {
        for (name, call) in &mut timed {
            let start = Instant::now();
            call();
            let time = start.elapsed().as_secs_f64() * 1e6;
            best.entry(*name).and_modify(|b| *b = b.min(time));
        }
    }
    best
}

fn line(what: &str, ours: f64, other: &str, theirs: f64) {
    println!("{what:44} {ours:10.2} {theirs:10.2} {:7.2}  {other}", ours / theirs);
}

// The report of a log that is there whole and has few refused records: three calls.
fn report(before: &library::Witness, log: &[u8], lines: &mut [u8]) -> Vec<u8> {
    let opened = before.open(log, false, lines);
    let fed = opened.witness.feed(opened.records, log, opened.next, lines);
    let mut text = lines[..fed.written].to_vec();
    let closed = fed.witness.close(fed.records, log.len() - fed.next, lines);
    text.extend(&lines[..closed.written]);
    text
}

// Bundles of everyone's votes, which fill a witness that has none: beside plain Rust, and beside the same votes as
// single records. The time of the members and checkpoints before them is taken off.
fn bundles(nothing: &library::Witness) {
    let before = logs::carried_log(1, 0, true);
    let bundled = logs::carried_log(1, BUNDLES, true);
    let single = logs::carried_log(1, BUNDLES, false);
    let records = &bundled[before.len()..];
    let held = nothing.replay(&bundled).witness;
    let mut reader = hashed::Reader::of(&nothing.replay(&before).witness);
    let mut place = library::Witness::nothing();
    assert!(held.vote_count == 4096 && held == nothing.replay(&single).witness);
    assert!(plain::read_log(&mut place, &bundled) == 0 && *place == held);
    assert!(reader.read_bundles(records) == 0 && *reader.witness == held);

    let times = least(vec![
        ("before", Box::new(|| done(nothing.replay(black_box(&before))))),
        ("bundles", Box::new(|| done(nothing.replay(black_box(&bundled))))),
        ("single votes", Box::new(|| done(nothing.replay(black_box(&single))))),
        ("plain: bundles", Box::new(|| done(reader.read_bundles(black_box(records))))),
        ("hashed: before", Box::new(|| done(reference::read_log(black_box(&before))))),
        ("hashed: bundles", Box::new(|| done(reference::read_log(black_box(&bundled))))),
    ]);
    let ours = times["bundles"] - times["before"];
    let hashed = times["hashed: bundles"] - times["hashed: before"];
    let each = BUNDLES as f64;
    line("a bundle of 128 votes", ours / each, "the reference", hashed / each);
    line("a bundle of 128 votes", ours / each, "plain Rust, hash map and set", times["plain: bundles"] / each);
    line("32 bundles of 128 beside 4,096 votes", ours, "the library", times["single votes"] - times["before"]);
}

// A move of the root up a chain with 32 final checkpoints: half of 4,096 votes are dropped.
fn moves(nothing: &library::Witness) {
    let log = logs::finals_log(1, 32);
    let held = nothing.replay(&log).witness;
    let hashed = reference::read_log(&log).witness;
    let moved = held.move_root(16);
    assert!(held.checkpoint_count == 512 && held.vote_count == 4096 && moved.refused == 0);
    assert!(moved.witness.checkpoint_count == 496 && moved.witness.vote_count == 2048 && hashed.move_root(16).is_ok());

    let times = least(vec![
        ("ours: move", Box::new(|| done(black_box(&held).move_root(16)))),
        ("ours: row 40", Box::new(|| done(black_box(&held).is_sound()))),
        ("hashed: move", Box::new(|| done(black_box(&hashed).move_root(16).is_ok()))),
    ]);
    let ours = times["ours: move"] - times["ours: row 40"];
    line("moving the root, less row 40", ours, "the reference", times["hashed: move"]);
}

fn main() {
    session::check();
    let full = logs::full_log(1, 4096);
    let nearly = &full[..full.len() - 75];
    let further = logs::full_log(1, 4095 + MORE);
    let nothing = library::Witness::nothing();
    let held = nothing.replay(&full).witness;
    let hashed = reference::read_log(&full).witness;
    let almost = nothing.replay(nearly).witness;
    let list = hashed.list();
    assert!(held.vote_count == 4096 && held.checkpoint_count == 512 && held.member_count == 128);
    assert!(further.len() == nearly.len() + 75 * MORE && hashed.votes.len() == 4096 && list.len() > 7);
    assert!(report(&nothing, &full, &mut vec![0; 65536]) == reference::report(&full).into_bytes());
    let mut place = library::Witness::nothing();
    let mut second = library::Witness::nothing();
    assert!(plain::read_log(&mut place, &full) == 0 && *place == held && plain::is_sound(&held) && states::is_sound(&held));
    let mut buffer = vec![0; 1000];
    let mut lines = vec![0; 65536];
    let mut sheets = vec![0; paper::LONGEST];
    assert!(held.write_paper(&mut sheets) == Ok(paper::LONGEST as u64) && sheets == hashed.paper());

    let times = least(vec![
        ("ours: log", Box::new(|| done(nothing.replay(black_box(nearly))))),
        ("ours: log and more", Box::new(|| done(nothing.replay(black_box(&further))))),
        ("plain: log", Box::new(|| done(plain::read_log(&mut place, black_box(nearly))))),
        ("plain: log and more", Box::new(|| done(plain::read_log(&mut second, black_box(&further))))),
        ("hashed: log", Box::new(|| done(reference::read_log(black_box(nearly))))),
        ("hashed: log and more", Box::new(|| done(reference::read_log(black_box(&further))))),
        ("ours: report", Box::new(|| done(report(&nothing, black_box(&full), &mut lines)))),
        ("hashed: report", Box::new(|| done(reference::report(black_box(&full))))),
        ("ours: row 40", Box::new(|| done(black_box(&held).is_sound()))),
        ("plain: row 40", Box::new(|| done(plain::is_sound(black_box(&held))))),
        ("hashed: row 40", Box::new(|| done(states::is_sound(black_box(&held))))),
        ("ours: standing", Box::new(|| done(black_box(&held).status(511)))),
        ("hashed: standings", Box::new(|| done(black_box(&hashed).statuses()))),
        ("ours: check", Box::new(|| done(black_box(&held).check(&list)))),
        ("hashed: check", Box::new(|| done(black_box(&hashed).check(&list)))),
        ("ours: list", Box::new(|| done(black_box(&held).write_list(&mut buffer)))),
        ("hashed: list", Box::new(|| done(black_box(&hashed).list()))),
        ("ours: paper", Box::new(|| done(black_box(&held).write_paper(&mut sheets)))),
        ("hashed: paper", Box::new(|| done(black_box(&hashed).paper()))),
        ("ours: one record", Box::new(|| done(black_box(&almost).read(&full, nearly.len())))),
        ("ours: row 40, one vote less", Box::new(|| done(black_box(&almost).is_sound()))),
    ]);
    let t = |name: &str| times[name];
    let each = |who: &str| (t(&format!("{who}: log and more")) - t(&format!("{who}: log"))) / MORE as f64;

    println!("{:44} {:>10} {:>10} {:>7}  beside", "128 members, 512 checkpoints, 4,096 votes", "ours", "theirs", "ratio");
    line("the log to its report, row 40 with it", t("ours: report"), "the reference", t("hashed: report"));
    line("the log, read whole", t("ours: log"), "plain Rust, in place", t("plain: log"));
    line("the log, read whole", t("ours: log"), "the reference", t("hashed: log"));
    line("a record into a full witness, no row 40", each("ours"), "plain Rust, in place", each("plain"));
    line("a record into a full witness, no row 40", each("ours"), "the reference", each("hashed"));
    line("row 40", t("ours: row 40"), "plain Rust, arrays", t("plain: row 40"));
    line("row 40", t("ours: row 40"), "hash sets", t("hashed: row 40"));
    line("a record, row 40 with it", t("ours: one record"), "plain Rust, arrays", t("plain: row 40") + each("plain"));
    line("all standings, less row 40", t("ours: standing") - t("ours: row 40"), "the reference", t("hashed: standings"));
    line("a list's check, row 40 with it", t("ours: check"), "the reference", t("hashed: check") + t("hashed: row 40"));
    line("our list, less row 40", t("ours: list") - t("ours: row 40"), "the reference", t("hashed: list"));
    line("the board paper, less row 40", t("ours: paper") - t("ours: row 40"), "the reference", t("hashed: paper"));
    bundles(&nothing);
    moves(&nothing);
    println!("a record by a call of its own: {:.2} of which row 40 {:.2}", t("ours: one record"), t("ours: row 40, one vote less"));
}
