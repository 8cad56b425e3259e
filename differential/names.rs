// names EARLIER NOW FOLDER: the times of two builds of `lap`, one with an earlier library and one with that of now, on
// trees whose names are alike and on trees of random names. The two run in turn, round by round; the least of all
// rounds counts, in microseconds. The exit status is 1 where a ratio is above its bound. The logs are written into the
// folder.
#[allow(dead_code)]
mod logs;
#[allow(dead_code)]
mod random;
#[allow(dead_code)]
mod reference;

use logs::Naming;
use std::io::{BufRead, BufReader, Lines, Write};
use std::path::PathBuf;
use std::process::{Child, ChildStdin, ChildStdout, Command, Stdio};

// So many times both builds are started anew, and so many rounds each has then: where a process lies in memory changes
// its times by more than what is looked for here.
const STARTS: usize = 8;
const ROUNDS: usize = 60;

// The members of a log, who vote for each step of its tree: eight have 4,088 votes on 512 checkpoints, none has none.
const VOTING: [u16; 2] = [8, 0];

// Request K4: reading now may not be slower than earlier by a twentieth.
const READING: f64 = 1.05;

// On names that are alike, beside random names: row 40 by a tenth. Reading has more room, since on the tree whose names
// differ at the end of one word and the beginning of the next a search goes from word to word several times.
const ROW_40_TO_RANDOM: f64 = 1.1;
const READING_TO_RANDOM: f64 = 1.15;

// Each tree's name, its names, how many checkpoints it has, and the tree of random names that it is measured by.
const TREES: [(&str, Naming, usize, usize); 6] = [
    ("512 random names", Naming::Random, 512, 0),
    ("512 names alike in their first 30 bytes", Naming::Last, 512, 0),
    ("512 names alike in their last 30 bytes", Naming::First, 512, 0),
    ("512 names alike but for bytes 15 and 16", Naming::Middle, 512, 0),
    ("256 random names", Naming::Random, 256, 4),
    ("256 names alike in their first 31 bytes", Naming::Last, 256, 4),
];

// One build, running.
struct Build<'a> {
    program: &'a str,
    child: Child,
    asks: ChildStdin,
    lines: Lines<BufReader<ChildStdout>>,
}

impl<'a> Build<'a> {
    fn start(program: &'a str, paths: &[PathBuf]) -> Build<'a> {
        let started = Command::new(program).args(paths).stdin(Stdio::piped()).stdout(Stdio::piped()).spawn();
        let mut child = started.unwrap_or_else(|e| panic!("{program}: {e}"));
        let asks = child.stdin.take().unwrap();
        let lines = BufReader::new(child.stdout.take().unwrap()).lines();
        let mut build = Build { program, child, asks, lines };
        assert!(build.numbers() == counts(), "{program}: some name was not found");
        build
    }

    fn numbers(&mut self) -> Vec<f64> {
        let line = self.lines.next().unwrap_or_else(|| panic!("{} ended", self.program)).unwrap();
        line.split(' ').map(|n| n.parse().unwrap()).collect()
    }

    // The least times, where these are less.
    fn round(&mut self, best: &mut [f64]) {
        self.asks.write_all(b"\n").unwrap_or_else(|e| panic!("{}: {e}", self.program));
        for (least, time) in best.iter_mut().zip(self.numbers()) {
            *least = least.min(time / 1000.0);
        }
    }

    fn end(mut self) {
        drop(self.asks);
        assert!(self.child.wait().unwrap().success(), "{} failed", self.program);
    }
}

// The logs: each tree with votes, and without.
fn all_logs() -> impl Iterator<Item = (Naming, usize, u16)> {
    TREES.iter().flat_map(|tree| VOTING.map(|members| (tree.1, tree.2, members)))
}

// How many checkpoints and votes each log leaves, if every name is found.
fn counts() -> Vec<f64> {
    let of_one = |(_, checkpoints, members)| [checkpoints as f64, members as f64 * (checkpoints as f64 - 1.0)];
    all_logs().flat_map(of_one).collect()
}

// Whether the ratio is at most the bound; if it is not, that is said.
fn within(what: &str, tree: &str, ratio: f64, bound: f64) -> bool {
    if ratio > bound {
        eprintln!("names: {what}, {tree}: {ratio:.3} is above {bound}");
    }
    ratio <= bound
}

// One table: for each tree the times that stand at `from` of its four. Whether they are within the bounds, of now to
// earlier and of a tree to that of random names.
fn table(what: &str, from: usize, [earlier, now]: &[Vec<f64>; 2], bounds: [f64; 2]) -> bool {
    println!("{what:40} {:>9} {:>9} {:>7} {:>9}", "earlier", "now", "ratio", "to random");
    let mut good = true;
    for (k, (tree, _, _, random)) in TREES.iter().enumerate() {
        let (before, after, usual) = (earlier[4 * k + from], now[4 * k + from], now[4 * random + from]);
        println!("{tree:40} {before:9.1} {after:9.1} {:7.3} {:9.3}", after / before, after / usual);
        good &= within(what, tree, after / before, bounds[0]);
        good &= within(&format!("{what}, to random names"), tree, after / usual, bounds[1]);
    }
    good
}

fn main() {
    let words: Vec<String> = std::env::args().collect();
    let [_, earlier, now, folder] = &words[..] else {
        eprintln!("usage: names EARLIER NOW FOLDER");
        std::process::exit(2);
    };
    let mut paths = Vec::new();
    for (k, (naming, checkpoints, members)) in all_logs().enumerate() {
        let path = PathBuf::from(folder).join(format!("{k}.log"));
        std::fs::write(&path, logs::named_log(naming, checkpoints, members)).expect("a log is written");
        paths.push(path);
    }
    let mut best = [vec![f64::INFINITY; 2 * paths.len()], vec![f64::INFINITY; 2 * paths.len()]];
    for _ in 0..STARTS {
        let mut builds = [Build::start(earlier, &paths), Build::start(now, &paths)];
        for _ in 0..ROUNDS {
            builds.iter_mut().zip(&mut best).for_each(|(build, best)| build.round(best));
        }
        builds.into_iter().for_each(Build::end);
    }
    let mut good = table("checkpoints and votes, read", 0, &best, [READING, READING_TO_RANDOM]);
    good &= table("checkpoints alone, read", 2, &best, [READING, READING_TO_RANDOM]);
    good &= table("row 40, with votes", 1, &best, [f64::INFINITY, ROW_40_TO_RANDOM]);
    good &= table("row 40, without votes", 3, &best, [f64::INFINITY, ROW_40_TO_RANDOM]);
    std::process::exit(if good { 0 } else { 1 });
}
