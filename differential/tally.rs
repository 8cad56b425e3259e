// What occurred, counted: a generator that misses a row of the table compares nothing there.
use crate::library;
use crate::paper::{self, Link};
use crate::reference::{Hindrance, Outcome, Quota, Reading, Refusal, Status, Vote, Witness};
use crate::reference::{MAX_BOND, MAX_MEMBERS, MAX_ROOT_HEIGHT, STANDARD};
use crate::states;
use std::collections::BTreeMap;

#[derive(Default)]
pub struct Tally(BTreeMap<String, u64>);

// Every row of the table and of the requests done, the rows that a bundle's votes may meet, every answer, what becomes
// of bundles, what a quorum that was given makes of a witness, and what papers have to show.
const ROWS: [Refusal; 40] = [
    1, 2, 3, 4, 5, 10, 11, 12, 13, 20, 21, 22, 30, 31, 32, 33, 34, 35, 36, 40, 41, 50, 51, 52, 53, 54, 55, 56, 57, 60,
    61, 62, 63, 64, 65, 66, 67, 70, 71, 72,
];
const BUNDLED_ROWS: [Refusal; 6] = [31, 32, 33, 34, 35, 36];
const ANSWERS: [&str; 9] = [
    "standing plain",
    "standing justified",
    "standing final",
    "conflict yes",
    "conflict no",
    "list passed with a sum",
    "list passed with nobody named",
    "state sound",
    "state not sound",
];
const BUNDLES: [&str; 5] = [
    "bundle with every vote taken",
    "bundle with every vote refused",
    "bundle with some votes taken and some refused",
    "bundle that meets row 36 after a vote of its own was taken",
    "bundle of 128 votes",
];
// Why p and q are not permitted, the first that applies.
const WHY: [&str; 4] = ["q of 0", "p above q", "q not below 2p", "q above 1,000"];
const GIVEN: [&str; 8] = [
    "justified by a given quorum",
    "final by a given quorum",
    "conflict by a given quorum",
    "given quorum just met",
    "given quorum missed by one bond",
    "link that the standard quorum alone would have",
    "link that the given quorum alone has",
    "sums at the bond limit times 1,000",
];
const PAPERS: [&str; 6] = [
    "paper of several pages",
    "paper with a full last page",
    "paper row with zeros, not the root's",
    "paper row by a link without a quorum",
    "paper row by the lowest source of equal bonds",
    "paper row that passes over more bond from a plain source",
];

// What a guard is put, and a member whom it keeps clear.
pub const GUARDED: [&str; 16] = [
    "vote signed by an unused record",
    "vote refused by an unused record",
    "vote signed from the last source",
    "vote signed one above the last target",
    "vote signed from one below its target",
    "vote signed to the greatest height",
    "vote refused at equal heights",
    "vote refused by 65 where 66 applies too",
    "vote refused at the last target",
    "vote refused below the last target",
    "vote refused by 66 where 67 applies too",
    "vote refused one below the last source",
    "request to a record used by another number",
    "request to an unused record with heights",
    "charged member with two votes that a guard keeps clear",
    "vote in a bundle that a guard refuses",
];

// Why a move of the root is refused, in the order of `Hindrance`.
const HINDERED: [&str; 6] = [
    "move refused 41",
    "move refused 70 by a place that is not final",
    "move refused 70 by the height",
    "move refused 71 by a conflict",
    "move refused 71 by a charge shown",
    "move refused 72",
];
const ORDERED: [&str; 5] = [
    "move refused 70 one above the greatest height",
    "move refused 70 by the height where 71 or 72 applies too",
    "move refused 70 where 71 applies too",
    "move refused 71 where 72 applies too",
    "move to place 0 refused 71",
];
const MOVED: [&str; 9] = [
    "move of the root up",
    "move of the root to place 0",
    "move that drops votes",
    "move that drops a vote into the new root",
    "move that drops a vote of the new root's height on another branch",
    "move that drops a checkpoint higher than the new root",
    "move that drops checkpoints and keeps others at lower places than theirs",
    "move up that keeps a charge shown",
    "move to the greatest height",
];
// What records come to in a run with moves.
pub const RUNS: [&str; 8] = [
    "member refused by the root's height alone",
    "quorum refused by the root's height alone",
    "dropped name given again and taken",
    "checkpoint refused by its dropped parent",
    "vote refused by its dropped source",
    "vote refused by its dropped target",
    "checkpoint taken where there was no room before",
    "vote taken where there was no room before",
];
const COMPARED: [&str; 5] = [
    "run with a move up",
    "run with two or more moves up",
    "run compared with the witness that dropped nothing",
    "run compared with the witness that dropped nothing, of two or more moves",
    "run compared with the witness that dropped nothing, with charges",
];
const MOVES_COMPARED: &str = "move up in a run compared with the witness that dropped nothing";
const ROOTS: [&str; 4] = [
    "state sound with a root above height 0",
    "state sound with its root at the greatest height, and a grandchild",
    "state sound with a checkpoint at 4,294,967,295",
    "state not sound by its root one above the greatest height alone",
];

const ALREADY_GIVEN: &str = "a quorum already given";

fn why(k: Quota) -> Option<&'static str> {
    let tests = [k.q == 0, k.p > k.q, k.q >= 2 * k.p, k.q > 1000];
    tests.iter().position(|t| *t).map(|i| WHY[i])
}

fn why_refused(reason: &str) -> String {
    format!("refused 64 by {reason}")
}

fn why_unsound(reason: &str) -> String {
    format!("state not sound by {reason} alone")
}

fn refused_name(row: Refusal) -> String {
    format!("refused {row:2}")
}

fn bundled_name(row: Refusal) -> String {
    format!("refused {row:2} in a bundle")
}

impl Tally {
    fn add(&mut self, what: &str) {
        *self.0.entry(what.to_string()).or_default() += 1;
    }

    pub fn occurred(&mut self, what: &str) {
        self.add(what);
    }

    // Those names whose condition holds.
    pub fn which(&mut self, what: &[bool], names: &[&str]) {
        what.iter().zip(names).filter(|(occurred, _)| **occurred).for_each(|(_, name)| self.add(name));
    }

    pub fn refused(&mut self, row: Refusal) {
        self.add(&refused_name(row));
    }

    pub fn answer(&mut self, answer: &Result<u64, Refusal>) {
        if let Err(row) = answer {
            self.refused(*row);
        }
    }

    pub fn list(&mut self, answer: &Result<u64, Refusal>) {
        match answer {
            Ok(0) => self.add(ANSWERS[6]),
            Ok(_) => self.add(ANSWERS[5]),
            Err(_) => {}
        }
    }

    // The quorums of a log that row 64 refused, by the reason.
    pub fn quorums(&mut self, records: &[&[u8]], outcomes: &[Outcome]) {
        for (record, outcome) in records.iter().zip(outcomes) {
            if *outcome == Outcome::Refused(64) {
                let number = |at: usize| u64::from(record[at]) << 8 | u64::from(record[at + 1]);
                let quota = Quota { p: number(1), q: number(3) };
                self.add(&why_refused(why(quota).unwrap_or(ALREADY_GIVEN)));
            }
        }
    }

    // A state of which only the rule is not sound.
    pub fn rule(&mut self, quota: Quota) {
        self.add(&why_unsound(why(quota).expect("a quota that is not permitted")));
    }

    // How high a state's root is, and what it holds.
    pub fn root(&mut self, w: &library::Witness, sound: bool) {
        let root = w.heights[0];
        let highest = w.heights.iter().take(w.checkpoint_count).max();
        let what = [
            sound && root > 0,
            sound && root == MAX_ROOT_HEIGHT && highest >= Some(&(root + 2)),
            sound && highest == Some(&u32::MAX),
            root == MAX_ROOT_HEIGHT + 1 && states::root_alone(w),
        ];
        self.which(&what, &ROOTS);
    }

    // A move of the root, by the reference.
    pub fn moving(&mut self, w: &Witness, root: usize, answer: &Result<Witness, Hindrance>) {
        match answer {
            Ok(after) => self.moved(w, root, after),
            Err(hindrance) => self.hindered(w, root, *hindrance),
        }
    }

    fn hindered(&mut self, w: &Witness, root: usize, hindrance: Hindrance) {
        self.refused(hindrance.row());
        self.add(HINDERED[hindrance as usize]);
        let rows: Vec<Refusal> = w.hindrances(root).iter().map(|h| h.row()).collect();
        let too_high = hindrance == Hindrance::TooHigh;
        let what = [
            too_high && w.checkpoints[root].height == MAX_ROOT_HEIGHT + 1,
            too_high && rows.len() > 1,
            rows[0] == 70 && rows.contains(&71),
            rows[0] == 71 && rows.contains(&72),
            rows[0] == 71 && root == 0,
        ];
        self.which(&what, &ORDERED);
    }

    fn moved(&mut self, w: &Witness, root: usize, after: &Witness) {
        let height = w.checkpoints[root].height;
        let dropped: Vec<Vote> = w.dropped_votes(root).into_iter().map(|number| w.votes[number]).collect();
        let beside = |v: &Vote| v.target != root && w.checkpoints[v.target].height == height;
        let stays = |place: usize| place == root || w.is_ancestor(root, place);
        let (count, last) = (w.checkpoints.len(), after.checkpoints.len() - 1);
        let what = [
            root > 0,
            root == 0,
            !dropped.is_empty(),
            dropped.iter().any(|v| v.target == root),
            dropped.iter().any(beside),
            (0..count).any(|place| !stays(place) && w.checkpoints[place].height > height),
            (root..count).rev().find(|place| stays(*place)) > Some(root + last),
            root > 0 && !after.charges().is_empty(),
            root > 0 && height == MAX_ROOT_HEIGHT,
        ];
        self.which(&what, &MOVED);
    }

    // A run, by its moves up: whether it was compared to its end with the witness that dropped nothing, and whether
    // members are charged then.
    pub fn run(&mut self, moves: usize, compared: bool, charged: bool) {
        let compared = compared && moves > 0;
        self.which(&[moves > 0, moves > 1, compared, compared && moves > 1, compared && charged], &COMPARED);
        if compared {
            (0..moves).for_each(|_| self.add(MOVES_COMPARED));
        }
    }

    pub fn state(&mut self, sound: bool) {
        if !sound {
            self.refused(40);
        }
        self.add(if sound { ANSWERS[7] } else { ANSWERS[8] });
    }

    // The refusals and the answers of one log, by the reference.
    pub fn reading(&mut self, reading: &Reading) {
        for (_, row) in reading.refused() {
            self.refused(row);
        }
        for outcome in &reading.outcomes {
            if let Outcome::Bundle(rows) = outcome {
                self.bundle(rows);
            }
        }
        if let Some((row, _)) = reading.stopped {
            return self.refused(row);
        }
        // the root is final in every log, and says nothing of the links
        for status in reading.witness.statuses().into_iter().skip(1) {
            self.add(match status {
                Status::Plain => ANSWERS[0],
                Status::Justified => ANSWERS[1],
                Status::Final => ANSWERS[2],
            });
        }
        self.add(if reading.witness.conflict() { ANSWERS[3] } else { ANSWERS[4] });
        if let Some(quota) = reading.witness.given {
            self.given(&reading.witness, quota);
        }
    }

    // What a quorum that was given makes of a witness; the root is left out here too.
    fn given(&mut self, w: &Witness, quota: Quota) {
        let status = w.statuses();
        let any = |s: Status| status[1..].contains(&s);
        let total = w.total();
        let (p, q) = (quota.p, quota.q);
        let sums: Vec<u64> = w.links.keys().map(|(s, t)| w.backing(*s, *t).sum).collect();
        let has = |test: &dyn Fn(u64) -> bool| sums.iter().any(|sum| test(*sum));
        let what = [
            any(Status::Justified),
            any(Status::Final),
            w.conflict(),
            has(&|sum| q * sum == p * total),
            has(&|sum| q * sum < p * total && q * (sum + 1) >= p * total),
            has(&|sum| !quota.is_met(sum, total) && STANDARD.is_met(sum, total)),
            has(&|sum| quota.is_met(sum, total) && !STANDARD.is_met(sum, total)),
            q == 1000 && total == MAX_MEMBERS as u64 * MAX_BOND && has(&|sum| sum == total),
        ];
        self.which(&what, &GIVEN);
    }

    // A bundle that was not refused whole, by the row of each of its votes.
    fn bundle(&mut self, rows: &[Refusal]) {
        let refused: Vec<Refusal> = rows.iter().copied().filter(|row| *row != 0).collect();
        refused.iter().for_each(|row| self.add(&bundled_name(*row)));
        self.add(match rows.len() - refused.len() {
            0 => BUNDLES[1],
            taken if taken == rows.len() => BUNDLES[0],
            _ => BUNDLES[2],
        });
        let taken = rows.iter().position(|row| *row == 0).unwrap_or(rows.len());
        if rows[taken..].contains(&36) {
            self.add(BUNDLES[3]);
        }
        if rows.len() == MAX_MEMBERS {
            self.add(BUNDLES[4]);
        }
    }

    // What the paper of a witness shows, by the reference. The root has zeros in every paper.
    pub fn paper(&mut self, w: &Witness) {
        let count = w.checkpoints.len();
        if count > paper::ROWS {
            self.add(PAPERS[0]);
        }
        if count % paper::ROWS == 0 {
            self.add(PAPERS[1]);
        }
        let status = w.statuses();
        for into in w.links_into().iter().skip(1) {
            self.paper_row(into, &status, w.quota(), w.total());
        }
    }

    fn paper_row(&mut self, into: &[Link], status: &[Status], quota: Quota, total: u64) {
        let Some(shown) = paper::shown(into, status) else {
            return self.add(PAPERS[2]);
        };
        let justified = |l: &Link| status[l.source].is_justified();
        if !quota.is_met(shown.bond, total) {
            self.add(PAPERS[3]);
        }
        // which one was chosen shows only by the number of members
        if into.iter().any(|l| justified(l) && l.bond == shown.bond && l.members != shown.members) {
            self.add(PAPERS[4]);
        }
        if into.iter().any(|l| !justified(l) && l.bond > shown.bond) {
            self.add(PAPERS[5]);
        }
    }

    // What never occurred.
    pub fn missing(&self) -> Vec<String> {
        let rows = ROWS.iter().map(|row| refused_name(*row));
        let bundled = BUNDLED_ROWS.iter().map(|row| bundled_name(*row));
        let asked = ANSWERS.iter().chain(&BUNDLES).chain(&GIVEN).chain(&PAPERS).chain(&GUARDED);
        let moved = HINDERED.iter().chain(&ORDERED).chain(&MOVED).chain(&RUNS).chain(&COMPARED).chain(&ROOTS);
        let others = asked.chain(moved).map(|what| what.to_string());
        let refused = WHY.iter().chain([&ALREADY_GIVEN]).map(|reason| why_refused(reason));
        let unsound = WHY.iter().map(|reason| why_unsound(reason));
        let all = rows.chain(bundled).chain(refused).chain(unsound).chain(others);
        all.filter(|what| !self.0.contains_key(what)).collect()
    }

    pub fn print(&self) {
        for (what, count) in &self.0 {
            println!("{count:8} {what}");
        }
    }
}
