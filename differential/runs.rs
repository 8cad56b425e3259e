// Runs of the witness: records that are read, and moves of the root between them, to places that are final or not, held
// or not. The library is compared with the reference at each step, and with the witness that dropped nothing.
use crate::compare::{answers, held, same, told, Same};
use crate::growing::Growing;
use crate::library::Witness;
use crate::moves;
use crate::random::Random;
use crate::reference::{self, Name, Outcome, Status, HEADER, MAX_ROOT_HEIGHT};
use crate::report;
use crate::states;
use crate::tally::{Tally, RUNS};
use crate::unmoved::{names_in, Unmoved};
use std::collections::HashSet;

struct Run<'a> {
    growing: Growing,
    ours: Box<Witness>,
    theirs: reference::Witness,
    // while it is to be compared
    unmoved: Option<Unmoved>,
    // how far the log was read, and how many records that were
    at: usize,
    records: u64,
    // moves up
    moves: usize,
    // every name that a move dropped
    dropped: HashSet<Name>,
    // whether the table of checkpoints, or that of votes, was found full
    full: [bool; 2],
    // whether no record names what was dropped, but by chance
    faithful: bool,
    random: Random,
    tally: &'a mut Tally,
}

// Run `number` of a seed.
pub fn compare(seed: u64, number: usize, tally: &mut Tally) -> Same {
    let mut run = Run::start(seed, number, tally)?;
    // the tables fill only where the root stays for a while
    let (most, moves) = if run.growing.large { (24, [0, 0, 0, 1]) } else { (8, [0, 1, 1, 2]) };
    for _ in 0..run.random.within(2, most) {
        run.grow()?;
        for _ in 0..run.random.pick(&moves) {
            run.move_root()?;
        }
    }
    run.end()
}

// The log that a run starts with, and how much higher its tree is then put. Most start with the members and height 0,
// others with a root alone above 0, with a tree near the limit, or with a chain to the greatest heights. A root above 0
// that has no votes is only in a state handed in: a final checkpoint that the root is moved to keeps a child.
fn start_of(seed: u64, number: usize, random: &mut Random) -> (Growing, u32) {
    let mut growing = Growing::begin(Random::of_case(seed, 8, number as u64), number % 50 == 7);
    let near = MAX_ROOT_HEIGHT - random.below(12) as u32;
    let by = match number % 8 {
        4 => random.pick(&[1, 70_000, MAX_ROOT_HEIGHT]),
        5 => {
            (0..random.within(1, 6)).for_each(|_| growing.go_on());
            random.pick(&[1, near, near])
        }
        6 if number % 48 == 6 => {
            growing.climb(random.within(495, 509));
            MAX_ROOT_HEIGHT
        }
        _ => 0,
    };
    (growing, by)
}

// Where the root is to be moved: often to the highest final checkpoint, or to another one.
fn some_place(r: &reference::Witness, random: &mut Random) -> usize {
    let status = r.statuses();
    let finals: Vec<usize> = (0..status.len()).filter(|p| status[*p] == Status::Final).collect();
    match random.below(12) {
        0 => moves::place_past(r, random),
        1 => 0,
        2 => random.below(status.len()),
        3..=6 => random.pick(&finals),
        _ => finals.iter().copied().max_by_key(|p| r.checkpoints[*p].height).unwrap_or(0),
    }
}

impl Run<'_> {
    fn start(seed: u64, number: usize, tally: &mut Tally) -> Result<Run<'_>, String> {
        let mut random = Random::of_case(seed, 9, number as u64);
        let (mut growing, by) = start_of(seed, number, &mut random);
        let log = growing.log();
        let mut ours = Box::new(Witness::nothing().replay(log).witness);
        held(&ours, &reference::read_log(log).witness)?;
        states::raise(&mut ours, by);
        let (theirs, at) = (states::held_by(&ours), log.len());
        growing.hold(&theirs);
        let unmoved = Some(Unmoved::new((ours.clone(), theirs.clone()), at));
        let faithful = random.one_in(2);
        let (dropped, full) = (HashSet::new(), [false; 2]);
        Ok(Run { growing, ours, theirs, unmoved, at, records: 0, moves: 0, dropped, full, faithful, random, tally })
    }

    // The log grows, and is read on.
    fn grow(&mut self) -> Same {
        if self.is_root_alone() && self.theirs.checkpoints[0].height > 0 {
            self.growing.late();
        }
        for _ in 0..self.random.within(1, 4) {
            self.growing.go_on();
            if !self.faithful && self.random.one_in(2) {
                self.growing.name_dropped();
            }
        }
        if self.growing.large {
            self.feed()?;
            self.growing.hold(&self.theirs);
        } else {
            self.read_on()?;
        }
        if !self.faithful && self.random.one_in(4) {
            self.read_anywhere()?;
        }
        if self.random.one_in(4) { held(&self.ours, &self.theirs) } else { Ok(()) }
    }

    fn is_root_alone(&self) -> bool {
        self.theirs.votes.is_empty() && self.theirs.checkpoints.len() == 1
    }

    // The records that are new, by a call for each.
    fn read_on(&mut self) -> Same {
        while self.at < self.growing.log().len() {
            self.at = self.read(self.at)?;
            self.records += 1;
        }
        Ok(())
    }

    fn read(&mut self, at: usize) -> Result<usize, String> {
        let read = self.ours.read(self.growing.log(), at);
        let (outcome, length) = self.decide(at)?;
        same(&format!("record at {at}"), (read.told, read.next), (told(&outcome), at + length))?;
        *self.ours = read.witness;
        Ok(read.next)
    }

    // A reading from any offset of the log on; the witness that dropped nothing is left behind.
    fn read_anywhere(&mut self) -> Same {
        self.unmoved = None;
        let at = self.random.within(HEADER, self.growing.log().len());
        self.read(at).map(drop)
    }

    // The records that are new, all by the call that writes the lines of those refused.
    fn feed(&mut self) -> Same {
        let (ours, text) = report::feed_all(&self.ours, self.records, self.growing.log(), self.at)?;
        let mut lines = String::new();
        while self.at < self.growing.log().len() {
            let (outcome, length) = self.decide(self.at)?;
            let refused = outcome.rows().iter().filter(|row| **row != 0);
            lines.extend(refused.map(|row| reference::refused_line(self.records as usize, *row)));
            self.at += length;
            self.records += 1;
        }
        self.ours = ours;
        same("refused lines", String::from_utf8_lossy(&text).into_owned(), lines)
    }

    // What the record at an offset comes to, by the reference; the witness that dropped nothing reads it too.
    fn decide(&mut self, at: usize) -> Result<(Outcome, usize), String> {
        let rest = &self.growing.log()[at..];
        let unmoved = self.unmoved.as_mut().and_then(|unmoved| unmoved.read(rest, &self.theirs));
        let root_alone = self.is_root_alone();
        let (outcome, length) = self.theirs.read(rest);
        match unmoved {
            Some(there) => same("a record, and in the witness that dropped nothing", &outcome, &there)?,
            None => self.unmoved = None,
        }
        self.count(at, &outcome, root_alone);
        Ok((outcome, length))
    }

    // What there is to be counted of a record.
    fn count(&mut self, at: usize, outcome: &Outcome, root_alone: bool) {
        let rest = &self.growing.log()[at..];
        let names_dropped: Vec<bool> = names_in(rest).iter().map(|name| self.dropped.contains(*name)).collect();
        let dropped = |end: usize| names_dropped.get(end) == Some(&true);
        let (checkpoint, rows) = (rest.first() == Some(&2), outcome.rows());
        let taken = rows.contains(&0);
        let what = [
            root_alone && rows == [10],
            root_alone && rows == [63],
            checkpoint && taken && dropped(0),
            rows == [21] && dropped(1),
            rows.contains(&31) && dropped(0),
            rows.contains(&32) && dropped(1),
            checkpoint && taken && self.full[0],
            !checkpoint && taken && self.full[1],
        ];
        self.full[0] |= rows.contains(&22);
        self.full[1] |= rows.contains(&36);
        self.tally.which(&what, &RUNS);
    }

    fn move_root(&mut self) -> Same {
        let place = some_place(&self.theirs, &mut self.random);
        let Some((ours, theirs)) = moves::compare(&self.ours, &self.theirs, place, self.tally)? else {
            return Ok(());
        };
        self.dropped.extend(self.theirs.names().iter().filter(|name| !theirs.places.contains_key(*name)));
        self.moves += usize::from(place > 0);
        (self.ours, self.theirs) = (ours, theirs);
        self.growing.hold(&self.theirs);
        if self.random.one_in(3) { self.answers() } else { Ok(()) }
    }

    // The answers, by the reference and by the witness that dropped nothing.
    fn answers(&mut self) -> Same {
        answers(&self.ours, &self.theirs, &mut self.random, self.tally)?;
        match &mut self.unmoved {
            Some(unmoved) => unmoved.compare(self.growing.log(), &self.ours, &self.theirs, &mut self.random),
            None => Ok(()),
        }
    }

    // All that is held and answered at the end, and the report's lines on it.
    fn end(mut self) -> Same {
        held(&self.ours, &self.theirs)?;
        self.answers()?;
        let text = report::close(&self.ours, self.records, 0)?;
        same("the report's end", String::from_utf8_lossy(&text).into_owned(), reference::standing(&self.theirs))?;
        self.tally.run(self.moves, self.unmoved.is_some(), !self.theirs.charges().is_empty());
        Ok(())
    }
}
