// The witness that dropped nothing: it reads what a run reads, and its root is never moved. By request K7 the run's
// answers are its answers, while no record names what the run dropped and no limit is met here.
use crate::compare::{same, Same, MANY_VOTES};
use crate::library::Witness;
use crate::moves::Both;
use crate::random::Random;
use crate::reference::{self, record_length, Outcome, Vote};
use crate::report;
use std::collections::HashMap;

pub struct Unmoved {
    ours: Box<Witness>,
    theirs: reference::Witness,
    // the records from here on are read by the reference alone so far
    at: usize,
}

// Where a record has names, by its kind.
fn name_offsets(kind: u8) -> &'static [usize] {
    match kind {
        2 => &[1, 33],
        3 => &[3, 35],
        5 => &[17, 49],
        _ => &[],
    }
}

// The names in the record at the start of what is left of a log. One that is cut has none.
pub fn names_in(rest: &[u8]) -> Vec<&[u8]> {
    match rest.first().and_then(|kind| record_length(*kind)) {
        Some(length) if length <= rest.len() => name_offsets(rest[0]).iter().map(|at| &rest[*at..at + 32]).collect(),
        _ => Vec::new(),
    }
}

impl Unmoved {
    // The records of the log from `at` on are yet to be read.
    pub fn new((ours, theirs): Both, at: usize) -> Unmoved {
        Unmoved { ours, theirs, at }
    }

    // Whether a record names what is held here and not in the run.
    fn names_dropped(&self, rest: &[u8], run: &reference::Witness) -> bool {
        names_in(rest).iter().any(|name| self.theirs.places.contains_key(*name) && !run.places.contains_key(*name))
    }

    // What the next record comes to here; none where there is nothing to be compared any more.
    pub fn read(&mut self, rest: &[u8], run: &reference::Witness) -> Option<Outcome> {
        if self.names_dropped(rest, run) {
            return None;
        }
        let (outcome, _) = self.theirs.read(rest);
        if outcome.rows().iter().any(|row| [22, 36].contains(row)) { None } else { Some(outcome) }
    }

    // The answers of the run, which has read the log to its end, beside those given here.
    pub fn compare(&mut self, log: &[u8], w: &Witness, r: &reference::Witness, random: &mut Random) -> Same {
        self.ours = report::feed_all(&self.ours, 0, log, self.at)?.0;
        self.at = log.len();
        let told = |difference: String| format!("beside the witness that dropped nothing: {difference}");
        self.answers(w, r, random).map_err(told)
    }

    fn answers(&self, w: &Witness, r: &reference::Witness, random: &mut Random) -> Same {
        let places: Vec<u16> = r.names().iter().map(|name| self.theirs.places[name] as u16).collect();
        same("places in order", places.windows(2).all(|two| two[0] < two[1]), true)?;
        let count = places.len();
        let step = 1 + count / if r.votes.len() > MANY_VOTES { 5 } else { 20 };
        for place in (random.below(step)..count).step_by(step) {
            same(&format!("standing of {place}"), w.status(place as u16), self.ours.status(places[place]))?;
        }
        for _ in 0..4 {
            let any = Vote { member: 0, source: random.below(count), target: random.below(count) };
            let link = if r.votes.is_empty() || random.one_in(3) { any } else { random.pick(&r.votes) };
            let (s, t) = (link.source, link.target);
            let backing = w.support(s as u16, t as u16);
            same(&format!("backing of {s} to {t}"), backing, self.ours.support(places[s], places[t]))?;
        }
        same("conflict", w.conflict(), self.ours.conflict())?;
        self.charges(w, r, &places)
    }

    // The members charged, and the pairs shown, by the numbers that the votes have here.
    fn charges(&self, w: &Witness, r: &reference::Witness, places: &[u16]) -> Same {
        let here: HashMap<&Vote, u16> = self.theirs.votes.iter().zip(0..).collect();
        let place = |p: usize| usize::from(places[p]);
        let number = |v: &Vote| here[&Vote { member: v.member, source: place(v.source), target: place(v.target) }];
        let numbers: Vec<u16> = r.votes.iter().map(number).collect();
        same("votes in order", numbers.windows(2).all(|two| two[0] < two[1]), true)?;
        let charges = w.charges().into_iter();
        let charges = charges.map(|(id, i, j)| (id, numbers[usize::from(i)], numbers[usize::from(j)])).collect();
        same("charges", charges, self.ours.charges())
    }
}
