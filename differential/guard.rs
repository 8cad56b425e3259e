// The guard for a member's own key: its library beside one written from the words of the request, on long lists of
// requests; that no two votes that it signed break a condition; and that a member whose votes all passed it is charged
// no more.
use crate::compare::{same, Same};
use crate::library;
use crate::logs;
use crate::random::Random;
use crate::reference::{self, HEADER};
use crate::tally::{Tally, GUARDED};

#[repr(C)]
#[derive(Clone, Copy, PartialEq, Debug)]
struct Height(u32);

// `Guard` of crates/guard, field for field.
#[repr(C)]
#[derive(Clone, Copy, PartialEq, Debug)]
struct Guard {
    source: Height,
    target: Height,
    used: u32,
}

extern "C" {
    fn ffw_guard_fresh() -> Guard;
    fn ffw_guard_sign(g: &mut Guard, source: Height, target: Height) -> u64;
}

impl Guard {
    fn fresh() -> Guard {
        unsafe { ffw_guard_fresh() }
    }

    fn sign(&mut self, vote: Vote) -> u64 {
        unsafe { ffw_guard_sign(self, Height(vote.0), Height(vote.1)) }
    }
}

// The heights of a vote's source and target.
type Vote = (u32, u32);

// The guard by the request's words: the last vote, where there is one.
fn row(last: Option<Vote>, (source, target): Vote) -> u64 {
    if source >= target {
        return 65;
    }
    match last {
        Some((_, last_target)) if target <= last_target => 66,
        Some((last_source, _)) if source < last_source => 67,
        _ => 0,
    }
}

// Whether two votes, on whatever checkpoints of those heights, can break a condition.
fn can_break(a: Vote, b: Vote) -> bool {
    let surrounds = |a: Vote, b: Vote| a.0 < b.0 && b.0 < b.1 && b.1 < a.1;
    a.1 == b.1 || surrounds(a, b) || surrounds(b, a)
}

// A request: any small heights, any at all, or heights near the last ones. The greatest height is drawn only where
// `top` says so, since nothing can be signed after it.
struct Asker {
    random: Random,
    wild: bool,
    top: bool,
}

impl Asker {
    fn near(&mut self, height: u32) -> u32 {
        match self.random.below(if self.wild { 40 } else { 1000 }) {
            0 => self.random.pick(&[0, 1, height / 2, if self.top { u32::MAX } else { 1000 }]),
            _ => height.saturating_add(2).saturating_sub(self.random.below(5) as u32),
        }
    }

    fn request(&mut self, last: Option<Vote>) -> Vote {
        let (source, target) = last.unwrap_or((0, 0));
        match self.random.below(10) {
            0 => (self.random.below(12) as u32, self.random.below(12) as u32),
            1 if self.top => (self.random.next() as u32, self.random.next() as u32),
            2 => (target, self.near(target)),
            _ => (self.near(source), self.near(target)),
        }
    }

    // A record to start with: a fresh one, or small heights in any order and any `used`.
    fn record(&mut self) -> Guard {
        if !self.random.one_in(3) {
            return Guard::fresh();
        }
        let mut height = || Height(self.random.below(12) as u32);
        let (source, target) = (height(), height());
        Guard { source, target, used: self.random.pick(&[0, 1, 2, 1 << 8, 1 << 16, 1 << 31]) }
    }
}

fn count(tally: &mut Tally, guard: &Guard, (source, target): Vote, told: u64) {
    let (used, last_source, last_target) = (guard.used != 0, guard.source.0, guard.target.0);
    let what: [bool; 14] = [
        told == 0 && !used,
        told == 65 && !used,
        told == 0 && used && source == last_source,
        told == 0 && used && target - 1 == last_target,
        told == 0 && used && source == target - 1,
        told == 0 && target == u32::MAX,
        told == 65 && used && source == target,
        told == 65 && used && target <= last_target,
        told == 66 && target == last_target,
        told == 66 && target < last_target,
        told == 66 && source < last_source,
        told == 67 && source == last_source - 1,
        guard.used > 1,
        !used && last_target > 0,
    ];
    tally.which(&what, &GUARDED);
    if told != 0 {
        tally.refused(told as u8);
    }
}

// One list of requests on a record that is handed on.
pub fn requests(seed: u64, number: usize, tally: &mut Tally) -> Same {
    let mut random = Random::of_case(seed, 7, number as u64);
    let (length, wild, top) = (random.within(1, 2000), random.one_in(3), random.one_in(8));
    let mut asker = Asker { random, wild, top };
    same("a fresh record", Guard::fresh(), Guard { source: Height(0), target: Height(0), used: 0 })?;
    let mut guard = asker.record();
    let mut signed: Vec<Vote> = Vec::new();
    for k in 0..length {
        let before = guard;
        let last = if before.used == 0 { None } else { Some((before.source.0, before.target.0)) };
        let vote = asker.request(last);
        let told = guard.sign(vote);
        same(&format!("request {k}, {vote:?} after {last:?}"), told, row(last, vote))?;
        let rewritten = Guard { source: Height(vote.0), target: Height(vote.1), used: 1 };
        same(&format!("the record after request {k}"), guard, if told == 0 { rewritten } else { before })?;
        count(tally, &before, vote, told);
        if told == 0 {
            signed.push(vote);
        }
    }
    let breaks = |i: usize| signed[..i].iter().any(|vote| can_break(*vote, signed[i]));
    same("a vote that was signed and can break with an earlier one", (0..signed.len()).find(|i| breaks(*i)), None)
}

// The records of a log, with the member's votes left out that its guard refuses: those in bundles too, by their bits.
fn guarded(log: &[u8], id: u16, place: usize, tally: &mut Tally) -> Vec<u8> {
    let mut guard = Guard::fresh();
    let mut out = log[..HEADER].to_vec();
    let mut at = HEADER;
    while at < log.len() {
        let length = reference::record_length(log[at]).unwrap_or(log.len()).min(log.len() - at);
        let mut record = log[at..at + length].to_vec();
        at += length;
        let height = |at: usize| u32::from_be_bytes(record[at..at + 4].try_into().unwrap());
        let (byte, bit) = (1 + place / 8, 1 << (place % 8));
        match (record[0], length) {
            (3, 75) if record[1..3] == id.to_be_bytes() && guard.sign((height(67), height(71))) != 0 => continue,
            (5, 89) if record[byte] & bit != 0 && guard.sign((height(81), height(85))) != 0 => {
                record[byte] ^= bit;
                tally.occurred(GUARDED[15]);
            }
            _ => {}
        }
        out.extend(record);
    }
    out
}

// The ids in our list, by the library; and the voters of the votes held.
fn charged(log: &[u8]) -> (Vec<u16>, Vec<u16>) {
    let witness = library::Witness::nothing().replay(log).witness;
    let ids = witness.charges().iter().map(|(id, _, _)| *id).collect();
    (ids, witness.voters[..witness.vote_count].to_vec())
}

// Each member that a log charges, with its votes passed through a guard: it is charged no more.
pub fn members(seed: u64, number: usize, tally: &mut Tally) -> Same {
    let log = logs::log_with_charges(seed, number);
    let members = reference::read_log(&log).witness.members;
    for id in charged(&log).0 {
        let place = members.iter().position(|held| *held == id).expect("a member is charged");
        let (ids, voters) = charged(&guarded(&log, id, place, tally));
        same(&format!("member {id}, guarded, is charged"), ids.contains(&id), false)?;
        if voters.iter().filter(|voter| **voter == id).count() > 1 {
            tally.occurred(GUARDED[14]);
        }
    }
    Ok(())
}
