// The library beside the reference: everything that is asked of a log, of a list of charges and of a state. A difference
// is told with both answers.
use crate::library::{self, Answer, Told, REFUSED};
use crate::moves;
use crate::paper;
use crate::random::Random;
use crate::reference::{self, Outcome, Quota, Reading, Refusal, Status, HEADER, MAX_MEMBERS};
use crate::report;
use crate::states;
use crate::tally::Tally;
use std::fmt::Debug;

pub type Same = Result<(), String>;

pub fn same<T: PartialEq + Debug>(what: &str, library: T, reference: T) -> Same {
    if library == reference {
        return Ok(());
    }
    Err(format!("{what}\n  library:   {library:?}\n  reference: {reference:?}"))
}

// What a lent buffer holds before a call.
pub const UNWRITTEN: u8 = 0xa5;

pub fn is_unwritten(buffer: &[u8]) -> bool {
    buffer.iter().all(|b| *b == UNWRITTEN)
}

// Two buffers of one length. They may be long, so a difference is told by what stands near the first byte that differs.
fn same_bytes(what: &str, library: &[u8], reference: &[u8]) -> Same {
    let Some(at) = library.iter().zip(reference).position(|(a, b)| a != b) else {
        return Ok(());
    };
    let near = at.saturating_sub(64)..library.len().min(at + 65);
    let (library, reference) = (library[near.clone()].escape_ascii(), reference[near].escape_ascii());
    Err(format!("{what}, byte {at}\n  library:   {library}\n  reference: {reference}"))
}

// Logs with more records, and states with more votes, than these are asked about in samples.
const MANY_RECORDS: usize = 60;
pub const MANY_VOTES: usize = 1000;

// All about one log. The state that the header meets is `before`; what the log leaves is given back.
pub fn log(log: &[u8], before: &library::Witness, random: &mut Random, tally: &mut Tally) -> Result<Box<library::Replay>, String> {
    let reading = reference::read_log(log);
    tally.reading(&reading);
    tally.quorums(&offsets(log).iter().map(|at| &log[*at..]).collect::<Vec<_>>(), &reading.outcomes);
    let replay = before.replay(log);
    match reading.stopped {
        Some((number @ (1 | 2 | 3), _)) => {
            let number = u64::from(number);
            same("header", (replay.header, replay.records, replay.told), (number, 0, told(&Outcome::Nothing)))?;
            same("the state that a refused header leaves", replay.witness == *before, true)?;
            let begun = before.begin(log);
            same("header, alone", (begun.refused, begun.witness == *before), (number, true))?;
        }
        _ => {
            same("header", replay.header, 0)?;
            held(&replay.witness, &reading.witness)?;
            outcomes(log, before, &reading, &replay, random)?;
            answers(&replay.witness, &reading.witness, random, tally)?;
        }
    }
    report::compare(log, before, &reading, random)?;
    Ok(replay)
}

// What is held: the quorum that was given, and members, checkpoints and votes, each in the order of acceptance.
pub fn held(w: &library::Witness, r: &reference::Witness) -> Same {
    same("the quorum given", (w.numbers.p, w.numbers.q), r.given.map_or((0, 0), |k| (k.p as u16, k.q as u16)))?;
    let members: Vec<(u16, u64)> = (0..w.member_count).map(|i| (w.ids[i], w.bonds[i])).collect();
    same("members", members, r.members.iter().map(|id| (*id, r.bonds[id])).collect())?;
    same("checkpoints held", w.checkpoint_count, r.checkpoints.len())?;
    same("names", &w.names[..32 * w.checkpoint_count], &r.names().concat()[..])?;
    for (place, c) in r.checkpoints.iter().enumerate() {
        same("height", w.heights[place], c.height)?;
        if let Some(parent) = c.parent {
            same("parent", usize::from(w.parents[place]), parent)?;
        }
    }
    same("votes", states::votes(w), r.votes.clone())
}

// The offset of each record, up to the one that stops the reading.
fn offsets(log: &[u8]) -> Vec<usize> {
    let mut all = Vec::new();
    let mut at = HEADER;
    while at < log.len() {
        all.push(at);
        match reference::record_length(log[at]) {
            Some(length) if at + length <= log.len() => at += length,
            _ => break,
        }
    }
    all
}

// An outcome as the library tells it. The rows are those of a bundle's votes, and 0 past them.
pub fn told(outcome: &Outcome) -> Told {
    let mut told = Told { refused: 0, taken: 0, votes: 0, rows: [0; MAX_MEMBERS] };
    match outcome {
        Outcome::Nothing => {}
        Outcome::Taken => told.taken = 1,
        Outcome::Refused(row) => told.refused = u64::from(*row),
        Outcome::Bundle(rows) => {
            told.votes = rows.len() as u64;
            told.rows[..rows.len()].copy_from_slice(rows);
        }
    }
    told
}

// What is told of the last record read, of the whole log or of its first records.
fn last_outcome(replay: &library::Replay, reading: &Reading, records: usize) -> Same {
    let last = records.checked_sub(1).map_or(&Outcome::Nothing, |number| &reading.outcomes[number]);
    same("the last record", (replay.records, replay.told), (records as u64, told(last)))
}

// What each record comes to, one call for each: all of a short log, the last ones of a long one.
fn outcomes(
    log: &[u8],
    before: &library::Witness,
    reading: &Reading,
    after: &library::Replay,
    random: &mut Random,
) -> Same {
    let offsets = offsets(log);
    last_outcome(after, reading, offsets.len())?;
    let some = random.below(offsets.len() + 1);
    last_outcome(&before.replay_some(log, some as u64), reading, some)?;
    let first = offsets.len().saturating_sub(MANY_RECORDS);
    let mut at = offsets.get(first).copied().unwrap_or(log.len());
    let mut w = Box::new(before.replay(&log[..at]).witness);
    for number in first..offsets.len() {
        let r = w.read(log, at);
        same(&format!("record {number}"), r.told, told(&reading.outcomes[number]))?;
        let end = if reading.stopped.is_some() { at } else { log.len() };
        same("offset", r.next, offsets.get(number + 1).copied().unwrap_or(end))?;
        at = r.next;
        *w = r.witness;
    }
    same("the state, record by record and at once", *w == after.witness, true)?;
    for past in [log.len(), log.len() + 1, usize::MAX] {
        let r = w.read(log, past);
        same("nothing left", (r.told, r.next, r.witness == *w), (told(&Outcome::Nothing), past, true))?;
    }
    Ok(())
}

fn status_number(s: Status) -> u64 {
    match s {
        Status::Plain => 0,
        Status::Justified => 1,
        Status::Final => 2,
    }
}

// Standings, backings, the conflict answer, our list and its check, the board paper.
pub fn answers(w: &library::Witness, r: &reference::Witness, random: &mut Random, tally: &mut Tally) -> Same {
    let count = r.checkpoints.len();
    let samples = if r.votes.len() > MANY_VOTES { 3 } else { 12 };
    let places: Vec<usize> = if count <= samples { (0..count).collect() } else { (0..samples).map(|_| random.below(count)).collect() };
    let statuses = r.statuses();
    for place in places {
        same(&format!("standing of {place}"), w.status(place as u16), Ok(status_number(statuses[place])))?;
    }
    let past = random.pick(&[count, count + 1, 512, 65535]) as u16;
    same("standing of a place not held", w.status(past), Err(41))?;
    tally.refused(41);
    for _ in 0..samples / 3 {
        backing(w, r, random)?;
    }
    same("conflict", w.conflict(), Ok(u64::from(r.conflict())))?;
    our_list(w, r, random, tally)?;
    paper(w, r, random, tally)
}

// The backing of a link that has votes, or of any two places, one of them maybe not held.
fn backing(w: &library::Witness, r: &reference::Witness, random: &mut Random) -> Same {
    let near = r.checkpoints.len() + usize::from(random.one_in(8));
    let (mut s, mut t) = (random.below(near), random.below(near));
    if !r.votes.is_empty() && random.one_in(2) {
        let v = random.pick(&r.votes);
        (s, t) = (v.source, v.target);
    }
    let expected = if s.max(t) < r.checkpoints.len() {
        let b = r.backing(s, t);
        Ok((b.members, b.sum, u64::from(b.enough)))
    } else {
        Err(41)
    };
    same(&format!("backing of {s} to {t}"), w.support(s as u16, t as u16), expected)
}

// A text that a call writes into a lent buffer, or the refusal that is met before any text: the answer, and every byte
// of a buffer of each length.
fn lent(
    what: &str,
    text: Result<&[u8], Refusal>,
    rooms: &[usize],
    tally: &mut Tally,
    write: impl Fn(&mut [u8]) -> Answer<u64>,
) -> Same {
    for room in rooms {
        let mut ours = vec![UNWRITTEN; *room];
        let mut theirs = ours.clone();
        let expected = text.and_then(|t| reference::write_text(t, &mut theirs)).map(|n| n as u64);
        tally.answer(&expected);
        same(&format!("{what} into {room} bytes"), write(&mut ours), expected)?;
        same_bytes(&format!("{what}, the buffer of {room} bytes"), &ours, &theirs)?;
    }
    Ok(())
}

// Just enough room for a text, a byte less, none, any less, and more.
fn rooms(text: &[u8], random: &mut Random) -> [usize; 5] {
    let length = text.len();
    [length, length - 1, 0, random.below(length), length + random.within(1, 40)]
}

// Our list, and that it passes.
fn our_list(w: &library::Witness, r: &reference::Witness, random: &mut Random, tally: &mut Tally) -> Same {
    let ours = r.list();
    lent("our list", Ok(&ours), &rooms(&ours, random), tally, |buffer| w.write_list(buffer))?;
    list(w, r, &ours, tally)?;
    share(w, r, &ours)
}

// Where two finals conflict, our list names the share: q × named ≥ (2p − q) × total.
fn share(w: &library::Witness, r: &reference::Witness, ours: &[u8]) -> Same {
    if w.conflict() != Ok(1) {
        return Ok(());
    }
    let (Quota { p, q }, total) = (r.quota(), r.total());
    let enough = w.check(ours).map(|named| q * named >= (2 * p - q) * total);
    same("the share that our list names", enough, Ok(true))
}

// The board paper, and what it had to show.
fn paper(w: &library::Witness, r: &reference::Witness, random: &mut Random, tally: &mut Tally) -> Same {
    let paper = r.paper();
    tally.paper(r);
    lent("the paper", Ok(&paper), &rooms(&paper, random), tally, |buffer| w.write_paper(buffer))
}

// One list of charges against one state.
pub fn list(w: &library::Witness, r: &reference::Witness, list: &[u8], tally: &mut Tally) -> Same {
    let expected = r.check(list);
    tally.answer(&expected);
    tally.list(&expected);
    same(&format!("check of {list:02x?}"), w.check(list), expected)
}

// Row 40 on one state.
pub fn state(w: &library::Witness, log: &[u8], list: &[u8], random: &mut Random, tally: &mut Tally) -> Same {
    let sound = states::is_sound(w);
    tally.state(sound);
    if let Some(quota) = states::rule_alone(w) {
        tally.rule(quota);
    }
    tally.root(w, sound);
    same("row 40", w.is_sound(), sound)?;
    if sound { sound_state(w, random, tally) } else { unsound_state(w, log, list, tally) }
}

// Where row 40 does not apply, the answers are those of a witness that has all that the state holds, and so are moves.
fn sound_state(w: &library::Witness, random: &mut Random, tally: &mut Tally) -> Same {
    let r = states::held_by(w);
    answers(w, &r, random, tally)?;
    moves::to_places(w, &r, random, tally)
}

// Row 40 as the answer to reading a record: none was looked at, so no row is told of one.
const NO_RECORD: Told = Told { refused: 40, taken: 0, votes: 0, rows: [0; MAX_MEMBERS] };

// Where row 40 applies, every call says so and leaves everything as it was; a buffer without room comes after it.
fn unsound_state(w: &library::Witness, log: &[u8], list: &[u8], tally: &mut Tally) -> Same {
    let mut buffer = [UNWRITTEN; report::ROOM];
    let read = w.read(log, HEADER);
    same("reading", (read.told, read.next, read.witness == *w), (NO_RECORD, HEADER, true))?;
    for room in [0, report::ROOM] {
        let fed = w.feed(7, log, HEADER, &mut buffer[..room]);
        let told = (fed.pause, fed.next, fed.records, fed.written, fed.witness == *w);
        same("feeding", told, (REFUSED + 40, HEADER, 7, 0, true))?;
    }
    let closed = w.close(7, 0, &mut buffer);
    let told = (closed.pause, closed.records, closed.written, closed.witness == *w);
    same("closing", told, (REFUSED + 40, 7, 0, true))?;
    moves::unsound(w)?;
    same("standing", w.status(65535), Err(40))?;
    same("backing", w.support(0, 65535), Err(40))?;
    same("conflict", w.conflict(), Err(40))?;
    same("check", w.check(list), Err(40))?;
    same("the buffer", is_unwritten(&buffer), true)?;
    // row 40 comes before row 60
    let rooms = [0, 1000, paper::LONGEST];
    lent("our list", Err(40), &rooms, tally, |buffer| w.write_list(buffer))?;
    lent("the paper", Err(40), &rooms, tally, |buffer| w.write_paper(buffer))
}
