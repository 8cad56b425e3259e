// The report by the library: the log is fed in pieces, cut anywhere, into buffers with much room or little, and the text
// is that of the reference's report.
use crate::compare::{is_unwritten, same, Same, UNWRITTEN};
use crate::library::{Piece, Witness, ENDED, FULL, OUT_OF_NUMBERS, WANTS};
use crate::random::Random;
use crate::reference::{self, Reading, HEADER, MAX_MEMBERS};

// No line has more bytes, and no summary. A record may have a line for each vote of a bundle, so a call reads on only
// while the buffer has room for as many lines behind what it wrote.
const LINE: usize = 64;
pub const ROOM: usize = MAX_MEMBERS * LINE;
const SUMMARY: usize = 65536;

pub fn compare(log: &[u8], before: &Witness, reading: &Reading, random: &mut Random) -> Same {
    let text = fed(log, before, random)?;
    same("report", String::from_utf8_lossy(&text).into_owned(), reference::report_of(reading))
}

// What a call wrote; the rest of the buffer is as it was.
fn written(buffer: &[u8], piece: &Piece) -> Result<Vec<u8>, String> {
    same("the rest of the buffer", is_unwritten(&buffer[piece.written..]), true)?;
    Ok(buffer[..piece.written].to_vec())
}

// The pieces of a long log are larger, since each call checks the state.
fn next_end(log: &[u8], end: usize, random: &mut Random) -> usize {
    let most = if log.len() > 20_000 { log.len() } else { 400 };
    log.len().min(end + random.within(1, most))
}

// The log's first bytes, and a buffer that is too short for a line. Fewer bytes than a header's wait for more, unless they
// are the last.
fn open(log: &[u8], last: bool, before: &Witness) -> Result<(Box<Piece>, Vec<u8>), String> {
    let mut buffer = vec![UNWRITTEN; LINE];
    let small = before.open(log, last, &mut buffer[..LINE - 1]);
    let waits = log.len() < HEADER && !last;
    same("no room", (small.pause, small.written, small.witness == *before), (if waits { WANTS } else { FULL }, 0, true))?;
    let piece = before.open(log, last, &mut buffer);
    same("waits for the header", waits, piece.pause == WANTS && piece.next == 0)?;
    let text = written(&buffer, &piece)?;
    Ok((piece, text))
}

// How long a buffer is lent: long enough for one record's lines, or for a few lines more.
fn some_room(log: &[u8], random: &mut Random) -> usize {
    let little = [ROOM, ROOM + 1, ROOM + LINE, ROOM + random.below(3 * LINE)];
    if log.len() > 20_000 { SUMMARY } else { random.pick(&little) }
}

// The bytes from `passed` to `end`, behind some that were passed; how many were passed now is added. A call that says
// that the buffer is full has no room left for one record's lines.
fn feed(
    log: &[u8],
    passed: &mut usize,
    end: usize,
    last: &Piece,
    random: &mut Random,
) -> Result<(Box<Piece>, Vec<u8>), String> {
    let behind = random.below(*passed + 1);
    let rest = &log[*passed - behind..end];
    if random.one_in(4) {
        no_room(rest, behind, last, random)?;
    }
    let room = some_room(log, random);
    let mut buffer = vec![UNWRITTEN; room];
    let piece = last.witness.feed(last.records, rest, behind, &mut buffer);
    same("full with room left", piece.pause == FULL && room - piece.written >= ROOM, false)?;
    *passed += piece.next - behind;
    let text = written(&buffer, &piece)?;
    Ok((piece, text))
}

// The records from an offset to the log's end, in as many calls as they need: what they leave, and the lines.
pub fn feed_all(w: &Witness, records: u64, log: &[u8], at: usize) -> Result<(Box<Witness>, Vec<u8>), String> {
    let mut buffer = vec![UNWRITTEN; 2 * ROOM];
    let mut piece = w.feed(records, log, at, &mut buffer);
    let mut text = written(&buffer, &piece)?;
    while piece.pause == FULL && piece.next > at {
        buffer.fill(UNWRITTEN);
        piece = piece.witness.feed(piece.records, log, piece.next, &mut buffer);
        text.extend(written(&buffer, &piece)?);
    }
    same("fed to the end", (piece.pause, piece.next), (WANTS, log.len()))?;
    Ok((Box::new(piece.witness), text))
}

// A buffer without room for one record's lines is full before anything is read, whatever is there.
fn no_room(rest: &[u8], at: usize, last: &Piece, random: &mut Random) -> Same {
    let any = random.below(ROOM);
    let room = random.pick(&[0, LINE, ROOM - LINE, ROOM - 1, any]);
    let mut buffer = vec![UNWRITTEN; room];
    let piece = last.witness.feed(last.records, rest, at, &mut buffer);
    let told = (piece.pause, piece.next, piece.records, piece.written, piece.witness == last.witness);
    same("no room to read", told, (FULL, at, last.records, 0, true))?;
    same("no room to read, no text", is_unwritten(&buffer), true)
}

// Where no record number is left nothing is read, whatever is there; a buffer without room is told first.
fn no_number_left(rest: &[u8], last: &Piece) -> Same {
    let mut buffer = [UNWRITTEN; ROOM];
    for (room, why) in [(ROOM, OUT_OF_NUMBERS), (ROOM - 1, FULL)] {
        let piece = last.witness.feed(u64::MAX, rest, 0, &mut buffer[..room]);
        let told = (piece.pause, piece.next, piece.records, piece.written, piece.witness == last.witness);
        same("no number left", told, (why, 0, u64::MAX, 0, true))?;
    }
    same("no number, no text", is_unwritten(&buffer), true)
}

// The log's end, into a buffer with much room, one that is just long enough and one that is a byte too short.
pub fn close(w: &Witness, records: u64, left: usize) -> Result<Vec<u8>, String> {
    let mut buffer = vec![UNWRITTEN; SUMMARY];
    let piece = w.close(records, left, &mut buffer);
    same("the end", (piece.pause, piece.witness == *w), (ENDED, true))?;
    let text = written(&buffer, &piece)?;
    let mut short = vec![UNWRITTEN; text.len()];
    let small = w.close(records, left, &mut short[1..]);
    same("no room at the end", (small.pause, small.written), (FULL, 0))?;
    same("no room, no text", is_unwritten(&short), true)?;
    let exact = w.close(records, left, &mut short);
    same("just enough room", (exact.pause, short == text), (ENDED, true))?;
    Ok(text)
}

// The whole text, from the calls in turn.
fn fed(log: &[u8], before: &Witness, random: &mut Random) -> Result<Vec<u8>, String> {
    let mut end = next_end(log, 0, random);
    let (mut piece, mut text) = open(&log[..end], end == log.len(), before)?;
    while piece.pause == WANTS && piece.next == 0 {
        end = next_end(log, end, random);
        (piece, text) = open(&log[..end], end == log.len(), before)?;
    }
    if piece.pause != ENDED {
        no_number_left(&log[piece.next..end], &piece)?;
    }
    let mut passed = piece.next;
    while piece.pause != ENDED {
        let (next, lines) = feed(log, &mut passed, end, &piece, random)?;
        piece = next;
        text.extend(lines);
        match piece.pause {
            ENDED | FULL => {}
            WANTS if end < log.len() => end = next_end(log, end, random),
            WANTS => {
                text.extend(close(&piece.witness, piece.records, log.len() - passed)?);
                break;
            }
            refused => return Err(format!("the report is refused: {refused}")),
        }
    }
    Ok(text)
}
