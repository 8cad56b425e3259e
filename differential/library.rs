// The static library's functions, as crates/ffi exports them, and safe calls of them. Nothing checks these declarations
// against the source but the comparison itself.
use crate::reference::{MAX_CHECKPOINTS, MAX_MEMBERS, MAX_VOTES};

// The numbers beside the state's arrays: `Numbers` of crates/state.
#[repr(C)]
#[derive(Clone, Copy, PartialEq)]
pub struct Numbers {
    pub p: u16,
    pub q: u16,
}

// The state: the struct `Witness` of crates/state, field for field.
#[repr(C)]
#[derive(Clone, Copy, PartialEq)]
pub struct Witness {
    pub ids: [u16; MAX_MEMBERS],
    pub bonds: [u64; MAX_MEMBERS],
    pub names: [u8; 32 * MAX_CHECKPOINTS],
    pub parents: [u16; MAX_CHECKPOINTS],
    pub heights: [u32; MAX_CHECKPOINTS],
    pub voters: [u16; MAX_VOTES],
    pub sources: [u16; MAX_VOTES],
    pub targets: [u16; MAX_VOTES],
    pub member_count: usize,
    pub checkpoint_count: usize,
    pub vote_count: usize,
    pub numbers: Numbers,
}

#[repr(C)]
struct Answered {
    refused: u64,
    value: u64,
}

#[repr(C)]
struct Backed {
    refused: u64,
    number: u64,
    bonds: u64,
    quorum: u64,
}

#[repr(C)]
pub struct Begun {
    pub refused: u64,
    pub witness: Witness,
}

// A checkpoint's place, as the library takes it.
#[repr(C)]
struct Place(u16);

// What is told of a record: the number of its refusal; 1 where a record that is no bundle was taken; how many bits a
// bundle had set that was not refused whole; and a row for each of its votes, 0 where one was taken. The library has
// these four as fields of `Replay` and of `Read`, which is the same layout.
#[repr(C)]
#[derive(Clone, Copy, PartialEq, Debug)]
pub struct Told {
    pub refused: u64,
    pub taken: u64,
    pub votes: u64,
    pub rows: [u8; MAX_MEMBERS],
}

#[repr(C)]
pub struct Replay {
    pub header: u64,
    // of the last record that was read
    pub told: Told,
    pub records: u64,
    pub witness: Witness,
}

#[repr(C)]
pub struct Piece {
    pub pause: u64,
    pub next: usize,
    pub records: u64,
    pub written: usize,
    pub witness: Witness,
}

#[repr(C)]
pub struct Read {
    pub told: Told,
    pub next: usize,
    pub witness: Witness,
}

#[repr(C)]
pub struct Moved {
    pub refused: u64,
    pub witness: Witness,
}

extern "C" {
    fn ffw_begin(w: Witness, log: *const u8, length: usize) -> Begun;
    fn ffw_replay(w: Witness, log: *const u8, length: usize, limit: u64) -> Replay;
    fn ffw_read(w: Witness, log: *const u8, length: usize, at: usize) -> Read;
    fn ffw_move_root(w: Witness, place: Place) -> Moved;
    fn ffw_sound(w: Witness) -> bool;
    fn ffw_status(w: Witness, place: Place) -> Answered;
    fn ffw_support(w: Witness, source: Place, target: Place) -> Backed;
    fn ffw_conflict(w: Witness) -> Answered;
    fn ffw_list(w: Witness, buffer: *mut u8, length: usize) -> Answered;
    fn ffw_paper(w: Witness, buffer: *mut u8, length: usize) -> Answered;
    fn ffw_check(w: Witness, list: *const u8, length: usize) -> Answered;
    fn ffw_open(w: Witness, log: *const u8, length: usize, last: bool, buffer: *mut u8, room: usize) -> Piece;
    fn ffw_feed(w: Witness, records: u64, log: *const u8, length: usize, at: usize, buffer: *mut u8, room: usize) -> Piece;
    fn ffw_close(w: Witness, records: u64, left: usize, buffer: *mut u8, room: usize) -> Piece;
}

// Why a call for the report paused.
pub const WANTS: u64 = 0;
pub const FULL: u64 = 1;
pub const ENDED: u64 = 2;
pub const OUT_OF_NUMBERS: u64 = 3;
// .. and the number of the refusal.
pub const REFUSED: u64 = 256;

// A value, or the number of the refusal.
pub type Answer<T> = Result<T, u8>;

fn answer(a: Answered) -> Answer<u64> {
    if a.refused == 0 { Ok(a.value) } else { Err(a.refused as u8) }
}

impl Witness {
    // No witness: every byte 0. It holds no root, so row 40 applies to it.
    pub fn nothing() -> Box<Witness> {
        Box::new(Witness {
            ids: [0; MAX_MEMBERS],
            bonds: [0; MAX_MEMBERS],
            names: [0; 32 * MAX_CHECKPOINTS],
            parents: [0; MAX_CHECKPOINTS],
            heights: [0; MAX_CHECKPOINTS],
            voters: [0; MAX_VOTES],
            sources: [0; MAX_VOTES],
            targets: [0; MAX_VOTES],
            member_count: 0,
            checkpoint_count: 0,
            vote_count: 0,
            numbers: Numbers { p: 0, q: 0 },
        })
    }

    pub fn begin(&self, log: &[u8]) -> Box<Begun> {
        Box::new(unsafe { ffw_begin(*self, log.as_ptr(), log.len()) })
    }

    // A log to its end or its stop.
    pub fn replay(&self, log: &[u8]) -> Box<Replay> {
        self.replay_some(log, u64::MAX)
    }

    // A log's first records.
    pub fn replay_some(&self, log: &[u8], limit: u64) -> Box<Replay> {
        Box::new(unsafe { ffw_replay(*self, log.as_ptr(), log.len(), limit) })
    }

    pub fn open(&self, log: &[u8], last: bool, buffer: &mut [u8]) -> Box<Piece> {
        Box::new(unsafe { ffw_open(*self, log.as_ptr(), log.len(), last, buffer.as_mut_ptr(), buffer.len()) })
    }

    pub fn feed(&self, records: u64, log: &[u8], at: usize, buffer: &mut [u8]) -> Box<Piece> {
        Box::new(unsafe { ffw_feed(*self, records, log.as_ptr(), log.len(), at, buffer.as_mut_ptr(), buffer.len()) })
    }

    pub fn close(&self, records: u64, left: usize, buffer: &mut [u8]) -> Box<Piece> {
        Box::new(unsafe { ffw_close(*self, records, left, buffer.as_mut_ptr(), buffer.len()) })
    }

    pub fn read(&self, log: &[u8], at: usize) -> Box<Read> {
        Box::new(unsafe { ffw_read(*self, log.as_ptr(), log.len(), at) })
    }

    pub fn move_root(&self, place: u16) -> Box<Moved> {
        Box::new(unsafe { ffw_move_root(*self, Place(place)) })
    }

    pub fn is_sound(&self) -> bool {
        unsafe { ffw_sound(*self) }
    }

    pub fn status(&self, place: u16) -> Answer<u64> {
        answer(unsafe { ffw_status(*self, Place(place)) })
    }

    // The number of members, the sum of their bonds, and 1 for a quorum.
    pub fn support(&self, source: u16, target: u16) -> Answer<(u64, u64, u64)> {
        let b = unsafe { ffw_support(*self, Place(source), Place(target)) };
        if b.refused == 0 { Ok((b.number, b.bonds, b.quorum)) } else { Err(b.refused as u8) }
    }

    pub fn conflict(&self) -> Answer<u64> {
        answer(unsafe { ffw_conflict(*self) })
    }

    pub fn write_list(&self, buffer: &mut [u8]) -> Answer<u64> {
        answer(unsafe { ffw_list(*self, buffer.as_mut_ptr(), buffer.len()) })
    }

    // The entries of our list: the id, and the numbers of the two votes.
    pub fn charges(&self) -> Vec<(u16, u16, u16)> {
        let mut list = vec![0; 7 + 6 * MAX_MEMBERS];
        let length = self.write_list(&mut list).expect("a list fits its buffer") as usize;
        let field = |entry: &[u8], at: usize| u16::from_be_bytes([entry[at], entry[at + 1]]);
        list[7..length].chunks(6).map(|entry| (field(entry, 0), field(entry, 2), field(entry, 4))).collect()
    }

    pub fn write_paper(&self, buffer: &mut [u8]) -> Answer<u64> {
        answer(unsafe { ffw_paper(*self, buffer.as_mut_ptr(), buffer.len()) })
    }

    pub fn check(&self, list: &[u8]) -> Answer<u64> {
        answer(unsafe { ffw_check(*self, list.as_ptr(), list.len()) })
    }
}
