// The cases that document 01 works out, and a report of bundles, three papers, quorums and moves of the root worked out
// by hand, against the reference: its own check, made before anything is compared with it.
use crate::reference::{self, Charge, Checkpoint, Hindrance, Outcome, Quota, Vote, Witness, STANDARD};

const REPORT: &str = "refused 15 number 35
checkpoint 0 height 0 final
checkpoint 1 height 1 final
checkpoint 2 height 1 final
checkpoint 3 height 2 justified
checkpoint 4 height 2 justified
member 1 bond 1 clear
member 2 bond 1 broken 1 4
member 3 bond 1 clear
total 3 named 1 conflict yes
";

const LIST: &[u8] = b"\x46\x46\x50\x00\x01\x00\x01\x00\x02\x00\x01\x00\x04";

// The report of `bundled`.
const BUNDLED_REPORT: &str = "refused 7 number 35
refused 9 number 61
refused 10 number 62
refused 11 number 33
refused 11 number 33
checkpoint 0 height 0 final
checkpoint 1 height 1 final
checkpoint 2 height 1 justified
checkpoint 3 height 2 justified
member 4 bond 2 broken 0 3
member 6 bond 3 broken 2 4
member 9 bond 1 clear
total 6 named 5 conflict no
";

// The report of `quorums`.
const QUORUM_REPORT: &str = "refused 0 number 64
refused 2 number 64
refused 18 number 35
refused 19 number 63
checkpoint 0 height 0 final
checkpoint 1 height 1 final
checkpoint 2 height 1 final
checkpoint 3 height 2 justified
checkpoint 4 height 2 justified
member 1 bond 1 clear
member 2 bond 2 broken 1 4
member 3 bond 1 clear
total 4 named 2 conflict yes
";

// What is said of `movable` after a move to A, and of that after a move to B.
const MOVED_TO_A: &str = "checkpoint 0 height 1 final
checkpoint 1 height 2 justified
checkpoint 2 height 3 plain
member 1 bond 1 clear
member 2 bond 1 clear
member 3 bond 1 clear
total 3 named 0 conflict no
";
const MOVED_TO_B: &str = "checkpoint 0 height 2 final
checkpoint 1 height 3 justified
member 1 bond 1 clear
member 2 bond 1 clear
member 3 bond 1 clear
total 3 named 0 conflict no
";

// The rows of the session's paper.
const SESSION_ROWS: [&str; 5] = [
    "    0           0  final             0                         0",
    "    1           1  final             2                         2",
    "    2           1  final             2                         2",
    "    3           2  justified         2                         2",
    "    4           2  justified         2                         2",
];

// The rows of the paper of `rivals`.
const RIVAL_ROWS: [&str; 6] = [
    "    0           0  final             0                         0",
    "    1           1  justified         2                         6",
    "    2           2  plain             1                         2",
    "    3           3  plain             1                         1",
    "    4           4  plain             0                         0",
    "    5           5  plain             1                         4",
];

fn header(root: u8) -> Vec<u8> {
    let mut log = b"FFW\x00\x01".to_vec();
    log.extend([root; 32]);
    log
}

fn member(log: &mut Vec<u8>, id: u16, bond: u64) {
    log.push(1);
    log.extend(id.to_be_bytes());
    log.extend(bond.to_be_bytes());
}

fn checkpoint(log: &mut Vec<u8>, name: u8, parent: u8) {
    log.push(2);
    log.extend([name; 32]);
    log.extend([parent; 32]);
}

fn link(log: &mut Vec<u8>, source: (u8, u32), target: (u8, u32)) {
    log.extend([source.0; 32]);
    log.extend([target.0; 32]);
    log.extend(source.1.to_be_bytes());
    log.extend(target.1.to_be_bytes());
}

fn vote(log: &mut Vec<u8>, id: u16, source: (u8, u32), target: (u8, u32)) {
    log.push(3);
    log.extend(id.to_be_bytes());
    link(log, source, target);
}

// A bundle whose first byte of member bits is given; no bit of the others is set.
fn bundle(log: &mut Vec<u8>, bits: u8, source: (u8, u32), target: (u8, u32)) {
    log.push(5);
    log.push(bits);
    log.extend([0; 15]);
    link(log, source, target);
}

// The log of the session that document 01 gives whole.
pub fn worked() -> Vec<u8> {
    let (root, a, b, c, d) = ((b'r', 0), (b'A', 1), (b'B', 1), (b'C', 2), (b'D', 2));
    let mut log = header(root.0);
    for id in 1..=3 {
        member(&mut log, id, 1);
    }
    for (child, parent) in [(a, root), (b, root), (c, a), (d, b)] {
        checkpoint(&mut log, child.0, parent.0);
    }
    for (id, from, to) in [(1, root, a), (2, root, a), (1, a, c), (2, a, c)] {
        vote(&mut log, id, from, to);
    }
    for (id, from, to) in [(2, root, b), (3, root, b), (2, b, d), (3, b, d), (3, b, d)] {
        vote(&mut log, id, from, to);
    }
    log
}

// Three members, accepted in the order 9, 4, 6, and bundles: one of whose votes the second is held, one with a bit past
// the members, one without a bit, one with a wrong height, and two that are taken whole.
fn bundled() -> Vec<u8> {
    let (root, a, b, c) = ((b'r', 0), (b'A', 1), (b'B', 1), (b'C', 2));
    let mut log = header(root.0);
    for (id, bond) in [(9, 1), (4, 2), (6, 3)] {
        member(&mut log, id, bond);
    }
    for (child, parent) in [(a, root), (b, root), (c, a)] {
        checkpoint(&mut log, child.0, parent.0);
    }
    vote(&mut log, 4, root, a);
    for (bits, from, to) in [
        (0b0111, root, a),
        (0b0110, root, b),
        (0b1010, (b'?', 0), a),
        (0b0000, (b'?', 0), a),
        (0b0101, (b'A', 2), c),
        (0b0110, a, c),
    ] {
        bundle(&mut log, bits, from, to);
    }
    log
}

// A chain with several links into a checkpoint; the quorum is 6 of 8, and places are heights. Into 2 those from 0 and 1
// have equal bonds, into 3 and 4 the plain 2 has the largest, and into 5 the higher source.
fn rivals() -> Vec<u8> {
    let mut log = header(0);
    for (id, bond) in [(1, 4), (2, 2), (3, 1), (4, 1)] {
        member(&mut log, id, bond);
    }
    for height in 1..=5 {
        checkpoint(&mut log, height, height - 1);
    }
    let links: [(&[u16], u8, u8); 8] = [
        (&[1, 2], 0, 1),
        (&[3, 4], 1, 2),
        (&[2], 0, 2),
        (&[1, 2, 3, 4], 2, 3),
        (&[3], 1, 3),
        (&[1], 2, 4),
        (&[3], 0, 5),
        (&[1], 1, 5),
    ];
    for (ids, source, target) in links {
        for id in ids {
            vote(&mut log, *id, (source, source.into()), (target, target.into()));
        }
    }
    log
}

// A paper of one page with these rows.
fn one_page(rows: &[&str]) -> String {
    let mut lines = vec![" ".repeat(64); 50];
    lines[0].replace_range(..6, "page 1");
    for (line, row) in lines[1..].iter_mut().zip(rows) {
        *line = row.to_string();
    }
    lines[49] = "-".repeat(64);
    lines.join("\n") + "\n"
}

// Whether two votes of one member, on one chain, with these heights of source and target, are charged.
fn charged(first: (u32, u32), second: (u32, u32)) -> bool {
    let mut log = header(0);
    member(&mut log, 1, 1);
    for height in 1..=3 {
        checkpoint(&mut log, height, height - 1);
    }
    for (s, t) in [first, second] {
        vote(&mut log, 1, (s as u8, s), (t as u8, t));
    }
    reference::read_log(&log).witness.charges().len() == 1
}

fn check_papers() {
    for (log, rows) in [(worked(), &SESSION_ROWS[..]), (rivals(), &RIVAL_ROWS), (header(0), &SESSION_ROWS[..1])] {
        let paper = reference::read_log(&log).witness.paper();
        assert_eq!(String::from_utf8_lossy(&paper), one_page(rows));
    }
}

fn check_bundles() {
    let reading = reference::read_log(&bundled());
    assert_eq!(reference::report_of(&reading), BUNDLED_REPORT);
    let expected = [
        Outcome::Bundle(vec![0, 35, 0]),
        Outcome::Bundle(vec![0, 0]),
        Outcome::Refused(61),
        Outcome::Refused(62),
        Outcome::Bundle(vec![33, 33]),
        Outcome::Bundle(vec![0, 0]),
    ];
    assert_eq!(reading.outcomes[7..], expected);
}

// The session, with the bonds 1, 2, 1 and three quarters; a quorum before that one is refused, and two after it.
fn quorums() -> Vec<u8> {
    let mut log = header(b'r');
    for (p, q) in [(1u16, 2u16), (3, 4), (2, 3)] {
        log.push(4);
        log.extend(p.to_be_bytes());
        log.extend(q.to_be_bytes());
    }
    for (id, bond) in [(1, 1), (2, 2), (3, 1)] {
        member(&mut log, id, bond);
    }
    log.extend(&worked()[header(b'r').len() + 3 * 11..]);
    log.extend([4, 0, 3, 0, 4]);
    log
}

// Bars of request K5, met and missed by one bond; p and q on both sides of each bound.
fn check_quorums() {
    for (p, q, sum, total, answer) in [
        (3, 4, 75, 100, true),
        (3, 4, 74, 100, false),
        (3, 5, 60, 100, true),
        (3, 5, 59, 100, false),
        (1, 1, 100, 100, true),
        (1, 1, 99, 100, false),
        (501, 1000, 501, 1000, true),
        (501, 1000, 500, 1000, false),
        (1000, 1000, 128_000_000_000_000, 128_000_000_000_000, true),
        (1000, 1000, 127_999_999_999_999, 128_000_000_000_000, false),
        (1, 1, 0, 0, false),
    ] {
        assert_eq!(Quota { p, q }.is_met(sum, total), answer);
    }
    for (p, q) in [(2, 3), (3, 5), (1, 1), (501, 1000), (1000, 1000)] {
        assert!(Quota { p, q }.is_permitted());
    }
    for (p, q) in [(4, 3), (1, 2), (2, 4), (500, 1000), (0, 0), (0, 1), (1, 0), (1001, 1001)] {
        assert!(!Quota { p, q }.is_permitted());
    }
    assert_eq!(reference::report(&quorums()), QUORUM_REPORT);
}

const ROOT: (u8, u32) = (b'r', 0);
const A: (u8, u32) = (b'A', 1);
const B: (u8, u32) = (b'B', 2);
const C: (u8, u32) = (b'C', 3);
const X: (u8, u32) = (b'X', 1);

// A and X under the root, B under A, C under B. Members 1 and 2 carry root → A and A → B; 3 votes for X and 1 for C.
fn movable() -> Vec<u8> {
    let mut log = header(ROOT.0);
    (1..=3).for_each(|id| member(&mut log, id, 1));
    for (child, parent) in [(A, ROOT), (X, ROOT), (B, A), (C, B)] {
        checkpoint(&mut log, child.0, parent.0);
    }
    for (id, from, to) in [(1, ROOT, A), (2, ROOT, A), (3, ROOT, X), (1, A, B), (2, A, B), (1, B, C)] {
        vote(&mut log, id, from, to);
    }
    log
}

// What each record comes to.
fn read_all(w: &mut Witness, records: &[u8]) -> Vec<Outcome> {
    let mut outcomes = Vec::new();
    let mut at = 0;
    while at < records.len() {
        let (outcome, length) = w.read(&records[at..]);
        outcomes.push(outcome);
        at += length;
    }
    outcomes
}

fn hindrance(w: &Witness, place: usize) -> Option<Hindrance> {
    w.move_root(place).err()
}

fn votes(cast: &[(u16, usize, usize)]) -> Vec<Vote> {
    cast.iter().map(|(member, source, target)| Vote { member: *member, source: *source, target: *target }).collect()
}

// A move to A, records after it, and a move from there to B. The votes dropped have targets no higher than the new
// root: itself, and X of the same height, which is given again under A and then has the height of B.
fn check_two_moves() {
    let held = reference::read_log(&movable()).witness;
    let hindrances = [2, 3, 4, 5, 65535].map(|place| hindrance(&held, place));
    let (plain, unknown) = (Some(Hindrance::NotFinal), Some(Hindrance::NotHeld));
    assert_eq!(hindrances, [plain, plain, plain, unknown, unknown]);
    let mut to_a = held.move_root(1).expect("a move");
    assert_eq!(reference::standing(&to_a), MOVED_TO_A);
    assert_eq!(to_a.names(), [b'A', b'B', b'C'].map(|letter| [letter; 32]));
    assert_eq!(to_a.votes, votes(&[(1, 0, 1), (2, 0, 1), (1, 1, 2)]));
    let mut more = Vec::new();
    member(&mut more, 4, 1);
    more.extend([4, 0, 3, 0, 4]);
    checkpoint(&mut more, b'Y', ROOT.0);
    vote(&mut more, 3, ROOT, B);
    vote(&mut more, 3, A, X);
    checkpoint(&mut more, X.0, A.0);
    vote(&mut more, 3, A, X);
    vote(&mut more, 3, A, (X.0, 2));
    vote(&mut more, 1, A, B);
    vote(&mut more, 2, B, C);
    let (taken, refused) = (Outcome::Taken, Outcome::Refused);
    let expected = [10, 63, 21, 31, 32].map(refused).into_iter().chain([taken.clone(), refused(33), taken.clone()]);
    assert_eq!(read_all(&mut to_a, &more), expected.chain([refused(35), taken]).collect::<Vec<_>>());
    let to_b = to_a.move_root(1).expect("a move");
    assert_eq!(reference::standing(&to_b), MOVED_TO_B);
    assert_eq!(to_b.votes, votes(&[(1, 0, 1), (2, 0, 1)]));
    let mut higher = Vec::new();
    vote(&mut higher, 3, A, C);
    assert_eq!(read_all(&mut to_a, &higher), [Outcome::Taken]);
    assert_eq!(hindrance(&to_a, 1), Some(Hindrance::HigherVote));
}

// Row 71: finals that conflict hinder every move; a charge shown hinders a move that drops a vote of it, and another
// pair of its member does not.
fn check_evidence() {
    let conflicting = reference::read_log(&worked()).witness;
    let (conflict, plain) = (Some(Hindrance::Conflict), Some(Hindrance::NotFinal));
    assert_eq!([0, 1, 2, 3].map(|place| hindrance(&conflicting, place)), [conflict, conflict, conflict, plain]);
    let mut log = movable();
    vote(&mut log, 3, ROOT, A);
    let charged = reference::read_log(&log).witness;
    assert_eq!(hindrance(&charged, 1), Some(Hindrance::Evidence));
    let to_root = charged.move_root(0).expect("a move");
    assert_eq!((to_root.votes.clone(), to_root.charges()), (charged.votes.clone(), charged.charges()));
    // the votes of 3 for two checkpoints of height 2 come before those for two of height 1
    let mut log = movable()[..movable().len() - 6 * 75].to_vec();
    checkpoint(&mut log, b'D', A.0);
    for (id, from, to) in [(3, A, B), (3, A, (b'D', 2)), (3, ROOT, A), (3, ROOT, X)] {
        vote(&mut log, id, from, to);
    }
    for (id, from, to) in [(1, ROOT, A), (2, ROOT, A), (1, A, B), (2, A, B)] {
        vote(&mut log, id, from, to);
    }
    let moved = reference::read_log(&log).witness.move_root(1).expect("a move");
    assert_eq!(moved.charges(), [Charge { id: 3, earlier: 0, later: 1 }]);
    assert_eq!(moved.votes, votes(&[(3, 0, 1), (3, 0, 3), (1, 0, 1), (2, 0, 1)]));
}

// A chain of four whose one member votes for each step, with the root one below the limit; and a root alone.
fn check_heights() {
    let step = |place: u8| {
        let parent = place.checked_sub(1).map(usize::from);
        ([place; 32], Checkpoint { parent, height: 4_294_966_783 + u32::from(place) })
    };
    let cast = votes(&[(1, 0, 1), (1, 1, 2), (1, 2, 3)]);
    let chain = Witness::holding(None, vec![(1, 1)], (0..4).map(step).collect(), cast);
    let (too_high, plain) = (Some(Hindrance::TooHigh), Some(Hindrance::NotFinal));
    assert_eq!([0, 1, 2, 3].map(|place| hindrance(&chain, place)), [None, None, too_high, plain]);
    for (height, outcomes) in [(0, [Outcome::Taken, Outcome::Taken]), (1, [10, 63].map(Outcome::Refused))] {
        let root = Checkpoint { parent: None, height };
        let mut alone = Witness::holding(None, Vec::new(), vec![([0; 32], root)], Vec::new());
        let mut records = Vec::new();
        member(&mut records, 1, 1);
        records.extend([4, 0, 3, 0, 4]);
        assert_eq!(read_all(&mut alone, &records), outcomes);
    }
}

// Every case that the document marks, the header alone as request K1 words it; the papers, the bundles, the quorums,
// the moves of the root.
pub fn check() {
    check_papers();
    check_bundles();
    check_quorums();
    check_two_moves();
    check_evidence();
    check_heights();
    let log = worked();
    assert_eq!(reference::report(&log), REPORT);
    let reading = reference::read_log(&log);
    assert_eq!(reading.witness.list(), LIST);
    assert_eq!(reading.witness.check(LIST), Ok(1));
    assert_eq!(reference::report(&header(0)), "checkpoint 0 height 0 final\ntotal 0 named 0 conflict no\n");
    for (sum, total, answer) in [(2, 3, true), (2, 4, false), (3, 4, true), (66, 100, false), (67, 100, true), (0, 0, false)] {
        assert_eq!(STANDARD.is_met(sum, total), answer);
    }
    for (first, second, answer) in [
        ((0, 3), (1, 2), true),
        ((1, 2), (0, 3), true),
        ((0, 3), (0, 2), false),
        ((1, 3), (0, 2), false),
        ((0, 1), (1, 2), false),
    ] {
        assert_eq!(charged(first, second), answer);
    }
}
