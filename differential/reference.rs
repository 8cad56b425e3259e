// An implementation of document 01 and the change requests done on its own: written from the documents, with hash maps
// where the library has arrays. It shares nothing with the library but the documents.
use std::collections::{BTreeMap, HashMap, HashSet};

pub const MAX_MEMBERS: usize = 128;
pub const MAX_CHECKPOINTS: usize = 512;
pub const MAX_VOTES: usize = 4096;
pub const MAX_BOND: u64 = 1_000_000_000_000;
pub const HEADER: usize = 37;

// The greatest height that a root may have. 511 more steps end at the greatest number of 32 bits.
pub const MAX_ROOT_HEIGHT: u32 = 4_294_966_784;

// What a quorum needs: p of q parts of all bonds.
#[derive(Clone, Copy, PartialEq, Eq, Debug)]
pub struct Quota {
    pub p: u64,
    pub q: u64,
}

// Where no record gave another.
pub const STANDARD: Quota = Quota { p: 2, q: 3 };

impl Quota {
    // Whether bonds of `sum` are a quorum of `total`.
    pub fn is_met(self, sum: u64, total: u64) -> bool {
        total > 0 && u128::from(self.q) * u128::from(sum) >= u128::from(self.p) * u128::from(total)
    }

    // Not: p above q, q not below 2p, q of 0 or above 1,000.
    pub fn is_permitted(self) -> bool {
        !(self.p > self.q || self.q >= 2 * self.p || self.q == 0 || self.q > 1000)
    }
}

pub type Name = [u8; 32];

// A number of the table of refusals.
pub type Refusal = u8;

#[derive(Clone)]
pub struct Checkpoint {
    pub parent: Option<usize>,
    pub height: u32,
}

#[derive(Clone, Copy, PartialEq, Eq, Hash, Debug)]
pub struct Vote {
    pub member: u16,
    pub source: usize,
    pub target: usize,
}

#[derive(Clone, Copy, PartialEq, Eq, Debug)]
pub enum Status {
    Plain,
    Justified,
    Final,
}

impl Status {
    // Final checkpoints count as justified too.
    pub fn is_justified(self) -> bool {
        self != Status::Plain
    }
}

// The members behind a link, each once; the sum of their bonds; whether that is a quorum.
#[derive(Clone, Copy, PartialEq, Eq, Debug)]
pub struct Backing {
    pub members: u64,
    pub sum: u64,
    pub enough: bool,
}

// A pair of votes of one member that breaks a commandment, the earlier first.
#[derive(Clone, Copy, PartialEq, Eq, Debug)]
pub struct Charge {
    pub id: u16,
    pub earlier: usize,
    pub later: usize,
}

// Why the root is not moved.
#[derive(Clone, Copy, PartialEq, Eq, Debug)]
pub enum Hindrance {
    NotHeld,
    NotFinal,
    TooHigh,
    // two final checkpoints conflict
    Conflict,
    // a charge shown uses a vote to be dropped
    Evidence,
    // a vote to be dropped has a target higher than the new root
    HigherVote,
}

impl Hindrance {
    pub fn row(self) -> Refusal {
        match self {
            Hindrance::NotHeld => 41,
            Hindrance::NotFinal | Hindrance::TooHigh => 70,
            Hindrance::Conflict | Hindrance::Evidence => 71,
            Hindrance::HigherVote => 72,
        }
    }
}

// What is held.
#[derive(Clone)]
pub struct Witness {
    // the quorum that a record gave
    pub given: Option<Quota>,
    pub bonds: BTreeMap<u16, u64>,
    // the ids, in the order of acceptance
    pub members: Vec<u16>,
    pub places: HashMap<Name, usize>,
    pub checkpoints: Vec<Checkpoint>,
    pub votes: Vec<Vote>,
    cast: HashSet<Vote>,
    // the members behind each link, by its source and its target
    pub links: HashMap<(usize, usize), Vec<u16>>,
}

// What reading a record came to.
#[derive(Clone, PartialEq, Eq, Debug)]
pub enum Outcome {
    // no bytes were left
    Nothing,
    Taken,
    // a whole bundle too, by row 61 or 62
    Refused(Refusal),
    // a bundle that was not refused whole: for each bit set, in rising place, the row that refused this vote, or 0
    Bundle(Vec<Refusal>),
}

impl Outcome {
    // What was decided, one entry for each member, checkpoint, quorum or vote: the row that refused it, or 0. A bundle
    // that was refused whole has one entry. A record that is unknown or cut ends the reading, and has none.
    pub fn rows(&self) -> &[Refusal] {
        match self {
            Outcome::Nothing | Outcome::Refused(4 | 5) => &[],
            Outcome::Taken => &[0],
            Outcome::Refused(row) => std::slice::from_ref(row),
            Outcome::Bundle(rows) => rows,
        }
    }
}

// A log read to its end or its stop: what each record came to, and the refusal and the record that stopped it. Where
// the header is refused, no record is read and the witness means nothing.
pub struct Reading {
    pub witness: Witness,
    pub outcomes: Vec<Outcome>,
    pub stopped: Option<(Refusal, usize)>,
}

impl Reading {
    // The refused lines, in log order: the number of the record, and the row. The votes of a bundle have the bundle's.
    pub fn refused(&self) -> Vec<(usize, Refusal)> {
        let numbered = self.outcomes.iter().enumerate();
        let rows = numbered.flat_map(|(number, outcome)| outcome.rows().iter().map(move |row| (number, *row)));
        rows.filter(|(_, row)| *row != 0).collect()
    }

    // What is said of a log that was stopped.
    pub fn stop_line(&self) -> Option<String> {
        self.stopped.map(|(number, record)| format!("stopped {number} record {record}\n"))
    }
}

// A link as a vote or a bundle tells it: each end's name and height.
struct NamedLink {
    source: Name,
    target: Name,
    source_height: u32,
    target_height: u32,
}

// What a record says.
enum Record {
    Member { id: u16, bond: u64 },
    Checkpoint { name: Name, parent: Name },
    Vote { id: u16, link: NamedLink },
    Quorum(Quota),
    Bundle { places: Vec<usize>, link: NamedLink },
}

fn integer(bytes: &[u8]) -> u64 {
    bytes.iter().fold(0, |n, b| n << 8 | u64::from(*b))
}

fn name(bytes: &[u8]) -> Name {
    let mut n = [0; 32];
    n.copy_from_slice(&bytes[..32]);
    n
}

fn named_link(bytes: &[u8]) -> NamedLink {
    NamedLink {
        source: name(bytes),
        target: name(&bytes[32..]),
        source_height: integer(&bytes[64..68]) as u32,
        target_height: integer(&bytes[68..72]) as u32,
    }
}

// The places whose bits are set, rising: the bit of place p is bit p mod 8 of byte p div 8, the lowest bit being 0.
fn set_places(bits: &[u8]) -> Vec<usize> {
    (0..8 * bits.len()).filter(|p| bits[p / 8] >> (p % 8) & 1 == 1).collect()
}

// How many bytes a record of this kind has in all; none for an unknown kind.
pub fn record_length(kind: u8) -> Option<usize> {
    match kind {
        1 => Some(11),
        2 => Some(65),
        3 => Some(75),
        4 => Some(5),
        5 => Some(89),
        _ => None,
    }
}

// Rows 4 and 5, on what is left of a log; the record and its length.
fn decode(rest: &[u8]) -> Result<(Record, usize), Refusal> {
    let length = record_length(rest[0]).ok_or(4)?;
    if rest.len() < length {
        return Err(5);
    }
    let record = match rest[0] {
        1 => Record::Member { id: integer(&rest[1..3]) as u16, bond: integer(&rest[3..11]) },
        2 => Record::Checkpoint { name: name(&rest[1..]), parent: name(&rest[33..]) },
        3 => Record::Vote { id: integer(&rest[1..3]) as u16, link: named_link(&rest[3..]) },
        4 => Record::Quorum(Quota { p: integer(&rest[1..3]), q: integer(&rest[3..5]) }),
        _ => Record::Bundle { places: set_places(&rest[1..17]), link: named_link(&rest[17..]) },
    };
    Ok((record, length))
}

// Rows 1 to 3; a right header begins a witness with that root.
pub fn begin(log: &[u8]) -> Result<Witness, Refusal> {
    if log.len() < HEADER {
        return Err(1);
    }
    if &log[..3] != b"FFW" {
        return Err(2);
    }
    if integer(&log[3..5]) != 1 {
        return Err(3);
    }
    Ok(Witness::with_root(name(&log[5..])))
}

// A log from its header to its end or to the first record that is unknown or cut.
pub fn read_log(log: &[u8]) -> Reading {
    let mut outcomes = Vec::new();
    let mut witness = match begin(log) {
        Ok(w) => w,
        Err(r) => return Reading { witness: Witness::with_root([0; 32]), outcomes, stopped: Some((r, 0)) },
    };
    let mut at = HEADER;
    while at < log.len() {
        let (outcome, length) = witness.read(&log[at..]);
        outcomes.push(outcome);
        if let Some(Outcome::Refused(row @ (4 | 5))) = outcomes.last() {
            let stopped = Some((*row, outcomes.len() - 1));
            return Reading { witness, outcomes, stopped };
        }
        at += length;
    }
    Reading { witness, outcomes, stopped: None }
}

impl Witness {
    fn with_root(root: Name) -> Witness {
        Witness::holding(None, Vec::new(), vec![(root, Checkpoint { parent: None, height: 0 })], Vec::new())
    }

    // A witness that holds these: the quorum given, members with their bonds, checkpoints by place, votes by number.
    pub fn holding(
        given: Option<Quota>,
        members: Vec<(u16, u64)>,
        tree: Vec<(Name, Checkpoint)>,
        votes: Vec<Vote>,
    ) -> Witness {
        let mut w = Witness {
            given,
            bonds: members.iter().copied().collect(),
            members: members.iter().map(|(id, _)| *id).collect(),
            places: tree.iter().map(|(name, _)| *name).zip(0..).collect(),
            checkpoints: tree.into_iter().map(|(_, checkpoint)| checkpoint).collect(),
            votes: Vec::new(),
            cast: HashSet::new(),
            links: HashMap::new(),
        };
        votes.into_iter().for_each(|vote| w.hold_vote(vote));
        w
    }

    fn hold_vote(&mut self, vote: Vote) {
        self.cast.insert(vote);
        self.votes.push(vote);
        self.links.entry((vote.source, vote.target)).or_default().push(vote.member);
    }

    // The record at the start of what is left of a log: what it comes to, and how many bytes it has.
    pub fn read(&mut self, rest: &[u8]) -> (Outcome, usize) {
        if rest.is_empty() {
            return (Outcome::Nothing, 0);
        }
        match decode(rest) {
            Ok((record, length)) => (self.add(record), length),
            Err(row) => (Outcome::Refused(row), 0),
        }
    }

    fn add(&mut self, record: Record) -> Outcome {
        let answer = match record {
            Record::Member { id, bond } => self.add_member(id, bond),
            Record::Checkpoint { name, parent } => self.add_checkpoint(name, parent),
            Record::Vote { id, link } => self.add_vote(id, &link),
            Record::Quorum(quota) => self.add_quorum(quota),
            Record::Bundle { places, link } => match self.add_bundle(&places, &link) {
                Ok(rows) => return Outcome::Bundle(rows),
                Err(row) => Err(row),
            },
        };
        answer.map_or_else(Outcome::Refused, |()| Outcome::Taken)
    }

    // What row 10 asks for; since request K7 a root above height 0 is enough.
    fn members_fixed(&self) -> bool {
        !self.votes.is_empty() || self.checkpoints.len() > 1 || self.checkpoints[0].height > 0
    }

    // Rows 63 and 64.
    fn add_quorum(&mut self, quota: Quota) -> Result<(), Refusal> {
        if self.members_fixed() {
            return Err(63);
        }
        if !quota.is_permitted() || self.given.is_some() {
            return Err(64);
        }
        self.given = Some(quota);
        Ok(())
    }

    // Rows 10 to 13.
    fn add_member(&mut self, id: u16, bond: u64) -> Result<(), Refusal> {
        if self.members_fixed() {
            return Err(10);
        }
        if bond == 0 || bond > MAX_BOND {
            return Err(11);
        }
        if self.bonds.contains_key(&id) {
            return Err(12);
        }
        if self.bonds.len() == MAX_MEMBERS {
            return Err(13);
        }
        self.bonds.insert(id, bond);
        self.members.push(id);
        Ok(())
    }

    // Rows 20 to 22.
    fn add_checkpoint(&mut self, name: Name, parent: Name) -> Result<(), Refusal> {
        if self.places.contains_key(&name) {
            return Err(20);
        }
        let parent = *self.places.get(&parent).ok_or(21)?;
        if self.checkpoints.len() == MAX_CHECKPOINTS {
            return Err(22);
        }
        self.places.insert(name, self.checkpoints.len());
        let height = self.checkpoints[parent].height + 1;
        self.checkpoints.push(Checkpoint { parent: Some(parent), height });
        Ok(())
    }

    // Rows 30 to 36.
    fn add_vote(&mut self, id: u16, link: &NamedLink) -> Result<(), Refusal> {
        if !self.bonds.contains_key(&id) {
            return Err(30);
        }
        let (source, target) = self.find_link(link)?;
        self.cast_vote(Vote { member: id, source, target })
    }

    // Rows 61 and 62 on the whole bundle, else its single votes in rising member place: of each the row that refused
    // it, or 0. Rows 31 to 34 look at nothing that a vote changes, so they are tried once for all votes.
    fn add_bundle(&mut self, places: &[usize], link: &NamedLink) -> Result<Vec<Refusal>, Refusal> {
        if places.iter().any(|p| *p >= self.members.len()) {
            return Err(61);
        }
        if places.is_empty() {
            return Err(62);
        }
        let found = self.find_link(link);
        let mut single = |place: usize| {
            let (source, target) = found?;
            self.cast_vote(Vote { member: self.members[place], source, target })
        };
        Ok(places.iter().map(|p| single(*p).err().unwrap_or(0)).collect())
    }

    // Rows 31 to 34; the places of a link's two ends.
    fn find_link(&self, link: &NamedLink) -> Result<(usize, usize), Refusal> {
        let source = *self.places.get(&link.source).ok_or(31)?;
        let target = *self.places.get(&link.target).ok_or(32)?;
        let heights = (self.checkpoints[source].height, self.checkpoints[target].height);
        if heights != (link.source_height, link.target_height) {
            return Err(33);
        }
        if !self.is_ancestor(source, target) {
            return Err(34);
        }
        Ok((source, target))
    }

    // Rows 35 and 36.
    fn cast_vote(&mut self, vote: Vote) -> Result<(), Refusal> {
        if self.cast.contains(&vote) {
            return Err(35);
        }
        if self.votes.len() == MAX_VOTES {
            return Err(36);
        }
        self.hold_vote(vote);
        Ok(())
    }

    // The names, by place.
    pub fn names(&self) -> Vec<Name> {
        let mut names = vec![[0; 32]; self.checkpoints.len()];
        self.places.iter().for_each(|(name, place)| names[*place] = *name);
        names
    }

    // One or more parent steps from `place` lead to `ancestor`.
    pub fn is_ancestor(&self, ancestor: usize, place: usize) -> bool {
        let mut reached = self.checkpoints[place].parent;
        while let Some(p) = reached {
            if p == ancestor {
                return true;
            }
            reached = self.checkpoints[p].parent;
        }
        false
    }

    pub fn quota(&self) -> Quota {
        self.given.unwrap_or(STANDARD)
    }

    pub fn total(&self) -> u64 {
        self.bonds.values().sum()
    }

    // The backing of a link. No vote is held twice, so no member stands twice behind a link.
    pub fn backing(&self, source: usize, target: usize) -> Backing {
        let behind: &[u16] = self.links.get(&(source, target)).map_or(&[], |v| v);
        let sum = behind.iter().map(|id| self.bonds[id]).sum();
        Backing { members: behind.len() as u64, sum, enough: self.quota().is_met(sum, self.total()) }
    }

    // The links with a quorum: the targets that each source has.
    fn strong_links(&self) -> HashMap<usize, Vec<usize>> {
        let total = self.total();
        let mut strong: HashMap<usize, Vec<usize>> = HashMap::new();
        for ((source, target), behind) in &self.links {
            if self.quota().is_met(behind.iter().map(|id| self.bonds[id]).sum(), total) {
                strong.entry(*source).or_default().push(*target);
            }
        }
        strong
    }

    // The standing of every checkpoint: what links with a quorum reach from the root is justified, and a link to a
    // child makes its source final. The root is final without one.
    pub fn statuses(&self) -> Vec<Status> {
        let strong = self.strong_links();
        let mut status = vec![Status::Plain; self.checkpoints.len()];
        let mut waiting = vec![0];
        status[0] = Status::Final;
        while let Some(source) = waiting.pop() {
            for &target in strong.get(&source).into_iter().flatten() {
                if self.checkpoints[target].parent == Some(source) {
                    status[source] = Status::Final;
                }
                if status[target] == Status::Plain {
                    status[target] = Status::Justified;
                    waiting.push(target);
                }
            }
        }
        status
    }

    // Two checkpoints conflict when they differ and neither is an ancestor of the other.
    fn conflicting(&self, a: usize, b: usize) -> bool {
        a != b && !self.is_ancestor(a, b) && !self.is_ancestor(b, a)
    }

    // Whether any two final checkpoints conflict.
    pub fn conflict(&self) -> bool {
        let status = self.statuses();
        let finals: Vec<usize> = (0..status.len()).filter(|p| status[*p] == Status::Final).collect();
        finals.iter().any(|a| finals.iter().any(|b| self.conflicting(*a, *b)))
    }

    fn heights(&self, vote: &Vote) -> (u32, u32) {
        (self.checkpoints[vote.source].height, self.checkpoints[vote.target].height)
    }

    // Whether two distinct votes of one member break a commandment.
    pub fn breaks(&self, a: &Vote, b: &Vote) -> bool {
        let (s1, t1) = self.heights(a);
        let (s2, t2) = self.heights(b);
        let surrounds = |s1, t1, s2, t2| s1 < s2 && s2 < t2 && t2 < t1;
        (a.source, a.target) != (b.source, b.target)
            && (t1 == t2 || surrounds(s1, t1, s2, t2) || surrounds(s2, t2, s1, t1))
    }

    // The pair shown of each member that has one, by rising id.
    pub fn charges(&self) -> Vec<Charge> {
        let mut cast: BTreeMap<u16, Vec<usize>> = BTreeMap::new();
        for (number, vote) in self.votes.iter().enumerate() {
            cast.entry(vote.member).or_default().push(number);
        }
        cast.iter().filter_map(|(id, numbers)| self.first_pair(*id, numbers)).collect()
    }

    // Of a member's votes, in rising number: the smallest earlier vote that has a later partner, with its smallest.
    fn first_pair(&self, id: u16, numbers: &[usize]) -> Option<Charge> {
        for (k, &earlier) in numbers.iter().enumerate() {
            for &later in &numbers[k + 1..] {
                if self.breaks(&self.votes[earlier], &self.votes[later]) {
                    return Some(Charge { id, earlier, later });
                }
            }
        }
        None
    }

    // Rows 41 and 70 to 72, else the witness whose root is the checkpoint at this place.
    pub fn move_root(&self, root: usize) -> Result<Witness, Hindrance> {
        let hindrance = self.hindrances(root).first().copied();
        hindrance.map_or_else(|| Ok(self.moved(root)), Err)
    }

    // All that hinders a move of the root, in the order of the checks. Nothing more is asked of a place not held.
    pub fn hindrances(&self, root: usize) -> Vec<Hindrance> {
        if root >= self.checkpoints.len() {
            return vec![Hindrance::NotHeld];
        }
        let height = self.checkpoints[root].height;
        let dropped = self.dropped_votes(root);
        let uses_dropped = |c: &Charge| dropped.contains(&c.earlier) || dropped.contains(&c.later);
        let higher = |number: &usize| self.heights(&self.votes[*number]).1 > height;
        let all = [
            (Hindrance::NotFinal, self.statuses()[root] != Status::Final),
            (Hindrance::TooHigh, height > MAX_ROOT_HEIGHT),
            (Hindrance::Conflict, self.conflict()),
            (Hindrance::Evidence, self.charges().iter().any(uses_dropped)),
            (Hindrance::HigherVote, dropped.iter().any(higher)),
        ];
        all.into_iter().filter(|(_, applies)| *applies).map(|(hindrance, _)| hindrance).collect()
    }

    // The places that stay when the root is moved, each with the one that it becomes.
    fn counted_anew(&self, root: usize) -> BTreeMap<usize, usize> {
        let stays = |place: &usize| *place == root || self.is_ancestor(root, *place);
        (0..self.checkpoints.len()).filter(stays).zip(0..).collect()
    }

    // The numbers of the votes that a move of the root drops: an end of them does not stay.
    pub fn dropped_votes(&self, root: usize) -> HashSet<usize> {
        let stay = self.counted_anew(root);
        let stays = |vote: &Vote| stay.contains_key(&vote.source) && stay.contains_key(&vote.target);
        (0..self.votes.len()).filter(|number| !stays(&self.votes[*number])).collect()
    }

    fn moved(&self, root: usize) -> Witness {
        let stay = self.counted_anew(root);
        let anew = |place: usize| stay.get(&place).copied();
        let names = self.names();
        let checkpoint = |place: &usize| {
            let Checkpoint { parent, height } = self.checkpoints[*place];
            (names[*place], Checkpoint { parent: parent.and_then(anew), height })
        };
        let vote = |v: &Vote| Some(Vote { member: v.member, source: anew(v.source)?, target: anew(v.target)? });
        let members = self.members.iter().map(|id| (*id, self.bonds[id])).collect();
        let tree = stay.keys().map(checkpoint).collect();
        Witness::holding(self.given, members, tree, self.votes.iter().filter_map(vote).collect())
    }

    // Our list of charges.
    pub fn list(&self) -> Vec<u8> {
        let charges = self.charges();
        let mut list = b"FFP\x00\x01".to_vec();
        list.extend((charges.len() as u16).to_be_bytes());
        for c in charges {
            list.extend(c.id.to_be_bytes());
            list.extend((c.earlier as u16).to_be_bytes());
            list.extend((c.later as u16).to_be_bytes());
        }
        list
    }

    // Rows 50 to 57, else the sum of the named bonds.
    pub fn check(&self, list: &[u8]) -> Result<u64, Refusal> {
        if list.len() < 7 || list.len() as u64 != 7 + 6 * integer(&list[5..7]) {
            return Err(50);
        }
        if &list[..3] != b"FFP" {
            return Err(51);
        }
        if integer(&list[3..5]) != 1 {
            return Err(52);
        }
        let mut before = None;
        let mut sum = 0;
        for entry in list[7..].chunks(6) {
            sum += self.check_entry(entry, before)?;
            before = Some(integer(&entry[..2]) as u16);
        }
        Ok(sum)
    }

    // Rows 53 to 57 on one entry, after the entry of `before`; else the member's bond.
    fn check_entry(&self, entry: &[u8], before: Option<u16>) -> Result<u64, Refusal> {
        let id = integer(&entry[..2]) as u16;
        let (earlier, later) = (integer(&entry[2..4]) as usize, integer(&entry[4..6]) as usize);
        if before.map_or(false, |b| id <= b) {
            return Err(53);
        }
        let bond = *self.bonds.get(&id).ok_or(54)?;
        let own = |number: usize| self.votes.get(number).filter(|v| v.member == id).ok_or(55);
        let (a, b) = (own(earlier)?, own(later)?);
        if earlier >= later {
            return Err(56);
        }
        if !self.breaks(a, b) {
            return Err(57);
        }
        Ok(bond)
    }
}

// Row 60, else a text at the start of the lent buffer, and its length.
pub fn write_text(text: &[u8], buffer: &mut [u8]) -> Result<usize, Refusal> {
    if buffer.len() < text.len() {
        return Err(60);
    }
    buffer[..text.len()].copy_from_slice(text);
    Ok(text.len())
}

pub fn word(status: Status) -> &'static str {
    match status {
        Status::Plain => "plain",
        Status::Justified => "justified",
        Status::Final => "final",
    }
}

// The report of a log.
pub fn report(log: &[u8]) -> String {
    report_of(&read_log(log))
}

pub fn report_of(reading: &Reading) -> String {
    let mut text = String::new();
    for (record, row) in reading.refused() {
        text += &refused_line(record, row);
    }
    text += &reading.stop_line().unwrap_or_else(|| standing(&reading.witness));
    text
}

pub fn refused_line(record: usize, row: Refusal) -> String {
    format!("refused {record} number {row}\n")
}

// The report's lines on what is held: checkpoints, members, the total.
pub fn standing(w: &Witness) -> String {
    let mut text = String::new();
    for (place, status) in w.statuses().into_iter().enumerate() {
        text += &format!("checkpoint {place} height {} {}\n", w.checkpoints[place].height, word(status));
    }
    let charges: HashMap<u16, Charge> = w.charges().into_iter().map(|c| (c.id, c)).collect();
    let mut named = 0;
    for (id, bond) in &w.bonds {
        text += &format!("member {id} bond {bond} ");
        match charges.get(id) {
            Some(c) => {
                named += bond;
                text += &format!("broken {} {}\n", c.earlier, c.later);
            }
            None => text += "clear\n",
        }
    }
    let answer = if w.conflict() { "yes" } else { "no" };
    text += &format!("total {} named {named} conflict {answer}\n", w.total());
    text
}
