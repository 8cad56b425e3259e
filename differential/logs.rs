// Generated logs: right and wrong, short and long. What the maker believes about a log serves only to make it likely
// that something happens; what the log says is for the two readers to find out.
use crate::random::Random;
use crate::reference::{Checkpoint, Name, Witness, HEADER, MAX_BOND, MAX_CHECKPOINTS, MAX_MEMBERS, MAX_VOTES};
use std::collections::HashMap;

// How names differ: anywhere, or in two bytes alone: the last, the first, the middle ones, the first with the last.
#[derive(Clone, Copy)]
pub enum Naming {
    Random,
    Last,
    First,
    Middle,
    FirstAndLast,
}

// A checkpoint as a vote or a bundle tells it: its name and its height.
pub type Spot = (Name, u32);

struct Node {
    name: Name,
    parent: usize,
    height: u32,
}

// A log in the making, with the members, the tree and the votes that it has so far.
pub struct Maker {
    pub random: Random,
    pub log: Vec<u8>,
    pub ids: Vec<u16>,
    tree: Vec<Node>,
    // how many checkpoints there were in earlier trees
    gone: usize,
    votes: Vec<(u16, usize, usize)>,
    naming: Naming,
    last_record: usize,
}

// The kinds and the bytes of a record of each.
const KINDS: [(u8, usize); 5] = [(1, 11), (2, 65), (3, 75), (4, 5), (5, 89)];

// p and q that are permitted, each near a bound or just what bidders ask for; and such that are not.
const PERMITTED: [(u16, u16); 10] =
    [(2, 3), (3, 4), (3, 5), (1, 1), (7, 7), (501, 1000), (999, 1000), (1000, 1000), (500, 999), (258, 259)];
const FORBIDDEN: [(u16, u16); 16] = [
    (0, 0), (0, 1), (1, 0), (2, 0), (7, 0), (65535, 0), (1, 2), (2, 4), (500, 1000), (4, 3), (1001, 1001), (1000, 1001),
    (1001, 1000), (3, 65535), (65535, 65535), (33000, 65535),
];

// Some p and q: most likely permitted, and near a bound.
pub fn quota(random: &mut Random) -> (u16, u16) {
    match random.below(8) {
        0..=3 => random.pick(&PERMITTED),
        4 => {
            let q = random.within(1, 1000);
            (random.within(q / 2 + 1, q) as u16, q as u16)
        }
        5 => (random.within(0, 1002) as u16, random.within(0, 1002) as u16),
        _ => random.pick(&FORBIDDEN),
    }
}

// Log number `number` of a seed. Every twentieth has its last record cut, at each length in turn.
pub fn log(seed: u64, number: usize) -> Vec<u8> {
    let mut m = Maker::new(Random::of_case(seed, 1, number as u64));
    if number % 20 == 5 {
        return m.cut_log(number / 20);
    }
    match m.random.below(100) {
        0..=3 => return m.wrong_header(),
        4..=25 => m.mixed(),
        26..=40 => m.chain(),
        41..=58 => m.fork(),
        59..=76 => m.offenders(),
        77..=81 => m.many_members(),
        82..=84 => m.long_tree(),
        85 => m.many_votes(),
        86 => m.many_bundles(),
        87..=89 => m.rivals(),
        90..=92 => m.late_source(),
        93 => m.largest_sums(),
        _ => m.bundles(),
    }
    m.damage();
    m.log
}

// A short log in which members break the rules: what lists of charges are checked against.
pub fn log_with_charges(seed: u64, number: usize) -> Vec<u8> {
    let mut m = Maker::new(Random::of_case(seed, 2, number as u64));
    match m.random.below(8) {
        0 => m.mixed(),
        1 | 2 => m.fork(),
        _ => m.offenders(),
    }
    m.log
}

// A log that fills the witness: 128 members, 512 checkpoints, and `votes` distinct votes. Half of them carry a chain of
// 16 links with everyone's votes; the others are spread over all checkpoints.
pub fn full_log(seed: u64, votes: usize) -> Vec<u8> {
    let mut m = Maker::full_tree(seed, 3);
    let everyone = m.member_places();
    for step in 0..16 {
        m.carry(&everyone, step * 3, step * 3 + 3, false);
    }
    while m.votes.len() < votes {
        m.spread_vote();
    }
    m.log
}

// A log of 128 members and 512 checkpoints in which everyone votes for so many links, all over the tree: by a bundle
// for each link, or by single votes.
pub fn carried_log(seed: u64, links: usize, bundled: bool) -> Vec<u8> {
    let mut m = Maker::full_tree(seed, 3);
    let everyone = m.member_places();
    for source in (0..links).map(|k| 15 * k) {
        m.carry(&everyone, source, source + 3, bundled);
    }
    m.log
}

// A log of 128 members and a chain of 512 checkpoints, of which so many are final: everyone votes for the first steps.
pub fn finals_log(seed: u64, finals: usize) -> Vec<u8> {
    let mut m = Maker::full_tree(seed, 1);
    let everyone = m.member_places();
    (0..finals).for_each(|source| m.carry(&everyone, source, source + 1, true));
    m.log
}

// A log of one chain of so many checkpoints, and of members, if any, that each vote for every step of it: each name is
// looked for as that of the next one's parent, and of the source and the target of votes, but where the chain ends.
pub fn named_log(naming: Naming, checkpoints: usize, members: u16) -> Vec<u8> {
    let mut m = Maker::new(Random::of_case(1, 7, 0));
    m.naming = naming;
    m.begin();
    for id in 1..=members {
        m.member(id, 1);
    }
    for parent in 0..checkpoints - 1 {
        m.checkpoint(parent);
    }
    for id in 1..=members {
        for parent in 0..checkpoints - 1 {
            m.vote(id, parent, parent + 1);
        }
    }
    m.log
}

impl Maker {
    pub fn new(mut random: Random) -> Maker {
        let naming = random.pick(&[Naming::Random, Naming::Last, Naming::First, Naming::Middle, Naming::FirstAndLast]);
        let (log, ids, tree, votes) = (Vec::new(), Vec::new(), Vec::new(), Vec::new());
        Maker { random, log, ids, tree, gone: 0, votes, naming, last_record: 0 }
    }

    // 128 members, and 512 checkpoints in so many long branches.
    fn full_tree(seed: u64, branches: usize) -> Maker {
        let mut m = Maker::new(Random::of_case(seed, 3, 0));
        m.naming = Naming::Random;
        m.begin();
        m.fill_members(MAX_MEMBERS);
        while m.tree.len() < MAX_CHECKPOINTS {
            let parent = m.tree.len().saturating_sub(branches);
            m.checkpoint(parent);
        }
        m
    }

    // ---- records ----

    pub fn begin(&mut self) {
        let root = match self.naming {
            Naming::Random => self.fresh_name(),
            _ => [0; 32],
        };
        self.log.extend(b"FFW\x00\x01");
        self.log.extend(root);
        self.tree.push(Node { name: root, parent: 0, height: 0 });
        self.last_record = HEADER;
    }

    // A name that is most likely not in the tree yet.
    pub fn fresh_name(&mut self) -> Name {
        let mut name = [0; 32];
        let number = ((self.tree.len() + self.gone) as u16).to_be_bytes();
        match self.naming {
            Naming::Random => name.copy_from_slice(&self.random.bytes(32)),
            Naming::Last => name[30..].copy_from_slice(&number),
            Naming::First => name[..2].copy_from_slice(&[number[1], number[0]]),
            Naming::Middle => name[15..17].copy_from_slice(&number),
            Naming::FirstAndLast => (name[0], name[31]) = (number[0], number[1]),
        }
        name
    }

    fn put_member(&mut self, id: u16, bond: u64) {
        self.last_record = self.log.len();
        self.log.push(1);
        self.log.extend(id.to_be_bytes());
        self.log.extend(bond.to_be_bytes());
    }

    pub fn put_checkpoint(&mut self, name: Name, parent: Name) {
        self.last_record = self.log.len();
        self.log.push(2);
        self.log.extend(name);
        self.log.extend(parent);
    }

    pub fn put_vote(&mut self, id: u16, source: Spot, target: Spot) {
        self.last_record = self.log.len();
        self.log.push(3);
        self.log.extend(id.to_be_bytes());
        self.put_link(source, target);
    }

    fn put_quorum(&mut self, (p, q): (u16, u16)) {
        self.last_record = self.log.len();
        self.log.push(4);
        self.log.extend(p.to_be_bytes());
        self.log.extend(q.to_be_bytes());
    }

    // A bundle with the bits of these places.
    pub fn put_bundle(&mut self, places: &[usize], source: Spot, target: Spot) {
        let mut bits = [0; MAX_MEMBERS / 8];
        for p in places {
            bits[p / 8] |= 1 << (p % 8);
        }
        self.last_record = self.log.len();
        self.log.push(5);
        self.log.extend(bits);
        self.put_link(source, target);
    }

    fn put_link(&mut self, source: Spot, target: Spot) {
        self.log.extend(source.0);
        self.log.extend(target.0);
        self.log.extend(source.1.to_be_bytes());
        self.log.extend(target.1.to_be_bytes());
    }

    fn member(&mut self, id: u16, bond: u64) {
        self.put_member(id, bond);
        self.ids.push(id);
    }

    // A new checkpoint under a place of the tree.
    pub fn checkpoint(&mut self, parent: usize) -> usize {
        let name = self.fresh_name();
        self.named_checkpoint(name, parent)
    }

    // Past the greatest height there is room for none, whatever its record says.
    pub fn named_checkpoint(&mut self, name: Name, parent: usize) -> usize {
        let above = self.tree[parent].name;
        let height = self.tree[parent].height.wrapping_add(1);
        self.put_checkpoint(name, above);
        self.tree.push(Node { name, parent, height });
        self.tree.len() - 1
    }

    pub fn at(&self, place: usize) -> Spot {
        (self.tree[place].name, self.tree[place].height)
    }

    pub fn vote(&mut self, id: u16, source: usize, target: usize) {
        let (s, t) = (self.at(source), self.at(target));
        self.put_vote(id, s, t);
        self.votes.push((id, source, target));
    }

    // A bundle of the members at these places.
    fn bundle(&mut self, places: &[usize], source: usize, target: usize) {
        let (s, t) = (self.at(source), self.at(target));
        self.put_bundle(places, s, t);
        for p in places {
            self.votes.push((self.ids[*p], source, target));
        }
    }

    // Votes of the members at these places for one link: a bundle, or single votes.
    pub fn carry(&mut self, places: &[usize], source: usize, target: usize, bundled: bool) {
        if bundled {
            return self.bundle(places, source, target);
        }
        for p in places {
            self.vote(self.ids[*p], source, target);
        }
    }

    // ---- the tree, as it is held ----

    pub fn places(&self) -> usize {
        self.tree.len()
    }

    pub fn parent(&self, place: usize) -> usize {
        self.tree[place].parent
    }

    // Of each member and each height, the link of its last vote for a target there.
    pub fn last_votes(&self) -> HashMap<(u16, u32), (usize, usize)> {
        self.votes.iter().map(|(id, source, target)| ((*id, self.tree[*target].height), (*source, *target))).collect()
    }

    // The tree and the votes are what the witness holds, whatever the log had made of them.
    pub fn hold(&mut self, w: &Witness) {
        let node = |(name, c): (Name, &Checkpoint)| Node { name, parent: c.parent.unwrap_or(0), height: c.height };
        self.gone += self.tree.len();
        self.tree = w.names().into_iter().zip(&w.checkpoints).map(node).collect();
        self.votes = w.votes.iter().map(|v| (v.member, v.source, v.target)).collect();
    }

    // ---- parts of a log ----

    fn small_bond(&mut self) -> u64 {
        match self.random.below(8) {
            0 => MAX_BOND,
            1 => self.random.within(1, 1000) as u64,
            _ => self.random.within(1, 4) as u64,
        }
    }

    fn some_id(&mut self) -> u16 {
        match self.random.below(10) {
            0 => 0,
            1 => 65535,
            2 => self.random.next() as u16,
            _ => self.random.within(1, 40) as u16,
        }
    }

    // Some quorums, or none.
    pub fn quorums(&mut self) {
        for _ in 0..self.random.pick(&[0, 0, 1, 1, 2]) {
            let quota = quota(&mut self.random);
            self.put_quorum(quota);
        }
    }

    // Members, with quorums before them, between them or after them.
    pub fn members(&mut self, count: usize) {
        let before = self.random.pick(&[0, count / 2, count]);
        self.some_members(before);
        self.quorums();
        self.some_members(count - before);
    }

    fn some_members(&mut self, count: usize) {
        let alike = self.random.one_in(2);
        for _ in 0..count {
            let id = self.some_id();
            let bond = if alike { 1 } else { self.small_bond() };
            if !self.ids.contains(&id) {
                self.member(id, bond);
            }
        }
    }

    // Exactly so many members, with distinct ids in no order.
    pub fn fill_members(&mut self, count: usize) {
        let step = self.random.pick(&[1, 3, 257, 511]);
        for i in 0..count {
            let bond = self.random.pick(&[1, 2, 3, MAX_BOND]);
            self.member((i as u16 ^ 0x55).wrapping_mul(step), bond);
        }
    }

    // A tree: deep, wide, or anyhow.
    pub fn tree(&mut self, count: usize) {
        let shape = self.random.below(4);
        for _ in 0..count {
            let last = self.tree.len() - 1;
            let parent = match shape {
                0 => last,
                1 => self.random.below(last.min(2) + 1),
                2 => last - self.random.below(last.min(3) + 1),
                _ => self.random.below(last + 1),
            };
            self.checkpoint(parent);
        }
    }

    fn ancestors(&self, mut place: usize) -> Vec<usize> {
        let mut all = Vec::new();
        while place != 0 {
            place = self.tree[place].parent;
            all.push(place);
        }
        all
    }

    // A link: a place that is not the root, and an ancestor of it.
    pub fn some_link(&mut self) -> Option<(usize, usize)> {
        if self.tree.len() < 2 {
            return None;
        }
        let target = self.random.within(1, self.tree.len() - 1);
        let above = self.ancestors(target);
        let source = if self.random.one_in(3) { above[0] } else { self.random.pick(&above) };
        Some((source, target))
    }

    // Votes of all members for one link, or of most of them.
    pub fn push(&mut self, source: usize, target: usize) {
        let absent = self.random.pick(&[1000, 8, 3]);
        let bundled = self.random.one_in(3);
        let mut places = if bundled { self.member_places() } else { (0..self.ids.len()).collect() };
        places.retain(|_| !self.random.one_in(absent));
        self.carry(&places, source, target, bundled);
    }

    // Votes for any link, most of them single ones.
    pub fn votes(&mut self, count: usize) {
        for _ in 0..count {
            if self.ids.is_empty() {
                return;
            }
            let id = self.random.pick(&self.ids);
            match self.some_link() {
                Some((s, t)) if self.random.one_in(6) => self.some_bundle(s, t),
                Some((s, t)) => self.vote(id, s, t),
                None => {}
            }
        }
    }

    // The places of all members that the witness has room for.
    pub fn member_places(&self) -> Vec<usize> {
        (0..self.ids.len().min(MAX_MEMBERS)).collect()
    }

    // Places of members: all, about half of them, fewer, or one or two. There are none only where there is no member.
    pub fn some_places(&mut self) -> Vec<usize> {
        let mut places = self.member_places();
        let count = places.len().max(1);
        let (one, share) = (self.random.below(count), self.random.pick(&[1, 2, 4, count]));
        places.retain(|p| *p == one || self.random.one_in(share));
        places
    }

    fn some_bundle(&mut self, source: usize, target: usize) {
        let places = self.some_places();
        self.bundle(&places, source, target);
    }

    // So many distinct votes, with every link of some members in turn.
    fn fill_votes(&mut self, count: usize) {
        let mut left = count;
        for target in (1..self.tree.len()).cycle() {
            for (step, source) in self.ancestors(target).into_iter().enumerate() {
                let share = 8 >> step.min(3);
                for k in 0..share {
                    if left == 0 {
                        return;
                    }
                    let id = self.ids[(target * 8 + k * 7 + step) % self.ids.len()];
                    self.vote(id, source, target);
                    left -= 1;
                }
            }
        }
    }

    // A vote for any link, unless it is there already.
    fn spread_vote(&mut self) {
        let target = self.random.within(1, self.tree.len() - 1);
        let above = self.ancestors(target);
        let vote = (self.random.pick(&self.ids), self.random.pick(&above), target);
        if !self.votes.contains(&vote) {
            self.vote(vote.0, vote.1, vote.2);
        }
    }

    // A record that most likely is refused; in the place of one now and then quorums, which come late here.
    pub fn odd_record(&mut self) {
        match self.random.below(20) {
            0 => self.odd_member(),
            1 => {
                let (name, parent) = (self.known_name(), self.known_name());
                self.put_checkpoint(name, parent);
            }
            2 => {
                let (name, parent) = (self.strange_name(), self.strange_name());
                self.put_checkpoint(name, parent);
            }
            3 => {
                if let Some((id, s, t)) = self.some_vote() {
                    self.vote(id, s, t);
                }
            }
            4 => self.repeat_record(),
            5..=8 => self.odd_bundle(),
            9 => self.quorums(),
            _ => self.odd_vote(),
        }
    }

    pub fn odd_member(&mut self) {
        let id = if self.ids.is_empty() || self.random.one_in(2) { self.some_id() } else { self.random.pick(&self.ids) };
        let bond = self.random.pick(&[0, 1, 5, MAX_BOND, MAX_BOND + 1, u64::MAX]);
        self.put_member(id, bond);
    }

    fn some_vote(&mut self) -> Option<(u16, usize, usize)> {
        if self.votes.is_empty() { None } else { Some(self.random.pick(&self.votes)) }
    }

    fn known_name(&mut self) -> Name {
        let place = self.random.below(self.tree.len());
        self.tree[place].name
    }

    // A name that differs from a known one in a byte.
    fn strange_name(&mut self) -> Name {
        let mut name = self.known_name();
        name[self.random.below(32)] ^= 1 << self.random.below(8);
        name
    }

    // The last record, once more.
    fn repeat_record(&mut self) {
        let start = self.last_record;
        self.last_record = self.log.len();
        self.log.extend_from_within(start..);
    }

    // Something changed in a link as it is told.
    fn change_link(&mut self, source: &mut Spot, target: &mut Spot) {
        match self.random.below(6) {
            0 => source.0 = self.strange_name(),
            1 => target.0 = self.strange_name(),
            2 => source.1 = source.1.wrapping_add(self.random.pick(&[1, 256, u32::MAX])),
            3 => target.1 = target.1.wrapping_add(self.random.pick(&[1, 256, u32::MAX])),
            4 => *target = *source,
            _ => std::mem::swap(source, target),
        }
    }

    // Any two places, as they are told.
    fn any_two(&mut self) -> (Spot, Spot) {
        let (s, t) = (self.random.below(self.tree.len()), self.random.below(self.tree.len()));
        (self.at(s), self.at(t))
    }

    // A vote with one or two things changed.
    fn odd_vote(&mut self) {
        let mut id = if self.ids.is_empty() { 9 } else { self.random.pick(&self.ids) };
        let (mut source, mut target) = self.any_two();
        for _ in 0..self.random.below(3) {
            if self.random.one_in(7) {
                id = self.some_id();
            } else {
                self.change_link(&mut source, &mut target);
            }
        }
        self.put_vote(id, source, target);
    }

    // A bundle for a link that has votes, or with one or two things changed: no bit set, bits where no member stands,
    // another link.
    fn odd_bundle(&mut self) {
        let mut places = self.some_places();
        let (mut source, mut target) = self.any_two();
        if let Some((_, s, t)) = self.some_vote() {
            if self.random.one_in(2) {
                (source, target) = (self.at(s), self.at(t));
            }
        }
        for _ in 0..self.random.below(3) {
            match self.random.below(6) {
                0 => places.clear(),
                1 => places.extend(self.place_past_members()),
                2 => places = self.place_past_members().into_iter().collect(),
                _ => self.change_link(&mut source, &mut target),
            }
        }
        self.put_bundle(&places, source, target);
    }

    // A place that no member has: the first such, the last or any.
    fn place_past_members(&mut self) -> Option<usize> {
        let first = self.ids.len();
        if first >= MAX_MEMBERS {
            return None;
        }
        let any = self.random.within(first, MAX_MEMBERS - 1);
        Some(self.random.pick(&[first, MAX_MEMBERS - 1, any]))
    }

    // ---- logs ----

    // Anything in any order.
    fn mixed(&mut self) {
        self.begin();
        let members = self.random.below(8);
        self.members(members);
        for _ in 0..self.random.below(60) {
            match self.random.below(10) {
                0..=2 => {
                    let parent = self.random.below(self.tree.len());
                    self.checkpoint(parent);
                }
                3..=5 => self.votes(1),
                6 => {
                    if let Some((s, t)) = self.some_link() {
                        self.push(s, t);
                    }
                }
                _ => self.odd_record(),
            }
        }
    }

    // A chain whose checkpoints are justified one after the other, sometimes over a gap.
    fn chain(&mut self) {
        self.begin();
        let members = self.random.within(1, 9);
        self.members(members);
        let mut source = 0;
        for _ in 0..self.random.within(1, 12) {
            let mut target = self.checkpoint(source);
            while self.random.one_in(4) {
                target = self.checkpoint(target);
            }
            if self.random.one_in(6) {
                self.checkpoint(source);
            }
            self.push(source, target);
            source = target;
        }
        let extra = self.random.below(6);
        self.votes(extra);
    }

    // Two branches that go on separately, both carried: finals at equal and at different heights.
    fn fork(&mut self) {
        self.begin();
        let members = self.random.within(1, 7);
        self.members(members);
        let mut stem = 0;
        for _ in 0..self.random.below(4) {
            let next = self.checkpoint(stem);
            self.push(stem, next);
            stem = next;
        }
        for _ in 0..2 {
            let mut tip = stem;
            for _ in 0..self.random.within(1, 5) {
                let next = self.checkpoint(tip);
                self.push(tip, next);
                tip = next;
            }
        }
        for _ in 0..self.random.below(3) {
            self.odd_record();
        }
    }

    // Few members and a chain with side branches: double votes, and votes around votes, in both orders.
    fn offenders(&mut self) {
        self.begin();
        let members = self.random.within(1, 12);
        self.members(members);
        let count = self.random.within(2, 14);
        self.tree(count);
        let votes = self.random.below(60);
        self.votes(votes);
    }

    // The table of members, to its end and past it.
    fn many_members(&mut self) {
        self.begin();
        self.quorums();
        let count = self.random.pick(&[20, 127, 128, 129, 131]);
        self.fill_members(count);
        self.odd_member();
        let length = self.random.below(20);
        self.tree(length);
        for _ in 0..self.random.below(3) {
            if let Some((s, t)) = self.some_link() {
                self.push(s, t);
            }
        }
    }

    // The table of checkpoints, to its end and past it; and with the root just as many as fill a page of the board's
    // paper, one more, and two pages.
    fn long_tree(&mut self) {
        self.begin();
        let members = self.random.within(1, 5);
        self.members(members);
        let full = MAX_CHECKPOINTS;
        let count = self.random.pick(&[47, 48, 95, 200, full - 1, full, full + 2]);
        self.tree(count);
        let votes = self.random.below(100);
        self.votes(votes);
        self.odd_record();
    }

    // The table of votes, to its end and past it.
    fn many_votes(&mut self) {
        self.begin();
        self.quorums();
        let members = self.random.pick(&[9, 30, 128]);
        self.fill_members(members);
        let length = self.random.within(100, 200);
        self.tree(length);
        let count = self.random.pick(&[MAX_VOTES / 2, MAX_VOTES, MAX_VOTES + 3]);
        self.fill_votes(count);
        self.votes(3);
    }

    // The table of votes, filled by bundles: one of them finds room for some of its votes, and the next for none.
    fn many_bundles(&mut self) {
        self.begin();
        let members = self.random.pick(&[60, 100, 128]);
        self.fill_members(members);
        let length = self.random.within(200, 300);
        self.tree(length);
        let singles = self.random.below(MAX_VOTES);
        self.fill_votes(singles);
        for target in 1..self.tree.len() {
            if self.votes.len() > MAX_VOTES + 200 {
                break;
            }
            self.some_bundle(0, target);
        }
        self.votes(3);
    }

    // Mostly bundles, of few members or many, with single votes between them; now and then one before the members.
    fn bundles(&mut self) {
        self.begin();
        self.quorums();
        if self.random.one_in(4) {
            self.odd_bundle();
        }
        let members = self.random.pick(&[0, 1, 2, 7, 8, 9, 16, 17, 40, 127, 128]);
        self.fill_members(members);
        let length = self.random.within(1, 12);
        self.tree(length);
        for _ in 0..self.random.below(25) {
            let link = self.some_link();
            match (self.random.below(6), link) {
                (0, _) => self.votes(1),
                (1, _) => self.odd_record(),
                (2, _) => self.odd_bundle(),
                (_, Some((s, t))) => self.some_bundle(s, t),
                _ => {}
            }
        }
    }

    // Votes whose source is justified only by later votes.
    fn late_source(&mut self) {
        self.begin();
        let members = self.random.within(1, 6);
        self.members(members);
        let mut links = Vec::new();
        let mut source = 0;
        for _ in 0..self.random.within(2, 8) {
            let target = self.checkpoint(source);
            links.push((source, target));
            source = target;
        }
        self.random.shuffle(&mut links);
        for (s, t) in links {
            self.push(s, t);
        }
    }

    // Links into each checkpoint from its ancestors, which vie with each other: one member has the bond of two. The
    // first member alone is a quorum, by most rules, and justifies some of them.
    fn rivals(&mut self) {
        self.begin();
        self.quorums();
        let unit = self.random.pick(&[1, MAX_BOND / 100]);
        for (id, units) in [(1, 100), (2, 2), (3, 1), (4, 1)] {
            self.member(id, units * unit);
        }
        let count = self.random.within(2, 10);
        self.tree(count);
        // members 1 to 4 have the places 0 to 3
        let behind: [&[usize]; 8] = [&[], &[], &[1], &[1], &[2, 3], &[2, 3], &[0, 1], &[0, 2, 3]];
        for target in 1..self.tree.len() {
            let mut above = self.ancestors(target);
            self.random.shuffle(&mut above);
            for source in above {
                let (places, bundled) = (self.random.pick(&behind), self.random.one_in(4));
                self.carry(places, source, target, bundled);
            }
        }
    }

    // Everyone has the largest bond, and all vote, or all but one, or about half: the largest sums by the most parts.
    fn largest_sums(&mut self) {
        self.begin();
        let quota = self.random.pick(&[(1000, 1000), (999, 1000), (993, 1000), (501, 1000), (500, 999)]);
        self.put_quorum(quota);
        for id in 0..MAX_MEMBERS as u16 {
            self.member(id, MAX_BOND);
        }
        let mut source = 0;
        for _ in 0..3 {
            let target = self.checkpoint(source);
            let absent = self.random.pick(&[0, 0, 1, 2, 63, 64]);
            let places = self.member_places();
            self.carry(&places[absent..], source, target, true);
            source = target;
        }
    }

    // A log below 37 bytes, or with another mark or version.
    fn wrong_header(&mut self) -> Vec<u8> {
        self.begin();
        self.members(2);
        let mut log = std::mem::take(&mut self.log);
        match self.random.below(4) {
            0 => log.truncate(self.random.below(HEADER)),
            1 => log[self.random.below(3)] ^= 1 << self.random.below(8),
            2 => log[self.random.within(3, 4)] ^= 1 << self.random.below(8),
            _ => {
                log[self.random.below(5)] = self.random.next() as u8;
                log.truncate(self.random.within(30, 40));
            }
        }
        log
    }

    // A short log whose last record is cut: case `number` of all kinds and lengths, from the kind byte alone to one byte less.
    fn cut_log(&mut self, number: usize) -> Vec<u8> {
        self.begin();
        self.members(3);
        let all: Vec<(u8, usize)> = KINDS.iter().flat_map(|(kind, size)| (1..*size).map(|cut| (*kind, cut))).collect();
        let (kind, cut) = all[number % all.len()];
        let start = self.log.len();
        match kind {
            1 => self.put_member(7, 1),
            2 => drop(self.checkpoint(0)),
            3 => self.odd_vote(),
            4 => self.put_quorum((3, 4)),
            _ => self.odd_bundle(),
        }
        self.log.truncate(start + cut);
        std::mem::take(&mut self.log)
    }

    // What may befall a finished log.
    fn damage(&mut self) {
        match self.random.below(24) {
            0 => self.put_member(77, 1),
            1 => {
                let kind = self.random_kind();
                self.log.push(kind);
            }
            2 => {
                let tail = self.random.within(1, 90);
                let tail = self.random.bytes(tail);
                self.log.extend(tail);
            }
            3 => {
                let end = self.log.len();
                let length = if self.last_record < end { self.random.within(self.last_record, end) } else { end };
                self.log.truncate(length);
            }
            4 | 5 => {
                for _ in 0..self.random.within(1, 3) {
                    let at = self.random.below(self.log.len());
                    self.log[at] ^= 1 << self.random.below(8);
                }
            }
            6 => {
                let kind = self.random_kind();
                let at = self.last_record.min(self.log.len() - 1);
                self.log[at] = kind;
            }
            _ => {}
        }
    }

    fn random_kind(&mut self) -> u8 {
        self.random.pick(&[0, 4, 5, 6, 7, 8, 9, 255])
    }
}
