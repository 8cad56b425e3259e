// A log that grows while it is read: a chain that the members carry on, and what happens beside it. The root is moved
// up now and then; later records then name what stayed, and sometimes what was dropped.
use crate::logs::{Maker, Spot};
use crate::random::Random;
use crate::reference::{Witness, MAX_CHECKPOINTS, MAX_MEMBERS};

pub struct Growing {
    maker: Maker,
    // where the chain goes on
    tip: usize,
    dropped: Vec<Spot>,
    // the place of a member that keeps away from the chain
    stray: Option<usize>,
    // whether members break the rules and votes go anywhere: then moves are often refused
    wild: bool,
    // whether the table of votes is filled, and that of checkpoints before it
    pub large: bool,
    crowded: bool,
}

// A log of a chain that is carried on, and of what happens beside it.
pub fn chain_log(seed: u64, number: usize) -> Vec<u8> {
    let mut growing = Growing::begin(Random::of_case(seed, 10, number as u64), false);
    for _ in 0..growing.maker.random.within(0, 12) {
        growing.go_on();
    }
    growing.maker.log
}

impl Growing {
    // The header and the members.
    pub fn begin(mut random: Random, large: bool) -> Growing {
        let wild = random.one_in(3) && !large;
        let mut maker = Maker::new(random);
        maker.begin();
        if large {
            maker.fill_members(MAX_MEMBERS);
        } else {
            let count = maker.random.within(1, 9);
            maker.members(count);
        }
        let members = maker.member_places().len();
        let stray = if members > 2 && maker.random.one_in(2) { Some(maker.random.below(members)) } else { None };
        let crowded = maker.random.one_in(2);
        Growing { maker, tip: 0, dropped: Vec::new(), stray, wild, large, crowded }
    }

    pub fn log(&self) -> &[u8] {
        &self.maker.log
    }

    // Steps of the chain without votes, and everyone's votes from the root to the last.
    pub fn climb(&mut self, steps: usize) {
        for _ in 0..steps {
            self.tip = self.maker.checkpoint(self.tip);
        }
        let everyone = self.maker.member_places();
        self.maker.carry(&everyone, 0, self.tip, true);
    }

    // The log goes on from what is held now. The chain goes on from as far up as it is held.
    pub fn hold(&mut self, w: &Witness) {
        let held = |spot: &Spot| w.places.get(&spot.0).copied();
        while self.tip != 0 && held(&self.maker.at(self.tip)).is_none() {
            self.tip = self.maker.parent(self.tip);
        }
        self.tip = held(&self.maker.at(self.tip)).unwrap_or(0);
        let known = (0..self.maker.places()).map(|place| self.maker.at(place));
        self.dropped.extend(known.filter(|spot| held(spot).is_none()));
        self.maker.hold(w);
    }

    // Some records more.
    pub fn go_on(&mut self) {
        if self.large {
            return self.go_on_much();
        }
        match self.maker.random.below(if self.wild { 18 } else { 12 }) {
            0..=7 => self.advance(),
            8 => self.maker.tree(1),
            9 => self.maker.odd_record(),
            10 => self.late(),
            11 => self.mend(),
            12 | 13 => self.maker.votes(1),
            14 | 15 => self.offend(),
            16 => self.fork(),
            _ => self.far_link(),
        }
    }

    // Enough records to fill the tables soon.
    fn go_on_much(&mut self) {
        match self.maker.random.below(6) {
            0 | 1 => self.mend(),
            2 if self.crowded && self.tip > 12 => self.fill(),
            _ => (0..9).for_each(|_| self.advance()),
        }
    }

    // The next step of the chain, sometimes over a gap, with the votes of everyone, or of all but one.
    fn advance(&mut self) {
        let source = self.tip;
        let mut places = self.maker.member_places();
        let bundled = self.large || self.maker.random.one_in(3);
        self.tip = self.maker.checkpoint(source);
        if self.maker.random.one_in(8) {
            self.tip = self.maker.checkpoint(self.tip);
        }
        if let Some(stray) = self.some_stray(places.len()) {
            self.go_astray(places.remove(stray), source);
        }
        self.maker.carry(&places, source, self.tip, bundled);
    }

    fn some_stray(&mut self, members: usize) -> Option<usize> {
        if self.stray.is_none() && members > 1 && self.maker.random.one_in(6) {
            return Some(self.maker.random.below(members));
        }
        self.stray
    }

    // A member votes for another branch, for the height of the chain's next step; or above it, where it does not come
    // back to the chain; or not at all.
    fn go_astray(&mut self, member: usize, source: usize) {
        let steps: usize = self.maker.random.pick(&[0, 0, 0, 1, 1, 2, 3]);
        let steps = if self.stray.is_some() { steps } else { steps.min(1) };
        let side = (0..steps).fold(source, |place, _| self.maker.checkpoint(place));
        if steps > 0 {
            self.maker.vote(self.maker.ids[member], source, side);
        }
    }

    // A member or quorums, which come late.
    pub fn late(&mut self) {
        if self.maker.random.one_in(2) { self.maker.odd_member() } else { self.maker.quorums() }
    }

    // Votes for the last steps of the chain, again: of every member that voted for no other checkpoint of the height.
    fn mend(&mut self) {
        let cast = self.maker.last_votes();
        let mut target = self.tip;
        for _ in 0..self.maker.random.within(1, if self.large { 80 } else { 6 }) {
            if target == 0 {
                return;
            }
            let height = self.maker.at(target).1;
            let vote = |place: &usize| cast.get(&(self.maker.ids[*place], height));
            let mut places = self.maker.member_places();
            let source = places.iter().filter_map(vote).find(|(_, t)| *t == target).map(|(s, _)| *s);
            let source = source.unwrap_or(self.maker.parent(target));
            places.retain(|place| vote(place).map_or(true, |(_, t)| *t == target));
            self.maker.carry(&places, source, target, true);
            target = source;
        }
    }

    // A member votes beside the chain's last step, for the same height; or from the root around others.
    fn offend(&mut self) {
        let id = self.maker.random.pick(&self.maker.ids);
        if self.maker.random.one_in(3) {
            let above = self.maker.checkpoint(self.tip);
            return self.maker.vote(id, 0, above);
        }
        let source = self.maker.parent(self.tip);
        let side = self.maker.checkpoint(source);
        self.maker.vote(id, source, side);
    }

    // A second branch from below the tip, which everyone carries on too.
    fn fork(&mut self) {
        let everyone = self.maker.member_places();
        let mut source = self.maker.parent(self.tip);
        for _ in 0..2 {
            let target = self.maker.checkpoint(source);
            self.maker.carry(&everyone, source, target, true);
            source = target;
        }
    }

    fn far_link(&mut self) {
        if let Some((source, target)) = self.maker.some_link() {
            self.maker.push(source, target);
        }
    }

    // Checkpoints beside the chain, a few more than there is room for.
    fn fill(&mut self) {
        for _ in self.maker.places()..MAX_CHECKPOINTS + 2 {
            let parent = self.maker.random.below(self.tip + 1);
            self.maker.checkpoint(parent);
        }
    }

    // A record that names what was dropped: a checkpoint of that name again, or under it, or a vote from it or for it.
    pub fn name_dropped(&mut self) {
        if self.dropped.is_empty() {
            return;
        }
        let dropped = self.maker.random.pick(&self.dropped);
        let place = self.maker.random.below(self.maker.places());
        let (held, id) = (self.maker.at(place), self.maker.random.pick(&self.maker.ids));
        match self.maker.random.below(6) {
            0 | 1 => drop(self.maker.named_checkpoint(dropped.0, place)),
            2 => {
                let name = self.maker.fresh_name();
                self.maker.put_checkpoint(name, dropped.0);
            }
            3 => self.maker.put_vote(id, dropped, held),
            4 => self.maker.put_vote(id, held, dropped),
            _ => {
                let places = self.maker.some_places();
                self.maker.put_bundle(&places, dropped, held);
            }
        }
    }
}
