// States that are handed in: row 40 on the arrays, judged from the words of its row, and states with something broken.
use crate::growing;
use crate::library::{Numbers, Witness};
use crate::logs;
use crate::random::Random;
use crate::reference::{self, Checkpoint, Quota, Vote};
use crate::reference::{MAX_BOND, MAX_CHECKPOINTS, MAX_MEMBERS, MAX_ROOT_HEIGHT, MAX_VOTES};
use std::collections::HashSet;

// Whether row 40 lets the state pass.
pub fn is_sound(w: &Witness) -> bool {
    rule_sound(w) && root_sound(w) && rest_sound(w)
}

// What is given, where it alone is not sound.
pub fn rule_alone(w: &Witness) -> Option<Quota> {
    if !rule_sound(w) && root_sound(w) && rest_sound(w) { Some(given(w)) } else { None }
}

// Whether the root's height alone is not sound.
pub fn root_alone(w: &Witness) -> bool {
    rule_sound(w) && !root_sound(w) && rest_sound(w)
}

fn rest_sound(w: &Witness) -> bool {
    w.checkpoint_count > 0
        && w.member_count <= MAX_MEMBERS
        && w.checkpoint_count <= MAX_CHECKPOINTS
        && w.vote_count <= MAX_VOTES
        && members_sound(w)
        && tree_sound(w)
        && votes_sound(w)
}

// None is given where p and q are 0.
fn is_given(w: &Witness) -> bool {
    (w.numbers.p, w.numbers.q) != (0, 0)
}

fn given(w: &Witness) -> Quota {
    Quota { p: w.numbers.p.into(), q: w.numbers.q.into() }
}

// What is given is permitted.
fn rule_sound(w: &Witness) -> bool {
    !is_given(w) || given(w).is_permitted()
}

// The root's height is anything up to its limit.
fn root_sound(w: &Witness) -> bool {
    w.heights[0] <= MAX_ROOT_HEIGHT
}

fn members_sound(w: &Witness) -> bool {
    let ids: HashSet<u16> = w.ids[..w.member_count].iter().copied().collect();
    ids.len() == w.member_count && w.bonds[..w.member_count].iter().all(|b| (1..=MAX_BOND).contains(b))
}

fn tree_sound(w: &Witness) -> bool {
    let names: HashSet<&[u8]> = w.names[..32 * w.checkpoint_count].chunks(32).collect();
    let climbs = |p: usize| {
        let parent = w.parents[p] as usize;
        parent < p && w.heights[p] as u64 == w.heights[parent] as u64 + 1
    };
    names.len() == w.checkpoint_count && (1..w.checkpoint_count).all(climbs)
}

fn is_ancestor(w: &Witness, ancestor: u16, mut place: u16) -> bool {
    while place != 0 {
        place = w.parents[place as usize];
        if place == ancestor {
            return true;
        }
    }
    false
}

fn votes_sound(w: &Witness) -> bool {
    let ids: HashSet<u16> = w.ids[..w.member_count].iter().copied().collect();
    let mut cast = HashSet::new();
    (0..w.vote_count).all(|i| {
        let (id, source, target) = (w.voters[i], w.sources[i], w.targets[i]);
        let held = |p: u16| (p as usize) < w.checkpoint_count;
        ids.contains(&id)
            && held(source)
            && held(target)
            && is_ancestor(w, source, target)
            && cast.insert((id, source, target))
    })
}

// What a sound state holds, as the reference has it. A root that was moved up comes from no log.
pub fn held_by(w: &Witness) -> reference::Witness {
    let checkpoint = |place: usize| {
        let name = w.names[32 * place..][..32].try_into().expect("32 bytes");
        let parent = if place == 0 { None } else { Some(w.parents[place].into()) };
        (name, Checkpoint { parent, height: w.heights[place] })
    };
    let given = if is_given(w) { Some(given(w)) } else { None };
    let members = (0..w.member_count).map(|i| (w.ids[i], w.bonds[i])).collect();
    let tree = (0..w.checkpoint_count).map(checkpoint).collect();
    reference::Witness::holding(given, members, tree, votes(w))
}

// The votes held, by number.
pub fn votes(w: &Witness) -> Vec<Vote> {
    let cast = |i: usize| Vote { member: w.voters[i], source: w.sources[i].into(), target: w.targets[i].into() };
    (0..w.vote_count).map(cast).collect()
}

// A log for a state: one with charges, one of a chain that is carried on, or one of as many steps as a tree can have.
pub fn log(seed: u64, number: usize) -> Vec<u8> {
    match number % 12 {
        7 => logs::named_log(logs::Naming::Last, MAX_CHECKPOINTS, 0),
        k if k % 3 == 0 => growing::chain_log(seed, number),
        _ => logs::log_with_charges(seed, number),
    }
}

// The whole tree, so much higher.
pub fn raise(w: &mut Witness, by: u32) {
    w.heights[..w.checkpoint_count].iter_mut().for_each(|height| *height = height.wrapping_add(by));
}

// A state that a log left, raised or not, and then most likely disturbed.
pub fn change(random: &mut Random, w: &mut Witness) {
    if w.checkpoint_count == MAX_CHECKPOINTS || random.one_in(2) {
        raise_somehow(random, w);
    }
    if !random.one_in(4) {
        disturb(random, w);
    }
}

// The whole tree raised: by little, to the root's limit, or so that some checkpoint is there; by one more or less too.
fn raise_somehow(random: &mut Random, w: &mut Witness) {
    let there = MAX_ROOT_HEIGHT - w.heights[random.below(w.checkpoint_count)];
    let by = random.pick(&[1, 1000, there, there, MAX_ROOT_HEIGHT, MAX_ROOT_HEIGHT]);
    raise(w, by.wrapping_add(random.pick(&[0, 0, 0, 1, u32::MAX])));
}

// Something changed in a state, most likely so that row 40 applies; sometimes past what is held, where it does not.
fn disturb(random: &mut Random, w: &mut Witness) {
    let member = random.below(w.member_count.max(1));
    let place = random.below(w.checkpoint_count.max(1));
    let vote = random.below(w.vote_count.max(1));
    match random.below(23) {
        0 => w.checkpoint_count = 0,
        1 => w.member_count = random.pick(&[129, 1000, usize::MAX]),
        2 => w.checkpoint_count = random.pick(&[513, 1 << 32, usize::MAX]),
        3 => w.vote_count = random.pick(&[4097, 70000, usize::MAX]),
        4 => w.bonds[member] = random.pick(&[0, MAX_BOND, MAX_BOND + 1, u64::MAX]),
        5 => w.ids[member] = w.ids[random.below(w.member_count.max(1))],
        6 => w.heights[place] = w.heights[place].wrapping_add(random.pick(&[1, u32::MAX, 1 << 16])),
        7 => w.heights[0] = random.pick(&[1, MAX_ROOT_HEIGHT, MAX_ROOT_HEIGHT + 1, u32::MAX]),
        8 => w.parents[place] = random.pick(&[place as u16, 511, 512, 65535, 0]),
        9 => {
            let other = random.below(w.checkpoint_count.max(1));
            w.names.copy_within(32 * other..32 * other + 32, 32 * place);
        }
        10 => w.names[32 * place + random.below(32)] ^= 1,
        11 => w.voters[vote] = random.pick(&[w.voters[vote] ^ 1, 65535, 0]),
        12 => w.sources[vote] = random.pick(&[w.targets[vote], w.sources[vote] ^ 1, 600, 0]),
        13 => w.targets[vote] = random.pick(&[w.sources[vote], w.targets[vote] ^ 1, 600, 0]),
        14 => {
            let other = random.below(w.vote_count.max(1));
            (w.voters[vote], w.sources[vote], w.targets[vote]) = (w.voters[other], w.sources[other], w.targets[other]);
        }
        15 => w.member_count += 1,
        16 => w.checkpoint_count += 1,
        17 => w.vote_count += 1,
        _ => {
            let (p, q) = logs::quota(random);
            w.numbers = Numbers { p, q };
        }
    }
    if random.one_in(3) {
        disturb_unheld(random, w);
    }
}

// Bytes past what is held: they mean nothing.
fn disturb_unheld(random: &mut Random, w: &mut Witness) {
    if w.member_count < MAX_MEMBERS && w.checkpoint_count < MAX_CHECKPOINTS && w.vote_count < MAX_VOTES {
        w.ids[w.member_count] = random.next() as u16;
        w.bonds[w.member_count] = random.next();
        w.parents[w.checkpoint_count] = random.next() as u16;
        w.heights[w.checkpoint_count] = random.next() as u32;
        w.voters[w.vote_count] = random.next() as u16;
        w.sources[w.vote_count] = random.next() as u16;
    }
}
