// Generated lists of charges: ours, and others right and wrong.
use crate::random::Random;
use crate::reference::Witness;

type Entry = (u16, u16, u16);

fn bytes_of(entries: &[Entry]) -> Vec<u8> {
    let mut list = b"FFP\x00\x01".to_vec();
    list.extend((entries.len() as u16).to_be_bytes());
    for (id, earlier, later) in entries {
        list.extend(id.to_be_bytes());
        list.extend(earlier.to_be_bytes());
        list.extend(later.to_be_bytes());
    }
    list
}

// A list for the witness: case `number` of a seed.
pub fn list(seed: u64, number: usize, w: &Witness) -> Vec<u8> {
    let mut random = Random::of_case(seed, 4, number as u64);
    let ours: Vec<Entry> = w.charges().iter().map(|c| (c.id, c.earlier as u16, c.later as u16)).collect();
    match random.below(12) {
        0 => bytes_of(&ours),
        1 | 2 => changed_byte(&mut random, bytes_of(&ours)),
        3 | 4 => rearranged(&mut random, ours),
        5 | 6 => bytes_of(&other_pairs(&mut random, w)),
        7 => bytes_of(&own_votes(&mut random, w)),
        8 => other_length(&mut random, bytes_of(&ours)),
        9 => other_header(&mut random, bytes_of(&ours)),
        10 => any_entries(&mut random, w),
        _ => changed_entry(&mut random, w, ours),
    }
}

fn changed_byte(random: &mut Random, mut list: Vec<u8>) -> Vec<u8> {
    let at = random.below(list.len());
    list[at] ^= 1 << random.below(8);
    list
}

// Entries dropped, swapped or doubled.
fn rearranged(random: &mut Random, mut entries: Vec<Entry>) -> Vec<u8> {
    if entries.is_empty() {
        return bytes_of(&entries);
    }
    let (i, j) = (random.below(entries.len()), random.below(entries.len()));
    match random.below(3) {
        0 => drop(entries.remove(i)),
        1 => entries.swap(i, j),
        _ => entries.insert(i, entries[j]),
    }
    bytes_of(&entries)
}

fn votes_of(w: &Witness, id: u16) -> Vec<u16> {
    (0..w.votes.len()).filter(|n| w.votes[*n].member == id).map(|n| n as u16).collect()
}

// Right pairs of some members, not only those shown.
fn other_pairs(random: &mut Random, w: &Witness) -> Vec<Entry> {
    let mut entries = Vec::new();
    for id in w.bonds.keys() {
        let own = votes_of(w, *id);
        let mut pairs = Vec::new();
        for (k, i) in own.iter().enumerate() {
            for j in &own[k + 1..] {
                if w.breaks(&w.votes[*i as usize], &w.votes[*j as usize]) {
                    pairs.push((*id, *i, *j));
                }
            }
        }
        if !pairs.is_empty() && !random.one_in(4) {
            entries.push(random.pick(&pairs));
        }
    }
    entries
}

// Two votes of each of some members, in any order, whether they break a commandment or not.
fn own_votes(random: &mut Random, w: &Witness) -> Vec<Entry> {
    let mut entries = Vec::new();
    for id in w.bonds.keys() {
        let own = votes_of(w, *id);
        if !own.is_empty() && !random.one_in(3) {
            entries.push((*id, random.pick(&own), random.pick(&own)));
        }
    }
    entries
}

// Cut, or longer.
fn other_length(random: &mut Random, mut list: Vec<u8>) -> Vec<u8> {
    if random.one_in(2) {
        list.truncate(random.below(list.len() + 1));
    } else {
        let more = random.within(1, 13);
        list.extend(random.bytes(more));
    }
    list
}

// Another mark, version or count.
fn other_header(random: &mut Random, mut list: Vec<u8>) -> Vec<u8> {
    match random.below(4) {
        0 => list[random.below(3)] = random.next() as u8,
        1 => list[2] = b'W',
        2 => list[random.within(3, 4)] = random.next() as u8,
        _ => list[random.within(5, 6)] ^= 1 << random.below(8),
    }
    list
}

// Random entries under a right header, numbers near those held.
fn any_entries(random: &mut Random, w: &Witness) -> Vec<u8> {
    let near = w.votes.len() + 2;
    let mut entries: Vec<Entry> = (0..random.below(5))
        .map(|_| (random.within(0, 41) as u16, random.below(near) as u16, random.below(near) as u16))
        .collect();
    entries.sort();
    bytes_of(&entries)
}

// One entry of ours with another id or another vote.
fn changed_entry(random: &mut Random, w: &Witness, mut entries: Vec<Entry>) -> Vec<u8> {
    if entries.is_empty() {
        return any_entries(random, w);
    }
    let i = random.below(entries.len());
    let near = w.votes.len() + 1;
    match random.below(5) {
        0 => entries[i].0 = random.within(0, 41) as u16,
        1 => entries[i].1 = random.below(near) as u16,
        2 => entries[i].2 = random.below(near) as u16,
        3 => entries[i].2 = random.pick(&[4096, 65535, entries[i].1]),
        _ => (entries[i].1, entries[i].2) = (entries[i].2, entries[i].1),
    }
    bytes_of(&entries)
}
