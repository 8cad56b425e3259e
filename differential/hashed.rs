// A plain Rust reader of bundles for the benchmark, made for speed: names are looked up in a hash map, once for a
// bundle, and votes in a hash set. The state is stored into where it lies.
use crate::library::Witness;
use crate::plain::{cast_vote, each_vote, find_link, member_bits, Rows, BUNDLE};
use crate::reference::{Name, MAX_MEMBERS, MAX_VOTES};
use std::collections::{HashMap, HashSet};
use std::hash::{BuildHasherDefault, Hasher};

pub struct Reader {
    pub witness: Box<Witness>,
    places: HashMap<Name, usize>,
    cast: HashSet<u64, BuildHasherDefault<Mixer>>,
}

// A quick hash for votes: they are places that the reader gave itself, so no sender of a log can make many of them
// meet. Names, which senders choose, have the standard library's.
#[derive(Default)]
pub struct Mixer(u64);

impl Hasher for Mixer {
    fn write(&mut self, bytes: &[u8]) {
        bytes.iter().for_each(|b| self.write_u64(u64::from(*b)));
    }

    fn write_u64(&mut self, key: u64) {
        let spread = (self.0 ^ key).wrapping_mul(0x9e3779b97f4a7c15);
        self.0 = spread ^ spread >> 32;
    }

    fn finish(&self) -> u64 {
        self.0
    }
}

impl Reader {
    // A reader of a state without votes.
    pub fn of(w: &Witness) -> Reader {
        let names = w.names[..32 * w.checkpoint_count].chunks_exact(32);
        Reader {
            witness: Box::new(*w),
            places: names.map(|name| name.try_into().expect("32 bytes")).zip(0..).collect(),
            cast: HashSet::with_capacity_and_hasher(MAX_VOTES, Default::default()),
        }
    }

    // Bundles, after all votes that were read before are dropped. How many votes are refused; a bundle that is refused
    // whole counts as one.
    pub fn read_bundles(&mut self, records: &[u8]) -> usize {
        self.witness.vote_count = 0;
        self.cast.clear();
        let mut rows = [0; MAX_MEMBERS];
        records.chunks_exact(BUNDLE).map(|record| self.read_bundle(record, &mut rows).unwrap_or(1)).sum()
    }

    // How many votes of a bundle are refused, with the row of each, or the row that refuses it whole.
    fn read_bundle(&mut self, record: &[u8], rows: &mut Rows) -> Result<usize, u8> {
        let bits = member_bits(&self.witness, record)?;
        let link = find_link(&self.witness, &record[17..], |name| self.places.get(name).copied());
        Ok(each_vote(bits, rows, |place| {
            let (source, target) = link?;
            self.cast_vote(place, source, target)
        }))
    }

    // Rows 35 and 36. The vote is looked up once: where there is room, it is in the set afterwards in any case.
    fn cast_vote(&mut self, place: usize, source: u16, target: u16) -> Result<(), u8> {
        let key = (place as u64) << 32 | u64::from(source) << 16 | u64::from(target);
        let full = self.witness.vote_count == MAX_VOTES;
        let held = if full { self.cast.contains(&key) } else { !self.cast.insert(key) };
        let id = self.witness.ids[place];
        cast_vote(&mut self.witness, held, id, source, target)
    }
}
