// A call that moves the root, beside the reference: the answer, what is held afterwards, and every byte past that.
use crate::compare::{held, same, Same};
use crate::library::Witness;
use crate::random::Random;
use crate::reference::{self, MAX_CHECKPOINTS};
use crate::tally::Tally;

// A witness of the library and the reference's.
pub type Both = (Box<Witness>, reference::Witness);

// One call on a sound state. What it leaves is given back, unless the move is refused.
pub fn compare(w: &Witness, r: &reference::Witness, place: usize, tally: &mut Tally) -> Result<Option<Both>, String> {
    let expected = r.move_root(place);
    tally.moving(r, place, &expected);
    let moved = w.move_root(place as u16);
    let row = expected.as_ref().map_or_else(|hindrance| hindrance.row(), |_| 0);
    same(&format!("the root moved to {place}"), moved.refused, u64::from(row))?;
    let Ok(theirs) = expected else {
        same("the state that a refused move leaves", moved.witness == *w, true)?;
        return Ok(None);
    };
    held(&moved.witness, &theirs).map_err(|difference| format!("the root moved to {place}: {difference}"))?;
    in_place(w, &moved.witness)?;
    Ok(Some((Box::new(moved.witness), theirs)))
}

// The members and the rule are as they were, and so is each array past what stays.
fn in_place(before: &Witness, after: &Witness) -> Same {
    let (places, votes) = (after.checkpoint_count, after.vote_count);
    let unchanged = [
        ("ids", before.ids == after.ids),
        ("bonds", before.bonds == after.bonds),
        ("numbers", before.numbers == after.numbers),
        ("names", before.names[32 * places..] == after.names[32 * places..]),
        ("parents", before.parents[places..] == after.parents[places..]),
        ("heights", before.heights[places..] == after.heights[places..]),
        ("voters", before.voters[votes..] == after.voters[votes..]),
        ("sources", before.sources[votes..] == after.sources[votes..]),
        ("targets", before.targets[votes..] == after.targets[votes..]),
    ];
    for (array, is_unchanged) in unchanged {
        same(&format!("{array} that a move leaves alone"), is_unchanged, true)?;
    }
    same("the new root's parent", after.parents[0], 0)
}

// A place that no checkpoint has: the first such, or a later one.
pub fn place_past(r: &reference::Witness, random: &mut Random) -> usize {
    let count = r.checkpoints.len();
    random.pick(&[count, count + 1, MAX_CHECKPOINTS, usize::from(u16::MAX)])
}

// Moves of a sound state's root: to each place, or to some of many, and to one that is not held.
pub fn to_places(w: &Witness, r: &reference::Witness, random: &mut Random, tally: &mut Tally) -> Same {
    let mut places: Vec<usize> = (0..r.checkpoints.len()).collect();
    random.shuffle(&mut places);
    places.truncate(12);
    places.push(place_past(r, random));
    places.into_iter().try_for_each(|place| compare(w, r, place, tally).map(drop))
}

// Where row 40 applies, it is told of every place, and the state is left as it was.
pub fn unsound(w: &Witness) -> Same {
    for place in [0, 1, u16::MAX] {
        let moved = w.move_root(place);
        same("moving the root", (moved.refused, moved.witness == *w), (40, true))?;
    }
    Ok(())
}
