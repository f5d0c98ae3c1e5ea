//! Named points: places in a journal that have a name, in lent slots, so that
//! a simulation can go back to them.

use crate::journal::{Entry, fitting, kept, take_back};
use crate::layout::Layout;
use crate::plan::Plan;
use crate::refusal::Refusal;
use crate::simulate::Step;

/// How many slots there are.
pub const SLOTS: usize = 16;

/// A name: any eight bytes.
pub type Name = [u8; 8];

/// Names the place behind the count's steps. A point of that name moves there;
/// otherwise the first free slot gets both. 7, then 20.
pub fn name(name: &[u8], count: usize, names: &mut [u8], places: &mut [u64]) -> Result<(), Refusal> {
    let slots = Slots::read(names, places, count)?;
    let name = read_name(name)?;
    let word = word_of(count).ok_or(Refusal::Length)?;
    let slot = slots.find(name).or_else(|| slots.first_free()).ok_or(Refusal::NoFreePoint)?;
    slots.names[slot] = *name;
    slots.words[slot] = word;
    Ok(())
}

/// Takes the last step back, and drops the points past the new count. 1 to 6,
/// then 7 for the state, the count and the points, then 16, 8 and 9 as without
/// points.
pub fn undo(
    plan: &[u8],
    state: &mut [u8],
    entries: &[Entry],
    count: &mut usize,
    names: &mut [u8],
    places: &mut [u64],
) -> Result<(), Refusal> {
    undo_in(&Plan::check(plan)?, state, entries, count, names, places)
}

/// The same in a checked plan.
pub(crate) fn undo_in(
    layout: &impl Layout,
    state: &mut [u8],
    entries: &[Entry],
    count: &mut usize,
    names: &mut [u8],
    places: &mut [u64],
) -> Result<(), Refusal> {
    fitting(layout, state)?;
    let kept = kept(entries, *count)?;
    let slots = Slots::read(names, places, *count)?;
    take_back(layout, kept.last().ok_or(Refusal::NoStep)?, state)?;
    *count -= 1;
    slots.drop_past(*count);
    Ok(())
}

/// Takes steps back up to the place of the name's point, and drops the points
/// past it. 1 to 6, then 7 for the state, the count, the points and the name,
/// 19 if no point has the name, then the first of 8 and 9 that an entry on the
/// way has, the last entry being the first.
pub fn back(
    plan: &[u8],
    name: &[u8],
    state: &mut [u8],
    entries: &[Entry],
    count: &mut usize,
    names: &mut [u8],
    places: &mut [u64],
) -> Result<(), Refusal> {
    back_in(&Plan::check(plan)?, name, state, entries, count, names, places)
}

/// The same in a checked plan.
pub(crate) fn back_in(
    layout: &impl Layout,
    name: &[u8],
    state: &mut [u8],
    entries: &[Entry],
    count: &mut usize,
    names: &mut [u8],
    places: &mut [u64],
) -> Result<(), Refusal> {
    fitting(layout, state)?;
    let kept = kept(entries, *count)?;
    let slots = Slots::read(names, places, *count)?;
    let name = read_name(name)?;
    let place = slots.find(name).and_then(|slot| slots.place(slot)).ok_or(Refusal::UnknownPoint)?;
    let way = &kept[place..];
    way.iter().rev().try_for_each(|entry| Step::of_entry(layout, entry).map(|_| ()))?;
    way.iter().rev().try_for_each(|entry| take_back(layout, entry, state))?;
    *count = place;
    slots.drop_past(place);
    Ok(())
}

/// A name of the right length.
fn read_name(name: &[u8]) -> Result<&Name, Refusal> {
    name.try_into().map_err(|_| Refusal::Length)
}

/// What stands in a slot for a point at this place. The last number there is
/// has no word.
fn word_of(place: usize) -> Option<u64> {
    (place as u64).checked_add(1)
}

/// Lent slots whose points are right.
struct Slots<'a> {
    names: &'a mut [Name; SLOTS],
    /// 0 for a free slot, otherwise one more than the point's place.
    words: &'a mut [u64; SLOTS],
}

impl<'a> Slots<'a> {
    /// 7 unless there are all slots and no more, no point stands behind the
    /// count, and no two points share a name.
    fn read(names: &'a mut [u8], words: &'a mut [u64], count: usize) -> Result<Slots<'a>, Refusal> {
        let (names, rest) = names.as_chunks_mut();
        let (Ok(names), [], Ok(words)) = (names.try_into(), rest, words.try_into()) else {
            return Err(Refusal::Length);
        };
        let slots = Slots { names, words };
        let is_right = |slot: usize| {
            let is_reached = slots.place(slot).is_none_or(|place| place <= count);
            is_reached && (slots.is_free(slot) || slots.find(&slots.names[slot]) == Some(slot))
        };
        if (0..SLOTS).all(is_right) { Ok(slots) } else { Err(Refusal::Length) }
    }

    fn is_free(&self, slot: usize) -> bool {
        self.words[slot] == 0
    }

    /// Where a slot's point is; a place that no journal can have counts as the
    /// last number there is.
    fn place(&self, slot: usize) -> Option<usize> {
        let place = self.words[slot].checked_sub(1)?;
        Some(usize::try_from(place).unwrap_or(usize::MAX))
    }

    /// The first slot in use that has a name.
    fn find(&self, name: &Name) -> Option<usize> {
        (0..SLOTS).find(|&slot| !self.is_free(slot) && self.names[slot] == *name)
    }

    fn first_free(&self) -> Option<usize> {
        (0..SLOTS).find(|&slot| self.is_free(slot))
    }

    /// Frees the slots of all points past a place, names and all.
    fn drop_past(self, place: usize) {
        for slot in 0..SLOTS {
            if self.place(slot).is_some_and(|of_point| of_point > place) {
                self.names[slot] = [0; 8];
                self.words[slot] = 0;
            }
        }
    }
}
