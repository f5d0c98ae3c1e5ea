//! The calls with points, with one mistake each. A mistake of the take-back
//! without points is made here too.

use super::step_of;
use super::{Broken, Mistake};
use crate::codes::{HAPPENS, PICK, number};
use crate::form::{Form, Kept};
use crate::implementation::{Entry, Reference, Slots};
use crate::slots::SLOTS;

/// Names the place at the count.
pub fn name(mistake: Mistake, name: &[u8], count: usize, slots: Slots) -> u32 {
    let view = View { mistake, slots };
    let known = view.find(name);
    let free = match mistake {
        Mistake::LastFreeSlot => view.all().rfind(|&slot| view.is_free(slot)),
        _ => view.all().find(|&slot| view.is_free(slot)),
    };
    let is_new = known.is_none() && free.is_none();
    if mistake == Mistake::NoSlotBeforePoints && is_new && view.is_whole() {
        return 20;
    }
    let has_word = count < usize::MAX || mistake == Mistake::CountWraps;
    let has_length = name.len() == 8 || mistake == Mistake::NameOfAnyLength;
    if !view.is_right(count) || !has_length || !has_word {
        return 7;
    }
    let slot = match mistake {
        Mistake::MovedPointStandsTwice => free,
        Mistake::KnownNameNeedsAFreeSlot if free.is_none() => None,
        Mistake::FullSlotsOverwritten => known.or(free).or(Some(0)),
        Mistake::FreeNameTakesItsSlot => {
            let has_name = |&slot: &usize| view.is_same(view.name(slot), name);
            known.or_else(|| view.all().find(has_name)).or(free)
        }
        _ => known.or(free),
    };
    let Some(slot) = slot else {
        return 20;
    };
    let mut whole = [0; 8];
    let length = name.len().min(8);
    whole[..length].copy_from_slice(&name[..length]);
    view.slots.names[8 * slot..][..8].copy_from_slice(&whole);
    let word = (count as u64).wrapping_add(1);
    view.slots.places[slot] = if mistake == Mistake::WordIsTheCount { count as u64 } else { word };
    0
}

/// Takes the last step back, and drops points.
pub fn undo(
    broken: &mut Broken,
    form: Form,
    plan: &[u8],
    (state, entries, count): Kept,
    slots: Slots,
) -> u32 {
    let mistake = broken.mistake;
    let mut view = View { mistake, slots };
    let (mut after, mut left, mut counted) = (state.to_vec(), entries.to_vec(), *count);
    let result = broken.undo_in(form, plan, (&mut after, &mut left, &mut counted));
    let is_first = match result {
        16 => mistake == Mistake::NoStepBeforePoints,
        8 | 9 => mistake == Mistake::EntryBeforePoints,
        _ => matches!(result, 1..=7 | 22),
    };
    if is_first {
        return result;
    }
    if !view.is_right(*count) {
        return 7;
    }
    if matches!(result, 8 | 9) && mistake == Mistake::RefusedTakeBackDrops {
        view.drop_past(*count - 1);
    }
    if number(result) != 0 {
        return result;
    }
    state.copy_from_slice(&after);
    entries.copy_from_slice(&left);
    *count = counted;
    let drops = match mistake {
        Mistake::TakeBackDropsNothing => false,
        Mistake::DeskTakeBackDropsNothing => form == Form::Plain,
        _ => true,
    };
    if drops {
        view.drop_past(counted);
    }
    result
}

/// Goes back to a name.
pub fn back(
    broken: &mut Broken,
    form: Form,
    plan: &[u8],
    name: &[u8],
    (state, entries, count): Kept,
    slots: Slots,
) -> u32 {
    let mistake = broken.mistake;
    let checked = form.check(&mut Reference, plan);
    if checked != 0 {
        return checked;
    }
    if state.len() != form.state_length(plan) || *count > entries.len() {
        return 7;
    }
    let mut view = View { mistake, slots };
    let found = match mistake {
        Mistake::FreeNameIsGoneBackTo => {
            view.find(name).or_else(|| view.all().find(|&slot| view.is_same(view.name(slot), name)))
        }
        _ => view.find(name),
    };
    let is_eight = name.len() == 8 || mistake == Mistake::NameOfAnyLength;
    if mistake == Mistake::UnknownBeforePoints && found.is_none() && is_eight {
        return 19;
    }
    if !view.is_right(*count) || !is_eight {
        return 7;
    }
    let Some(slot) = found else {
        let last = count.checked_sub(1).map(|place| entries[place]);
        let fault = last.map_or(0, |entry| fault(form, plan, entry));
        return if mistake == Mistake::UnknownAfterEntries && fault != 0 { fault } else { 19 };
    };
    let place = (view.word(slot).saturating_sub(1) as usize).min(*count);
    let place = match mistake {
        Mistake::BackStopsOneEarly => (place + 1).min(*count),
        Mistake::BackOneTooFar => place.saturating_sub(1),
        Mistake::BackToHereRefused if place == *count => return 16,
        Mistake::BackFromNoStepRefused if *count == 0 => return 16,
        _ => place,
    };
    let result = go(broken, form, plan, place, (state, entries, count));
    if number(result) != 0 {
        return result;
    }
    let drops = match mistake {
        Mistake::BackDropsNothing => false,
        Mistake::DeskBackDropsNothing => form == Form::Plain,
        _ => true,
    };
    if drops {
        view.drop_past(place);
    }
    if mistake == Mistake::BackDropsItsPoint {
        view.free(slot);
    }
    result
}

/// Takes back the steps behind a place, or none; answers the number.
fn go(broken: &mut Broken, form: Form, plan: &[u8], place: usize, (state, entries, count): Kept) -> u32 {
    let mistake = broken.mistake;
    let way = place..*count;
    let is_trusted = |entry: &Entry| mistake == Mistake::BackTrustsRepeats && entry[3] == 0;
    let faults = |range: std::ops::Range<usize>| {
        let of_entry = |entry: &Entry| if is_trusted(entry) { 0 } else { fault(form, plan, *entry) };
        let faults: Vec<u32> =
            entries[range].iter().rev().map(of_entry).filter(|&number| number != 0).collect();
        faults
    };
    let met = match mistake {
        Mistake::FirstFaultFromTheFront => faults(way.clone()).last().copied(),
        Mistake::LowestFaultOnTheWay => faults(way.clone()).into_iter().min(),
        Mistake::BackLooksBelowThePoint => faults(0..*count).first().copied(),
        _ => faults(way.clone()).first().copied(),
    };
    if let Some(number) = met
        && mistake != Mistake::BackHalfUndone
    {
        return number;
    }
    let (before, counted) = (state.to_vec(), *count);
    for at in way.clone().rev() {
        let entry = misread(mistake, form, plan, entries[at]);
        let kept = (&mut *state, &mut [entry][..], &mut 1);
        let result = if is_trusted(&entry) { 0 } else { broken.undo_in(form, plan, kept) };
        if number(result) != 0 {
            if mistake != Mistake::BackHalfUndone {
                state.copy_from_slice(&before);
                *count = counted;
            }
            return result;
        }
        *count = at;
    }
    match mistake {
        Mistake::BackReplays => {
            state.fill(0);
            for &entry in &entries[..place] {
                form.simulate(&mut Reference, plan, step_of(entry), state);
            }
        }
        Mistake::BackRewritesEntries => entries[way].fill([0; 4]),
        Mistake::BackLeavesTheCount => *count = way.end,
        Mistake::BackAnswersThePlace => return (place as u32) << 16,
        _ => {}
    }
    0
}

/// What the mistake makes of an entry that is taken back on the way.
fn misread(mistake: Mistake, form: Form, plan: &[u8], [code, node, site, changed]: Entry) -> Entry {
    let happens = u32::from(site) == HAPPENS;
    let is_pick = u32::from(code) == PICK && happens;
    match mistake {
        Mistake::BackClearsRepeats => [code, node, site, 1],
        Mistake::BackOnlyIfOne => [code, node, site, u8::from(changed == 1)],
        Mistake::BackPickAtTheChild if is_pick => [code, node, form.seat(plan, node.into()) as u8, changed],
        Mistake::BackMessageAtTheEvent if !happens && form.row(plan, site.into()).is_some() => {
            [code, node, HAPPENS as u8, changed]
        }
        _ => [code, node, site, changed],
    }
}

/// What an entry's take-back is refused for.
fn fault(form: Form, plan: &[u8], entry: Entry) -> u32 {
    let mut state = vec![0; form.state_length(plan)];
    form.undo(&mut Reference, plan, (&mut state, &mut [entry], &mut 1))
}

/// Slots as the mistake reads them.
struct View<'a> {
    mistake: Mistake,
    slots: Slots<'a>,
}

impl View<'_> {
    /// The slots that there are.
    fn all(&self) -> std::ops::Range<usize> {
        0..self.slots.places.len().min(self.slots.names.len() / 8)
    }

    /// Whether both lists have their lengths.
    fn is_whole(&self) -> bool {
        let (names, places) = (self.slots.names.len(), self.slots.places.len());
        match self.mistake {
            Mistake::SlotsOfAnyNumber => names == 8 * places,
            _ => names == 8 * SLOTS && places == SLOTS,
        }
    }

    fn word(&self, slot: usize) -> u64 {
        let word = self.slots.places[slot];
        if self.mistake == Mistake::PlacesCut { word & 0xffff_ffff } else { word }
    }

    fn is_free(&self, slot: usize) -> bool {
        self.word(slot) == 0
    }

    fn name(&self, slot: usize) -> &[u8] {
        &self.slots.names[8 * slot..][..8]
    }

    fn is_same(&self, one: &[u8], two: &[u8]) -> bool {
        let up_to_zero = |name: &[u8]| name.iter().position(|&byte| byte == 0).unwrap_or(name.len());
        match self.mistake {
            Mistake::SevenBytesOfAName => one.get(..7) == two.get(..7),
            Mistake::NameEndsAtZero => one[..up_to_zero(one)] == two[..up_to_zero(two)],
            _ => one == two,
        }
    }

    /// The slot in use that has a name.
    fn find(&self, name: &[u8]) -> Option<usize> {
        self.all().find(|&slot| !self.is_free(slot) && self.is_same(self.name(slot), name))
    }

    /// Whether 7 is not due for the points.
    fn is_right(&self, count: usize) -> bool {
        if !self.is_whole() {
            return false;
        }
        let counts = |slot: &usize| !self.is_free(*slot) || self.mistake == Mistake::FreeNamesCompared;
        let is_alone = |slot: usize| {
            let mut before = (0..slot).filter(counts);
            !before.any(|other| self.is_same(self.name(other), self.name(slot)))
        };
        let is_reached = |slot: usize| {
            let place = self.word(slot).checked_sub(1);
            match self.mistake {
                Mistake::PointPastTheCount => true,
                Mistake::PointAtTheCountRefused => place.is_none_or(|place| place < count as u64),
                _ => place.is_none_or(|place| place <= count as u64),
            }
        };
        let forgotten = self.mistake == Mistake::TwoOfOneName;
        self.all().all(is_reached) && (forgotten || self.all().filter(counts).all(is_alone))
    }

    fn free(&mut self, slot: usize) {
        if self.mistake != Mistake::DroppedNamesStay {
            self.slots.names[8 * slot..][..8].fill(0);
        }
        self.slots.places[slot] = 0;
    }

    fn drop_past(&mut self, place: usize) {
        for slot in self.all() {
            let of_point = self.word(slot).checked_sub(1);
            let is_past = match self.mistake {
                Mistake::DropsAtTheCount => of_point.is_some_and(|of_point| of_point >= place as u64),
                Mistake::DropClearsFreeNames => of_point.is_none_or(|of_point| of_point > place as u64),
                _ => of_point.is_some_and(|of_point| of_point > place as u64),
            };
            if is_past {
                self.free(slot);
            }
        }
    }
}
