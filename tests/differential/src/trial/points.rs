//! The calls with points. Beside the reference they are held against the
//! subject's own take-back without points, one by one, and against what the
//! rules say of slots.

use super::{Call, Trial, short_bytes, short_number};
use crate::implementation::{Entry, Implementation};
use crate::lent::{Journal, Points};
use crate::slots;
use crate::tally::Function;

/// What a call must leave, where it passes.
struct Left {
    state: Vec<u8>,
    count: usize,
    slots: slots::Left,
}

impl Left {
    /// A journal as it is before the call.
    fn before(journal: &Journal) -> Left {
        Left {
            state: journal.state.before().to_vec(),
            count: journal.count.before(),
            slots: Default::default(),
        }
    }

    /// Whether both sides hold this, and nothing else has changed.
    fn is_in(&self, journal: &Journal, points: &Points) -> bool {
        journal.state.holds(&self.state)
            && journal.count.is(self.count)
            && journal.entries.is_untouched()
            && are_slots(&self.slots, points)
    }

    /// Whether both sides hold this where the call must pass, and otherwise
    /// the subject has the number and nothing has changed.
    fn is_met(expected: Result<&Left, u32>, theirs: u32, journal: &Journal, points: &Points) -> bool {
        match expected {
            Ok(left) => theirs == 0 && left.is_in(journal, points),
            Err(refused) => theirs == refused && journal.is_untouched() && points.is_untouched(),
        }
    }
}

fn are_slots((names, places): &slots::Left, points: &Points) -> bool {
    points.names.holds(names) && points.places.holds(places)
}

/// Words as bytes, for describing a call.
fn word_bytes(words: &[u64]) -> Vec<u8> {
    words.iter().flat_map(|word| word.to_be_bytes()).collect()
}

impl<S: Implementation, R: Implementation> Trial<S, R> {
    /// A naming in slots of its own.
    pub fn point_name(&mut self, name: &[u8], count: usize, names: &[u8], places: &[u64]) -> u32 {
        let mut points = std::mem::take(&mut self.points);
        points.load(names, places);
        let (ours, _) = self.point_name_on(name, count, &mut points);
        self.points = points;
        ours
    }

    /// A naming in slots that go on; answers also whether both sides came to
    /// the same.
    pub fn point_name_on(&mut self, name: &[u8], count: usize, points: &mut Points) -> (u32, bool) {
        self.plan.load(&[]);
        self.read.load(name);
        let theirs = self.subject.point_name(self.read.bytes(), count, points.subject());
        let ours = self.reference.point_name(name, count, points.reference());
        let (names, places) = (points.names.before(), points.places.before());
        let right = match slots::after_naming(name, count, names, places) {
            Ok(left) => theirs == 0 && are_slots(&left, points),
            Err(refused) => theirs == refused && points.is_untouched(),
        };
        let lent = &[name, names, &word_bytes(places)];
        let numbers = &[short_number(count)];
        let call = Call { function: Function::PointName, plan: &[], numbers, lent };
        let fine = self.judge(call, ours, theirs, right && self.read.is_still(name));
        points.keep_all();
        (ours, fine)
    }

    /// A take-back with points, on a state, a journal and slots of its own.
    pub fn point_undo(
        &mut self,
        plan: &[u8],
        state: &[u8],
        journal: (&[Entry], usize),
        slots: (&[u8], &[u64]),
    ) -> u32 {
        self.on_own(state, journal, slots, |trial, journal, points| {
            trial.point_undo_on(plan, journal, points)
        })
    }

    /// A take-back with points, on what goes on; answers also whether both
    /// sides came to the same.
    pub fn point_undo_on(&mut self, plan: &[u8], journal: &mut Journal, points: &mut Points) -> (u32, bool) {
        let form = self.form;
        self.plan.load(plan);
        let expected = self.left_by_undo(plan, journal, points);
        let theirs =
            form.point_undo(&mut self.subject, self.plan.bytes(), journal.subject(), points.subject());
        let ours = form.point_undo(&mut self.reference, plan, journal.reference(), points.reference());
        let right = Left::is_met(expected.as_ref().map_err(|number| *number), theirs, journal, points);
        let fine = self.judge_points(Function::PointUndo, plan, &[], journal, points, (ours, theirs, right));
        (ours, fine)
    }

    /// A going back, on a state, a journal and slots of its own.
    pub fn point_back(
        &mut self,
        plan: &[u8],
        name: &[u8],
        state: &[u8],
        journal: (&[Entry], usize),
        slots: (&[u8], &[u64]),
    ) -> u32 {
        self.on_own(state, journal, slots, |trial, journal, points| {
            trial.point_back_on(plan, name, journal, points)
        })
    }

    /// A going back, on what goes on; answers also whether both sides came to
    /// the same.
    pub fn point_back_on(
        &mut self,
        plan: &[u8],
        name: &[u8],
        journal: &mut Journal,
        points: &mut Points,
    ) -> (u32, bool) {
        let form = self.form;
        self.plan.load(plan);
        self.read.load(name);
        let expected = self.left_by_back(plan, name, journal, points);
        let (plan_lent, name_lent) = (self.plan.bytes(), self.read.bytes());
        let theirs =
            form.point_back(&mut self.subject, plan_lent, name_lent, journal.subject(), points.subject());
        let ours = form.point_back(&mut self.reference, plan, name, journal.reference(), points.reference());
        let right = Left::is_met(expected.as_ref().map_err(|number| *number), theirs, journal, points)
            && self.read.is_still(name);
        let fine = self.judge_points(Function::PointBack, plan, name, journal, points, (ours, theirs, right));
        (ours, fine)
    }

    /// Lends a journal and slots to one call.
    fn on_own(
        &mut self,
        state: &[u8],
        (entries, count): (&[Entry], usize),
        (names, places): (&[u8], &[u64]),
        call: impl FnOnce(&mut Self, &mut Journal, &mut Points) -> (u32, bool),
    ) -> u32 {
        let mut journal = std::mem::take(&mut self.journal);
        let mut points = std::mem::take(&mut self.points);
        journal.load(state, entries, count);
        points.load(names, places);
        let (ours, _) = call(self, &mut journal, &mut points);
        (self.journal, self.points) = (journal, points);
        ours
    }

    /// What a take-back with points must leave: what the subject's own without
    /// points does, and of the points those that are not past the new count.
    /// Points that are not right come before what an entry is refused for, and
    /// before there being none.
    fn left_by_undo(&mut self, plan: &[u8], journal: &Journal, points: &Points) -> Result<Left, u32> {
        let mut left = Left::before(journal);
        let mut entries = journal.entries().to_vec();
        let kept = (&mut left.state[..], &mut entries[..], &mut left.count);
        let result = self.form.undo(&mut self.subject, plan, kept);
        let (names, places) = (points.names.before(), points.places.before());
        match result {
            1..=7 | 22 => Err(result),
            _ if slots::right(names, places, journal.count.before()).is_none() => Err(7),
            0 => {
                left.slots = slots::after_drop(left.count, names, places);
                Ok(left)
            }
            _ => Err(result),
        }
    }

    /// What a going back must leave: what so many of the subject's own
    /// take-backs without points do, unless one of them is refused.
    fn left_by_back(
        &mut self,
        plan: &[u8],
        name: &[u8],
        journal: &Journal,
        points: &Points,
    ) -> Result<Left, u32> {
        let form = self.form;
        let checked = form.check(&mut self.subject, plan);
        if checked != 0 {
            return Err(checked);
        }
        let count = journal.count.before();
        let (names, places) = (points.names.before(), points.places.before());
        let points = slots::right(names, places, count).ok_or(7u32)?;
        let has_rows = journal.state.length() == form.state_length(plan);
        if !has_rows || count > journal.entries().len() || name.len() != 8 {
            return Err(7);
        }
        let place = *points.get(name).ok_or(19u32)? as usize;
        let mut left = Left::before(journal);
        let mut entries = journal.entries().to_vec();
        for _ in place..count {
            let kept = (&mut left.state[..], &mut entries[..], &mut left.count);
            match form.undo(&mut self.subject, plan, kept) {
                0 => {}
                refused => return Err(refused),
            }
        }
        left.slots = slots::after_drop(place, names, places);
        Ok(left)
    }

    /// Counts and compares a call with points, and takes what it left as lent
    /// from now on.
    fn judge_points(
        &mut self,
        function: Function,
        plan: &[u8],
        name: &[u8],
        journal: &mut Journal,
        points: &mut Points,
        (ours, theirs, right): (u32, u32, bool),
    ) -> bool {
        let words = word_bytes(points.places.before());
        let lent = &[
            name,
            short_bytes(journal.state.before()),
            short_bytes(journal.entries.before()),
            points.names.before(),
            &words,
        ];
        let numbers = &[short_number(journal.count.before())];
        let function = self.form.function(function);
        let fine = self.judge(Call { function, plan, numbers, lent }, ours, theirs, right);
        journal.state.keep_all();
        journal.count.keep();
        points.keep_all();
        fine
    }
}
