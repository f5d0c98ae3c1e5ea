//! One call on both sides. Compared are the results, every lent byte, the
//! canaries around them, and what the rules say about bytes that stay: a
//! refused call leaves all, a passed step sets one bit.

use crate::codes::{AND, HAPPENS, TASK, WAITING_AND, bit, number, site, value};
use crate::driver::{Step, Tree};
use crate::form::{Form, HIGHEST_DESK};
use crate::implementation::{Entry, Implementation};
use crate::lent::{Journal, Lent, Pair, Points};
use crate::tables;
use crate::tally::{Function, Tally};

mod forms;
mod impact;
mod load;
mod points;
mod repeat;
mod small;
mod way;

pub use way::without_unread;

/// Both sides, and what has been counted.
pub struct Trial<S, R> {
    /// The implementation under trial.
    pub subject: S,
    /// What it is compared with.
    pub reference: R,
    /// The counts.
    pub tally: Tally,
    /// The form of plans for the calls that there are in both forms. All others
    /// take plain plans.
    pub form: Form,
    plan: Lent,
    read: Lent,
    table: Lent,
    one: Pair,
    two: Pair,
    journal: Journal,
    points: Points,
    /// What the subject's simulation leaves where a step is kept.
    beside: Vec<u8>,
}

/// A call's numbers, for describing it.
struct Call<'a> {
    function: Function,
    plan: &'a [u8],
    numbers: &'a [u32],
    lent: &'a [&'a [u8]],
}

impl<S: Implementation, R: Implementation> Trial<S, R> {
    /// A trial with nothing counted yet.
    pub fn new(subject: S, reference: R) -> Trial<S, R> {
        Trial {
            subject,
            reference,
            tally: Tally::default(),
            form: Form::Plain,
            plan: Lent::default(),
            read: Lent::default(),
            table: Lent::default(),
            one: Pair::default(),
            two: Pair::default(),
            journal: Journal::default(),
            points: Points::default(),
            beside: vec![],
        }
    }

    /// Does something with plans with desks.
    pub fn with_desks(&mut self, doing: impl FnOnce(&mut Self)) {
        self.form = Form::Desks;
        doing(self);
        self.form = Form::Plain;
    }

    /// Checks a plan; answers the reference's result, as all these do.
    pub fn check(&mut self, plan: &[u8]) -> u32 {
        let form = self.form;
        self.plan.load(plan);
        let theirs = form.check(&mut self.subject, self.plan.bytes());
        let ours = form.check(&mut self.reference, plan);
        let same = form == Form::Plain || theirs == self.check_of_parts(plan);
        let call = Call { function: form.function(Function::Check), plan, numbers: &[], lent: &[] };
        self.judge(call, ours, theirs, same);
        ours
    }

    /// What the check of a plan with desks must answer: by its length, then by
    /// the subject's own check of the plain plan, then by its desks.
    fn check_of_parts(&mut self, plan: &[u8]) -> u32 {
        let (nodes, []) = plan.as_chunks::<3>() else {
            return 1;
        };
        match self.subject.check(&Form::Desks.plain(plan)) {
            0 if nodes.iter().any(|&[_, _, desk]| desk > HIGHEST_DESK) => 22,
            checked => checked,
        }
    }

    /// Rewrites a plan into bytes that hold these; answers the subject's
    /// bytes too.
    pub fn rewrite(&mut self, plan: &[u8], out: &[u8]) -> (u32, &[u8]) {
        self.plan.load(plan);
        self.one.load(out);
        let theirs = self.subject.rewrite(self.plan.bytes(), self.one.subject.bytes_mut());
        let ours = self.reference.rewrite(plan, &mut self.one.reference);
        let right = if number(ours) == 0 {
            self.one.subject.is_still(&and_waiting(plan))
        } else {
            self.one.is_untouched()
        };
        let same = self.one.agrees() && right;
        let call = Call { function: Function::Rewrite, plan, numbers: &[], lent: &[out] };
        self.judge(call, ours, theirs, same);
        (ours, self.one.subject.bytes())
    }

    /// Checks a plan and writes depths over these bytes. The number must be
    /// the check's own, or 7 after it.
    pub fn check_depths(&mut self, plan: &[u8], depths: &[u8]) -> u32 {
        self.plan.load(plan);
        self.one.load(depths);
        let theirs = self.subject.check_depths(self.plan.bytes(), self.one.subject.bytes_mut());
        let ours = self.reference.check_depths(plan, &mut self.one.reference);
        let before = self.subject.check(self.plan.bytes());
        let expected = if before == 0 && depths.len() * 2 != plan.len() { 7 } else { before };
        let refused_leaves = number(ours) == 0 || self.one.is_untouched();
        let same = self.one.agrees() && refused_leaves && theirs == expected;
        let call = Call { function: Function::CheckDepths, plan, numbers: &[], lent: &[depths] };
        self.judge(call, ours, theirs, same);
        ours
    }

    /// Writes a guard to a buffer that holds these bytes. Its rule must be the
    /// one that the subject gives to the question for it.
    pub fn guard(&mut self, plan: &[u8], code: u32, node: u32, buffer: &[u8]) -> u32 {
        self.plan.load(plan);
        self.one.load(buffer);
        let theirs = self.subject.guard(self.plan.bytes(), code, node, self.one.subject.bytes_mut());
        let ours = self.reference.guard(plan, code, node, &mut self.one.reference);
        let length = value(ours) as usize;
        let rest_stays = self.one.subject.bytes()[length..] == buffer[length..];
        let has_rule = match number(theirs) {
            0 => self.subject.rule(plan, code, node) == site(theirs) << 16,
            refused => theirs == u32::from(refused),
        };
        let same = self.one.agrees() && rest_stays && has_rule;
        let call = Call { function: Function::Guard, plan, numbers: &[code, node], lent: &[buffer] };
        self.judge(call, ours, theirs, same);
        ours
    }

    /// The rule of an event.
    pub fn rule(&mut self, plan: &[u8], code: u32, node: u32) -> u32 {
        self.plan.load(plan);
        let theirs = self.subject.rule(self.plan.bytes(), code, node);
        let ours = self.reference.rule(plan, code, node);
        let call = Call { function: Function::Rule, plan, numbers: &[code, node], lent: &[] };
        self.judge(call, ours, theirs, true);
        ours
    }

    /// Whether the subject hands on the event's rule where an event passed,
    /// and nothing otherwise; and where the event was decided, if it was.
    fn has_its_rule(&mut self, plan: &[u8], step: Step, theirs: u32) -> bool {
        let Step { code, node, site: hearer } = step;
        let is_event = hearer == HAPPENS;
        let is_decided = is_event && matches!(number(theirs), 0 | 10 | 11);
        let seat = if is_decided { self.form.seat_of_event(plan, code, node as usize) } else { 0 };
        if site(theirs) != seat {
            return false;
        }
        if number(theirs) != 0 || !is_event {
            return value(theirs) == 0;
        }
        self.tally.count_rule(value(theirs));
        self.subject.rule(&self.form.plain(plan), code, node) == value(theirs) << 16
    }

    /// Whether the step at a desk has the number that the subject's own step
    /// with the plain plan has, and leaves the row as that does. A plan whose
    /// desks or length are wrong is no matter of that.
    fn is_step_of_site(&mut self, plan: &[u8], code: u32, node: u32, row: &Pair, theirs: u32) -> bool {
        if self.form == Form::Plain || matches!(number(theirs), 1 | 22) {
            return true;
        }
        self.beside.clear();
        self.beside.extend(row.before());
        let alone = self.subject.step(&self.form.plain(plan), code, node, &mut self.beside);
        number(alone) == number(theirs) && row.subject.bytes() == self.beside
    }

    /// An event at its site, on a row of its own.
    pub fn step(&mut self, plan: &[u8], code: u32, node: u32, row: &[u8]) -> u32 {
        let mut pair = std::mem::take(&mut self.one);
        pair.load(row);
        let (ours, _) = self.step_on(plan, code, node, &mut pair);
        self.one = pair;
        ours
    }

    /// An event at its site, on a row that goes on; answers also whether both
    /// sides came to the same.
    pub fn step_on(&mut self, plan: &[u8], code: u32, node: u32, row: &mut Pair) -> (u32, bool) {
        let form = self.form;
        self.plan.load(plan);
        let theirs = form.step(&mut self.subject, self.plan.bytes(), code, node, row.subject.bytes_mut());
        let ours = form.step(&mut self.reference, plan, code, node, &mut row.reference);
        let has_rule = self.has_its_rule(plan, Step { code, node, site: HAPPENS }, theirs);
        let of_site = self.is_step_of_site(plan, code, node, row, theirs);
        let same = is_bit_set(row, ours, code, Some(node as usize)) && has_rule && of_site;
        let function = form.function(Function::Step);
        let call = Call { function, plan, numbers: &[code, node], lent: &[row.before()] };
        let fine = self.judge(call, ours, theirs, same);
        keep_bit(row, ours, Some(node as usize));
        (ours, fine)
    }

    /// A message into a row of its own.
    pub fn hear(&mut self, plan: &[u8], code: u32, node: u32, row: &[u8]) -> u32 {
        let mut pair = std::mem::take(&mut self.one);
        pair.load(row);
        let (ours, _) = self.hear_on(plan, code, node, &mut pair);
        self.one = pair;
        ours
    }

    /// A message into a row that goes on; answers also whether both sides
    /// came to the same.
    pub fn hear_on(&mut self, plan: &[u8], code: u32, node: u32, row: &mut Pair) -> (u32, bool) {
        self.plan.load(plan);
        let theirs = self.subject.hear(self.plan.bytes(), code, node, row.subject.bytes_mut());
        let ours = self.reference.hear(plan, code, node, &mut row.reference);
        let same = is_bit_set(row, ours, code, Some(node as usize));
        let call = Call { function: Function::Hear, plan, numbers: &[code, node], lent: &[row.before()] };
        let fine = self.judge(call, ours, theirs, same);
        keep_bit(row, ours, Some(node as usize));
        (ours, fine)
    }

    /// The single pass, into marks that hold these bytes; answers the
    /// subject's marks too.
    pub fn pass(&mut self, plan: &[u8], answers: &[u8], marks: &[u8]) -> (u32, &[u8]) {
        self.plan.load(plan);
        self.read.load(answers);
        self.one.load(marks);
        let theirs = self.subject.pass(self.plan.bytes(), self.read.bytes(), self.one.subject.bytes_mut());
        let ours = self.reference.pass(plan, answers, &mut self.one.reference);
        let refused_leaves = number(ours) == 0 || self.one.is_untouched();
        let same = self.one.agrees() && refused_leaves && self.read.is_still(answers);
        let call = Call { function: Function::Pass, plan, numbers: &[], lent: &[answers, marks] };
        self.judge(call, ours, theirs, same);
        (ours, self.one.subject.bytes())
    }

    /// The end record of a state, into marks and classes that hold these
    /// bytes; answers the subject's marks and classes too.
    pub fn record(&mut self, plan: &[u8], state: &[u8], marks: &[u8], classes: &[u8]) -> (u32, &[u8], &[u8]) {
        self.plan.load(plan);
        self.read.load(state);
        self.one.load(marks);
        self.two.load(classes);
        let form = self.form;
        let (subject_marks, subject_classes) = (&mut self.one.subject, &mut self.two.subject);
        let theirs = form.record(
            &mut self.subject,
            self.plan.bytes(),
            self.read.bytes(),
            subject_marks.bytes_mut(),
            subject_classes.bytes_mut(),
        );
        let (our_marks, our_classes) = (&mut self.one.reference, &mut self.two.reference);
        let ours = form.record(&mut self.reference, plan, state, our_marks, our_classes);
        let refused_leaves = number(ours) == 0 || (self.one.is_untouched() && self.two.is_untouched());
        let same = self.one.agrees() && self.two.agrees() && refused_leaves && self.read.is_still(state);
        let lent = &[state, marks, classes];
        let call = Call { function: form.function(Function::Record), plan, numbers: &[], lent };
        self.judge(call, ours, theirs, same);
        (ours, self.one.subject.bytes(), self.two.subject.bytes())
    }

    /// The end record by a table, into marks and classes that hold these
    /// bytes; answers the subject's marks and classes too.
    pub fn record_by(
        &mut self,
        plan: &[u8],
        table: &[u8],
        state: &[u8],
        marks: &[u8],
        classes: &[u8],
    ) -> (u32, &[u8], &[u8]) {
        self.plan.load(plan);
        self.read.load(state);
        self.table.load(table);
        self.one.load(marks);
        self.two.load(classes);
        let form = self.form;
        let (subject_marks, subject_classes) = (&mut self.one.subject, &mut self.two.subject);
        let theirs = form.record_by(
            &mut self.subject,
            self.plan.bytes(),
            self.table.bytes(),
            self.read.bytes(),
            subject_marks.bytes_mut(),
            subject_classes.bytes_mut(),
        );
        let (our_marks, our_classes) = (&mut self.one.reference, &mut self.two.reference);
        let ours = form.record_by(&mut self.reference, plan, table, state, our_marks, our_classes);
        let refused_leaves = number(ours) == 0 || (self.one.is_untouched() && self.two.is_untouched());
        let read_stays = self.read.is_still(state) && self.table.is_still(table);
        let same = self.one.agrees() && self.two.agrees() && refused_leaves && read_stays;
        let lent = &[table, state, marks, classes];
        let call = Call { function: form.function(Function::RecordBy), plan, numbers: &[], lent };
        self.judge(call, ours, theirs, same);
        (ours, self.one.subject.bytes(), self.two.subject.bytes())
    }

    /// The central rule on these marks and notes; answers what the subject
    /// left of them too.
    pub fn central(
        &mut self,
        plan: &[u8],
        code: u32,
        node: u32,
        marks: &[u8],
        notes: &[u8],
    ) -> (u32, &[u8], &[u8]) {
        self.plan.load(plan);
        self.one.load(marks);
        self.two.load(notes);
        let (subject_marks, subject_notes) = (&mut self.one.subject, &mut self.two.subject);
        let theirs = self.subject.central(
            self.plan.bytes(),
            code,
            node,
            subject_marks.bytes_mut(),
            subject_notes.bytes_mut(),
        );
        let ours = self.reference.central(plan, code, node, &mut self.one.reference, &mut self.two.reference);
        let allowed = value(ours) == 1;
        let refused_leaves = allowed || (self.one.is_untouched() && self.two.is_untouched());
        let same = self.one.agrees() && self.two.agrees() && refused_leaves;
        if number(ours) == 0 {
            self.tally.allowed += u64::from(allowed);
            self.tally.not_allowed += u64::from(!allowed);
        }
        let call = Call { function: Function::Central, plan, numbers: &[code, node], lent: &[marks, notes] };
        self.judge(call, ours, theirs, same);
        (ours, self.one.subject.bytes(), self.two.subject.bytes())
    }

    /// A step of a simulation on a state of its own.
    pub fn simulate(&mut self, plan: &[u8], code: u32, node: u32, site: u32, state: &[u8]) -> u32 {
        let mut pair = std::mem::take(&mut self.one);
        pair.load(state);
        let (ours, _) = self.simulate_on(plan, code, node, site, &mut pair);
        self.one = pair;
        ours
    }

    /// A step of a simulation on a state that goes on; answers also whether
    /// both sides came to the same.
    pub fn simulate_on(
        &mut self,
        plan: &[u8],
        code: u32,
        node: u32,
        site: u32,
        state: &mut Pair,
    ) -> (u32, bool) {
        let (form, step) = (self.form, Step { code, node, site });
        self.plan.load(plan);
        let theirs = form.simulate(&mut self.subject, self.plan.bytes(), step, state.subject.bytes_mut());
        let ours = form.simulate(&mut self.reference, plan, step, &mut state.reference);
        let place = form.place(plan, step);
        let has_rule = self.has_its_rule(plan, step, theirs);
        let same = is_bit_set(state, ours, code, place) && has_rule;
        let lent = &[short_bytes(state.before())];
        let function = form.function(Function::Simulate);
        let call = Call { function, plan, numbers: &[code, node, site], lent };
        let fine = self.judge(call, ours, theirs, same);
        keep_bit(state, ours, place);
        (ours, fine)
    }

    /// A kept step on a state and a journal of its own.
    pub fn keep(&mut self, plan: &[u8], step: Step, state: &[u8], entries: &[Entry], count: usize) -> u32 {
        let mut journal = std::mem::take(&mut self.journal);
        journal.load(state, entries, count);
        let (ours, _) = self.keep_on(plan, step, &mut journal);
        self.journal = journal;
        ours
    }

    /// A kept step on a state and a journal that go on; answers also whether
    /// both sides came to the same.
    pub fn keep_on(&mut self, plan: &[u8], step: Step, journal: &mut Journal) -> (u32, bool) {
        let Step { code, node, site } = step;
        let form = self.form;
        self.plan.load(plan);
        let expected = self.simulate_beside(plan, step, journal);
        let theirs = form.keep(&mut self.subject, self.plan.bytes(), step, journal.subject());
        let ours = form.keep(&mut self.reference, plan, step, journal.reference());
        let passed = number(ours) == 0;
        let place = form.place(plan, step);
        let right = if passed { has_kept(place, step, journal) } else { journal.is_untouched() };
        let as_beside = theirs == expected && (!passed || journal.state.subject.bytes() == self.beside);
        let count = journal.count.before();
        let numbers = &[code, node, site, short_number(count)];
        let lent = &[short_bytes(journal.state.before()), short_bytes(journal.entries.before())];
        let call = Call { function: form.function(Function::Keep), plan, numbers, lent };
        let fine = self.judge(call, ours, theirs, right && as_beside);
        if fine && passed {
            place.into_iter().for_each(|place| journal.state.keep(place));
            (4 * count..4 * count + 4).for_each(|place| journal.entries.keep(place));
            journal.count.keep();
        }
        (ours, fine)
    }

    /// What the subject must answer where it keeps a step: as its own
    /// simulation does; but without a place for the entry only numbers up to 7
    /// come before the one for that.
    fn simulate_beside(&mut self, plan: &[u8], step: Step, journal: &Journal) -> u32 {
        self.beside.clear();
        self.beside.extend(journal.state.before());
        let result = self.form.simulate(&mut self.subject, plan, step, &mut self.beside);
        let has_place = journal.count.before() < journal.entries().len();
        if has_place || matches!(number(result), 1..=7 | 22) { result } else { 7 }
    }

    /// A take-back on a state and a journal of its own.
    pub fn undo(&mut self, plan: &[u8], state: &[u8], entries: &[Entry], count: usize) -> u32 {
        let mut journal = std::mem::take(&mut self.journal);
        journal.load(state, entries, count);
        let (ours, _) = self.undo_on(plan, &mut journal);
        self.journal = journal;
        ours
    }

    /// A take-back on a state and a journal that go on; answers also whether
    /// both sides came to the same.
    pub fn undo_on(&mut self, plan: &[u8], journal: &mut Journal) -> (u32, bool) {
        let form = self.form;
        self.plan.load(plan);
        let expected = self.number_of_undo(plan, journal);
        let place = last_entry(journal).and_then(|entry| form.place(plan, step_of(entry)));
        let theirs = form.undo(&mut self.subject, self.plan.bytes(), journal.subject());
        let ours = form.undo(&mut self.reference, plan, journal.reference());
        let passed = number(ours) == 0;
        let right = if passed { has_undone(place, journal) } else { journal.is_untouched() };
        let numbers = &[short_number(journal.count.before())];
        let lent = &[short_bytes(journal.state.before()), short_bytes(journal.entries.before())];
        let call = Call { function: form.function(Function::Undo), plan, numbers, lent };
        let fine = self.judge(call, ours, theirs, right && theirs == expected);
        if fine
            && passed
            && let Some(place) = place
        {
            journal.state.keep(place);
            journal.count.keep();
        }
        (ours, fine)
    }

    /// What the subject must answer to a take-back: by its own check, by the
    /// lengths, and for the last entry by its own question for a rule.
    fn number_of_undo(&mut self, plan: &[u8], journal: &Journal) -> u32 {
        let form = self.form;
        let checked = form.check(&mut self.subject, plan);
        if checked != 0 {
            return checked;
        }
        let is_above = journal.count.before() > journal.entries().len();
        if journal.state.length() != form.state_length(plan) || is_above {
            return 7;
        }
        let nobody = |seat: u32| seat != HAPPENS && form.row(plan, seat).is_none();
        match last_entry(journal).map(step_of) {
            None => 16,
            Some(Step { site, .. }) if nobody(site) => 8,
            Some(Step { code, node, .. }) => number(self.subject.rule(&form.plain(plan), code, node)).into(),
        }
    }

    /// Checks a table. The subject must say the same of it where it takes one
    /// for a record.
    pub fn check_table(&mut self, table: &[u8]) -> u32 {
        self.plan.load(&[]);
        self.table.load(table);
        let theirs = self.subject.check_table(self.table.bytes());
        let ours = self.reference.check_table(table);
        let taken = self.subject.record_by(&[TASK, 0xff], table, &[0], &mut [0], &mut [0]);
        let same = self.table.is_still(table) && theirs == taken;
        let call = Call { function: Function::CheckTable, plan: &[], numbers: &[], lent: &[table] };
        self.judge(call, ours, theirs, same);
        ours
    }

    /// The record of the pass by a table, into marks and classes that hold
    /// these bytes; answers the subject's marks and classes too.
    pub fn pass_record(
        &mut self,
        plan: &[u8],
        table: &[u8],
        answers: &[u8],
        marks: &[u8],
        classes: &[u8],
    ) -> (u32, &[u8], &[u8]) {
        self.plan.load(plan);
        self.read.load(answers);
        self.table.load(table);
        self.one.load(marks);
        self.two.load(classes);
        let (subject_marks, subject_classes) = (&mut self.one.subject, &mut self.two.subject);
        let theirs = self.subject.pass_record(
            self.plan.bytes(),
            self.table.bytes(),
            self.read.bytes(),
            subject_marks.bytes_mut(),
            subject_classes.bytes_mut(),
        );
        let ours = self.reference.pass_record(
            plan,
            table,
            answers,
            &mut self.one.reference,
            &mut self.two.reference,
        );
        let refused_leaves = number(ours) == 0 || (self.one.is_untouched() && self.two.is_untouched());
        let read_stays = self.read.is_still(answers) && self.table.is_still(table);
        let is_the_pass = ours == theirs && self.is_record_of_pass(plan, table, answers, theirs);
        let same = self.one.agrees() && self.two.agrees() && refused_leaves && read_stays && is_the_pass;
        let lent = &[table, answers, marks, classes];
        let call = Call { function: Function::PassRecord, plan, numbers: &[], lent };
        self.judge(call, ours, theirs, same);
        (ours, self.one.subject.bytes(), self.two.subject.bytes())
    }

    /// Whether the subject's record has the marks of its own pass, classed as
    /// the rules say, or its fault.
    fn is_record_of_pass(&mut self, plan: &[u8], table: &[u8], answers: &[u8], theirs: u32) -> bool {
        let mut marks = vec![0; self.one.length()];
        let passed = self.subject.pass(plan, answers, &mut marks);
        match (theirs, table.try_into()) {
            (0, Ok(table)) => {
                let classes = tables::classes(&Tree::new(plan), table, &marks);
                passed == 0 && self.one.subject.bytes() == marks && self.two.subject.bytes() == classes
            }
            (13 | 14, _) => passed == theirs,
            _ => theirs != 0,
        }
    }

    /// A simulation from text into bytes that hold these; answers the
    /// subject's bytes too. The lines stand at the front, the rest stays.
    pub fn rehearse(&mut self, text: &[u8], out: &[u8]) -> (u32, &[u8]) {
        self.plan.load(&[]);
        self.read.load(text);
        self.one.load(out);
        let theirs = self.subject.rehearse(self.read.bytes(), self.one.subject.bytes_mut());
        let ours = self.reference.rehearse(text, &mut self.one.reference);
        let length = value(theirs) as usize;
        let rest_stays = self.one.subject.bytes().get(length..) == out.get(length..);
        let refused_is_a_number = number(theirs) == 0 || theirs == u32::from(number(theirs));
        let same = self.one.agrees() && rest_stays && refused_is_a_number && self.read.is_still(text);
        let short = &text[..text.len().min(600)];
        let numbers = &[text.len() as u32, out.len() as u32];
        let call = Call { function: Function::Rehearse, plan: &[], numbers, lent: &[short] };
        self.judge(call, ours, theirs, same);
        (ours, self.one.subject.bytes())
    }

    /// The version, as the subject says it.
    pub fn version(&mut self) -> u32 {
        self.plan.load(&[]);
        let theirs = self.subject.version();
        let ours = self.reference.version();
        let call = Call { function: Function::Version, plan: &[], numbers: &[], lent: &[] };
        self.judge(call, ours, theirs, true);
        theirs
    }

    /// Counts a call and compares its results; `same` says whether the bytes
    /// were right.
    fn judge(&mut self, call: Call, ours: u32, theirs: u32, same: bool) -> bool {
        let plan_stays = self.plan.is_still(call.plan);
        self.tally.count(call.function, number(ours));
        self.tally.compare(ours == theirs && same && plan_stays, || {
            let bytes = if same && plan_stays { "bytes as they should be" } else { "wrong bytes or rule" };
            format!("{}: reference {ours:08x}, subject {theirs:08x}, {bytes}", call.describe())
        })
    }
}

impl Call<'_> {
    fn describe(&self) -> String {
        let shown = |bytes: &&[u8]| match self.function {
            Function::Rehearse => format!("{:?}", String::from_utf8_lossy(bytes)),
            _ => hex(bytes),
        };
        let lent: Vec<String> = self.lent.iter().map(shown).collect();
        format!(
            "{} plan {} {:?} lent {}",
            self.function.name(),
            hex(self.plan),
            self.numbers,
            lent.join(" / ")
        )
    }
}

/// Bytes as text, for describing a call.
pub fn hex(bytes: &[u8]) -> String {
    bytes.iter().map(|byte| format!("{byte:02x}")).collect()
}

/// As many bytes as are shown where a call is described.
fn short_bytes(bytes: &[u8]) -> &[u8] {
    &bytes[..bytes.len().min(400)]
}

/// A number as it is shown there.
fn short_number(number: usize) -> u32 {
    u32::try_from(number).unwrap_or(u32::MAX)
}

/// The plan with every and a waiting one.
fn and_waiting(plan: &[u8]) -> Vec<u8> {
    let kind_or_parent = |(place, &byte): (usize, &u8)| {
        if place % 2 == 0 && byte == AND { WAITING_AND } else { byte }
    };
    plan.iter().enumerate().map(kind_or_parent).collect()
}

/// Whether a passed step set its bit, which has a place, and nothing else, and
/// a refused one nothing at all.
fn is_bit_set(pair: &mut Pair, result: u32, code: u32, place: Option<usize>) -> bool {
    match place {
        _ if number(result) != 0 => pair.is_untouched(),
        Some(place) if place < pair.length() => pair.has_only_set(place, bit(code)),
        _ => false,
    }
}

/// What a passed step set is there for the next one.
fn keep_bit(pair: &mut Pair, result: u32, place: Option<usize>) {
    if number(result) == 0
        && let Some(place) = place.filter(|&place| place < pair.length())
    {
        pair.keep(place);
    }
}

/// The step that was kept as an entry.
fn step_of(&[code, node, site, _]: &Entry) -> Step {
    Step { code: code.into(), node: node.into(), site: site.into() }
}

/// The last of the steps kept before the call, if there is one.
fn last_entry(journal: &Journal) -> Option<&Entry> {
    journal.entries().get(journal.count.before().checked_sub(1)?)
}

/// Whether a kept step set its bit, its entry stands at the place that the
/// count had, the count is one more, and nothing else changed.
fn has_kept(place: Option<usize>, step: Step, journal: &mut Journal) -> bool {
    let Step { code, node, site } = step;
    let count = journal.count.before();
    let Some(place) = place.filter(|&place| place < journal.state.length()) else {
        return false;
    };
    if count >= journal.entries().len() {
        return false;
    }
    let changed = u8::from(journal.state.before()[place] & bit(code) == 0);
    let entry = [code as u8, node as u8, site as u8, changed];
    journal.state.has_only_set(place, bit(code))
        && journal.entries.has_only(4 * count, entry)
        && journal.count.is(count + 1)
}

/// Whether a take-back cleared just the bit of the last entry, or nothing if
/// that says so, and the count is one less.
fn has_undone(place: Option<usize>, journal: &mut Journal) -> bool {
    let (Some(&[code, _, _, changed]), Some(place)) = (last_entry(journal), place) else {
        return false;
    };
    let Some(&before) = journal.state.before().get(place) else {
        return false;
    };
    let after = if changed == 0 { before } else { before & !bit(code.into()) };
    journal.state.has_only(place, [after])
        && journal.entries.is_untouched()
        && journal.count.is(journal.count.before() - 1)
}
