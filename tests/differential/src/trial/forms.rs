//! Forms of a plan. Beside the reference they are held against the tree as it is
//! read here, and against each other: there and back, and twice as once.

use super::{Call, Trial};
use crate::implementation::Implementation;
use crate::plans;
use crate::tally::Function;

impl<S: Implementation, R: Implementation> Trial<S, R> {
    /// Renumbers a plan into bytes that hold these; answers the subject's bytes
    /// too, as the two below do.
    pub fn renumber(&mut self, plan: &[u8], out: &[u8]) -> (u32, &[u8]) {
        let expected = match self.subject.check(plan) {
            0 if out.len() != plan.len() => Err(7),
            0 => Ok(plans::fixed(plan)),
            refused => Err(refused),
        };
        self.convert(Function::Renumber, plan, out, expected)
    }

    /// Writes the depth form of a plan.
    pub fn to_depths(&mut self, plan: &[u8], out: &[u8]) -> (u32, &[u8]) {
        let expected = match self.subject.check(plan) {
            0 if !plans::is_fixed(plan) => Err(18),
            0 if out.len() != plan.len() => Err(7),
            0 => Ok(plans::lines(plan)),
            refused => Err(refused),
        };
        self.convert(Function::ToDepths, plan, out, expected)
    }

    /// Writes the plan of a depth form.
    pub fn from_depths(&mut self, depths: &[u8], out: &[u8]) -> (u32, &[u8]) {
        let expected = plan_of(depths).and_then(|plan| match self.subject.check(&plan) {
            0 if out.len() != plan.len() => Err(7),
            0 => Ok(plan),
            refused => Err(refused),
        });
        self.convert(Function::FromDepths, depths, out, expected)
    }

    /// Makes one of these calls, of which is known what it must write, or its
    /// number.
    fn convert(
        &mut self,
        function: Function,
        bytes: &[u8],
        out: &[u8],
        expected: Result<Vec<u8>, u32>,
    ) -> (u32, &[u8]) {
        self.plan.load(bytes);
        self.one.load(out);
        let theirs = call(&mut self.subject, function, self.plan.bytes(), self.one.subject.bytes_mut());
        let ours = call(&mut self.reference, function, bytes, &mut self.one.reference);
        let right = match expected {
            Ok(written) => {
                self.count_form(function, bytes != written);
                theirs == 0 && self.one.holds(&written) && self.goes_there_and_back(function, bytes, &written)
            }
            Err(refused) => theirs == refused && self.one.is_untouched(),
        };
        let call = Call { function, plan: bytes, numbers: &[out.len() as u32], lent: &[out] };
        self.judge(call, ours, theirs, right);
        (ours, self.one.subject.bytes())
    }

    fn count_form(&mut self, function: Function, is_other: bool) {
        let jobs = &mut self.tally.jobs;
        match function {
            Function::Renumber => {
                jobs.renumbered += 1;
                jobs.from_other_numberings += u64::from(is_other);
            }
            Function::FromDepths => jobs.accepted_forms += 1,
            _ => {}
        }
    }

    /// Whether the subject's other calls say the same of what it wrote.
    fn goes_there_and_back(&mut self, function: Function, from: &[u8], written: &[u8]) -> bool {
        let (plan, form) = match function {
            Function::Renumber => (written, None),
            Function::ToDepths => (from, Some(written)),
            _ => (written, Some(from)),
        };
        let mut depths = vec![0; plan.len() / 2];
        let is_accepted = self.subject.check_depths(plan, &mut depths) == 0;
        let Some(again) = self.written(Function::ToDepths, plan) else {
            return false;
        };
        is_accepted
            && self.written(Function::Renumber, plan).as_deref() == Some(plan)
            && self.written(Function::FromDepths, &again).as_deref() == Some(plan)
            && form.is_none_or(|form| form == again)
            && again.iter().skip(1).step_by(2).eq(&depths)
    }

    /// What a call of the subject writes into as many bytes as it is handed.
    fn written(&mut self, function: Function, bytes: &[u8]) -> Option<Vec<u8>> {
        let mut out = vec![0; bytes.len()];
        (call(&mut self.subject, function, bytes, &mut out) == 0).then_some(out)
    }
}

fn call(side: &mut impl Implementation, function: Function, bytes: &[u8], out: &mut [u8]) -> u32 {
    match function {
        Function::Renumber => side.renumber(bytes, out),
        Function::ToDepths => side.to_depths(bytes, out),
        _ => side.from_depths(bytes, out),
    }
}

/// The plan of a depth form, which may be refused with 4 to 6; or 1, 2 or 17.
fn plan_of(form: &[u8]) -> Result<Vec<u8>, u32> {
    let (lines, rest) = form.as_chunks::<2>();
    if lines.is_empty() || lines.len() > 160 || !rest.is_empty() {
        return Err(1);
    }
    if !lines.iter().all(|&[kind, _]| matches!(kind, 1..=8)) {
        return Err(2);
    }
    let mut plan = vec![];
    for (place, &[kind, depth]) in lines.iter().enumerate() {
        let before = lines[..place].last();
        if before.map_or(depth != 1, |&[_, before]| depth < 2 || depth - 1 > before) {
            return Err(17);
        }
        let parent = lines[..place].iter().rposition(|&[_, other]| other == depth - 1);
        plan.extend([kind, parent.map_or(0xff, |parent| parent as u8)]);
    }
    Ok(plan)
}
