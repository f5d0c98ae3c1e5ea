//! Single calls on plans with desks: damaged ones and any lengths; and calls in
//! both forms of a plan, where each node has its own number for a desk.

use super::{any_entries, any_node, any_seat, apt_event, event, favour, heard, length, points, state_bytes};
use crate::codes::{HAPPENS, number};
use crate::driver::{Step, Tree};
use crate::form::Form;
use crate::implementation::{Entry, Implementation, Slots};
use crate::plans;
use crate::random::Random;
use crate::tables;
use crate::trial::{Trial, hex};

/// Plans with desks that are mostly refused, given to every call that takes
/// one.
pub fn damaged_plans_with_desks<S: Implementation, R: Implementation>(
    trial: &mut Trial<S, R>,
    random: &mut Random,
) {
    for _ in 0..20 {
        let plan = plans::damaged_with_desks(random);
        let checked = trial.check(&plan);
        let numbers = every_call(trial, random, &plan);
        let [others @ .., by_table] = numbers.map(u32::from);
        let same = others.iter().all(|&number| number == checked) && [checked, 21].contains(&by_table);
        trial.tally.compare(checked == 0 || same, || {
            format!("a plan that is refused with {checked}, by the calls with {numbers:?}: {}", hex(&plan))
        });
    }
}

/// Every buffer with a wrong length, alone and together with strange numbers.
pub fn lengths_with_desks<S: Implementation, R: Implementation>(
    trial: &mut Trial<S, R>,
    random: &mut Random,
    plan: &[u8],
) {
    for _ in 0..10 {
        every_call(trial, random, plan);
    }
}

/// All calls but the check; answers their numbers.
fn every_call<S: Implementation, R: Implementation>(
    trial: &mut Trial<S, R>,
    random: &mut Random,
    plan: &[u8],
) -> [u8; 8] {
    let form = trial.form;
    let nodes = form.nodes(plan);
    let (code, node) = event(random, nodes);
    let site = if random.chance(50) { HAPPENS } else { any_seat(random, form, plan) };
    let (one, two) = (length(random, nodes), length(random, nodes));
    let (one, two) = (random.bytes(one), random.bytes(two));
    let state = state_bytes(random, form, plan);
    let (entries, count) =
        any_entries(random, |random| event(random, nodes), |random| any_seat(random, form, plan));
    let with_points = points::try_all(trial, random, plan, &state, (&entries, count));
    let results = [
        trial.step(plan, code, node, &one),
        trial.simulate(plan, code, node, site, &state),
        trial.keep(plan, Step { code, node, site }, &state, &entries, count),
        trial.undo(plan, &state, &entries, count),
        with_points[0],
        with_points[1],
        trial.record(plan, &state, &one, &two).0,
        trial.record_by(plan, &tables::any(random), &state, &one, &two).0,
    ];
    results.map(number)
}

/// A plan in both forms: plain, and with each node's own number for a desk.
struct Both {
    plain: Vec<u8>,
    desks: Vec<u8>,
    /// The plan's tree, unless it is refused.
    tree: Option<Tree>,
}

/// What is lent to one call beside the plan: what it may change.
#[derive(Clone, PartialEq)]
struct Lent {
    bytes: [Vec<u8>; 2],
    entries: Vec<Entry>,
    count: usize,
    names: Vec<u8>,
    places: Vec<u64>,
}

/// Plans of any sort, also refused ones, with any arguments: in both forms the
/// subject's calls answer the same and leave the same.
pub fn own_desks<S: Implementation, R: Implementation>(
    trial: &mut Trial<S, R>,
    random: &mut Random,
    plan: &[u8],
) {
    for round in 0..6 {
        let mut plain = match round % 2 {
            0 if random.chance(2) => plans::largest(random),
            0 => plan.to_vec(),
            _ => plans::damaged(random),
        };
        if round % 4 == 0 {
            plans::favour_xor(random, &mut plain);
        }
        plain.truncate(plain.len() & !1);
        let tree = (trial.subject.check(&plain) == 0).then(|| Tree::new(&plain));
        let both = Both { desks: plans::at_own_desks(&plain), plain, tree };
        both.same(trial, "check", Lent::none(), |on, form, plan, _| form.check(on, plan));
        for _ in 0..3 {
            both.try_all(trial, random);
        }
    }
}

impl Both {
    fn of(&self, form: Form) -> &[u8] {
        match form {
            Form::Plain => &self.plain,
            Form::Desks => &self.desks,
        }
    }

    /// Every call with any arguments.
    fn try_all<S: Implementation, R: Implementation>(&self, trial: &mut Trial<S, R>, random: &mut Random) {
        let nodes = self.plain.len() / 2;
        let (code, node) = match &self.tree {
            Some(tree) => apt_event(random, tree),
            None => event(random, nodes),
        };
        let site = if random.chance(50) { HAPPENS } else { any_seat(random, Form::Desks, &self.desks) };
        let step = Step { code, node, site };
        let row_length = length(random, nodes);
        let mut row = heard(random, row_length);
        self.favour(random, &mut row, 0, code, node);
        self.same(trial, "step", Lent::of([row, vec![]]), |on, form, plan, lent| {
            form.step(on, plan, code, node, &mut lent.bytes[0])
        });
        let mut state = state_bytes(random, Form::Plain, &self.plain);
        let own = Form::Plain.seat_of_event(&self.plain, code, node as usize) as usize;
        self.favour(random, &mut state, own, code, node);
        let lent = Lent::any(random, nodes, state.clone());
        self.same(trial, "simulate", lent.clone(), |on, form, plan, lent| {
            form.simulate(on, plan, step, &mut lent.bytes[0])
        });
        self.journals(trial, random, step, lent);
        let (one, two) = (length(random, nodes), length(random, nodes));
        let lent = Lent::of([random.bytes(one), random.bytes(two)]);
        self.same(trial, "record", lent.clone(), |on, form, plan, lent| {
            let [marks, classes] = &mut lent.bytes;
            form.record(on, plan, &state, marks, classes)
        });
        let table = tables::any(random);
        self.same(trial, "record_by", lent, |on, form, plan, lent| {
            let [marks, classes] = &mut lent.bytes;
            form.record_by(on, plan, &table, &state, marks, classes)
        });
    }

    /// Changes a row so that the event may pass, in half of all cases.
    fn favour(&self, random: &mut Random, rows: &mut [u8], row: usize, code: u32, node: u32) {
        let nodes = self.plain.len() / 2;
        let row = rows.chunks_exact_mut(nodes.max(1)).nth(row);
        if let (Some(tree), Some(row)) = (&self.tree, row)
            && random.chance(50)
        {
            favour(random, tree, row, code, node);
        }
    }

    /// The calls with a journal, and with its points.
    fn journals<S: Implementation, R: Implementation>(
        &self,
        trial: &mut Trial<S, R>,
        random: &mut Random,
        step: Step,
        lent: Lent,
    ) {
        let slot = random.below(lent.places.len().max(1));
        let name = lent.names.get(8 * slot..8 * slot + 8).unwrap_or(&[0; 7]).to_vec();
        self.same(trial, "keep", lent.clone(), |on, form, plan, Lent { bytes, entries, count, .. }| {
            form.keep(on, plan, step, (&mut bytes[0], entries, count))
        });
        self.same(trial, "undo", lent.clone(), |on, form, plan, Lent { bytes, entries, count, .. }| {
            form.undo(on, plan, (&mut bytes[0], entries, count))
        });
        self.same(trial, "point_undo", lent.clone(), |on, form, plan, lent| {
            let Lent { bytes, entries, count, names, places } = lent;
            form.point_undo(on, plan, (&mut bytes[0], entries, count), Slots { names, places })
        });
        self.same(trial, "point_back", lent, |on, form, plan, lent| {
            let Lent { bytes, entries, count, names, places } = lent;
            form.point_back(on, plan, &name, (&mut bytes[0], entries, count), Slots { names, places })
        });
    }

    /// One call in both forms.
    fn same<S: Implementation, R: Implementation>(
        &self,
        trial: &mut Trial<S, R>,
        name: &str,
        lent: Lent,
        call: impl Fn(&mut S, Form, &[u8], &mut Lent) -> u32,
    ) {
        let [(one, left), (two, left_with_desks)] = [Form::Plain, Form::Desks].map(|form| {
            let mut lent = lent.clone();
            (call(&mut trial.subject, form, self.of(form), &mut lent), lent)
        });
        trial.tally.jobs.in_both_forms += 1;
        trial.tally.compare(one == two && left == left_with_desks, || {
            format!("{name} of {}: {one:08x}, with own desks {two:08x}, or other bytes", hex(&self.plain))
        });
    }
}

impl Lent {
    fn none() -> Lent {
        Lent::of(Default::default())
    }

    fn of(bytes: [Vec<u8>; 2]) -> Lent {
        Lent { bytes, entries: vec![], count: 0, names: vec![], places: vec![] }
    }

    /// A state with a journal and points.
    fn any(random: &mut Random, nodes: usize, state: Vec<u8>) -> Lent {
        let (entries, count) =
            any_entries(random, |random| event(random, nodes), |random| any_node(random, nodes));
        let (names, places) = points::any_slots(random, count);
        Lent { bytes: [state, vec![]], entries, count, names, places }
    }
}
