//! Forms of a plan: trees in any numbering, trees that are nearly the same, depth
//! forms that are right or nearly so, and all small plans and forms.

use super::length;
use crate::codes::{CONDITIONAL, TASK};
use crate::implementation::Implementation;
use crate::plans;
use crate::random::Random;
use crate::trial::{Trial, hex};

/// Numberings of a plan, of larger ones and of small ones; plans as deep as may be
/// and deeper; and damaged plans and forms.
pub fn forms<S: Implementation, R: Implementation>(
    trial: &mut Trial<S, R>,
    random: &mut Random,
    plan: &[u8],
) {
    numberings(trial, random, plan);
    for _ in 0..3 {
        let nodes = if random.chance(30) { random.between(80, 160) } else { 24 };
        let large = plans::of_size(random, nodes);
        numberings(trial, random, &large);
        let small = plans::mixed(random);
        numberings(trial, random, &small);
        let levels = random.between(31, 36);
        let deep = plans::deep(random, levels);
        any_lengths(trial, random, &deep);
    }
    for _ in 0..20 {
        let plan = plans::damaged(random);
        let plan = if plans::has_tree(&plan) { plans::any_numbering(random, &plan) } else { plan };
        any_lengths(trial, random, &plan);
    }
    for _ in 0..60 {
        let form = plans::damaged_form(random);
        any_length(trial, random, &form);
    }
}

/// One tree in several numberings, and others that are nearly the same. Two become
/// the same bytes just if they are the same tree.
fn numberings<S: Implementation, R: Implementation>(
    trial: &mut Trial<S, R>,
    random: &mut Random,
    plan: &[u8],
) {
    let fixed = plans::fixed(plan);
    any_lengths(trial, random, &fixed);
    any_length(trial, random, &plans::lines(&fixed));
    let mut others = vec![fixed];
    for _ in 0..4 {
        let other = match random.below(4) {
            0 => plans::any_order(random, plan),
            1 => other_kind(random, plan),
            _ => plan.to_vec(),
        };
        others.push(plans::any_numbering(random, &other));
    }
    for two in 0..others.len() {
        any_lengths(trial, random, &others[two]);
        for one in 0..two {
            pair(trial, random, &others[one], &others[two]);
        }
    }
}

/// The plan with another kind for one of its blocks.
fn other_kind(random: &mut Random, plan: &[u8]) -> Vec<u8> {
    let mut plan = plan.to_vec();
    let node = random.below(plan.len() / 2);
    if !matches!(plan[2 * node], TASK | CONDITIONAL) {
        plan[2 * node] = random.one_of(&[2, 3, 4, 5, 6, 8]);
    }
    plan
}

/// Two plans: the same bytes come of them if they are the same tree, and different
/// ones if not.
fn pair<S: Implementation, R: Implementation>(
    trial: &mut Trial<S, R>,
    random: &mut Random,
    one: &[u8],
    two: &[u8],
) {
    let [(_, first), (_, second)] = [one, two].map(|plan| {
        let out = random.bytes(plan.len());
        let (result, written) = trial.renumber(plan, &out);
        (result, written.to_vec())
    });
    let are_same = plans::are_same_tree(one, two);
    trial.tally.jobs.same_trees += u64::from(are_same);
    trial.tally.jobs.different_trees += u64::from(!are_same);
    trial.tally.compare((first == second) == are_same, || {
        let what = if are_same { "the same tree" } else { "different trees" };
        format!("{} and {}, {what}: {} and {}", hex(one), hex(two), hex(&first), hex(&second))
    });
}

/// A plan into bytes of its length and of any.
fn any_lengths<S: Implementation, R: Implementation>(
    trial: &mut Trial<S, R>,
    random: &mut Random,
    plan: &[u8],
) {
    for length in [plan.len(), length(random, plan.len())] {
        let out = random.bytes(length);
        trial.renumber(plan, &out);
        trial.to_depths(plan, &out);
    }
}

/// A depth form into bytes of its length and of any.
fn any_length<S: Implementation, R: Implementation>(
    trial: &mut Trial<S, R>,
    random: &mut Random,
    form: &[u8],
) {
    for length in [form.len(), length(random, form.len())] {
        trial.from_depths(form, &random.bytes(length));
    }
}

/// Every plan of up to five nodes, and the depth form of each; and every depth form
/// of up to four lines over some kinds and depths, right and wrong.
pub fn every_form<S: Implementation, R: Implementation>(trial: &mut Trial<S, R>) {
    for plan in (1..=5).flat_map(plans::all) {
        let out = vec![0xa5; plan.len()];
        trial.renumber(&plan, &out);
        trial.to_depths(&plan, &out);
        trial.from_depths(&plans::lines(&plans::fixed(&plan)), &out);
    }
    for lines in 1..=3 {
        all_forms(trial, lines, &[0, 1, 2, 7, 8, 9], &[0, 1, 2, 3, 4]);
    }
    all_forms(trial, 4, &[1, 2, 7, 9], &[0, 1, 2, 3, 4]);
}

/// Every depth form with so many lines over these kinds and depths.
fn all_forms<S: Implementation, R: Implementation>(
    trial: &mut Trial<S, R>,
    lines: usize,
    kinds: &[u8],
    depths: &[u8],
) {
    let line = |number: usize| [kinds[number % kinds.len()], depths[number / kinds.len()]];
    let each = kinds.len() * depths.len();
    for form in 0..each.pow(lines as u32) {
        let places = (0..lines as u32).map(|place| form / each.pow(place) % each);
        let form: Vec<u8> = places.flat_map(line).collect();
        trial.from_depths(&form, &vec![0xa5; form.len()]);
    }
}
