//! Single calls with points: any slots, names, counts and entries.

use super::{any_count, any_entries, any_seat, event, heard, length, state_bytes};
use crate::codes::HAPPENS;
use crate::driver::Tree;
use crate::form::Form;
use crate::implementation::{Entry, Implementation};
use crate::plans;
use crate::random::Random;
use crate::slots::{self, Name, SLOTS};
use crate::trial::Trial;

/// The three calls on any state of a valid plan; then on plans that are mostly
/// refused, with buffers of any length. So many rounds of each.
pub fn points<S: Implementation, R: Implementation>(
    trial: &mut Trial<S, R>,
    random: &mut Random,
    plan: &[u8],
    rounds: usize,
) {
    let form = trial.form;
    for _ in 0..rounds {
        let state = heard(random, form.state_length(plan));
        for _ in 0..3 {
            let (entries, count) = any_journal(random, form, plan);
            try_all(trial, random, plan, &state, (&entries, count));
        }
    }
    for _ in 0..rounds {
        let damaged = match form {
            _ if !random.chance(80) => plan.to_vec(),
            Form::Plain => plans::damaged(random),
            Form::Desks => plans::damaged_with_desks(random),
        };
        let nodes = form.nodes(&damaged);
        let state = state_bytes(random, form, &damaged);
        let (entries, count) =
            any_entries(random, |random| event(random, nodes), |random| any_seat(random, form, &damaged));
        try_all(trial, random, &damaged, &state, (&entries, count));
    }
}

/// The calls with points on one journal, with any slots and name; answers the
/// results of those two that take a plan.
pub(super) fn try_all<S: Implementation, R: Implementation>(
    trial: &mut Trial<S, R>,
    random: &mut Random,
    plan: &[u8],
    state: &[u8],
    journal: (&[Entry], usize),
) -> [u32; 2] {
    let Lot { names, places, pool } = Lot::any(random, journal.1);
    let name = any_name(random, &names, &places, &pool);
    trial.point_name(&name, journal.1, &names, &places);
    [
        trial.point_undo(plan, state, journal, (&names, &places)),
        trial.point_back(plan, &name, state, journal, (&names, &places)),
    ]
}

/// Entries with no, few or many that would be refused, and any count; often
/// all entries are counted.
fn any_journal(random: &mut Random, form: Form, plan: &[u8]) -> (Vec<Entry>, usize) {
    let tree = Tree::new(&form.plain(plan));
    let seat = |random: &mut Random| form.seat(plan, random.below(form.nodes(plan)));
    let nobody = match form {
        Form::Plain => form.nodes(plan),
        Form::Desks => (0..0xff).find(|&desk| form.row(plan, desk).is_none()).unwrap_or(0xa0) as usize,
    };
    let faults = random.one_of(&[0, 0, 10, 40]);
    let entries: Vec<Entry> =
        (0..random.below(14)).map(|_| any_entry(random, &tree, (seat, nobody), faults)).collect();
    let count = if random.chance(50) { entries.len() } else { any_count(random, entries.len()) };
    (entries, count)
}

/// An entry that is refused with 8 or 9 in so many cases of a hundred.
fn any_entry(
    random: &mut Random,
    tree: &Tree,
    (seat, nobody): (impl Fn(&mut Random) -> u32, usize),
    faults: usize,
) -> Entry {
    let nodes = tree.children.len();
    let node = random.below(nodes);
    let (apply, others): (Vec<u32>, Vec<u32>) = (1..=8).partition(|&code| tree.applies(code, node));
    let site = if random.chance(50) { HAPPENS as usize } else { seat(random) as usize };
    let changed = random.one_of(&[0, 0, 1, 1, 1, 2, 0x80, 0xff]);
    let is_fault = random.chance(faults);
    let (code, node, site) = match random.below(6) {
        0 if is_fault => (random.one_of(&[0, 9, 0xff]), node, site),
        1 if is_fault => (random.one_of(&apply), nodes, site),
        2 if is_fault => (random.one_of(&apply), node, nobody),
        _ if is_fault && !others.is_empty() => (random.one_of(&others), node, site),
        _ => (random.one_of(&apply), node, site),
    };
    [code as u8, node as u8, site as u8, changed]
}

/// Slots, and names that are easily taken for those in them.
struct Lot {
    names: Vec<u8>,
    places: Vec<u64>,
    pool: Vec<Name>,
}

impl Lot {
    /// Any slots; in most cases right ones for this count.
    fn any(random: &mut Random, count: usize) -> Lot {
        let pool = slots::pool(random, SLOTS + 4);
        let in_use = random.one_of(&[0, 10, 50, 80, 95, 100, 100]);
        let alike = random.chance(40);
        let (mut names, mut places) = (vec![], vec![]);
        for name in pool.iter().take(SLOTS) {
            let is_free = !random.chance(in_use);
            places.push(if is_free { 0 } else { word(any_place(random, count)) });
            names.push(if is_free && alike { random.one_of(&pool) } else { *name });
        }
        if random.chance(12) {
            let name = random.one_of(&names);
            names[random.below(SLOTS)] = name;
        }
        if random.chance(12) {
            let past = (count as u64).saturating_add(2);
            let words = [
                past,
                past,
                1 << 32,
                1 << 32 | word(any_place(random, count)),
                1 << 63,
                u64::MAX - 1,
                u64::MAX,
            ];
            places[random.below(SLOTS)] = random.one_of(&words);
        }
        let mut names = names.concat();
        if random.chance(10) {
            resize(random, &mut names, &mut places);
        }
        Lot { names, places, pool }
    }
}

/// Any slots for this count, names and places.
pub(super) fn any_slots(random: &mut Random, count: usize) -> (Vec<u8>, Vec<u64>) {
    let Lot { names, places, .. } = Lot::any(random, count);
    (names, places)
}

/// Other lengths: of one of both, or of both alike.
fn resize(random: &mut Random, names: &mut Vec<u8>, places: &mut Vec<u64>) {
    let slots = random.one_of(&[0, 1, 8, 15, 17, 24, 32]);
    match random.below(3) {
        0 => names.resize(length(random, 8 * SLOTS), 0x5a),
        1 => places.resize(slots, 0),
        _ => {
            names.resize(8 * slots, 0x5a);
            places.resize(slots, 0);
        }
    }
}

/// The word of a point at a place.
fn word(place: usize) -> u64 {
    (place as u64).saturating_add(1)
}

/// A place that is not past the count; often at its end or its beginning.
fn any_place(random: &mut Random, count: usize) -> usize {
    match random.below(8) {
        0 | 1 => count,
        2 => count.saturating_sub(1),
        3 => 0,
        _ => random.below(count.saturating_add(1)),
    }
}

/// A name: of a point, of a free slot, another one, or no name at all.
fn any_name(random: &mut Random, names: &[u8], places: &[u64], pool: &[Name]) -> Vec<u8> {
    let mut name = random.one_of(pool).to_vec();
    let points = slots::points(names, places);
    if !points.is_empty() && random.chance(55) {
        name = points[random.below(points.len())].0.to_vec();
    } else if names.len() >= 8 && random.chance(40) {
        let slot = random.below(names.len() / 8);
        name = names[8 * slot..][..8].to_vec();
    }
    if random.chance(8) {
        let length = random.one_of(&[0, 1, 7, 9, 16]);
        name.resize(length, 0);
    }
    name
}
