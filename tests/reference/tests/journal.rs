//! The journal: steps that are kept and taken back.

mod common;

use common::*;
use reference::exported::{check, keep, number, simulate, undo};
use reference::journal::Entry;

fn bit(code: u32) -> u8 {
    1 << (code - 1)
}

/// A simulation that keeps its steps.
#[derive(Clone, Debug, PartialEq, Eq)]
struct Kept {
    plan: Vec<u8>,
    state: Vec<u8>,
    entries: Vec<Entry>,
    count: usize,
}

impl Kept {
    fn new(plan: &str, places: usize) -> Kept {
        Kept::of(&hex(plan), places)
    }

    fn of(plan: &[u8], places: usize) -> Kept {
        let nodes = plan.len() / 2;
        Kept {
            plan: plan.to_vec(),
            state: vec![0; nodes * nodes],
            entries: vec![[LEFT; 4]; places],
            count: 0,
        }
    }

    fn keep(&mut self, code: u32, node: u32, site: u32) -> u32 {
        keep(&self.plan, code, node, site, &mut self.state, &mut self.entries, &mut self.count)
    }

    fn undo(&mut self) -> u32 {
        undo(&self.plan, &mut self.state, &self.entries, &mut self.count)
    }

    /// A kept step that is refused with this number and changes nothing.
    fn refuses(&self, step: [u32; 3], expected: u32) {
        let mut after = self.clone();
        assert_eq!(after.keep(step[0], step[1], step[2]), expected, "{step:?} {self:02x?}");
        assert_eq!(after, *self, "{step:?}");
    }

    /// A take-back that is refused with this number and changes nothing.
    fn takes_nothing_back(&self, expected: u32) {
        let mut after = self.clone();
        assert_eq!(after.undo(), expected, "{self:02x?}");
        assert_eq!(after, *self);
    }

    /// The state that the remaining steps give from a fresh start.
    fn replayed(&self) -> Vec<u8> {
        let mut state = vec![0; self.state.len()];
        for entry in &self.entries[..self.count] {
            let [code, node, site, _] = entry.map(u32::from);
            assert_eq!(number(simulate(&self.plan, code, node, site, &mut state)), 0, "{self:02x?}");
        }
        state
    }
}

/// How many bytes of a state and how many entries are lent, and the count.
struct Lent {
    state: usize,
    entries: usize,
    count: usize,
}

/// Plans that are refused with 1 to 5.
const REFUSED_PLANS: [(u32, &str); 6] =
    [(1, ""), (1, "02ff01"), (2, "00ff"), (3, "02ff 0101"), (4, "01ff 0100"), (5, "07ff 0100")];

/// What is lent with plan P, and the numbers of a kept step and of a take-back
/// where step and entry are right.
const LENGTHS: [(Lent, u32, u32); 12] = [
    (Lent { state: 36, entries: 2, count: 1 }, 0, 0),
    (Lent { state: 35, entries: 2, count: 1 }, 7, 7),
    (Lent { state: 37, entries: 2, count: 1 }, 7, 7),
    (Lent { state: 0, entries: 0, count: 0 }, 7, 7),
    (Lent { state: 6, entries: 2, count: 0 }, 7, 7),
    (Lent { state: 36, entries: 2, count: 0 }, 0, 16),
    (Lent { state: 36, entries: 0, count: 0 }, 7, 16),
    (Lent { state: 36, entries: 2, count: 2 }, 7, 0),
    (Lent { state: 36, entries: 2, count: 3 }, 7, 7),
    (Lent { state: 36, entries: 0, count: 1 }, 7, 7),
    (Lent { state: 36, entries: 2, count: 1 << 32 }, 7, 7),
    (Lent { state: 36, entries: 2, count: usize::MAX }, 7, 7),
];

/// Steps on a fresh state of P, and their numbers. Bits 8 to 15 are the site
/// of an event.
const STEPS: [([u32; 3], u32); 18] = [
    ([0, 0, HAPPENS], 8),
    ([9, 0, HAPPENS], 8),
    ([257, 0, HAPPENS], 8),
    ([u32::MAX, 0, HAPPENS], 8),
    ([START, 6, HAPPENS], 8),
    ([START, 256, HAPPENS], 8),
    ([START, u32::MAX, 0], 8),
    ([START, 0, 6], 8),
    ([START, 0, 256], 8),
    ([START, 0, 0x1ff], 8),
    ([START, 0, u32::MAX], 8),
    ([YES, 0, 6], 8),
    ([YES, 0, HAPPENS], 9),
    ([OFFER, 1, 2], 9),
    ([PICK, 0, 0], 9),
    ([START, 3, HAPPENS], 11 | 3 << 8),
    ([PICK, 3, HAPPENS], 11 | 2 << 8),
    ([START, 0, 1], 12),
];

/// Last entries for P, and the numbers of their take-back, whether or not they
/// say that a bit was set.
const ENTRIES: [([u8; 3], u32); 14] = [
    ([0, 0, 0xff], 8),
    ([9, 0, 0xff], 8),
    ([0xff, 0, 0xff], 8),
    ([1, 6, 0xff], 8),
    ([1, 0xff, 0], 8),
    ([1, 0, 6], 8),
    ([1, 0, 0xfe], 8),
    ([5, 0, 6], 8),
    ([5, 0, 0xff], 9),
    ([2, 1, 2], 9),
    ([7, 0, 0], 9),
    ([1, 3, 0xff], 0),
    ([7, 3, 0xff], 0),
    ([8, 4, 1], 0),
];

fn lent(plan: &[u8], state: usize, entries: usize, count: usize) -> Kept {
    Kept {
        plan: plan.to_vec(),
        state: vec![0; state],
        entries: vec![[START as u8, 0, 0xff, 1]; entries],
        count,
    }
}

#[test]
fn plans_come_first() {
    let deep = chain(33);
    let plans = REFUSED_PLANS.map(|(number, plan)| (number, hex(plan)));
    for (expected, plan) in plans.into_iter().chain([(6, deep)]) {
        assert_eq!(check(&plan), expected);
        let nodes = plan.len() / 2;
        for (state, entries, count) in
            [(nodes * nodes, 3, 1), (nodes * nodes, 3, 0), (1, 0, 0), (0, 1, 1), (0, 1, usize::MAX)]
        {
            let journal = lent(&plan, state, entries, count);
            journal.takes_nothing_back(expected);
            for step in [[START, 0, HAPPENS], [0, 0, 0], [START, 300, 300]] {
                journal.refuses(step, expected);
            }
        }
    }
}

/// 7 comes before whatever the step or the entry is.
#[test]
fn lengths_and_counts() {
    for (Lent { state, entries, count }, kept, taken_back) in LENGTHS {
        let mut journal = lent(&hex(P), state, entries, count);
        if kept == 0 {
            assert_eq!(journal.clone().keep(START, 0, HAPPENS), passed(0, 0x01));
        } else {
            journal.refuses([START, 0, HAPPENS], kept);
            STEPS.iter().for_each(|&(step, _)| journal.refuses(step, kept));
        }
        if taken_back == 0 {
            assert_eq!(journal.clone().undo(), 0);
        } else {
            journal.takes_nothing_back(taken_back);
            for ([code, node, site], _) in ENTRIES {
                journal.entries.fill([code, node, site, 1]);
                journal.takes_nothing_back(taken_back);
            }
        }
    }
}

#[test]
fn kept_steps_are_refused_as_in_a_simulation() {
    let mut journal = Kept::new(P, 1);
    for (step, expected) in STEPS {
        assert_eq!(simulate(&journal.plan, step[0], step[1], step[2], &mut [0; 36]), expected);
        journal.refuses(step, expected);
    }
    journal.state[0] = bit(START);
    journal.refuses([START, 0, HAPPENS], 10);
    journal.count = 1;
    STEPS.iter().for_each(|&(step, _)| journal.refuses(step, 7));
}

#[test]
fn take_backs_are_refused_by_their_entry() {
    for ([code, node, site], expected) in ENTRIES {
        for changed in [0, 1, 2, 0xff] {
            let mut journal = Kept::new(P, 3);
            journal.state.fill(LEFT);
            journal.entries[1] = [code, node, site, changed];
            journal.count = 2;
            if expected != 0 {
                journal.takes_nothing_back(expected);
            } else {
                assert_eq!((journal.undo(), journal.count), (0, 1), "{code} {node} {site} {changed}");
            }
            journal.count = 3;
            journal.takes_nothing_back(8);
        }
    }
}

/// Entries, states and answers along a job with a message, a repeat and a
/// pick; then all the way back.
#[test]
fn a_job_there_and_back() {
    let mut journal = Kept::new("05ff 0100 0100", 8);
    let steps = [
        ([START, 0, HAPPENS], passed(0, 0x01), 1),
        ([START, 0, 1], 0, 1),
        ([START, 0, 1], 0, 0),
        ([START, 0, 0], 0, 0),
        ([START, 1, HAPPENS], passed(1, 0x51), 1),
        ([OFFER, 1, HAPPENS], passed(1, 0x12), 1),
        ([OFFER, 1, 0], 0, 1),
        ([PICK, 1, HAPPENS], passed(0, 0x57), 1),
    ];
    let mut before = vec![];
    for (place, (step, expected, changed)) in steps.into_iter().enumerate() {
        let mut alone = journal.state.clone();
        assert_eq!(simulate(&journal.plan, step[0], step[1], step[2], &mut alone), expected);
        before.push(journal.clone());
        assert_eq!(journal.keep(step[0], step[1], step[2]), expected, "{step:?}");
        assert_eq!((&journal.state, journal.count), (&alone, place + 1));
        let entry = [step[0] as u8, step[1] as u8, step[2] as u8, changed];
        assert_eq!(journal.entries[place], entry);
        assert!(journal.entries[place + 1..].iter().all(|entry| *entry == [LEFT; 4]));
    }
    assert_eq!(journal.state[1], bit(OFFER) | bit(PICK), "the pick is in the parent's row");
    let entries = journal.entries.clone();
    while let Some(earlier) = before.pop() {
        assert_eq!(journal.undo(), 0);
        assert_eq!((&journal.state, journal.count), (&earlier.state, earlier.count));
        assert_eq!(journal.entries, entries, "the places stay as they are");
    }
    assert_eq!(journal.state, [0; 9]);
    journal.takes_nothing_back(16);
}

/// A repeat is a step; taking it back clears nothing, taking the first one
/// back does.
#[test]
fn a_repeat_is_kept() {
    let mut journal = Kept::new("02ff 0100", 4);
    assert_eq!(journal.keep(START, 0, HAPPENS), passed(0, 0x01));
    assert_eq!(journal.keep(START, 0, 1), 0);
    assert_eq!(journal.keep(START, 0, 1), 0);
    assert_eq!(journal.keep(START, 0, 0), 0, "to its own site");
    assert_eq!(journal.entries, [[1, 0, 0xff, 1], [1, 0, 1, 1], [1, 0, 1, 0], [1, 0, 0, 0]]);
    for state in [[1, 0, 1, 0], [1, 0, 1, 0], [1, 0, 0, 0], [0; 4]] {
        assert_eq!(journal.undo(), 0);
        assert_eq!(journal.state, state);
    }
}

/// A full journal refuses a step that could pass, and ends nothing: with a
/// place taken back or a longer journal it passes.
#[test]
fn a_full_journal_ends_no_run() {
    let mut journal = Kept::new("02ff 0100", 2);
    assert_eq!(journal.keep(START, 0, HAPPENS), passed(0, 0x01));
    assert_eq!(journal.keep(START, 0, 0), 0);
    journal.refuses([START, 0, 1], 7);
    journal.refuses([START, 0, HAPPENS], 7);
    let mut longer = journal.clone();
    longer.entries.push([LEFT; 4]);
    assert_eq!(longer.keep(START, 0, 1), 0);
    assert_eq!(longer.entries, [[1, 0, 0xff, 1], [1, 0, 0, 0], [1, 0, 1, 1]]);
    assert_eq!(journal.undo(), 0);
    assert_eq!(journal.keep(START, 0, 1), 0, "the place is used again");
    assert_eq!(journal.entries, [[1, 0, 0xff, 1], [1, 0, 1, 1]]);
    journal.refuses([START, 1, HAPPENS], 7);
}

/// What becomes of a byte that is full, or empty, in every row, when this
/// entry is taken back.
fn taken_back(entry: Entry, byte: u8) -> Vec<u8> {
    let mut journal = Kept::new("05ff 0100 0100", 2);
    journal.state.fill(byte);
    journal.entries[0] = entry;
    journal.count = 1;
    assert_eq!(journal.undo(), 0);
    assert_eq!((journal.count, &journal.entries[..]), (0, &[entry, [LEFT; 4]][..]));
    journal.state
}

/// Entries that no simulation kept: any byte but 0 says that a bit was set,
/// the bit is cleared in the one row that the entry names, and one that isn't
/// set stays so.
#[test]
fn any_entries() {
    let places = [
        ([START, 1, HAPPENS], 1, 1),
        ([PICK, 1, HAPPENS], 0, 1),
        ([PICK, 1, 1], 1, 1),
        ([PICK, 1, 2], 2, 1),
        ([TURNED_DOWN, 2, HAPPENS], 2, 2),
        ([COMMIT, 0, 2], 2, 0),
    ];
    for ([code, node, site], row, column) in places {
        let entry = |changed| [code as u8, node as u8, site as u8, changed];
        assert_eq!(taken_back(entry(0), 0xff), [0xff; 9]);
        assert_eq!(taken_back(entry(0), 0), [0; 9]);
        for changed in [1, 2, 0x80, 0xff] {
            let mut cleared = [0xff; 9];
            cleared[row * 3 + column] = !bit(code);
            assert_eq!(taken_back(entry(changed), 0xff), cleared, "{:?}", entry(changed));
            assert_eq!(taken_back(entry(changed), 0), [0; 9]);
            assert_eq!(taken_back(entry(changed), !bit(code)), [!bit(code); 9]);
        }
    }
}

/// After every list of moves the state is the one that the remaining steps
/// give from a fresh start, over a journal that is often full.
#[test]
fn any_moves_leave_what_remains() {
    let mut numbers = Numbers(1);
    let (mut kept, mut full, mut empty) = (0, 0, 0);
    for plan in (1..=4).flat_map(plans) {
        let nodes = plan.len() as u32 / 2;
        let mut journal = Kept::of(&plan, numbers.below(12) as usize);
        for _ in 0..600 {
            let before = journal.clone();
            if numbers.below(10) == 0 {
                empty += u32::from(journal.undo() == 16);
                assert_eq!(journal.entries, before.entries);
            } else {
                let site = if numbers.below(2) == 0 { HAPPENS } else { numbers.below(nodes) };
                let result = journal.keep(1 + numbers.below(8), numbers.below(nodes), site);
                full += u32::from(result == 7);
                kept += u32::from(number(result) == 0);
                assert!(number(result) == 0 || journal == before);
            }
            assert_eq!(journal.state, journal.replayed());
        }
    }
    assert!(kept > 3000 && full > 3000 && empty > 3000, "{kept} {full} {empty}");
}
