//! Cases of points.

use crate::codes::*;
use crate::driver::Step;
use crate::implementation::{Entry, Implementation, Slots};
use crate::slots::{Name, SLOTS};
use crate::trial::{Trial, hex};

/// Runs all of them.
pub fn run<S: Implementation, R: Implementation>(trial: &mut Trial<S, R>) {
    moves(trial);
    namings(trial);
    refused_entries(trial);
    ways_back(trial);
    refused_points(trial);
}

/// A name of one letter.
const fn letter(letter: u8) -> Name {
    [letter; 8]
}

pub(super) const A: Name = letter(b'a');
pub(super) const B: Name = letter(b'b');
pub(super) const C: Name = letter(b'c');
const D: Name = letter(b'd');
/// What stands in names that nobody gave.
const LEFT: Name = letter(9);

/// Lent slots.
#[derive(Clone, Debug, PartialEq)]
pub(super) struct Lot {
    names: Vec<u8>,
    places: Vec<u64>,
}

impl Lot {
    /// Free slots over names that nobody gave.
    pub(super) fn free() -> Lot {
        Lot { names: LEFT.repeat(SLOTS), places: vec![0; SLOTS] }
    }

    /// The same with a name and a word in a slot.
    pub(super) fn with(mut self, slot: usize, name: Name, word: u64) -> Lot {
        self.names.splice(8 * slot..8 * slot + 8, name);
        self.places[slot] = word;
        self
    }

    /// The same with slots that have been dropped.
    pub(super) fn without(self, slots: &[usize]) -> Lot {
        slots.iter().fold(self, |lot, &slot| lot.with(slot, [0; 8], 0))
    }

    /// A point in every slot, all at the beginning.
    fn full() -> Lot {
        (0..SLOTS).fold(Lot::free(), |lot, slot| lot.with(slot, letter(slot as u8), 1))
    }

    pub(super) fn slots(&mut self) -> Slots<'_> {
        Slots { names: &mut self.names, places: &mut self.places }
    }

    pub(super) fn describe(&self) -> String {
        format!("names {} places {:?}", hex(&self.names), self.places)
    }
}

/// A move with points.
#[derive(Debug)]
pub(super) enum Move {
    Keep(u32, u32, u32),
    Undo,
    Name(Name),
    Back(Name),
}

/// A supervisor's list: names are given, moved and dropped, their slots are
/// used again, a repeat is gone back over, and unknown names are refused. The
/// entries stay.
fn moves<S: Implementation, R: Implementation>(trial: &mut Trial<S, R>) {
    let plan = [SERIAL, 0xff, TASK, 0];
    let none = Lot::free();
    let a = none.clone().with(0, A, 1);
    let ab = a.clone().with(1, B, 2);
    let abc = ab.clone().with(2, C, 4);
    let moved = abc.clone().with(0, A, 4);
    let b = moved.clone().without(&[0, 2]);
    let db = b.clone().with(0, D, 3);
    let gone = b.clone().without(&[1]);
    let (started, told, both) = ([1, 0, 0, 0], [1, 0, 1, 0], [1, 0, 1, 1]);
    let cases = [
        (Move::Back(A), 19, [0; 4], 0, &none),
        (Move::Undo, 16, [0; 4], 0, &none),
        (Move::Name(A), 0, [0; 4], 0, &a),
        (Move::Back(A), 0, [0; 4], 0, &a),
        (Move::Undo, 16, [0; 4], 0, &a),
        (Move::Keep(START, 0, HAPPENS), 0x01 << 16, started, 1, &a),
        (Move::Name(B), 0, started, 1, &ab),
        (Move::Keep(START, 0, 1), 0, told, 2, &ab),
        (Move::Keep(START, 0, 1), 0, told, 3, &ab),
        (Move::Name(C), 0, told, 3, &abc),
        (Move::Name(A), 0, told, 3, &moved),
        (Move::Undo, 0, told, 2, &b),
        (Move::Name(D), 0, told, 2, &db),
        (Move::Keep(START, 1, HAPPENS), 1 << 8 | 0x21 << 16, both, 3, &db),
        (Move::Back(D), 0, told, 2, &db),
        (Move::Back(C), 19, told, 2, &db),
        (Move::Keep(START, 0, 1), 0, told, 3, &db),
        (Move::Back(D), 0, told, 2, &db),
        (Move::Keep(START, 0, 1), 0, told, 3, &db),
        (Move::Back(B), 0, started, 1, &b),
        (Move::Back(D), 19, started, 1, &b),
        (Move::Undo, 0, [0; 4], 0, &gone),
        (Move::Back(B), 19, [0; 4], 0, &gone),
        (Move::Undo, 16, [0; 4], 0, &gone),
    ];
    let (mut state, mut entries, mut count, mut lot) = ([0; 4], [[9; 4]; 4], 0, none.clone());
    for (this, expected, left, counted, points) in cases {
        let subject = &mut trial.subject;
        let result = match this {
            Move::Keep(code, node, site) => {
                subject.keep(&plan, Step { code, node, site }, &mut state, &mut entries, &mut count)
            }
            Move::Undo => subject.point_undo(&plan, &mut state, &mut entries, &mut count, lot.slots()),
            Move::Name(name) => subject.point_name(&name, count, lot.slots()),
            Move::Back(name) => {
                subject.point_back(&plan, &name, &mut state, &mut entries, &mut count, lot.slots())
            }
        };
        let right = (result, state, count, &lot) == (expected, left, counted, points);
        trial.tally.compare(right, || {
            format!("{this:?}: {result:08x}, state {}, {count}, {}", hex(&state), lot.describe())
        });
    }
    let right = entries == [[1, 0, 0xff, 1], [1, 0, 1, 1], [1, 0, 1, 0], [9; 4]];
    trial.tally.compare(right, || format!("the entries of all moves with points: {entries:02x?}"));
}

/// Namings in slots of any sort, with any count.
fn namings<S: Implementation, R: Implementation>(trial: &mut Trial<S, R>) {
    const LAST: usize = usize::MAX - 1;
    let full = Lot::full();
    let one_free = full.clone().with(11, A, 0);
    let old = Lot::free().with(5, A, 0);
    let alike = Lot::free().with(0, A, 1).with(2, *b"b\0bbbbbb", 1);
    let cases = [
        (&A[..], 7, full.clone(), 20, full.clone()),
        (&letter(3), 7, full.clone(), 0, full.clone().with(3, letter(3), 8)),
        (&A, 7, one_free.clone(), 0, one_free.clone().with(11, A, 8)),
        (&B, 7, one_free.clone(), 0, one_free.with(11, B, 8)),
        (&[9; 8], 0, Lot::free(), 0, Lot::free().with(0, LEFT, 1)),
        (&A, 7, old.clone(), 0, old.with(0, A, 8)),
        (b"aaaaaaab", 7, alike.clone(), 0, alike.clone().with(1, *b"aaaaaaab", 8)),
        (b"b\0aaaaaa", 7, alike.clone(), 0, alike.with(1, *b"b\0aaaaaa", 8)),
        (&A, LAST, Lot::free(), 0, Lot::free().with(0, A, u64::MAX)),
        (&A, usize::MAX, Lot::free(), 7, Lot::free()),
        (&A, usize::MAX, full.clone(), 7, full),
        (&[b'a'; 7], 7, Lot::free(), 7, Lot::free()),
        (&[b'a'; 9], 7, Lot::free(), 7, Lot::free()),
    ];
    for (name, count, mut lot, expected, left) in cases {
        let result = trial.subject.point_name(name, count, lot.slots());
        trial.tally.compare((result, &lot) == (expected, &left), || {
            format!("naming {} at {count}: {result:08x}, {}", hex(name), lot.describe())
        });
    }
}

/// A last entry that is refused, behind a point at its place: it refuses the
/// take-back, and B is unknown before it, also as the name of a free slot.
fn refused_entries<S: Implementation, R: Implementation>(trial: &mut Trial<S, R>) {
    let plan = [SERIAL, 0xff, TASK, 0];
    let lot = Lot::free().with(0, A, 2).with(3, B, 0);
    for (last, expected) in [([9, 0, 0xff, 1], 8), ([1, 0, 2, 0], 8), ([2, 1, 0xff, 1], 9), ([5, 0, 1, 0], 9)]
    {
        let (mut state, mut entries, mut count, mut after) = ([0xff; 4], [last], 1, lot.clone());
        let subject = &mut trial.subject;
        let results = [
            subject.point_undo(&plan, &mut state, &mut entries, &mut count, after.slots()),
            subject.point_back(&plan, &B, &mut state, &mut entries, &mut count, after.slots()),
            subject.point_back(&plan, &C, &mut state, &mut entries, &mut count, after.slots()),
            subject.point_back(&plan, &A, &mut state, &mut entries, &mut count, after.slots()),
        ];
        let is_left = (state, entries, count, &after) == ([0xff; 4], [last], 1, &lot);
        trial.tally.compare(results == [expected, 19, 19, 0] && is_left, || {
            format!("points and the entry {last:02x?}: {results:?}, {count}, {}", after.describe())
        });
    }
}

/// Goings back over entries that no simulation kept, in an xor with two
/// children whose rows were full; A's point is behind the first entry.
fn ways_back<S: Implementation, R: Implementation>(trial: &mut Trial<S, R>) {
    let plan = [XOR, 0xff, TASK, 0, TASK, 0];
    let (no_code, no_site, no_event) = ([9, 0, 0xff, 1], [1, 0, 3, 0], [5, 1, 0xff, 0]);
    let fine = [3, 0, 2, 0];
    let cleared = {
        let mut state = [0xff; 9];
        (state[1], state[4], state[6]) = (!bit(PICK), !(bit(START) | bit(PICK)), !bit(COMMIT));
        state
    };
    let cases: [(&[Entry], u32, [u8; 9]); 8] = [
        (&[], 0, [0xff; 9]),
        (&[fine, [3, 0, 2, 0xff], [7, 1, 1, 2], [7, 1, 0xff, 1], [1, 1, 0xff, 0x80]], 0, cleared),
        (&[fine, no_code], 8, [0xff; 9]),
        (&[no_event, [1, 1, 0xff, 1]], 9, [0xff; 9]),
        (&[no_code, no_event, [1, 1, 0xff, 1]], 9, [0xff; 9]),
        (&[no_event, no_site, [1, 1, 0xff, 1]], 8, [0xff; 9]),
        (&[no_site], 8, [0xff; 9]),
        (&[no_event], 9, [0xff; 9]),
    ];
    for (way, expected, left) in cases {
        let before = [&[no_code], way].concat();
        let lot = Lot::free().with(4, A, 2).with(7, B, before.len() as u64 + 1).with(9, C, 1);
        let (mut state, mut entries, mut count, mut after) =
            ([0xff; 9], before.clone(), before.len(), lot.clone());
        let result = trial.subject.point_back(&plan, &A, &mut state, &mut entries, &mut count, after.slots());
        let passed = expected == 0;
        let points = if passed && !way.is_empty() { lot.without(&[7]) } else { lot };
        let counted = if passed { 1 } else { before.len() };
        let right =
            (result, state, count) == (expected, left, counted) && entries == before && after == points;
        trial.tally.compare(right, || {
            format!(
                "going back over {way:02x?}: {result:08x}, state {}, {count}, {}",
                hex(&state),
                after.describe()
            )
        });
    }
}

/// Points that are not right are 7, before 16, 8, 19 and 20.
fn refused_points<S: Implementation, R: Implementation>(trial: &mut Trial<S, R>) {
    let plan = [SERIAL, 0xff, TASK, 0];
    let shorter = Lot { names: vec![9; 120], places: vec![0; 15] };
    let longer = Lot { names: vec![9; 136], places: vec![0; 17] };
    let lots = [
        Lot::full().with(15, letter(15), 3),
        Lot::full().with(15, letter(3), 1),
        Lot::free().with(0, A, 1 << 32),
        shorter,
        longer,
        Lot { names: vec![9; 127], ..Lot::free() },
        Lot { places: vec![0; 17], ..Lot::free() },
    ];
    for lot in lots {
        for count in [0, 1] {
            let (mut state, mut entries, mut counted, mut after) = ([5; 4], [[9; 4]], count, lot.clone());
            let subject = &mut trial.subject;
            let results = [
                subject.point_name(&D, count, after.slots()),
                subject.point_undo(&plan, &mut state, &mut entries, &mut counted, after.slots()),
                subject.point_back(&plan, &D, &mut state, &mut entries, &mut counted, after.slots()),
            ];
            let is_left = (state, entries, counted, &after) == ([5; 4], [[9; 4]], count, &lot);
            trial.tally.compare(results == [7; 3] && is_left, || {
                format!("points that are not right: {results:?}, {}", after.describe())
            });
        }
    }
}
