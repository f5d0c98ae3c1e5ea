//! Plans with desks: their bytes, the rows that sites share, and who is named.

mod common;

use common::*;
use reference::exported::*;
use reference::journal::Entry;
use reference::points::SLOTS;

/// A serial with two tasks: the block is at the highest desk there is, the
/// first task at the lowest.
const SERIAL: &str = "02ff9f 010000 010005";
/// An xor with two tasks: the second is at the xor's own desk.
const XOR: &str = "05ff20 010010 010020";

/// Desks that neither of them has, and numbers that are no desk.
const UNUSED: [u32; 14] = [1, 2, 4, 6, 0x9e, 0xa0, 0xa1, 0xfe, 0x100, 0x110, 0x120, 0x19f, 1 << 31, u32::MAX];

fn bit(code: u32) -> u8 {
    1 << (code - 1)
}

/// A simulation with desks, a journal and points, all of which are lent to
/// every call that takes them.
#[derive(Clone, Debug, PartialEq, Eq)]
struct Room {
    plan: Vec<u8>,
    state: Vec<u8>,
    entries: Vec<Entry>,
    count: usize,
    names: Vec<u8>,
    places: Vec<u64>,
    marks: Vec<u8>,
    classes: Vec<u8>,
}

impl Room {
    /// A fresh start, with this many rows.
    fn new(plan: &str, rows: usize) -> Room {
        Room::of(&hex(plan), rows)
    }

    fn of(plan: &[u8], rows: usize) -> Room {
        let nodes = plan.len() / 3;
        Room {
            plan: plan.to_vec(),
            state: vec![0; rows * nodes],
            entries: vec![[LEFT; 4]; 8],
            count: 0,
            names: vec![LEFT; 8 * SLOTS],
            places: vec![0; SLOTS],
            marks: vec![LEFT; nodes],
            classes: vec![LEFT; nodes],
        }
    }

    fn nodes(&self) -> usize {
        self.plan.len() / 3
    }

    fn simulate(&mut self, code: u32, node: u32, desk: u32) -> u32 {
        desk_simulate(&self.plan, code, node, desk, &mut self.state)
    }

    fn keep(&mut self, code: u32, node: u32, desk: u32) -> u32 {
        desk_keep(&self.plan, code, node, desk, &mut self.state, &mut self.entries, &mut self.count)
    }

    fn undo(&mut self) -> u32 {
        desk_undo(&self.plan, &mut self.state, &self.entries, &mut self.count)
    }

    fn name(&mut self, name: &[u8]) -> u32 {
        point_name(name, self.count, &mut self.names, &mut self.places)
    }

    fn point_undo(&mut self) -> u32 {
        let (count, names, places) = (&mut self.count, &mut self.names, &mut self.places);
        desk_point_undo(&self.plan, &mut self.state, &self.entries, count, names, places)
    }

    fn back(&mut self, name: &[u8]) -> u32 {
        let (count, names, places) = (&mut self.count, &mut self.names, &mut self.places);
        desk_point_back(&self.plan, name, &mut self.state, &self.entries, count, names, places)
    }

    fn record(&mut self) -> u32 {
        desk_record(&self.plan, &self.state, &mut self.marks, &mut self.classes)
    }

    fn record_by(&mut self, table: &[u8]) -> u32 {
        desk_record_by(&self.plan, table, &self.state, &mut self.marks, &mut self.classes)
    }

    /// A row, which has a byte for each node.
    fn row(&self, row: usize) -> &[u8] {
        &self.state[row * self.nodes()..][..self.nodes()]
    }

    /// A call that is refused with this result and changes nothing.
    fn refuses(&self, expected: u32, call: impl FnOnce(&mut Room) -> u32) {
        let mut after = self.clone();
        assert_eq!(call(&mut after), expected, "{self:02x?}");
        assert_eq!(after, *self);
    }

    /// The same number from every call but the check; a step is lent a row of
    /// the right length, or of none.
    fn refuses_all(&self, expected: u32) {
        for (code, node, desk) in [(START, 0, HAPPENS), (START, 0, 0), (0, 0, 400), (START, 300, HAPPENS)] {
            self.refuses(expected, |room| room.simulate(code, node, desk));
            self.refuses(expected, |room| room.keep(code, node, desk));
        }
        self.refuses(expected, Room::undo);
        self.refuses(expected, Room::point_undo);
        self.refuses(expected, |room| room.back(b"any name"));
        self.refuses(expected, Room::record);
        self.refuses(expected, |room| room.record_by(&COMMON_TABLE));
    }

    fn with_state(mut self, state: &[u8]) -> Room {
        self.state = state.to_vec();
        self
    }

    fn with_entry(mut self, entry: Entry) -> Room {
        self.entries[0] = entry;
        self.count = 1;
        self
    }
}

/// Three bytes a node: 0 bytes, any number that is no multiple of three, and
/// more than 480 are 1.
#[test]
fn lengths_of_plans() {
    let most = at_own_desks(&plan_of(160));
    assert_eq!((most.len(), desk_check(&most)), (480, 0));
    assert_eq!(desk_check(&hex("01ff00")), 0);
    let longer = [&most[..], &hex("010000 010000 010000")].concat();
    let lengths = (0..=longer.len()).filter(|length| length % 3 != 0 || *length > 480 || *length == 0);
    for length in lengths {
        let plan = &longer[..length];
        assert_eq!(desk_check(plan), 1, "{length}");
        assert_eq!(desk_step(plan, START, 0, &mut vec![0; length / 3]), 1);
        Room::of(plan, 1).refuses_all(1);
    }
}

/// Two bytes a node are not read here: six bytes of them are two nodes of
/// three, whose second has kind 00. Whatever the desks are, an accepted plan
/// of either form is refused in the other with 1 or 2 (N11).
#[test]
fn plain_plans_are_other_plans() {
    assert_eq!(check(&hex("02ff 0100 0100")), 0);
    assert_eq!(desk_check(&hex("02ff 0100 0100")), 2);
    assert_eq!(check(&hex("02ff01 010002")), 2);
    assert_eq!(desk_check(&hex("02ff01 010002")), 0);
    let mut numbers = Numbers(2);
    for plan in (1..=4).flat_map(plans).chain([plan_of(150), plan_of(160)]) {
        assert!(matches!(desk_check(&plan), 1 | 2), "{plan:02x?}");
        for _ in 0..20 {
            let desks: Vec<u8> = plan.chunks(2).map(|_| numbers.below(0xa0) as u8).collect();
            let plan = at_desks(&plan, &desks);
            assert_eq!(desk_check(&plan), 0);
            assert!(matches!(check(&plan), 1 | 2), "{plan:02x?}");
        }
    }
}

/// The numbers 2 to 6 are those of the plain plan, whatever the desks are: 22
/// comes behind 6.
#[test]
fn the_plain_plan_comes_before_the_desks() {
    let plans = [
        (2, hex("00ff")),
        (2, hex("02ff 0900")),
        (3, hex("0100")),
        (3, hex("02ff 0101")),
        (4, hex("01ff 0100")),
        (5, hex("02ff")),
        (5, hex("07ff 0100")),
        (5, serial_of(33)),
        (6, chain(33)),
        (6, chain(160)),
    ];
    for (expected, plan) in plans {
        assert_eq!(check(&plan), expected);
        for desk in [0, 0x9f, 0xa0, 0xff] {
            let plan = at_desks(&plan, &vec![desk; plan.len() / 2]);
            assert_eq!(desk_check(&plan), expected);
            assert_eq!(desk_step(&plan, START, 0, &mut []), expected);
            Room::of(&plan, 1).refuses_all(expected);
        }
    }
}

/// Desks are 00 to 9f, at every node.
#[test]
fn desks_above_9f() {
    for node in 0..3 {
        for desk in 0..=0xff {
            let mut desks = [0x9f, 0, 5];
            desks[node] = desk;
            let plan = at_desks(&hex("02ff 0100 0100"), &desks);
            let expected = if desk <= 0x9f { 0 } else { 22 };
            assert_eq!(desk_check(&plan), expected, "{desks:?}");
        }
    }
}

/// 22 before 7, and so before all that follows.
#[test]
fn desks_come_before_lengths() {
    for desks in [[0xa0, 0, 5], [0, 0xff, 5], [0, 0, 0xfe]] {
        let plan = at_desks(&hex("02ff 0100 0100"), &desks);
        for length in [0, 2, 3, 4, 9] {
            let mut row = vec![LEFT; length];
            assert_eq!(desk_step(&plan, START, 0, &mut row), 22);
            assert_eq!(desk_step(&plan, 0, 300, &mut row), 22);
            assert_eq!(row, vec![LEFT; length]);
            let mut room = Room::of(&plan, 3);
            room.state.resize(length, LEFT);
            room.refuses_all(22);
            room.marks.pop();
            room.names.pop();
            room.count = usize::MAX;
            room.refuses_all(22);
        }
    }
}

/// 21 before 1.
#[test]
fn the_table_comes_first() {
    let plans = [vec![], hex("02ff"), hex("00ff00"), hex("01ffa0"), hex(SERIAL)];
    for plan in plans {
        let room = Room::of(&plan, 3);
        for table in [&[][..], &[0; 12], &COMMON_TABLE[1..]] {
            room.refuses(21, |room| room.record_by(table));
        }
    }
    let mut room = Room::new(SERIAL, 2);
    room.refuses(7, |room| room.record_by(&COMMON_TABLE));
    room.state.resize(9, 0);
    assert_eq!(room.record_by(&COMMON_TABLE), 0);
}

/// A state has a row for each desk that some node has, and no other.
#[test]
fn desks_in_use_are_counted() {
    let plan = hex("02ff 0100 0100 0100");
    let desks = [
        ([0, 1, 2, 3], 4),
        ([3, 2, 1, 0], 4),
        ([0, 0, 0, 0], 1),
        ([0x9f; 4], 1),
        ([0x9f, 0, 0x9f, 0], 2),
        ([7, 7, 7, 8], 2),
        ([0x40, 0x3f, 0x80, 0x7f], 4),
        ([5, 9, 5, 0x41], 3),
    ];
    for (desks, rows) in desks {
        let plan = at_desks(&plan, &desks);
        for others in (0..6).filter(|&other| other != rows) {
            Room::of(&plan, others).refuses_all(7);
        }
        for length in [4 * rows - 1, 4 * rows + 1] {
            let mut room = Room::of(&plan, rows);
            room.state.resize(length, 0);
            room.refuses_all(7);
        }
        let mut room = Room::of(&plan, rows);
        let own = u32::from(desks[0]);
        assert_eq!(room.simulate(START, 0, HAPPENS), passed(own, 0x01), "{desks:?}");
        assert_eq!(room.keep(START, 0, own), 0);
        assert_eq!(room.record(), 0);
        assert_eq!((room.undo(), room.point_undo()), (0, 16));
        for length in [0, 3, 5] {
            assert_eq!(desk_step(&plan, START, 0, &mut vec![LEFT; length]), 7);
        }
    }
}

/// Rows stand in rising desk number, whoever comes first in the plan.
#[test]
fn rows_rise_with_the_desks() {
    let mut room = Room::new(SERIAL, 3);
    assert_eq!(room.simulate(START, 0, HAPPENS), passed(0x9f, 0x01));
    assert_eq!(room.state, [0, 0, 0, 0, 0, 0, 1, 0, 0], "9f is the last");
    assert_eq!(room.simulate(START, 0, 0), 0);
    assert_eq!(room.state, [1, 0, 0, 0, 0, 0, 1, 0, 0], "00 is the first");
    assert_eq!(room.simulate(START, 1, HAPPENS), passed(0, 0x21));
    assert_eq!(room.simulate(START, 0, 5), 0);
    assert_eq!(room.state, [1, 1, 0, 1, 0, 0, 1, 0, 0]);
    let every = (0..0x9f_u8).rev().step_by(3).collect::<Vec<_>>();
    let mut plan = hex("02ff");
    every[1..].chunks(26).for_each(|_| plan.extend([2, 0]));
    (plan.len() / 2..every.len()).for_each(|node| plan.extend([1, 1 + (node as u8) % 2]));
    let mut room = Room::of(&at_desks(&plan, &every), every.len());
    assert_eq!(number(room.simulate(START, 0, HAPPENS)), 0);
    for (row, &desk) in every.iter().rev().enumerate() {
        assert_eq!(room.simulate(START, 0, desk.into()), 0, "{desk}");
        assert_eq!(room.row(row)[0], bit(START), "{desk}");
    }
}

/// 8 for a desk that no node has, be it one or not; ff is the event.
#[test]
fn unused_desks() {
    for plan in [SERIAL, XOR] {
        let rows = if plan == SERIAL { 3 } else { 2 };
        let mut room = Room::new(plan, rows);
        assert_eq!(number(room.simulate(START, 0, HAPPENS)), 0);
        for desk in UNUSED {
            room.refuses(8, |room| room.simulate(START, 0, desk));
            room.refuses(8, |room| room.keep(START, 0, desk));
            room.refuses(8, |room| room.simulate(YES, 0, desk));
            let Ok(desk) = u8::try_from(desk) else { continue };
            for changed in [0, 1] {
                let mut room = room.clone().with_entry([START as u8, 0, desk, changed]);
                room.refuses(8, Room::undo);
                room.refuses(8, Room::point_undo);
                room.places[0] = 1;
                room.refuses(8, |room| room.back(&[LEFT; 8]));
            }
        }
    }
    let room = Room::new(SERIAL, 3);
    for (code, node) in [(0, 0), (9, 0), (257, 0), (START, 3), (START, 0x9f), (START, 256)] {
        for desk in [HAPPENS, 5] {
            room.refuses(8, |room| room.simulate(code, node, desk));
            room.refuses(8, |room| room.keep(code, node, desk));
        }
    }
    for (code, node) in [(OFFER, 1), (PICK, 1), (YES, 0), (TURNED_DOWN, 0)] {
        room.refuses(9, |room| room.simulate(code, node, HAPPENS));
        room.refuses(9, |room| room.simulate(code, node, 5));
        room.refuses(8, |room| room.simulate(code, node, 6));
    }
}

/// A desk that has a node's number need not be in use, and a row's number is
/// no desk.
#[test]
fn nodes_and_rows_are_no_desks() {
    let mut room = Room::new("02ff50 010060 010050", 2);
    assert_eq!(room.simulate(START, 0, HAPPENS), passed(0x50, 0x01));
    for desk in 0..0x50 {
        room.refuses(8, |room| room.simulate(START, 0, desk));
    }
    assert_eq!(room.simulate(START, 0, 0x60), 0);
    assert_eq!(room.state, [1, 0, 0, 1, 0, 0]);
}

/// What passes at a desk is heard there at once, by every site of it.
#[test]
fn a_desk_hears_itself() {
    let mut room = Room::new("02ff07 010007 010003", 2);
    assert_eq!(room.simulate(START, 0, HAPPENS), passed(7, 0x01));
    assert_eq!(room.simulate(START, 1, HAPPENS), passed(7, 0x21), "nobody told it");
    assert_eq!(room.simulate(COMMIT, 1, HAPPENS), passed(7, 0x13));
    assert_eq!(room.simulate(START, 2, HAPPENS), 11 | 3 << 8, "another desk has to be told");
    assert_eq!(room.simulate(COMMIT, 1, 3), 0);
    assert_eq!(room.simulate(START, 2, HAPPENS), passed(3, 0x21));
    assert_eq!(room.simulate(COMMIT, 2, HAPPENS), passed(3, 0x13));
    assert_eq!(room.simulate(COMMIT, 0, HAPPENS), 11 | 7 << 8);
    assert_eq!(room.simulate(COMMIT, 2, 7), 0);
    assert_eq!(room.simulate(COMMIT, 0, HAPPENS), passed(7, 0x23));
    let row = [bit(START) | bit(COMMIT), bit(START) | bit(COMMIT), bit(COMMIT)];
    assert_eq!(room.state, [&[0, bit(COMMIT), bit(START) | bit(COMMIT)][..], &row].concat());
    assert_eq!((room.record(), &room.marks[..], &room.classes[..]), (0, &[3, 3, 3][..], &[0, 1, 1][..]));
}

/// A message is held against the row of the desk that decides its event, and
/// not against the hearer's.
#[test]
fn the_desk_of_the_event_knows() {
    let plan = SERIAL;
    let (first, third) = ([bit(START), 0, 0, 0, 0, 0, 0, 0, 0], [0, 0, 0, 0, 0, 0, bit(START), 0, 0]);
    let told = Room::new(plan, 3).with_state(&first);
    told.refuses(12, |room| room.simulate(START, 0, 0));
    told.refuses(12, |room| room.simulate(START, 0, 5));
    told.refuses(12, |room| room.keep(START, 0, 0x9f));
    let mut knows = Room::new(plan, 3).with_state(&third);
    assert_eq!(knows.simulate(START, 0, 5), 0);
    assert_eq!(knows.state, [0, 0, 0, 1, 0, 0, 1, 0, 0]);
}

/// A message to the desk that decides the event passes once the event has, and
/// is a repeat.
#[test]
fn a_message_to_the_own_desk() {
    let mut room = Room::new("02ff07 010007 010003", 2);
    room.refuses(12, |room| room.simulate(START, 0, 7));
    room.refuses(12, |room| room.keep(START, 1, 7));
    assert_eq!(room.keep(START, 0, HAPPENS), passed(7, 0x01));
    let before = room.state.clone();
    assert_eq!(room.simulate(START, 0, 7), 0);
    assert_eq!(room.keep(START, 0, 7), 0);
    assert_eq!((&room.state, room.entries[1]), (&before, [1, 0, 7, 0]));
    assert_eq!((room.undo(), &room.state, room.count), (0, &before, 1));
    assert_eq!((room.undo(), &room.state[..]), (0, &[0; 6][..]));
}

/// Bits 8 to 15: the desk, with 0, 10 and 11 of an event, and nowhere else.
#[test]
fn where_results_have_a_desk() {
    let mut room = Room::new(SERIAL, 3);
    let mut row = [0; 3];
    assert_eq!(desk_step(&room.plan, COMMIT, 0, &mut row), 11 | 0x9f << 8);
    assert_eq!(desk_step(&room.plan, START, 0, &mut row), passed(0x9f, 0x01));
    assert_eq!(desk_step(&room.plan, START, 0, &mut row), 10 | 0x9f << 8);
    assert_eq!(desk_step(&room.plan, START, 2, &mut row), 11 | 5 << 8);
    assert_eq!(desk_step(&room.plan, YES, 0, &mut row), 9);
    assert_eq!(desk_step(&room.plan, START, 3, &mut row), 8);
    assert_eq!(row, [1, 0, 0]);
    room.refuses(11 | 5 << 8, |room| room.simulate(START, 2, HAPPENS));
    room.refuses(11 | 5 << 8, |room| room.keep(START, 2, HAPPENS));
    room.refuses(12, |room| room.simulate(START, 2, 0x9f));
    room.refuses(12, |room| room.keep(START, 2, 5));
    assert_eq!(room.keep(START, 0, HAPPENS), passed(0x9f, 0x01));
    room.refuses(10 | 0x9f << 8, |room| room.simulate(START, 0, HAPPENS));
    room.refuses(10 | 0x9f << 8, |room| room.keep(START, 0, HAPPENS));
    room.refuses(8, |room| room.simulate(START, 0, 0x9e));
    room.refuses(9, |room| room.keep(YES, 0, 0x9f));
    assert_eq!(room.keep(START, 0, 5), 0);
    assert_eq!((room.record(), room.undo(), room.point_undo()), (0, 0, 0));
}

/// A pick is decided at the desk of the parent, and its bit is set there.
#[test]
fn picks_are_at_the_desk_of_the_parent() {
    let mut room = Room::new("05ff20 010010 010030", 3);
    assert_eq!(room.keep(START, 0, HAPPENS), passed(0x20, 0x01));
    assert_eq!(room.keep(START, 0, 0x10), 0);
    assert_eq!(room.keep(START, 1, HAPPENS), passed(0x10, 0x51));
    assert_eq!(room.keep(OFFER, 1, HAPPENS), passed(0x10, 0x12));
    room.refuses(11 | 0x20 << 8, |room| room.keep(PICK, 1, HAPPENS));
    assert_eq!(room.keep(OFFER, 1, 0x20), 0);
    let before = room.state.clone();
    assert_eq!(room.keep(PICK, 1, HAPPENS), passed(0x20, 0x57));
    assert_eq!(room.row(1), [bit(START), bit(OFFER) | bit(PICK), 0], "at the desk of the xor");
    assert_eq!(room.row(0)[1] & bit(PICK), 0);
    room.refuses(10 | 0x20 << 8, |room| room.simulate(PICK, 2, HAPPENS));
    room.clone().with_state(&before).refuses(12, |room| room.simulate(PICK, 1, 0x10));
    assert_eq!(room.keep(PICK, 1, 0x10), 0);
    assert_eq!(room.simulate(COMMIT, 1, HAPPENS), passed(0x10, 0xf3));
    room.count = 6;
    assert_eq!((room.undo(), room.row(1)), (0, &before[3..6]), "and cleared there");
}

/// Where a child is at its xor's desk, an offer is heard there, and another
/// one can still be picked only once.
#[test]
fn picks_at_a_shared_desk() {
    let mut room = Room::new(XOR, 2);
    assert_eq!(room.simulate(START, 0, HAPPENS), passed(0x20, 0x01));
    assert_eq!(room.simulate(START, 2, HAPPENS), passed(0x20, 0x51));
    assert_eq!(room.simulate(OFFER, 2, HAPPENS), passed(0x20, 0x12));
    assert_eq!(room.simulate(PICK, 2, HAPPENS), passed(0x20, 0x57));
    assert_eq!(room.simulate(COMMIT, 2, HAPPENS), passed(0x20, 0xf3));
    assert_eq!(room.simulate(START, 0, 0x10), 0);
    assert_eq!(room.simulate(START, 1, HAPPENS), passed(0x10, 0x51));
    assert_eq!(room.simulate(OFFER, 1, HAPPENS), passed(0x10, 0x12));
    assert_eq!(room.simulate(OFFER, 1, 0x20), 0);
    assert_eq!(room.simulate(PICK, 1, HAPPENS), 10 | 0x20 << 8);
    assert_eq!(room.simulate(PICK, 2, 0x10), 0);
    assert_eq!(room.simulate(TURNED_DOWN, 1, HAPPENS), passed(0x10, 0x58));
    assert_eq!(room.simulate(TURNED_DOWN, 1, 0x20), 0);
    assert_eq!(room.simulate(COMMIT, 0, HAPPENS), passed(0x20, 0x53));
    assert_eq!((room.record(), &room.marks[..], &room.classes[..]), (0, &[3, 5, 3][..], &[0, 2, 1][..]));
}

/// A mark is read in the row of the node's own desk.
#[test]
fn marks_are_read_at_the_own_desk() {
    let plans = [
        ("02ff9f 010000 010005", [2, 0, 1]),
        ("02ff00 01009f 010000", [0, 1, 0]),
        ("02ff01 010001 010001", [0, 0, 0]),
        ("02ff02 010001 010000", [2, 1, 0]),
    ];
    for (plan, rows) in plans {
        let count = 1 + rows.iter().max().unwrap();
        for node in 0..3 {
            for row in 0..count {
                let mut room = Room::new(plan, count);
                room.state[3 * row + node] = bit(START) | bit(COMMIT);
                assert_eq!(room.record(), 0);
                let mut marks = [0; 3];
                marks[node] = if row == rows[node] { 3 } else { 0 };
                assert_eq!(room.marks, marks, "{plan} row {row} node {node}");
                let by = room.classes.clone();
                assert_eq!((room.record_by(&COMMON_TABLE), room.classes), (0, by));
            }
        }
    }
}

/// Marks and classes have one byte a node, as the rows have.
#[test]
fn records_of_a_wrong_length() {
    for (marks, classes) in [(2, 3), (4, 3), (3, 2), (3, 4), (0, 0), (9, 9)] {
        let mut room = Room::new(SERIAL, 3);
        room.marks.resize(marks, LEFT);
        room.classes.resize(classes, LEFT);
        room.refuses(7, Room::record);
        room.refuses(7, |room| room.record_by(&COMMON_TABLE));
    }
    let mut room = Room::new("05ff09 020009 010102 010002", 2);
    room.state = [[0, 0, 4, 4], [4, 0x82, 0, 0]].concat();
    assert_eq!(
        (room.record(), &room.marks[..], &room.classes[..]),
        (0, &[3, 5, 3, 3][..], &[0, 0, 2, 1][..])
    );
    let table = [0, 0, 1, 0, 2, 1, 3, 2, 4, 0, 5, 3];
    assert_eq!(
        (room.record_by(&table), &room.marks[..], &room.classes[..]),
        (0, &[3, 5, 3, 3][..], &[0, 0, 3, 2][..])
    );
}

/// An entry names the desk that was told, and ff for the event itself; taking
/// it back clears the bit in that desk's row.
#[test]
fn entries_name_desks() {
    let mut room = Room::new(SERIAL, 3);
    let steps = [
        ([START, 0, HAPPENS], passed(0x9f, 0x01), 1),
        ([START, 0, 0], 0, 1),
        ([START, 0, 0], 0, 0),
        ([START, 0, 5], 0, 1),
        ([START, 0, 0x9f], 0, 0),
        ([START, 1, HAPPENS], passed(0, 0x21), 1),
        ([ABORT, 1, HAPPENS], passed(0, 0x14), 1),
        ([ABORT, 1, 0x9f], 0, 1),
    ];
    let mut before = vec![];
    for (place, (step, expected, changed)) in steps.into_iter().enumerate() {
        before.push(room.state.clone());
        let mut alone = room.clone();
        assert_eq!(alone.simulate(step[0], step[1], step[2]), expected);
        assert_eq!(room.keep(step[0], step[1], step[2]), expected, "{step:?}");
        assert_eq!((&room.state, room.count), (&alone.state, place + 1));
        assert_eq!(room.entries[place], [step[0] as u8, step[1] as u8, step[2] as u8, changed]);
    }
    room.refuses(7, |room| room.keep(ABORT, 0, HAPPENS));
    let kept = room.clone();
    for state in before.iter().rev() {
        assert_eq!((room.undo(), &room.state), (0, state));
        assert_eq!(room.entries, kept.entries);
    }
    room.refuses(16, Room::undo);
    room.refuses(16, Room::point_undo);
    for place in 0..=8 {
        let mut named = kept.clone();
        named.places[..2].copy_from_slice(&[place + 1, 9]);
        named.names[8..16].copy_from_slice(b"the last");
        assert_eq!(named.back(&[LEFT; 8]), 0);
        let states = [&before[..], std::slice::from_ref(&kept.state)].concat();
        assert_eq!((&named.state, named.count), (&states[place as usize], place as usize));
        assert_eq!(named.places[1], if place == 8 { 9 } else { 0 }, "later points are dropped");
        named.refuses(if place == 8 { 0 } else { 19 }, |room| room.back(b"the last"));
    }
}

/// Entries that no simulation kept: the bit is cleared in the row of the desk
/// that the entry names, for ff in that of the event's own.
#[test]
fn any_entries() {
    let entries = [
        ([START, 0, HAPPENS], 2, 0),
        ([START, 0, 0], 0, 0),
        ([START, 0, 5], 1, 0),
        ([COMMIT, 2, HAPPENS], 1, 2),
        ([COMMIT, 2, 0x9f], 2, 2),
        ([ABORT, 1, HAPPENS], 0, 1),
    ];
    for ([code, node, desk], row, column) in entries {
        for changed in [0, 1, 2, 0xff] {
            let entry = [code as u8, node as u8, desk as u8, changed];
            let room = Room::new(SERIAL, 3).with_state(&[0xff; 9]).with_entry(entry);
            let mut state = [0xff; 9];
            if changed != 0 {
                state[3 * row + column] = !bit(code);
            }
            for call in [Room::undo, Room::point_undo, |room: &mut Room| room.back(&[LEFT; 8])] {
                let mut after = room.clone();
                after.places[4] = 1;
                assert_eq!(call(&mut after), 0);
                assert_eq!((&after.state[..], after.count, after.places[4]), (&state[..], 0, 1), "{entry:?}");
                let mut none = room.clone().with_state(&[0; 9]);
                none.places[4] = 1;
                assert_eq!((call(&mut none), &none.state[..]), (0, &[0; 9][..]));
            }
        }
    }
}

/// 7 for a full journal and for a count above the entries, before 8; 16 before
/// 8; 19 before 8; points that are not right before all three.
#[test]
fn the_order_of_the_others() {
    let mut room = Room::new(SERIAL, 3);
    room.entries = vec![[START as u8, 0, 6, 1]; 2];
    room.refuses(16, Room::undo);
    room.refuses(16, Room::point_undo);
    room.refuses(19, |room| room.back(b"any name"));
    room.count = 2;
    room.refuses(7, |room| room.keep(START, 0, HAPPENS));
    room.refuses(7, |room| room.keep(START, 0, 6));
    room.refuses(8, Room::undo);
    room.refuses(8, Room::point_undo);
    room.refuses(19, |room| room.back(b"any name"));
    room.refuses(7, |room| room.back(b"short"));
    for places in [&[4][..], &[1, 1]] {
        let mut wrong = room.clone();
        wrong.places[..places.len()].copy_from_slice(places);
        wrong.refuses(7, Room::point_undo);
        wrong.refuses(7, |room| room.back(b"any name"));
        wrong.count = 0;
        wrong.refuses(7, Room::point_undo);
    }
    room.places[0] = 1;
    room.refuses(8, |room| room.back(&[LEFT; 8]));
    room.entries[1] = [YES as u8, 0, 0xff, 0];
    room.refuses(9, |room| room.back(&[LEFT; 8]));
    room.refuses(9, Room::undo);
    room.count = 3;
    room.refuses(7, Room::undo);
    room.refuses(7, |room| room.keep(START, 0, HAPPENS));
}

/// A take-back with points drops those past the new count, going back too;
/// points are named without a plan.
#[test]
fn points_in_a_journal_with_desks() {
    let mut room = Room::new("02ff07 010007 010003", 2);
    assert_eq!(room.name(b"at first"), 0);
    assert_eq!(room.keep(START, 0, HAPPENS), passed(7, 0x01));
    assert_eq!(room.name(b"at start"), 0);
    assert_eq!(room.keep(START, 0, 3), 0);
    assert_eq!(room.keep(START, 1, HAPPENS), passed(7, 0x21));
    assert_eq!(room.name(b"too soon"), 0);
    assert_eq!((room.point_undo(), room.count, &room.places[..3]), (0, 2, &[1, 2, 0][..]));
    room.refuses(19, |room| room.back(b"too soon"));
    assert_eq!((room.back(b"at start"), room.count, &room.state[..]), (0, 1, &[0, 0, 0, 1, 0, 0][..]));
    room.refuses(0, |room| room.back(b"at start"));
    assert_eq!((room.back(b"at first"), room.count, &room.state[..]), (0, 0, &[0; 6][..]));
    assert_eq!(room.places[..3], [1, 0, 0]);
}

/// An event of a simulation comes out as the step of its desk on that desk's
/// row, and number and row are those of a site's step with the plain plan.
#[test]
fn a_step_knows_one_row_alone() {
    let mut numbers = Numbers(3);
    let mut met = [0; 12];
    for plain in (1..=4).flat_map(plans) {
        let nodes = plain.len() / 2;
        let desks: Vec<u8> = (0..nodes).map(|_| 3 * numbers.below(3) as u8).collect();
        let plan = at_desks(&plain, &desks);
        let mut in_use = desks.clone();
        in_use.sort_unstable();
        in_use.dedup();
        for _ in 0..40 {
            let (code, node) = (1 + numbers.below(8), numbers.below(nodes as u32));
            let at =
                if code == PICK && node > 0 { plain[2 * node as usize + 1].into() } else { node as usize };
            let row = in_use.iter().position(|&desk| desk == desks[at]).unwrap();
            let state: Vec<u8> = (0..in_use.len() * nodes)
                .map(|_| numbers.below(256) as u8 & numbers.below(256) as u8)
                .collect();
            let mut own = state[row * nodes..][..nodes].to_vec();
            let (mut by_site, mut after) = (own.clone(), state.clone());
            let result = desk_step(&plan, code, node, &mut own);
            let of_site = step(&plain, code, node, &mut by_site);
            let desk = u32::from(desks[at]) << 8;
            let expected =
                if matches!(number(of_site), 0 | 10 | 11) { of_site & !0xff00 | desk } else { of_site };
            assert_eq!((result, &own), (expected, &by_site));
            assert_eq!(desk_simulate(&plan, code, node, HAPPENS, &mut after), result);
            let mut expected = state;
            expected[row * nodes..][..nodes].copy_from_slice(&own);
            assert_eq!(after, expected);
            met[usize::from(number(result))] += 1;
        }
    }
    assert!([0, 9, 10, 11].iter().all(|&number| met[number] > 500), "{met:?}");
}

/// The same call twice: on a plain plan, and on it with each node's own number
/// for a desk. Both answer and leave the same.
fn agree<T: Clone + PartialEq + std::fmt::Debug>(
    lent: T,
    plain: impl FnOnce(&mut T) -> u32,
    with_desks: impl FnOnce(&mut T) -> u32,
) -> u32 {
    let (mut one, mut two) = (lent.clone(), lent);
    let results = (plain(&mut one), with_desks(&mut two));
    assert_eq!(results.0, results.1, "{one:02x?}");
    assert_eq!(one, two);
    results.0
}

/// A plain plan, and the same with each node's own number for a desk.
struct Both {
    plan: Vec<u8>,
    desks: Vec<u8>,
}

impl Both {
    /// A step of any numbers, by itself and on a state.
    fn steps(&self, [code, node, site]: [u32; 3], row: Vec<u8>, state: Vec<u8>) -> [u32; 2] {
        let Both { plan, desks } = self;
        [
            agree(row, |row| step(plan, code, node, row), |row| desk_step(desks, code, node, row)),
            agree(
                state,
                |state| simulate(plan, code, node, site, state),
                |state| desk_simulate(desks, code, node, site, state),
            ),
        ]
    }

    /// A step that is kept, and a take-back.
    fn journals(&self, [code, node, site]: [u32; 3], journal: Journal) -> [u32; 2] {
        let Both { plan, desks } = self;
        [
            agree(
                journal.clone(),
                |(state, entries, count)| keep(plan, code, node, site, state, entries, count),
                |(state, entries, count)| desk_keep(desks, code, node, site, state, entries, count),
            ),
            agree(
                journal,
                |(state, entries, count)| undo(plan, state, entries, count),
                |(state, entries, count)| desk_undo(desks, state, entries, count),
            ),
        ]
    }

    /// The calls with points, one of which is at this place.
    fn points(&self, journal: Journal, word: u64) -> [u32; 2] {
        let Both { plan, desks } = self;
        let mut places = vec![0; SLOTS];
        places[3] = word;
        let name = [7; 8];
        let lent = (journal, name.repeat(SLOTS), places);
        [
            agree(
                lent.clone(),
                |((state, entries, count), names, places)| {
                    point_undo(plan, state, entries, count, names, places)
                },
                |((state, entries, count), names, places)| {
                    desk_point_undo(desks, state, entries, count, names, places)
                },
            ),
            agree(
                lent,
                |((state, entries, count), names, places)| {
                    point_back(plan, &name, state, entries, count, names, places)
                },
                |((state, entries, count), names, places)| {
                    desk_point_back(desks, &name, state, entries, count, names, places)
                },
            ),
        ]
    }

    /// The records of a state.
    fn records(&self, table: &[u8], state: &[u8], lent: (Vec<u8>, Vec<u8>)) -> [u32; 2] {
        let Both { plan, desks } = self;
        [
            agree(
                lent.clone(),
                |(marks, classes)| record(plan, state, marks, classes),
                |(marks, classes)| desk_record(desks, state, marks, classes),
            ),
            agree(
                lent,
                |(marks, classes)| record_by(plan, table, state, marks, classes),
                |(marks, classes)| desk_record_by(desks, table, state, marks, classes),
            ),
        ]
    }
}

/// State, entries and count.
type Journal = (Vec<u8>, Vec<Entry>, usize);

/// Plans of every sort, refused ones among them, with any arguments.
#[test]
fn own_numbers_for_desks_change_nothing() {
    let refused = ["", "00ff", "0101", "02ff 0101", "01ff 0100", "02ff", "07ff 0100"].map(hex);
    let large = [serial_of(33), chain(33), plan_of(160), plan_of(161), plan_of(170)];
    let mut numbers = Numbers(9);
    let mut met = [0; 256];
    for plan in (1..=3).flat_map(plans).chain(refused).chain(large) {
        let nodes = plan.len() / 2;
        let both = Both { desks: at_own_desks(&plan), plan };
        assert_eq!(desk_check(&both.desks), check(&both.plan));
        for round in 0..60 {
            let length = |right: usize| if round % 6 == 0 { right + 1 } else { right };
            let bits = if round % 2 == 0 { 0 } else { 0xff };
            let state =
                numbers.bytes(length(nodes * nodes)).iter().map(|byte| byte & bits).collect::<Vec<_>>();
            let (node, site) = (numbers.below(nodes as u32 + 2), numbers.below(nodes as u32 + 2));
            let site = if numbers.below(2) == 0 { HAPPENS } else { site };
            let step = [numbers.below(10), node, site];
            let entry = [step[0] as u8, node as u8, site as u8, numbers.below(2) as u8];
            let journal = (state.clone(), vec![entry; 3], numbers.below(5) as usize);
            let table = if round % 4 == 0 { vec![0; 12] } else { COMMON_TABLE.to_vec() };
            let lent = (numbers.bytes(length(nodes)), numbers.bytes(nodes));
            let results = [
                both.steps(step, numbers.bytes(length(nodes)), state.clone()),
                both.journals(step, journal.clone()),
                both.points(journal, numbers.below(4).into()),
                both.records(&table, &state, lent),
            ];
            results.as_flattened().iter().for_each(|&result| met[usize::from(number(result))] += 1);
        }
    }
    let expected = [0, 1, 2, 3, 4, 5, 6, 7, 8, 9, 10, 11, 12, 16, 19, 21];
    assert!(expected.iter().all(|&number| met[number] > 20), "{met:?}");
}

/// Where all are at one desk, an event passes just if the central rule allows
/// it, in every state that there is, and nobody is told of anything.
#[test]
fn one_desk_is_the_central_rule() {
    let mut allowed = 0;
    for plain in (1..=4).flat_map(plans) {
        let nodes = plain.len() / 2;
        let plan = at_desks(&plain, &vec![0x33; nodes]);
        let fresh = (vec![0; nodes], vec![0; nodes], vec![0; nodes]);
        let mut known = std::collections::HashSet::from([fresh.clone()]);
        let mut open = vec![fresh];
        while let Some(here) = open.pop() {
            for (code, node) in (1..=8).flat_map(|code| (0..nodes as u32).map(move |node| (code, node))) {
                let (mut state, mut marks, mut notes) = here.clone();
                let result = desk_simulate(&plan, code, node, HAPPENS, &mut state);
                let above = central(&plain, code, node, &mut marks, &mut notes);
                let passes = number(result) == 0;
                assert_eq!(passes, value(above) == 1, "{plan:02x?} {here:?} code {code} node {node}");
                assert_eq!(number(result) == 9, number(above) == 9);
                allowed += u32::from(passes);
                let (mut by_row, mut classes) = (vec![0; nodes], vec![0; nodes]);
                assert_eq!(desk_record(&plan, &state, &mut by_row, &mut classes), 0);
                assert_eq!(by_row, marks);
                let next = (state, marks, notes);
                if passes && known.insert(next.clone()) {
                    open.push(next);
                }
            }
        }
    }
    assert!(allowed > 10_000, "{allowed}");
}
