//! Named points: naming places of a journal, and going back to them.

mod common;

use common::*;
use reference::exported::{check, keep, number, point_back, point_name, point_undo, simulate};
use reference::journal::Entry;
use reference::points::{Name, SLOTS};
use std::collections::BTreeMap;

/// A serial with one task.
const SMALL: &str = "02ff 0100";

/// A simulation with a journal and points.
#[derive(Clone, Debug, PartialEq, Eq)]
struct Room {
    plan: Vec<u8>,
    state: Vec<u8>,
    entries: Vec<Entry>,
    count: usize,
    names: Vec<u8>,
    places: Vec<u64>,
}

impl Room {
    fn new(plan: &str, entries: usize) -> Room {
        Room::of(&hex(plan), entries)
    }

    fn of(plan: &[u8], entries: usize) -> Room {
        let nodes = plan.len() / 2;
        Room {
            plan: plan.to_vec(),
            state: vec![0; nodes * nodes],
            entries: vec![[LEFT; 4]; entries],
            count: 0,
            names: vec![LEFT; 8 * SLOTS],
            places: vec![0; SLOTS],
        }
    }

    /// A room with these entries, all of them counted, whose rows are full.
    fn kept(plan: &str, entries: &[Entry]) -> Room {
        let mut room = Room::new(plan, 0);
        room.state.fill(0xff);
        room.entries = entries.to_vec();
        room.count = entries.len();
        room
    }

    fn keep(&mut self, code: u32, node: u32, site: u32) -> u32 {
        keep(&self.plan, code, node, site, &mut self.state, &mut self.entries, &mut self.count)
    }

    fn name(&mut self, name: &[u8]) -> u32 {
        point_name(name, self.count, &mut self.names, &mut self.places)
    }

    fn undo(&mut self) -> u32 {
        let (count, names, places) = (&mut self.count, &mut self.names, &mut self.places);
        point_undo(&self.plan, &mut self.state, &self.entries, count, names, places)
    }

    fn back(&mut self, name: &[u8]) -> u32 {
        let (count, names, places) = (&mut self.count, &mut self.names, &mut self.places);
        point_back(&self.plan, name, &mut self.state, &self.entries, count, names, places)
    }

    /// Puts a point into a slot.
    fn put(&mut self, slot: usize, name: &Name, place: u64) {
        self.names[8 * slot..][..8].copy_from_slice(name);
        self.places[slot] = place + 1;
    }

    /// The same with a point in a slot.
    fn with(mut self, slot: usize, name: &Name, place: u64) -> Room {
        self.put(slot, name, place);
        self
    }

    fn slot_name(&self, slot: usize) -> &[u8] {
        &self.names[8 * slot..][..8]
    }

    /// The points in use, by name.
    fn points(&self) -> BTreeMap<Name, usize> {
        let names = self.names.as_chunks::<8>().0;
        let in_use = names.iter().zip(&self.places).filter(|&(_, &word)| word > 0);
        let points: Vec<(Name, usize)> = in_use.map(|(name, word)| (*name, *word as usize - 1)).collect();
        let by_name: BTreeMap<Name, usize> = points.iter().copied().collect();
        assert_eq!(by_name.len(), points.len(), "two points of one name: {self:02x?}");
        by_name
    }

    /// A call that is refused with this number and changes nothing.
    fn refuses(&self, expected: u32, call: impl FnOnce(&mut Room) -> u32) {
        let mut after = self.clone();
        assert_eq!(call(&mut after), expected, "{self:02x?}");
        assert_eq!(after, *self);
    }

    /// All three calls are refused with 7 and change nothing.
    fn refuses_points(&self) {
        self.refuses(7, |room| room.name(b"any name"));
        self.refuses(7, Room::undo);
        self.refuses(7, |room| room.back(b"any name"));
        let name: Name = self.names.get(..8).unwrap_or(&[0; 8]).try_into().unwrap();
        self.refuses(7, |room| room.back(&name));
    }

    /// The state that the first steps give from a fresh start.
    fn replayed(&self, steps: usize) -> Vec<u8> {
        let mut state = vec![0; self.state.len()];
        for entry in &self.entries[..steps] {
            let [code, node, site, _] = entry.map(u32::from);
            assert_eq!(number(simulate(&self.plan, code, node, site, &mut state)), 0, "{self:02x?}");
        }
        state
    }
}

/// An entry whose take-back passes, and ones with 8 and with 9.
const FINE: Entry = [START as u8, 0, 0xff, 1];
const NO_CODE: Entry = [9, 0, 0xff, 1];
const NO_SITE: Entry = [START as u8, 0, 7, 0];
const NOT_APPLYING: Entry = [YES as u8, 0, 0xff, 0];

/// A name that differs from the others in its last byte.
fn numbered(number: usize) -> Name {
    let mut name = *b"point  _";
    name[7] = number as u8;
    name
}

/// All slots in use, each name's point at place 0.
fn full(room: Room) -> Room {
    (0..SLOTS).fold(room, |room, slot| room.with(slot, &numbered(slot), 0))
}

#[test]
fn plans_come_first() {
    let plans = [(1, ""), (1, "02ff01"), (2, "00ff"), (3, "02ff 0101"), (4, "01ff 0100"), (5, "07ff 0100")];
    let plans = plans.map(|(number, plan)| (number, hex(plan)));
    for (expected, plan) in plans.into_iter().chain([(6, chain(33))]) {
        assert_eq!(check(&plan), expected);
        let mut rooms = vec![Room::of(&plan, 2), Room::of(&plan, 2), Room::of(&plan, 0)];
        rooms[0].entries.fill(NO_CODE);
        rooms[0].count = 1;
        rooms[1].names.pop();
        rooms[1].places.push(1);
        rooms[2].state.push(0);
        rooms[2].count = usize::MAX;
        for room in rooms {
            room.refuses(expected, Room::undo);
            room.refuses(expected, |room| room.back(b"any name"));
            room.refuses(expected, |room| room.back(b"short"));
        }
    }
}

/// 7 for a state of a wrong length and for a count above the entries, before
/// 16 and 19.
#[test]
fn states_and_counts() {
    for (state, entries, count) in [(3, 2, 1), (5, 2, 1), (0, 0, 0), (3, 2, 0), (4, 2, 3), (4, 0, 1)] {
        let mut room = Room::new(SMALL, 0);
        room.state.resize(state, 0);
        room.entries = vec![NO_CODE; entries];
        room.count = count;
        room.refuses(7, Room::undo);
        room.refuses(7, |room| room.back(b"any name"));
        room.with(0, b"any name", 0).refuses(7, |room| room.back(b"any name"));
    }
    for count in [3, 1 << 32, usize::MAX - 1, usize::MAX] {
        let mut room = Room::kept(SMALL, &[FINE; 2]);
        room.count = count;
        room.refuses(7, Room::undo);
        room.refuses(7, |room| room.back(b"any name"));
    }
}

#[test]
fn slots_have_their_lengths() {
    let room = Room::kept(SMALL, &[FINE; 3]);
    for names in [0, 7, 8, 112, 120, 127, 129, 136, 256] {
        let mut room = room.clone();
        room.names.resize(names, 0);
        room.refuses_points();
    }
    for places in [0, 1, 15, 17, 32] {
        let mut room = room.clone();
        room.places.resize(places, 0);
        room.refuses_points();
        room.names.resize(8 * places, 0);
        room.refuses_points();
    }
}

#[test]
fn points_past_the_count_are_refused() {
    for word in [5, 6, 256, 1 << 32, 1 << 32 | 1, 1 << 63, u64::MAX] {
        for slot in [0, 7, 15] {
            let mut room = Room::kept(SMALL, &[FINE; 3]);
            room.places[slot] = word;
            room.refuses_points();
            room.entries[2] = NO_CODE;
            room.refuses_points();
            room.count = 0;
            room.refuses_points();
        }
    }
    let room = Room::kept(SMALL, &[FINE; 3]).with(4, b"at count", 3);
    assert_eq!(room.clone().name(b"any name"), 0);
    assert_eq!(room.clone().undo(), 0);
    assert_eq!(room.clone().back(b"at count"), 0);
}

/// Names count in slots that are in use, and all their bytes do.
#[test]
fn two_points_of_one_name_are_refused() {
    for (one, two) in [(0, 1), (0, 15), (7, 8), (3, 11), (14, 15)] {
        for (here, there) in [(0, 0), (1, 3), (3, 1)] {
            let room = Room::kept(SMALL, &[FINE; 3]).with(one, b"any name", here);
            let twice = room.clone().with(two, b"any name", there);
            twice.refuses_points();
            let mut free = twice.clone();
            free.places[two] = 0;
            assert_eq!(free.clone().name(b"new name"), 0);
            assert_eq!(free.clone().undo(), 0);
            assert_eq!(free.clone().back(b"any name"), 0);
            for byte in 0..8 {
                let mut apart = twice.clone();
                apart.names[8 * two + byte] ^= 0x80;
                assert_eq!(apart.clone().name(b"new name"), 0);
                assert_eq!(apart.clone().undo(), 0);
                assert_eq!(apart.clone().back(b"any name"), 0);
            }
        }
    }
    let zeros = Room::kept(SMALL, &[FINE; 3]).with(2, &[0; 8], 1);
    assert_eq!(zeros.clone().undo(), 0);
    zeros.with(9, &[0; 8], 1).refuses_points();
}

/// 7 for the name's length comes before 19 and 20.
#[test]
fn names_have_eight_bytes() {
    let room = Room::kept(SMALL, &[FINE; 3]).with(3, b"any name", 1);
    for name in [&b""[..], b"a", b"any nam", b"any name ", b"any nameany name"] {
        room.refuses(7, |room| room.name(name));
        room.refuses(7, |room| room.back(name));
        full(room.clone()).refuses(7, |room| room.name(name));
    }
}

#[test]
fn the_first_free_slot_is_used() {
    let mut room = Room::kept(SMALL, &[FINE; 5]);
    for slot in [0, 1, 3] {
        room.put(slot, &numbered(slot), 2);
    }
    room.names[8 * 9..][..8].copy_from_slice(b"any name");
    let before = room.clone();
    assert_eq!(room.name(b"any name"), 0);
    assert_eq!(room, before.clone().with(2, b"any name", 5), "and not the free one of this name");
    assert_eq!(room.name(b"new name"), 0);
    assert_eq!(room, before.with(2, b"any name", 5).with(4, b"new name", 5));
}

#[test]
fn a_point_moves_in_its_slot() {
    let mut room = Room::kept(SMALL, &[FINE; 5]).with(6, b"any name", 1).with(8, b"any Name", 4);
    let before = room.clone();
    assert_eq!(room.name(b"any name"), 0);
    assert_eq!(room, before.with(6, b"any name", 5));
    let again = room.clone();
    assert_eq!(room.name(b"any name"), 0);
    assert_eq!(room, again, "it is there already");
}

/// Sixteen others are in use: 20 for a new name, but a known one moves, and
/// 7 comes first.
#[test]
fn no_slot_is_free() {
    let room = full(Room::kept(SMALL, &[FINE; 5]));
    room.refuses(20, |room| room.name(b"new name"));
    for slot in 0..SLOTS {
        let mut moved = room.clone();
        assert_eq!(moved.name(&numbered(slot)), 0);
        assert_eq!(moved, room.clone().with(slot, &numbered(slot), 5));
    }
    room.clone().with(15, &numbered(15), 6).refuses(7, |room| room.name(b"new name"));
    room.clone().with(15, &numbered(3), 0).refuses(7, |room| room.name(b"new name"));
    let mut last = room.clone();
    last.places[11] = 0;
    assert_eq!(last.name(b"new name"), 0);
    assert_eq!(last, room.with(11, b"new name", 5));
}

/// Naming knows no journal: any count has its place, but for the last number.
#[test]
fn naming_takes_any_count() {
    for count in [0, 1, 255, 256, u64::from(u32::MAX), 1 << 32, u64::MAX - 1] {
        let mut room = Room::new(SMALL, 0);
        room.count = count as usize;
        let before = room.clone();
        assert_eq!(room.name(b"any name"), 0);
        assert_eq!(room, before.with(0, b"any name", count));
        assert_eq!(room.places[0], count + 1);
    }
    let mut room = Room::new(SMALL, 0);
    room.count = usize::MAX;
    room.refuses(7, |room| room.name(b"any name"));
    let mut known = room.with(5, b"any name", u64::MAX - 1);
    known.refuses(7, |room| room.name(b"any name"));
    full(known.clone()).refuses(7, |room| room.name(b"new name"));
    known.count -= 1;
    assert_eq!(known.name(b"any name"), 0);
}

/// Take-backs are refused as without points, once the points are right.
#[test]
fn take_backs_are_refused() {
    let empty = Room::new(SMALL, 3);
    empty.refuses(16, Room::undo);
    let pointed = empty.with(1, b"any name", 0);
    pointed.refuses(16, Room::undo);
    pointed.clone().with(2, b"any name", 0).refuses(7, Room::undo);
    pointed.with(2, b"new name", 1).refuses(7, Room::undo);
    for (last, expected) in [(NO_CODE, 8), (NO_SITE, 8), (NOT_APPLYING, 9), ([LEFT; 4], 8)] {
        let room = Room::kept(SMALL, &[FINE, last]).with(0, b"any name", 2);
        room.refuses(expected, Room::undo);
        room.clone().with(2, b"any name", 0).refuses(7, Room::undo);
        room.with(2, b"new name", 3).refuses(7, Room::undo);
    }
}

/// A take-back drops the points past the new count, name and place; those at
/// it and before it stay, and so do free slots.
#[test]
fn take_backs_drop_points() {
    let mut room = Room::kept(SMALL, &[FINE, [COMMIT as u8, 1, 0, 1], [OFFER as u8; 4]]);
    room.count = 2;
    let mut room = room.with(0, b"  last  ", 2).with(3, b"previous", 1).with(9, b" first  ", 0);
    room.put(15, b"too late", 2);
    let before = room.clone();
    assert_eq!(room.undo(), 0);
    assert_eq!((room.count, &room.state[..]), (1, &[0xff, !4, 0xff, 0xff][..]));
    assert_eq!(room.points(), BTreeMap::from([(*b"previous", 1), (*b" first  ", 0)]));
    let mut expected = before.clone();
    for slot in [0, 15] {
        expected.put(slot, &[0; 8], 0);
        expected.places[slot] = 0;
    }
    assert_eq!((&room.names, &room.places), (&expected.names, &expected.places));
    assert_eq!(room.entries, before.entries);
    assert_eq!(room.slot_name(1), [LEFT; 8], "the name of a free slot stays");
    assert_eq!(room.undo(), 0);
    assert_eq!(room.points(), BTreeMap::from([(*b" first  ", 0)]));
    room.refuses(16, Room::undo);
}

/// 19 comes after 7 and before what an entry is refused for; the name of a
/// free slot is none.
#[test]
fn unknown_names() {
    for last in [FINE, NO_CODE, NOT_APPLYING] {
        let mut room = Room::kept(SMALL, &[FINE, last]).with(3, b"any name", 0);
        room.names[8 * 5..][..8].copy_from_slice(b"old name");
        for name in [b"old name", b"any Name", b"any nam\0", b"\0\0\0\0\0\0\0\0", &[LEFT; 8]] {
            room.refuses(19, |room| room.back(name));
        }
        room.clone().with(6, b"any name", 1).refuses(7, |room| room.back(b"new name"));
        room.with(6, b"old name", 3).refuses(7, |room| room.back(b"new name"));
    }
    full(Room::new(SMALL, 0)).refuses(19, |room| room.back(b"any name"));
    Room::new(SMALL, 0).refuses(19, |room| room.back(b"any name"));
}

/// Where the point is at the count, nothing is taken back, whatever the last
/// entry is, and it passes, with no step and no entry too.
#[test]
fn going_back_to_here() {
    for entries in [&[][..], &[FINE], &[NO_CODE], &[FINE, NOT_APPLYING]] {
        let place = entries.len() as u64;
        let room = Room::kept(SMALL, entries).with(3, b"any name", place).with(4, b"new name", 0);
        room.refuses(0, |room| room.back(b"any name"));
    }
}

/// Along a job with a message, a repeat and a pick, each place gets a name;
/// from the end, every one of them can be gone back to.
#[test]
fn every_place_of_a_job() {
    let mut room = Room::new("05ff 0100 0100", 9);
    let steps = [
        [START, 0, HAPPENS],
        [START, 0, 1],
        [START, 0, 1],
        [START, 0, 0],
        [START, 1, HAPPENS],
        [OFFER, 1, HAPPENS],
        [OFFER, 1, 0],
        [PICK, 1, HAPPENS],
    ];
    let mut states = vec![room.state.clone()];
    assert_eq!(room.name(&numbered(0)), 0);
    for (place, [code, node, site]) in (1..).zip(steps) {
        assert_eq!(number(room.keep(code, node, site)), 0);
        states.push(room.state.clone());
        assert_eq!(room.name(&numbered(place)), 0);
    }
    for (place, state) in states.iter().enumerate() {
        let mut there = room.clone();
        assert_eq!(there.back(&numbered(place)), 0);
        assert_eq!((&there.state, there.count), (state, place));
        assert_eq!(there.state, room.replayed(place));
        assert_eq!(there.entries, room.entries);
        assert_eq!(there.points(), (0..=place).map(|place| (numbered(place), place)).collect());
        let dropped = place + 1..=steps.len();
        assert!(dropped.clone().all(|slot| there.slot_name(slot) == [0; 8] && there.places[slot] == 0));
        assert_eq!(there.names[8 * (steps.len() + 1)..], room.names[8 * (steps.len() + 1)..]);
        dropped.for_each(|place| there.refuses(19, |room| room.back(&numbered(place))));
    }
}

/// Entries that no simulation kept: each is taken back as it says, in the
/// row that it names.
#[test]
fn any_entries_are_taken_back() {
    let entries = [
        [YES as u8; 4],
        [START as u8, 1, 0xff, 1],
        [PICK as u8, 1, 0xff, 0x80],
        [PICK as u8, 1, 1, 2],
        [COMMIT as u8, 0, 2, 0],
        [COMMIT as u8, 0, 2, 0xff],
        [COMMIT as u8, 0, 2, 1],
    ];
    let mut room = Room::kept("05ff 0100 0100", &entries).with(2, b"any name", 1);
    let before = room.clone();
    assert_eq!(room.back(b"any name"), 0);
    let mut state = vec![0xff; 9];
    (state[4], state[1], state[6]) = (!(1 | 0x40), !0x40, !4);
    assert_eq!(room, Room { state, count: 1, ..before });
}

/// The first fault met counts, from the last entry on, and all is left; what
/// is not on the way is not looked at.
#[test]
fn faults_on_the_way() {
    let cases: [(&[Entry], u32); 8] = [
        (&[FINE, NO_CODE], 8),
        (&[FINE, NO_SITE, FINE], 8),
        (&[NOT_APPLYING, FINE, FINE], 9),
        (&[NO_CODE, NOT_APPLYING, FINE], 9),
        (&[NOT_APPLYING, FINE, NO_CODE, FINE], 8),
        (&[NO_SITE, NOT_APPLYING], 9),
        (&[NOT_APPLYING, NO_SITE], 8),
        (&[FINE, FINE, FINE], 0),
    ];
    for (way, expected) in cases {
        let entries = [&[NO_CODE, FINE, NOT_APPLYING], way].concat();
        let room = Room::kept(SMALL, &entries).with(1, b"any name", 3).with(2, b"new name", 4);
        if expected != 0 {
            room.refuses(expected, |room| room.back(b"any name"));
            continue;
        }
        let mut there = room.clone();
        assert_eq!((there.back(b"any name"), there.count), (0, 3));
        assert_eq!(there.points(), BTreeMap::from([(*b"any name", 3)]));
        there.refuses(19, |room| room.back(b"new name"));
        there.refuses(9, Room::undo);
    }
}

/// How often what was met in the lists of moves.
#[derive(Default, Debug)]
struct Met {
    moved: u32,
    full: u32,
    dropped: u32,
    empty: u32,
    unknown: u32,
    back: u32,
}

/// What is promised after every list of moves: the state is that of the steps
/// that remain, the points are right, and each can be gone back to.
fn holds(room: &Room) {
    assert_eq!(room.state, room.replayed(room.count));
    for (name, place) in room.points() {
        assert!(place <= room.count);
        let mut there = room.clone();
        assert_eq!(there.back(&name), 0);
        assert_eq!((there.count, &there.state), (place, &room.replayed(place)));
    }
}

/// A naming: what has become of every name's point.
fn naming(room: &mut Room, name: Name, met: &mut Met) {
    let mut expected = room.points();
    let result = room.name(&name);
    if expected.len() == SLOTS && !expected.contains_key(&name) {
        met.full += 1;
        assert_eq!(result, 20);
    } else {
        assert_eq!(result, 0);
        met.moved += u32::from(expected.insert(name, room.count).is_some());
    }
    assert_eq!(room.points(), expected);
}

/// A take-back or a going back that passed: points past the count are gone.
fn dropping(room: &Room, before: &Room, met: &mut Met) {
    let mut expected = before.points();
    expected.retain(|_, place| *place <= room.count);
    met.dropped += (before.points().len() - expected.len()) as u32;
    assert_eq!(room.points(), expected);
    assert_eq!(room.entries, before.entries);
}

#[test]
fn any_moves_keep_the_promises() {
    let mut numbers = Numbers(5);
    let mut met = Met::default();
    for plan in (1..=4).flat_map(plans) {
        let nodes = plan.len() as u32 / 2;
        let mut room = Room::of(&plan, 3 + numbers.below(20) as usize);
        let names = if numbers.below(2) == 0 { 4 } else { 24 };
        for _ in 0..120 {
            let before = room.clone();
            let name = numbered(numbers.below(names) as usize);
            match numbers.below(20) {
                0 => match room.undo() {
                    0 => dropping(&room, &before, &mut met),
                    result => {
                        met.empty += 1;
                        assert_eq!((result, before.count, &room), (16, 0, &before));
                    }
                },
                1 => match room.back(&name) {
                    0 => {
                        met.back += 1;
                        assert_eq!(Some(&room.count), before.points().get(&name));
                        dropping(&room, &before, &mut met);
                    }
                    result => {
                        met.unknown += 1;
                        assert_eq!((result, &room), (19, &before));
                        assert!(!before.points().contains_key(&name));
                    }
                },
                2..=8 => naming(&mut room, name, &mut met),
                _ => {
                    let site = if numbers.below(2) == 0 { HAPPENS } else { numbers.below(nodes) };
                    room.keep(1 + numbers.below(8), numbers.below(nodes), site);
                    assert_eq!(room.points(), before.points());
                }
            }
            holds(&room);
        }
    }
    let least = [met.moved, met.full, met.dropped, met.empty, met.unknown, met.back].into_iter().min();
    assert!(least > Some(500), "{met:?}");
}
