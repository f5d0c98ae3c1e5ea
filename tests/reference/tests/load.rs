//! Test loads: moves, draws and steps by hand, what holds of every load, and the order of
//! refusals.

mod common;

use common::*;
use reference::exported::{number, simulate, workload};
use reference::load::Generator;

/// 2 to the 32nd: what a move drops is a multiple of it.
const WHOLE: u64 = 1 << 32;

/// The load, over other bytes, or the refusal, which leaves all.
fn load(plan: &[u8], seed: u32, count: u32) -> Result<Vec<u8>, u32> {
    into_bytes(plan, seed, count, 3 * count as usize)
}

/// The same into so many bytes.
fn into_bytes(plan: &[u8], seed: u32, count: u32, length: usize) -> Result<Vec<u8>, u32> {
    let mut out = vec![LEFT; length];
    match workload(plan, seed, count, &mut out) {
        0 => Ok(out),
        refused => {
            assert!(out.iter().all(|&byte| byte == LEFT), "a refused call leaves all");
            Err(refused)
        }
    }
}

fn gives(plan: &[u8], seed: u32, steps: &str) {
    let steps = hex(steps);
    assert_eq!(load(plan, seed, steps.len() as u32 / 3), Ok(steps), "seed {seed}");
}

/// The number after one move, worked out as on paper: each half is multiplied by itself,
/// and nothing wraps on the way.
fn moved_by_halves(s: u32) -> u32 {
    let (upper, lower) = (u64::from(s / 65_536), u64::from(s % 65_536));
    let product = upper * 1_664_525 % 65_536 * 65_536 + lower * 1_664_525;
    ((product + 1_013_904_223) % WHOLE) as u32
}

/// So many draws from a seed, each with the number it is made from.
fn draws(seed: u32, count: usize) -> Vec<(u32, u32)> {
    let mut generator = Generator(seed);
    (0..count).map(|_| (generator.draw(), generator.0)).collect()
}

/// The beginning that is known for seed 0 and six nodes.
#[test]
fn the_known_answer() {
    assert_eq!(hex(P).len(), 2 * 6);
    gives(&hex(P), 0, "0102ff 0702ff 010201");
}

/// The first numbers from 0, worked out with numbers of any length in another language.
#[test]
fn the_first_numbers() {
    let worked_out = [
        0x3c6e_f35f,
        0x4750_2932,
        0xd1cc_f6e9,
        0xaaf9_5334,
        0x6252_e503,
        0x9f2e_c686,
        0x57fe_6c2d,
        0xa3d9_5fa8,
        0x81fd_bee7,
        0x94f0_af1a,
        0xcbf6_33b1,
    ];
    assert_eq!(draws(0, 11), worked_out.map(|number: u32| (number >> 16, number)));
}

/// One move by hand each. 2^32 is 4,294,967,296.
#[test]
fn moves_by_hand() {
    // seed, number after the move, draw
    let by_hand = [
        // 0 + 1,013,904,223 = 15,470 x 65,536 + 62,303
        (0, 1_013_904_223, 15_470),
        // 1,664,525 + 1,013,904,223 = 1,015,568,748 = 15,496 x 65,536 + 22,892
        (1, 1_015_568_748, 15_496),
        // the last from which nothing wraps: 1971 x 1,664,525 = 3,280,778,775,
        // + 1,013,904,223 = 4,294,682,998 = 65,531 x 65,536 + 43,382
        (1971, 4_294_682_998, 65_531),
        // the first of which the sum wraps: 3,282,443,300 + 1,013,904,223 = 4,296,347,523,
        // less 2^32 is 1,380,227 = 21 x 65,536 + 3,971
        (1972, 1_380_227, 21),
        // the last whose product doesn't: 4,294,474,500 + 1,013,904,223 = 5,308,378,723,
        // less 2^32 is 1,013,411,427 = 15,463 x 65,536 + 28,259
        (2580, 1_013_411_427, 15_463),
        // the first whose product does: 4,296,139,025 less 2^32 is 1,171,729,
        // + 1,013,904,223 = 1,015,075,952 = 15,488 x 65,536 + 54,384
        (2581, 1_015_075_952, 15_488),
        // 2^31 times an odd number leaves 2^31: 2,147,483,648 + 1,013,904,223
        // = 3,161,387,871 = 48,238 x 65,536 + 62,303
        (0x8000_0000, 3_161_387_871, 48_238),
        // one less than 2^32 leaves 2^32 - 1,664,525, so both wrap: 1,013,904,223 - 1,664,525
        // = 1,012,239,698 = 15,445 x 65,536 + 36,178
        (0xffff_ffff, 1_012_239_698, 15_445),
        // the lowest draw: 634,785,765 x 1,664,525 = 1,056,616,775,486,625
        // = 246,012 x 2^32 + 3,281,063,073, and + 1,013,904,223 is just 2^32
        (634_785_765, 0, 0),
        // the highest: 653,637,408 x 1,664,525 = 1,087,995,806,551,200
        // = 253,318 x 2^32 + 3,281,063,072, and + 1,013,904,223 is one less
        (653_637_408, 0xffff_ffff, 65_535),
    ];
    for (seed, number, draw) in by_hand {
        assert_eq!(draws(seed, 1), [(draw, number)], "from {seed}");
        assert_eq!(moved_by_halves(seed), number, "from {seed}");
    }
}

/// Moves from the ends of the range and from anywhere, against those by halves.
#[test]
fn moves_by_halves() {
    let mut numbers = Numbers(7);
    let anywhere = (0..20_000).map(|_| numbers.below(65_536) << 16 | numbers.below(65_536));
    for seed in (0..5000).chain(anywhere).chain(0x7fff_fff0..=0x8000_0010).chain(0xffff_ff00..=u32::MAX) {
        let next = moved_by_halves(seed);
        assert_eq!(draws(seed, 1), [(next / 65_536, next)], "from {seed}");
    }
}

/// Twelve draws from 0, and what a plan of six nodes makes of them.
///
/// The second move: 1,013,904,223 x 1,664,525 = 1,687,668,926,789,075
/// = 392,941 x 2^32 + 182,531,539, and + 1,013,904,223 = 1,196,435,762.
/// The third: 1,196,435,762 x 1,664,525 = 1,991,497,236,743,050
/// = 463,681 x 2^32 + 2,505,966,474, and + 1,013,904,223 = 3,519,870,697.
#[test]
fn steps_by_hand() {
    let by_hand = [
        (15_470, 1_013_904_223), // even: an event
        (18_256, 1_196_435_762), // modulo 8 is 0: code 1
        (53_708, 3_519_870_697), // 6 x 8,951 + 2: node 2
        (43_769, 2_868_466_484), // drawn and not read: ff
        (25_170, 1_649_599_747), // even: an event
        (40_750, 2_670_642_822), // 8 x 5,093 + 6: code 7
        (22_526, 1_476_291_629), // 6 x 3,754 + 2: node 2
        (41_945, 2_748_932_008), // not read
        (33_277, 2_180_890_343), // odd: a message
        (38_128, 2_498_801_434), // modulo 8 is 0: code 1
        (52_214, 3_421_909_937), // 6 x 8,702 + 2: node 2
        (48_337, 3_167_820_124), // 6 x 8,056 + 1: site 1
    ];
    assert_eq!(draws(0, 12), by_hand);
    let mut generator = Generator(0);
    assert_eq!([(); 3].map(|()| generator.step(6)), [[1, 2, 0xff], [7, 2, 0xff], [1, 2, 1]]);
    assert_eq!(generator.0, 3_167_820_124, "four draws a step, also of an event");
    // modulo 1 everything is node 0; 53,708 = 335 x 160 + 108, 22,526 = 140 x 160 + 126,
    // 52,214 = 326 x 160 + 54, 48,337 = 302 x 160 + 17
    gives(&hex("01ff"), 0, "0100ff 0700ff 010000");
    gives(&plan_of(160), 0, "016cff 077eff 013611");
}

/// From the largest seed 15,445, 12,311, 8,835 and 41,343 are drawn: a message, 8 x 1,538 + 7
/// is code 8, 6 x 1,472 + 3 is node 3, 6 x 6,890 + 3 is site 3. Then 47,029, 57,284, 59,813
/// and 47,440: a message, 8 x 7,160 + 4 is code 5, 6 x 9,968 + 5 is node 5, 6 x 7,906 + 4 is
/// site 4.
#[test]
fn from_the_largest_seed() {
    let drawn = [15_445, 12_311, 8_835, 41_343, 47_029, 57_284, 59_813, 47_440];
    assert_eq!(draws(u32::MAX, 8).iter().map(|&(draw, _)| draw).collect::<Vec<_>>(), drawn);
    gives(&hex(P), u32::MAX, "080303 050504");
    // 8,835 = 55 x 160 + 35, 41,343 = 258 x 160 + 63, 59,813 = 373 x 160 + 133,
    // 47,440 = 296 x 160 + 80
    gives(&plan_of(160), u32::MAX, "08233f 058550");
    // one move before it stands at the seed itself: 65,535 is odd, 15,445 = 8 x 1,930 + 5,
    // 12,311 = 6 x 2,051 + 5, 8,835 = 6 x 1,472 + 3
    gives(&hex(P), 653_637_408, "060503");
}

/// Only the number of nodes counts, not what they are.
#[test]
fn the_kinds_do_not_matter() {
    for nodes in 1..=5 {
        let all = plans(nodes);
        let first = load(&all[0], 5, 100);
        assert!(all.iter().all(|plan| load(plan, 5, 100) == first));
    }
}

/// Every step is in range, everything that may come does, and events are about as many as
/// messages.
#[test]
fn every_step_is_in_range() {
    for nodes in [1, 2, 3, 6, 40, 127, 128, 129, 159, 160] {
        let plan = any_plan(&mut Numbers(1), nodes);
        let steps = load(&plan, nodes as u32, 8000).expect("it passes");
        let mut met = [[false; 256]; 3];
        let mut events = 0;
        for step in steps.chunks(3) {
            assert!((1..=8).contains(&step[0]) && usize::from(step[1]) < nodes, "{step:02x?}");
            assert!(step[2] == 0xff || usize::from(step[2]) < nodes, "{step:02x?}");
            events += u32::from(step[2] == 0xff);
            met.iter_mut().zip(step).for_each(|(met, &byte)| met[usize::from(byte)] = true);
        }
        let counts = met.map(|met| met.iter().filter(|&&is_met| is_met).count());
        assert_eq!(counts, [8, nodes, nodes + 1]);
        assert!((3800..4200).contains(&events), "{events}");
    }
}

/// A smaller count gives the front, and the rest goes on from where the generator stands.
#[test]
fn a_shorter_load_is_the_front() {
    let plan = hex(P);
    for seed in [0, 1, 77, 634_785_765, 0x8000_0000, u32::MAX] {
        let long = load(&plan, seed, 300).expect("it passes");
        let mut generator = Generator(seed);
        for count in 0..=300 {
            let (front, rest) = long.split_at(3 * count as usize);
            assert_eq!(load(&plan, seed, count).as_deref(), Ok(front));
            assert_eq!(load(&plan, generator.0, 300 - count).as_deref(), Ok(rest));
            generator.step(6);
        }
    }
}

/// No step at all passes too, into no bytes.
#[test]
fn count_0() {
    for seed in [0, 9, u32::MAX] {
        assert_eq!(load(&hex(P), seed, 0), Ok(vec![]));
        for length in [1, 2, 3, 6] {
            assert_eq!(into_bytes(&hex(P), seed, 0, length), Err(7));
        }
    }
}

/// More steps than 16 bits can count.
#[test]
fn a_long_load() {
    let long = load(&hex(P), 3, 70_000).expect("it passes");
    let mut generator = Generator(3);
    (0..69_999).for_each(|_| {
        generator.step(6);
    });
    assert_eq!(long[3 * 69_999..], generator.step(6));
    assert_eq!(into_bytes(&hex(P), 3, 70_000, 3 * (70_000 - 65_536)), Err(7));
}

/// A simulation takes the load as it is: it never finds a code, a node or a site that isn't
/// there. Steps pass, and steps are refused for everything else; they stay.
#[test]
fn a_simulation_takes_it() {
    let mut met = [0; 13];
    for nodes in [1, 2, 6, 40, 160] {
        let plan = any_plan(&mut Numbers(1), nodes);
        let mut state = vec![0; nodes * nodes];
        for step in load(&plan, 11, 4000).expect("it passes").chunks(3) {
            let [code, node, site] = [step[0], step[1], step[2]].map(u32::from);
            met[usize::from(number(simulate(&plan, code, node, site, &mut state)))] += 1;
        }
    }
    assert_eq!(met.iter().sum::<u32>(), 5 * 4000);
    assert!(met[0] > 20 && met[9..].iter().all(|&count| count > 500), "{met:?}");
    assert_eq!(met[1..9], [0; 8], "{met:?}");
}

/// Plans of several sizes for each number from 1 to 6, whatever is lent, and however many
/// steps are wanted.
#[test]
fn refused_plans_come_first() {
    let refused = refused_plans().into_iter().map(|(plan, number)| (hex(&plan), number));
    let larger = [(plan_of(161), 1), (serial_of(33), 5), (chain(33), 6)];
    for (plan, refused) in refused.chain(larger) {
        for count in [0, 1, 2, 100, 0x5555_5555, u32::MAX] {
            for length in [0, 1, 2, 3, 4, 6, 300] {
                assert_eq!(into_bytes(&plan, 1, count, length), Err(refused), "{plan:02x?} {count} {length}");
            }
        }
    }
}

/// Just three bytes a step do.
#[test]
fn other_lengths() {
    for plan in [hex("01ff"), hex(P), plan_of(160)] {
        for count in 0..20 {
            for length in (0..80).filter(|&length| length != 3 * count as usize) {
                assert_eq!(into_bytes(&plan, 1, count, length), Err(7), "{count} into {length}");
            }
        }
    }
}

/// Three times these counts is a little more than 2^32 or twice 2^32, of which 32 bits would
/// keep just the length; and with one less or more. 3 x 1,431,655,766 is 2^32 + 2, and
/// 3 x 2,863,311,531 is 2 x 2^32 + 1.
#[test]
fn no_product_wraps() {
    for length in 0..300 {
        for bytes in [WHOLE + length, 2 * WHOLE + length] {
            for count in bytes / 3 - 1..=bytes / 3 + 1 {
                assert_eq!(into_bytes(&hex(P), 1, count as u32, length as usize), Err(7), "{count}");
            }
        }
    }
    for count in [0x5555_5555, 1_431_655_766, 0x8000_0000, 2_863_311_531, u32::MAX - 1, u32::MAX] {
        for length in [0, 1, 2, 3, 4, 300] {
            assert_eq!(into_bytes(&hex(P), 1, count, length), Err(7), "{count} into {length}");
        }
    }
}
