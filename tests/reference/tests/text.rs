//! Simulations from text.

mod common;

use common::plan_of;
use reference::{exported, rehearse};

/// Lines from words.
fn lines(words: &str) -> String {
    words.split_whitespace().map(|word| format!("{word}\n")).collect()
}

fn prints(input: impl AsRef<[u8]>, words: &str) {
    let output = String::from_utf8(rehearse(input.as_ref())).expect("hexadecimal");
    assert_eq!(output, lines(words));
    call_gives(input.as_ref(), &output);
}

/// The call gives the program's lines where there are any, else the number
/// that the program prints; it leaves every other byte.
fn call_gives(input: &[u8], output: &str) {
    let mut out = vec![0xa5; 16_390];
    let result = exported::rehearse(input, &mut out);
    let refused = if output.len() == 3 { u32::from_str_radix(output.trim(), 16).ok() } else { None };
    if let Some(number) = refused {
        assert_eq!(result, number);
        assert_eq!(exported::rehearse(input, &mut out[..20]), number, "found before the length");
        assert!(out.iter().all(|&byte| byte == 0xa5));
    } else {
        assert_eq!(result, (output.len() as u32) << 16);
        assert_eq!(&out[..output.len()], output.as_bytes());
        assert!(out[output.len()..].iter().all(|&byte| byte == 0xa5));
    }
}

/// However short the lines would be, all of the bytes must be lent.
#[test]
fn a_short_buffer_is_7() {
    for length in [0, 1, 9, 100, 16_383] {
        let mut out = vec![0xa5; length];
        assert_eq!(exported::rehearse(b"01ff\n--\n", &mut out), 7);
        assert_eq!(exported::rehearse(b"==\n01ff\n--\n", &mut out), 21);
        assert_eq!(exported::rehearse(b"09ff\n--\n", &mut out), 2);
        assert_eq!(exported::rehearse(b"09ff\n--", &mut out), 15);
        assert!(out.iter().all(|&byte| byte == 0xa5));
    }
    let mut out = vec![0xa5; 16_384];
    assert_eq!(exported::rehearse(b"01ff\n--\n", &mut out), 9 << 16);
    assert_eq!(&out[..10], b"00010000\n\xa5");
}

/// No text has more lines than fit: the most bytes come from 160 nodes and
/// as many steps as there is space for.
#[test]
fn the_longest_output() {
    let plan = plan_text(&plan_of(160));
    let steps = (32_768 - plan.len() - 3) / 7;
    let text = format!("{plan}--\n{}", "0100ff\n".repeat(steps));
    assert_eq!(rehearse(text.as_bytes()).len(), 3 * 4566 + 9 * 160);
    call_gives(text.as_bytes(), &String::from_utf8(rehearse(text.as_bytes())).expect("hexadecimal"));
}

/// A plan as lines of text.
fn plan_text(plan: &[u8]) -> String {
    plan.chunks(2).map(|node| format!("{:02x}{:02x}\n", node[0], node[1])).collect()
}

#[test]
fn the_sample() {
    let input = lines("02ff 0100 -- 0100ff 0101ff 010001 0101ff 0301ff 030100 0300ff");
    prints(input, "00 0b 00 00 00 00 00 00020300 01010301");
}

/// What is printed for the texts in examples/ stands beside them.
#[test]
fn the_examples() {
    let day = include_bytes!("../../../examples/captioning-day.txt");
    assert_eq!(rehearse(day), include_bytes!("../../../examples/captioning-day.out"));
    let early = include_bytes!("../../../examples/early-end.txt");
    assert_eq!(rehearse(early), include_bytes!("../../../examples/early-end.out"));
    let table = include_bytes!("../../../examples/house-table.txt");
    assert_eq!(rehearse(table), include_bytes!("../../../examples/house-table.out"));
}

#[test]
fn no_steps_is_fine() {
    prints("01ff\n--\n", "00010000");
    prints("02ff\n0100\n--\n", "00020000 01010000");
}

#[test]
fn refused_steps_go_on() {
    let input = lines(
        "02ff 0100 -- 0100ff 0100ff 0101ff 0900ff 0002ff 0102ff 010002 0100fe 0200ff 020001 030001 010001 0101ff",
    );
    prints(input, "00 0a 0b 08 08 08 08 08 09 09 0c 00 00 00020100 01010103");
}

#[test]
fn malformed_text_is_15() {
    let malformed: &[&[u8]] = &[
        b"",
        b"\n",
        b"01ff\n",
        b"01ff\n--",
        b"01ff\n--\n--\n",
        b"01ff\n--\n0100ff",
        b"01ff\n--\n0100ff\n--\n",
        b"01ff\n\n--\n",
        b"01ff\n--\n\n",
        b"01ff\r\n--\r\n",
        b"01FF\n--\n",
        b"01ff\n--\n0100FF\n",
        b"01f\n--\n",
        b"01fff\n--\n",
        b"01ff00\n--\n",
        b"01ff \n--\n",
        b" 01ff\n--\n",
        b"01 ff\n--\n",
        b"01fg\n--\n",
        b"01ff\n-\n",
        b"01ff\n---\n",
        b"01ff\n-- \n",
        b"01ff\n--\n0100\n",
        b"01ff\n--\n0100f\n",
        b"01ff\n--\n0100ff0\n",
        b"01ff\n--\n0100ff00\n",
        b"01ff\n--\n01-0ff\n",
        b"01ff\n--\n0100ff\n\xff\n",
        b"01ff\n--\n\x000100ff\n",
        b"01ff--\n",
        b"\xef\xbb\xbf01ff\n--\n",
    ];
    for text in malformed {
        prints(text, "0f");
    }
}

/// The whole text is looked at before the plan is.
#[test]
fn number_15_comes_first() {
    prints("09ff\n--\n0100ff\nx\n", "0f");
    prints("09ff\n--\n0100ff\n--\n", "0f");
    prints("09ff\n--\n0100ff\n", "02");
}

#[test]
fn refused_plans_print_their_number_alone() {
    prints("--\n", "01");
    prints("--\n0100ff\n", "01");
    prints(format!("{}--\n", plan_text(&plan_of(161))), "01");
    prints("00ff\n--\n0100ff\n", "02");
    prints("0100\n--\n0100ff\n", "03");
    prints("01ff\n0100\n--\n", "04");
    prints("02ff\n--\n", "05");
    prints(format!("{}--\n", plan_text(&common::chain(33))), "06");
}

/// The common table, and one of the house's own.
const COMMON: &str = "0000 0103 0203 0301 0402 0502 ==";
const OWN: &str = "0000 0101 0202 0303 0400 0503 ==";

#[test]
fn a_table_before_the_plan() {
    let job = "02ff 0100 0100 -- 0100ff 010001 0101ff 0301ff 030102 0102ff 0402ff";
    let numbers = "00 00 00 00 00 00 00";
    prints(lines(job), &format!("{numbers} 00020100 01010303 02010402"));
    prints(lines(&format!("{COMMON} {job}")), &format!("{numbers} 00020100 01010303 02010402"));
    prints(lines(&format!("{OWN} {job}")), &format!("{numbers} 00020100 01010302 02010400"));
    let ends_well = "02ff 0100 -- 0100ff 010001 0101ff 0301ff 030100 0300ff";
    prints(lines(ends_well), "00 00 00 00 00 00 00020300 01010301");
    prints(lines(&format!("{OWN} {ends_well}")), "00 00 00 00 00 00 00020300 01010303");
    prints(lines(&format!("{OWN} 01ff -- 0100ff")), "00 00010101");
}

#[test]
fn a_refused_table_prints_21_alone() {
    let refused = [
        "==",
        "0000 ==",
        "0000 0103 0203 0301 0402 ==",
        "0000 0103 0203 0301 0402 0502 0602 ==",
        "0001 0103 0203 0301 0402 0502 ==",
        "0000 0103 0203 0304 0402 0502 ==",
        "0000 0103 0203 0301 0402 05ff ==",
        "0000 0203 0103 0301 0402 0502 ==",
        "02ff 0100 ==",
    ];
    for table in refused {
        prints(lines(&format!("{table} 02ff 0100 -- 0100ff")), "15");
        prints(lines(&format!("{table} --")), "15");
        prints(lines(&format!("{table} 09ff -- 0100ff")), "15");
    }
}

/// 15 is found in the whole text before the table is looked at.
#[test]
fn where_a_table_may_stand() {
    let malformed = [
        format!("{COMMON} {COMMON} 01ff --"),
        format!("{COMMON} == 01ff --"),
        "== == 01ff --".to_string(),
        "01ff -- ==".to_string(),
        format!("01ff -- {COMMON}"),
        format!("{COMMON} 01ff -- 0100ff =="),
        format!("{COMMON} 01ff"),
        COMMON.to_string(),
        "==".to_string(),
        "00 0103 0203 0301 0402 0502 == 01ff --".to_string(),
        "000000 0103 0203 0301 0402 0502 == 01ff --".to_string(),
        "0000 0103 0203 0301 0402 050A == 01ff --".to_string(),
        "= 01ff --".to_string(),
        "=== 01ff --".to_string(),
        "0000== 01ff --".to_string(),
        "0001 == 01ff -- 0100f".to_string(),
        "0001 == 01ff -- 0100ff --".to_string(),
    ];
    for text in malformed {
        prints(lines(&text), "0f");
    }
    prints("==\r\n01ff\n--\n", "0f");
    prints("\n==\n01ff\n--\n", "0f");
    prints("==\n\n01ff\n--\n", "0f");
    prints(lines(&format!("{COMMON} --")), "01");
    prints(lines(&format!("{COMMON} 09ff --")), "02");
    prints(lines(&format!("01ff {COMMON} --")), "15");
}

/// One task and 4,680 steps are 32,768 bytes to the last.
#[test]
fn the_longest_text() {
    let longest = format!("01ff\n--\n{}", "0100ff\n".repeat(4680));
    assert_eq!(longest.len(), 32_768);
    prints(&longest, &format!("00 {} 00010103", "0a ".repeat(4679)));
    prints(format!("{longest}\n"), "0f");
    prints(format!("01ff\n--\n{}", "0100ff\n".repeat(4681)), "0f");
}

#[test]
fn numbers_and_classes_of_all_marks() {
    let input = lines(
        "05ff 0100 0100 0100 0100 0100 --
         0100ff 010001 010002 010003 010004
         0101ff 0102ff 0103ff 0104ff
         0201ff 0202ff 0403ff
         020100 0701ff 070101 070102 0301ff 0802ff",
    );
    prints(input, &format!("{} 00050100 01010303 02010502 03010402 04010103 05010000", "00 ".repeat(18)));
}
