//! A simulation from text: what the program `rehearse` prints for what it
//! reads. This is the one place that allocates.

use crate::exported::{self, number};
use crate::plan::{MAX_NODES, Plan};
use crate::record;
use crate::refusal::Refusal;
use crate::simulate;
use crate::table::Table;

/// The longest text that is read.
pub const MAX_TEXT: usize = 32_768;
/// How many bytes must be lent for the lines; those of any text fit.
pub const OUT_LENGTH: usize = 16_384;

/// Stands between plan and steps.
const DIVIDER: &[u8] = b"--";
/// Stands after a table, where there is one.
const TABLE_END: &[u8] = b"==";

/// Runs a simulation and answers the program's output.
pub fn rehearse(text: &[u8]) -> Vec<u8> {
    run(text, OUT_LENGTH).unwrap_or_else(|cause| {
        let mut output = Vec::new();
        put_line(&mut output, &[cause.number()]);
        output
    })
}

/// Runs a simulation and writes the program's output to the front of lent
/// bytes, of which the rest stays; answers its length. 15, 21, 1 to 6, then 7
/// for too few bytes, however few of them would do.
pub fn rehearse_into(text: &[u8], out: &mut [u8]) -> Result<usize, Refusal> {
    let output = run(text, out.len())?;
    out[..output.len()].copy_from_slice(&output);
    Ok(output.len())
}

/// A text taken apart.
struct Script {
    /// The bytes of the table of classes, if the text has one.
    table: Option<Vec<u8>>,
    plan: Vec<u8>,
    steps: Vec<[u8; 3]>,
}

/// The lines of a text that isn't refused, if there is room enough.
fn run(text: &[u8], room: usize) -> Result<Vec<u8>, Refusal> {
    let script = read(text).ok_or(Refusal::Text)?;
    let table = script.table.as_deref().map_or(Ok(Table::COMMON), Table::load)?;
    let plan = Plan::check(&script.plan)?;
    if room < OUT_LENGTH {
        return Err(Refusal::Length);
    }
    let mut output = Vec::new();
    let mut state = vec![0; plan.size() * plan.size()];
    for [code, node, site] in script.steps.iter().map(|step| step.map(u32::from)) {
        let result = exported::outcome(simulate::step(&plan, code, node, site, &mut state));
        put_line(&mut output, &[number(result)]);
    }
    put_record(&table, &script.plan, &state, &mut output)?;
    Ok(output)
}

fn put_record(table: &Table, plan: &[u8], state: &[u8], output: &mut Vec<u8>) -> Result<(), Refusal> {
    let (mut marks, mut classes) = ([0; MAX_NODES], [0; MAX_NODES]);
    let size = plan.len() / 2;
    record::record(table, plan, state, &mut marks[..size], &mut classes[..size])?;
    for (node, bytes) in plan.chunks(2).enumerate() {
        put_line(output, &[node as u8, bytes[0], marks[node], classes[node]]);
    }
    Ok(())
}

/// The whole text is read before anything runs; `None` if it is malformed
/// anywhere or too long.
fn read(text: &[u8]) -> Option<Script> {
    if text.len() > MAX_TEXT {
        return None;
    }
    let mut lines = text.strip_suffix(b"\n")?.split(|&byte| byte == b'\n');
    let (mut table, mut plan) = (None, Vec::new());
    loop {
        match lines.next()? {
            DIVIDER => break,
            TABLE_END if table.is_none() => table = Some(std::mem::take(&mut plan)),
            line => plan.extend(frame::<2>(line)?),
        }
    }
    let steps = lines.map(frame::<3>).collect::<Option<_>>()?;
    Some(Script { table, plan, steps })
}

/// A line of exactly so many bytes in lowercase hexadecimal.
fn frame<const SIZE: usize>(line: &[u8]) -> Option<[u8; SIZE]> {
    let (pairs, []) = line.as_chunks::<2>() else {
        return None;
    };
    let pairs: &[[u8; 2]; SIZE] = pairs.try_into().ok()?;
    let mut bytes = [0; SIZE];
    for (byte, [high, low]) in bytes.iter_mut().zip(pairs) {
        *byte = digit(*high)? << 4 | digit(*low)?;
    }
    Some(bytes)
}

fn digit(character: u8) -> Option<u8> {
    match character {
        b'0'..=b'9' => Some(character - b'0'),
        b'a'..=b'f' => Some(character - b'a' + 10),
        _ => None,
    }
}

fn put_line(output: &mut Vec<u8>, bytes: &[u8]) {
    const DIGITS: &[u8; 16] = b"0123456789abcdef";
    for &byte in bytes {
        output.push(DIGITS[usize::from(byte >> 4)]);
        output.push(DIGITS[usize::from(byte & 15)]);
    }
    output.push(b'\n');
}
