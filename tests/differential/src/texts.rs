//! Simulation texts, sound ones, damaged ones and noise, for the program and
//! for the call.

use crate::codes::{number, value};
use crate::driver::{Driver, Step, Temper};
use crate::form::Form;
use crate::implementation::{Implementation, Reference};
use crate::plans;
use crate::random::Random;
use crate::tables;
use crate::tally::Function;
use crate::trial::Trial;

/// The longest text that is read.
const MOST_BYTES: usize = 32_768;
/// How many bytes must be lent for a text's lines.
pub const OUT_BYTES: usize = 16_384;

/// Gives the program so many texts and compares what it prints, with the
/// reference's program and with the subject's own call.
pub fn run<S: Implementation, R: Implementation>(trial: &mut Trial<S, R>, random: &mut Random, count: usize) {
    let texts: Vec<Vec<u8>> = (0..count).map(|_| any(random)).collect();
    let theirs = trial.subject.print(&texts);
    let ours = trial.reference.print(&texts);
    for ((text, ours), theirs) in texts.iter().zip(&ours).zip(&theirs) {
        count_numbers(trial, text, ours);
        trial.tally.texts += 1;
        trial.tally.compare(ours == theirs, || describe(text, ours, theirs));
        let called = lines_of_call(trial, random, text);
        trial
            .tally
            .compare(called == *theirs, || format!("call, program: {}", describe(text, &called, theirs)));
    }
}

/// Gives the call so many texts, and bytes of any number. The lines of a sound
/// text must be what the subject's own steps and record come to.
pub fn calls<S: Implementation, R: Implementation>(
    trial: &mut Trial<S, R>,
    random: &mut Random,
    count: usize,
) {
    for _ in 0..count {
        for text in [any(random), with_damaged_plan(random)] {
            let length = out_length(random);
            trial.rehearse(&text, &random.bytes(length));
        }
        let sound = Sound::any(random);
        call_sound(trial, random, &sound);
    }
}

/// Gives the call a text with these steps.
pub fn call_steps<S: Implementation, R: Implementation>(
    trial: &mut Trial<S, R>,
    random: &mut Random,
    plan: &[u8],
    steps: Vec<[u8; 3]>,
) {
    let table = random.chance(40).then(|| tables::sound(random));
    call_sound(trial, random, &Sound { table, plan: plan.to_vec(), steps });
}

/// The lines of a sound text are what the subject's own steps and record come to.
fn call_sound<S: Implementation, R: Implementation>(
    trial: &mut Trial<S, R>,
    random: &mut Random,
    sound: &Sound,
) {
    let text = sound.text();
    let called = lines_of_call(trial, random, &text);
    let expected = sound.lines(&mut trial.subject);
    trial
        .tally
        .compare(called == expected, || format!("steps, call: {}", describe(&text, &expected, &called)));
}

/// What the program must print by what the subject's call answers.
fn lines_of_call<S: Implementation, R: Implementation>(
    trial: &mut Trial<S, R>,
    random: &mut Random,
    text: &[u8],
) -> Vec<u8> {
    let before = vec![random.byte(); OUT_BYTES];
    let (result, out) = trial.rehearse(text, &before);
    match number(result) {
        0 => out[..value(result) as usize].to_vec(),
        refused => format!("{refused:02x}\n").into_bytes(),
    }
}

/// A number of bytes for the lines, enough in most cases.
fn out_length(random: &mut Random) -> usize {
    match random.below(8) {
        0 => 0,
        1 => OUT_BYTES - 1,
        2 => random.below(OUT_BYTES),
        3 => OUT_BYTES + random.below(100),
        _ => OUT_BYTES,
    }
}

/// A text of any sort.
fn any(random: &mut Random) -> Vec<u8> {
    match random.below(22) {
        0..=8 => Sound::any(random).text(),
        9..=15 => damaged(random),
        16 => with_damaged_plan(random),
        20 | 21 => with_damaged_table(random),
        17 => at_the_limit(random),
        18 => noise(random),
        _ => random_lines(random),
    }
}

/// What a valid text says: a plan, the steps of a simulation of it, and
/// perhaps a table.
pub struct Sound {
    table: Option<[u8; 12]>,
    plan: Vec<u8>,
    steps: Vec<[u8; 3]>,
}

impl Sound {
    /// What a text says that the reference accepts.
    pub fn read(text: &[u8]) -> Sound {
        let mut sound = Sound { table: None, plan: vec![], steps: vec![] };
        for line in text.split(|&byte| byte == b'\n') {
            let digits = String::from_utf8_lossy(line);
            match (line, u32::from_str_radix(&digits, 16)) {
                (b"==", _) => sound.table = std::mem::take(&mut sound.plan).try_into().ok(),
                (_, Ok(frame)) if line.len() == 4 => sound.plan.extend(&frame.to_be_bytes()[2..]),
                (_, Ok(frame)) => {
                    let [_, code, node, site] = frame.to_be_bytes();
                    sound.steps.push([code, node, site]);
                }
                _ => {}
            }
        }
        sound
    }

    /// Any of them.
    fn any(random: &mut Random) -> Sound {
        let most = random.one_of(&[1, 3, 6, 6, 12, 12, 30, 160]);
        let plan = plans::up_to(random, most);
        let table = random.chance(40).then(|| tables::sound(random));
        let table_length = if table.is_some() { 6 * 5 + 3 } else { 0 };
        let most_steps = (MOST_BYTES - table_length - plan.len() / 2 * 5 - 3) / 7;
        let steps = random.one_of(&[0, 5, 50, 400, most_steps]);
        let steps = steps_of(random, &plan, steps.min(most_steps));
        Sound { table, plan, steps }
    }

    fn text(&self) -> Vec<u8> {
        let table = self.table.map_or(vec![], |table| table_text(&table));
        [table, text_of(&self.plan, &self.steps)].concat()
    }

    /// A line for each step by itself, then one for each node of the record.
    pub fn lines(&self, subject: &mut impl Implementation) -> Vec<u8> {
        let nodes = self.plan.len() / 2;
        let (mut state, mut marks, mut classes) = (vec![0; nodes * nodes], vec![0; nodes], vec![0; nodes]);
        let mut lines = String::new();
        for [code, node, site] in self.steps.iter().map(|step| step.map(u32::from)) {
            let result = subject.simulate(&self.plan, code, node, site, &mut state);
            lines += &format!("{:02x}\n", number(result));
        }
        let table = self.table.unwrap_or(tables::COMMON);
        subject.record_by(&self.plan, &table, &state, &mut marks, &mut classes);
        for node in 0..nodes {
            let kind = self.plan[2 * node];
            lines += &format!("{node:02x}{kind:02x}{:02x}{:02x}\n", marks[node], classes[node]);
        }
        lines.into_bytes()
    }
}

/// Steps of a simulation with numbers of one byte.
fn steps_of(random: &mut Random, plan: &[u8], most: usize) -> Vec<[u8; 3]> {
    let nodes = plan.len() / 2;
    let mut state = vec![0; nodes * nodes];
    let mut driver = Driver::new(Form::Plain, plan, Temper::any(random));
    let mut steps = Vec::new();
    while steps.len() < most
        && let Some(Step { code, node, site }) = driver.propose(random)
    {
        let step = [code as u8, node as u8, site as u8];
        let [code, node, site] = step.map(u32::from);
        let result = Reference.simulate(plan, code, node, site, &mut state);
        driver.heed(Step { code, node, site }, number(result) == 0, random);
        steps.push(step);
    }
    steps
}

/// A table of any even length, with the line that closes it.
fn table_text(table: &[u8]) -> Vec<u8> {
    [frames(table).as_bytes(), b"==\n"].concat()
}

/// Two bytes a line.
fn frames(bytes: &[u8]) -> String {
    bytes.chunks_exact(2).map(|frame| format!("{:02x}{:02x}\n", frame[0], frame[1])).collect()
}

fn text_of(plan: &[u8], steps: &[[u8; 3]]) -> Vec<u8> {
    let mut text = frames(plan);
    text += "--\n";
    for [code, node, site] in steps {
        text += &format!("{code:02x}{node:02x}{site:02x}\n");
    }
    text.into_bytes()
}

/// A text in good form whose plan is mostly refused.
fn with_damaged_plan(random: &mut Random) -> Vec<u8> {
    let mut plan = plans::damaged(random);
    if plan.len() % 2 == 1 {
        plan.pop();
    }
    let table = if random.chance(30) { table_text(&tables::any(random)) } else { vec![] };
    [table, text_of(&plan, &[[1, 0, 0xff]])].concat()
}

/// A text in good form whose table is mostly refused; now and then a second
/// table, or something wrong behind it.
fn with_damaged_table(random: &mut Random) -> Vec<u8> {
    let plan = plans::up_to(random, 6);
    let steps = steps_of(random, &plan, 20);
    let mut text = [table_text(&tables::damaged(random)), text_of(&plan, &steps)].concat();
    match random.below(6) {
        0 => text = [table_text(&tables::any(random)), text].concat(),
        1 => change(random, &mut text),
        2 => text.extend(random.one_of(&[&b"==\n"[..], b"--\n", b"0100f\n", b"0100"])),
        _ => {}
    }
    text
}

/// One task and as many steps as just fit, a little less or a little more.
fn at_the_limit(random: &mut Random) -> Vec<u8> {
    let fitting = (MOST_BYTES - 5 - 3) / 7;
    let mut text = text_of(&[1, 0xff], &vec![[1, 0, 0xff]; fitting]);
    match random.below(6) {
        0 => text.truncate(MOST_BYTES - 7),
        1 => text.extend(b"0100ff\n"),
        2 => text.push(b'\n'),
        3 => text.extend(b"0100ff\n".repeat(5000)),
        4 => {
            text.pop();
        }
        _ => {}
    }
    text
}

/// A sound text with one or two changes.
fn damaged(random: &mut Random) -> Vec<u8> {
    let mut text = Sound::any(random).text();
    text.truncate(random.one_of(&[700, 3000, MOST_BYTES]));
    if random.chance(70) && text.last() != Some(&b'\n') {
        let whole = text.iter().rposition(|&byte| byte == b'\n').map_or(0, |place| place + 1);
        text.truncate(whole);
    }
    for _ in 0..random.between(1, 2) {
        change(random, &mut text);
    }
    text
}

fn change(random: &mut Random, text: &mut Vec<u8>) {
    let place = random.below(text.len() + 1);
    match random.below(8) {
        0 => insert(text, place, &random.bytes(1)),
        1 => insert(text, place, &[random.one_of(b"0123456789abcdefABCDEFGg-=\n\r \t\0")]),
        2 if place < text.len() => text[place] = random.one_of(b"0123456789abcdefABCDEFGg-=\n\r \t\0"),
        3 if place < text.len() => {
            text.remove(place);
        }
        4 => text.truncate(place),
        _ => change_line(random, text),
    }
}

/// A line more, less, twice or elsewhere.
fn change_line(random: &mut Random, text: &mut Vec<u8>) {
    let mut lines: Vec<Vec<u8>> = text.split_inclusive(|&byte| byte == b'\n').map(<[u8]>::to_vec).collect();
    let new: &[u8] = random.one_of(&[
        &b"--\n"[..],
        b"==\n",
        b"==\n",
        b"===\n",
        b"==\r\n",
        b"=-\n",
        b"0000\n",
        b"0402\n",
        b"\n",
        b"-\n",
        b"---\n",
        b"--\r\n",
        b"01ff\n",
        b"0100ff\n",
        b"0100FF\n",
        b"0100ff\r\n",
        b"0100ff00\n",
        b" 0100ff\n",
    ]);
    let place = random.below(lines.len() + 1);
    match random.below(4) {
        0 if place < lines.len() => {
            lines.remove(place);
        }
        1 if place < lines.len() => {
            let line = lines.remove(place);
            let elsewhere = random.below(lines.len() + 1);
            lines.insert(elsewhere, line);
        }
        2 if place < lines.len() => lines[place] = new.to_vec(),
        _ => lines.insert(place, new.to_vec()),
    }
    *text = lines.concat();
}

fn insert(text: &mut Vec<u8>, place: usize, bytes: &[u8]) {
    text.splice(place..place, bytes.iter().copied());
}

/// Characters in no order.
fn noise(random: &mut Random) -> Vec<u8> {
    let length = random.one_of(&[0, 1, 2, 3, 8, 60]);
    if random.chance(30) {
        return random.bytes(length);
    }
    (0..length).map(|_| random.one_of(b"0123456789abcdef-\n\n")).collect()
}

/// Lines that each look right, in any order and with any numbers.
fn random_lines(random: &mut Random) -> Vec<u8> {
    let nodes = random.below(5);
    let plan: Vec<u8> = (0..2 * nodes).map(|_| random.one_of(&[1, 1, 2, 3, 8, 0, 0xff])).collect();
    let steps: Vec<[u8; 3]> =
        (0..random.below(6)).map(|_| [random.byte() % 10, random.byte() % 5, 0xff]).collect();
    text_of(&plan, &steps)
}

/// Counts the numbers that a text leads to: its refusal, or each step's.
fn count_numbers<S: Implementation, R: Implementation>(trial: &mut Trial<S, R>, text: &[u8], output: &[u8]) {
    let lines = output.split(|&byte| byte == b'\n').filter(|line| line.len() == 2);
    for line in lines {
        let digits = std::str::from_utf8(line).ok();
        let number = digits.and_then(|digits| u8::from_str_radix(digits, 16).ok());
        let number = number.unwrap_or_else(|| panic!("the reference prints numbers for {text:?}"));
        trial.tally.count(Function::Program, number);
    }
}

fn describe(text: &[u8], ours: &[u8], theirs: &[u8]) -> String {
    let short = |bytes: &[u8]| String::from_utf8_lossy(&bytes[..bytes.len().min(600)]).into_owned();
    format!(
        "rehearse of {} bytes {:?}: reference {:?}, subject {:?}",
        text.len(),
        short(text),
        short(ours),
        short(theirs)
    )
}

#[cfg(test)]
mod tests {
    use super::*;

    #[test]
    fn sound_texts_are_accepted() {
        let mut random = Random::new(5);
        for _ in 0..200 {
            let text = Sound::any(&mut random).text();
            assert!(text.len() <= MOST_BYTES);
            assert_ne!(reference::rehearse(&text), b"0f\n");
            assert_eq!(Sound::read(&text).lines(&mut Reference), reference::rehearse(&text));
        }
    }

    #[test]
    fn damaged_texts_are_of_both_sorts() {
        let mut random = Random::new(6);
        let outputs: Vec<Vec<u8>> = (0..400).map(|_| reference::rehearse(&damaged(&mut random))).collect();
        let malformed = outputs.iter().filter(|output| *output == b"0f\n").count();
        assert!((50..350).contains(&malformed), "{malformed}");
    }
}
