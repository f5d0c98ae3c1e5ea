//! Compares the C archive and the program `rehearse` with the reference.
//!
//! Without a mode the subject is the archive (feature `archive`) and the
//! program at VULCEDAR_REHEARSE.

use differential::broken::{Broken, Mistake};
use differential::run::{Options, run};
use differential::tally::{Function, Tally};
use differential::{Implementation, Reference};
use std::env;
use std::process::ExitCode;
use std::str::FromStr;
use std::time::Instant;

const USAGE: &str = "usage: differential [--self | --broken K | --mistakes] [--seed N] [--steps N] \
                     [--texts N] [--enough N] [--only PART]";

/// Whom to compare with the reference.
enum Mode {
    Archive,
    OwnCopy,
    Broken(Mistake),
    ListMistakes,
}

fn main() -> ExitCode {
    match read_arguments(env::args().skip(1)).and_then(start) {
        Ok(code) => code,
        Err(message) => {
            eprintln!("{message}");
            ExitCode::from(2)
        }
    }
}

fn start((mode, options): (Mode, Options)) -> Result<ExitCode, String> {
    match mode {
        Mode::Archive => start_archive(options),
        Mode::OwnCopy => Ok(compare("a second copy of the reference", Reference, options)),
        Mode::Broken(mistake) => Ok(compare(&format!("{mistake:?}"), Broken::new(mistake), options)),
        Mode::ListMistakes => {
            for (number, mistake) in (1..).zip(Mistake::ALL) {
                println!("{number:>2} {mistake:?}");
            }
            Ok(ExitCode::SUCCESS)
        }
    }
}

#[cfg(feature = "archive")]
fn start_archive(options: Options) -> Result<ExitCode, String> {
    let program = env::var_os("VULCEDAR_REHEARSE").or((options.texts == 0).then(Default::default));
    let program = program.ok_or("VULCEDAR_REHEARSE must name the program rehearse, unless --texts is 0")?;
    let program = differential::program::Program { path: program.into() };
    let archive = differential::archive::Archive { program };
    Ok(compare("the archive and the program", archive, options))
}

#[cfg(not(feature = "archive"))]
fn start_archive(_: Options) -> Result<ExitCode, String> {
    Err(format!("built without the archive: build with --features archive, or use --self\n{USAGE}"))
}

/// Runs a comparison and prints what came of it.
fn compare(name: &str, subject: impl Implementation, options: Options) -> ExitCode {
    println!("subject: {name}; seed {}", options.seed);
    let begin = Instant::now();
    let tally = run(subject, options);
    println!("{tally}");
    println!("time: {:.1} s", begin.elapsed().as_secs_f64());
    tally.described().iter().for_each(|difference| println!("difference: {difference}"));
    let mut missing = if options.only.is_some() { vec![] } else { tally.missing() };
    missing.retain(|(function, _)| *function != Function::Program || texts_are_compared());
    missing.iter().for_each(|(function, number)| println!("never met: {} {number}", function.name()));
    println!("differential: {} comparisons, {} differences", tally.comparisons(), tally.differences());
    verdict(&tally, missing.is_empty())
}

/// The archive can be compared without the program; then no text is run.
fn texts_are_compared() -> bool {
    !cfg!(feature = "archive") || env::var_os("VULCEDAR_REHEARSE").is_some()
}

fn verdict(tally: &Tally, all_met: bool) -> ExitCode {
    if tally.differences() == 0 && all_met { ExitCode::SUCCESS } else { ExitCode::FAILURE }
}

fn read_arguments(mut words: impl Iterator<Item = String>) -> Result<(Mode, Options), String> {
    let mut mode = Mode::Archive;
    let mut options = Options::default();
    while let Some(word) = words.next() {
        match word.as_str() {
            "--self" => mode = Mode::OwnCopy,
            "--broken" => mode = Mode::Broken(mistake(following(&mut words)?)?),
            "--mistakes" => mode = Mode::ListMistakes,
            "--seed" => options.seed = following(&mut words)?,
            "--steps" => options.steps = following(&mut words)?,
            "--texts" => options.texts = following(&mut words)?,
            "--enough" => options.enough = following(&mut words)?,
            "--only" => options.only = Some(following(&mut words)?),
            _ => return Err(USAGE.to_string()),
        }
    }
    Ok((mode, options))
}

/// The number after an option.
fn following<T: FromStr>(words: &mut impl Iterator<Item = String>) -> Result<T, String> {
    words.next().and_then(|word| word.parse().ok()).ok_or_else(|| USAGE.to_string())
}

fn mistake(number: usize) -> Result<Mistake, String> {
    let place = number.checked_sub(1).and_then(|place| Mistake::ALL.get(place));
    place.copied().ok_or_else(|| format!("mistakes are numbered 1 to {}", Mistake::ALL.len()))
}
