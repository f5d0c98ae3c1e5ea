//! Measures each exported function of the C archive against the reference,
//! a step at a desk against one at a site, a whole job and a test load by simulate: same
//! inputs, in turn, medians of many rounds. Small plans are all handed in, and the one
//! whose next takes longest apart. At the end the slowest ways of large plans.

mod fixture;
mod job;
mod load;
mod measure;
mod slowest;
mod walk;
mod work;

use differential::{Implementation, Reference, plans};
use fixture::Fixture;
use job::Script;
use measure::{Medians, in_turn};
use std::cell::RefCell;
use std::env;
use std::process::ExitCode;
use work::{KEY, NAMES, Work, takes_desks};

const USAGE: &str = "usage: bench [--self] [--rounds N] [--only FUNCTION]";
/// The sizes of the measured plans.
const SIZES: [usize; 3] = [10, 40, 160];
/// The sizes for the time a node.
const GROWING: [usize; 5] = [10, 20, 40, 80, 160];

fn main() -> ExitCode {
    match read_arguments(env::args().skip(1)).and_then(start) {
        Ok(()) => ExitCode::SUCCESS,
        Err(message) => {
            eprintln!("{message}");
            ExitCode::FAILURE
        }
    }
}

/// What to measure.
struct Options {
    /// Two copies of the reference, without the archive.
    own_copy: bool,
    /// How often each side is measured.
    rounds: usize,
    /// Only this function; "next_plan" is the walk over all small plans, "run_load" a
    /// test load that is run, "job" the whole job, "typing" what an editor waits for,
    /// "desks" a step at a desk beside one at a site, "slowest" the slowest ways.
    only: Option<String>,
}

impl Options {
    fn wants(&self, name: &str) -> bool {
        self.only.as_deref().is_none_or(|only| only == name)
    }
}

fn read_arguments(mut words: impl Iterator<Item = String>) -> Result<Options, String> {
    let mut options = Options { own_copy: false, rounds: 201, only: None };
    while let Some(word) = words.next() {
        match word.as_str() {
            "--self" => options.own_copy = true,
            "--rounds" => {
                let rounds: usize = words.next().and_then(|word| word.parse().ok()).ok_or(USAGE)?;
                options.rounds = rounds.max(1);
            }
            "--only" => options.only = Some(words.next().ok_or(USAGE)?),
            _ => return Err(USAGE.to_string()),
        }
    }
    Ok(options)
}

fn start(options: Options) -> Result<(), String> {
    if options.own_copy {
        return compare("copy", &mut Reference, &options);
    }
    start_archive(&options)
}

#[cfg(feature = "archive")]
fn start_archive(options: &Options) -> Result<(), String> {
    let program = differential::program::Program { path: "rehearse".into() };
    compare("archive", &mut differential::archive::Archive { program }, options)
}

#[cfg(not(feature = "archive"))]
fn start_archive(_: &Options) -> Result<(), String> {
    Err(format!("built without the archive: build with --features archive, or use --self\n{USAGE}"))
}

/// Measures everything and prints the table.
fn compare(name: &str, subject: &mut impl Implementation, options: &Options) -> Result<(), String> {
    print_heading("function", &format!("{name} ns"), "reference ns");
    for function in NAMES.into_iter().filter(|function| options.wants(function)) {
        for nodes in SIZES {
            let medians = compare_function(function, nodes, subject, options.rounds)?;
            print_line(function, nodes, &medians);
        }
    }
    if options.wants("next_plan") {
        compare_walk(name, subject, options.rounds)?;
    }
    if options.wants("typing") {
        compare_typing(subject, options.rounds)?;
    }
    if options.wants("desks") {
        compare_desks(name, subject, options.rounds);
    }
    if options.wants("run_load") {
        compare_load(name, subject, options.rounds.div_ceil(10))?;
    }
    if options.wants("job") {
        compare_job(name, subject, options.rounds.div_ceil(10))?;
    }
    if options.wants("slowest") {
        print_slowest(name, subject);
    }
    Ok(())
}

fn compare_function(
    function: &'static str,
    nodes: usize,
    subject: &mut impl Implementation,
    rounds: usize,
) -> Result<Medians, String> {
    let fixture = if takes_desks(function) { Fixture::with_desks(nodes) } else { Fixture::new(nodes) };
    let (mut theirs, mut ours) = (Work::new(function, &fixture), Work::new(function, &fixture));
    if theirs.run(subject) != ours.run(&mut Reference) {
        return Err(format!("{function} answers differently with {nodes} nodes; run the differential test"));
    }
    let calls = ours.calls();
    Ok(in_turn(rounds, calls, || theirs.run(subject), || ours.run(&mut Reference)))
}

/// The walk over all small plans, and the step of it that takes the subject longest.
fn compare_walk(name: &str, subject: &mut impl Implementation, rounds: usize) -> Result<(), String> {
    if walk::run(subject) != walk::run(&mut Reference) {
        return Err("next_plan answers differently; run the differential test".to_string());
    }
    let walks = rounds.div_ceil(10);
    let all = in_turn(walks, walk::calls(), || walk::run(subject), || walk::run(&mut Reference));
    print_line("next_plan", plans::MOST_SMALL_BYTES / 2, &all);
    let plan = walk::slowest(subject);
    let one = in_turn(rounds, 1, || walk::step(subject, plan), || walk::step(&mut Reference, plan));
    print_line("slowest next", plan.len() / 2, &one);
    let shown: String = plan.iter().map(|byte| format!("{byte:02x}")).collect();
    let place = 1 + plans::small().iter().take_while(|other| *other != plan).count();
    println!("slowest of all {} small plans for the {name}: {shown}, number {place}", walk::calls());
    Ok(())
}

/// The check's time a node in growing plans, and the time of one typed key.
fn compare_typing(subject: &mut impl Implementation, rounds: usize) -> Result<(), String> {
    for function in ["check", "depths"] {
        for nodes in GROWING {
            let medians = compare_function(function, nodes, subject, rounds)?;
            let each = Medians { theirs: medians.theirs / nodes as f64, ours: medians.ours / nodes as f64 };
            print_line(&format!("{function}/n"), nodes, &each);
        }
    }
    for nodes in SIZES {
        print_line("key", nodes, &compare_function(KEY, nodes, subject, rounds)?);
    }
    Ok(())
}

/// A step at a desk beside one at a site, of the subject alone: the same events
/// on the same rows, with the plan that has desks and with the plain one.
fn compare_desks(name: &str, subject: &mut impl Implementation, rounds: usize) {
    print_heading(&format!("{name} alone"), "desk_step ns", "step ns");
    let subject = RefCell::new(subject);
    for nodes in SIZES {
        let fixture = Fixture::with_desks(nodes);
        let mut at_desks = Work::new("desk_step", &fixture);
        let mut at_sites = Work::new("step", &fixture.without_desks());
        let calls = at_desks.calls();
        let medians = in_turn(
            rounds,
            calls,
            || at_desks.run(*subject.borrow_mut()),
            || at_sites.run(*subject.borrow_mut()),
        );
        print_line("desks/sites", nodes, &medians);
    }
}

fn compare_job(name: &str, subject: &mut impl Implementation, rounds: usize) -> Result<(), String> {
    let script = Script::new();
    let (mut theirs, mut ours) = (script.fresh_state(), script.fresh_state());
    if !script.is_over(subject, &mut theirs) || !script.is_over(&mut Reference, &mut ours) {
        return Err("the job does not end as it should; run the differential test".to_string());
    }
    let medians =
        in_turn(rounds, 1, || script.run(subject, &mut theirs), || script.run(&mut Reference, &mut ours));
    let steps = script.steps() as f64;
    let each = Medians { theirs: medians.theirs / steps, ours: medians.ours / steps };
    print_line("job step", script.nodes(), &each);
    println!(
        "whole job of {} nodes, {} steps: {name} {:.3} ms, reference {:.3} ms, ratio {:.2}",
        script.nodes(),
        script.steps(),
        medians.theirs / 1e6,
        medians.ours / 1e6,
        medians.ratio()
    );
    Ok(())
}

/// A test load of the largest plan, drawn and run by each side.
fn compare_load(name: &str, subject: &mut impl Implementation, rounds: usize) -> Result<(), String> {
    let nodes = SIZES[2];
    let Fixture { plan, .. } = Fixture::new(nodes);
    let (mut theirs, mut ours) = (load::Run::new(&plan), load::Run::new(&plan));
    let first = ours.run(&mut Reference);
    if theirs.run(subject) != first {
        return Err("a load does not run alike; run the differential test".to_string());
    }
    let medians = in_turn(rounds, 1, || theirs.run(subject).1, || ours.run(&mut Reference).1);
    let steps = load::STEPS as f64;
    let each = Medians { theirs: medians.theirs / steps, ours: medians.ours / steps };
    print_line("run_load step", nodes, &each);
    println!(
        "whole load of {nodes} nodes, {} steps ({} pass): {name} {:.3} ms, reference {:.3} ms, ratio {:.2}",
        load::STEPS,
        first.0,
        medians.theirs / 1e6,
        medians.ours / 1e6,
        medians.ratio()
    );
    Ok(())
}

/// The slowest target of each shape, of the subject alone, among those that have
/// a way and among those that have none.
fn print_slowest(name: &str, subject: &mut impl Implementation) {
    let alone = format!("{name} alone");
    println!(
        "{alone:<40}{:>6}{:>12}  {:<14}{:>12}  node mark end",
        "nodes", "way ns", "node mark end", "no way ns"
    );
    for (shape, plan) in slowest::shapes() {
        let [way, no_way] = {
            let slowest::Slowest { way, no_way } = slowest::slowest(subject, &plan);
            [way, no_way].map(|timed| match timed {
                Some(slowest::Timed { wanted, time }) => {
                    (format!("{time:.0}"), format!("{} {} {}", wanted.node, wanted.mark, wanted.end))
                }
                None => ("-".to_string(), String::new()),
            })
        };
        println!(
            "{shape:<40}{:>6}{:>12}  {:<14}{:>12}  {}",
            plan.len() / 2,
            way.0,
            way.1,
            no_way.0,
            no_way.1
        );
    }
}

fn print_heading(name: &str, theirs: &str, ours: &str) {
    println!("{name:<15}{:>6}{theirs:>14}{ours:>14}{:>8}", "nodes", "ratio");
}

fn print_line(name: &str, nodes: usize, medians: &Medians) {
    println!("{name:<15}{nodes:>6}{:>14.1}{:>14.1}{:>8.2}", medians.theirs, medians.ours, medians.ratio());
}
