//! What was met in a run: counts, comparisons and differences.

use std::fmt;

/// How many differences are described; all are counted.
const SHOWN: usize = 10;

/// What is compared.
#[derive(Clone, Copy, Debug, PartialEq, Eq)]
pub enum Function {
    /// `vulcedar_check`
    Check,
    /// `vulcedar_rewrite`
    Rewrite,
    /// `vulcedar_renumber`
    Renumber,
    /// `vulcedar_to_depths`
    ToDepths,
    /// `vulcedar_from_depths`
    FromDepths,
    /// `vulcedar_repeat`
    Repeat,
    /// `vulcedar_next_plan`
    NextPlan,
    /// `vulcedar_check_depths`
    CheckDepths,
    /// `vulcedar_guard`
    Guard,
    /// `vulcedar_rule`
    Rule,
    /// `vulcedar_step`
    Step,
    /// `vulcedar_hear`
    Hear,
    /// `vulcedar_pass`
    Pass,
    /// `vulcedar_impact`
    Impact,
    /// `vulcedar_way`
    Way,
    /// `vulcedar_simulate`
    Simulate,
    /// `vulcedar_keep`
    Keep,
    /// `vulcedar_undo`
    Undo,
    /// `vulcedar_point_name`
    PointName,
    /// `vulcedar_point_undo`
    PointUndo,
    /// `vulcedar_point_back`
    PointBack,
    /// `vulcedar_record`
    Record,
    /// `vulcedar_record_by`
    RecordBy,
    /// `vulcedar_check_table`
    CheckTable,
    /// `vulcedar_pass_record`
    PassRecord,
    /// `vulcedar_central`
    Central,
    /// `vulcedar_desk_check`
    DeskCheck,
    /// `vulcedar_desk_step`
    DeskStep,
    /// `vulcedar_desk_simulate`
    DeskSimulate,
    /// `vulcedar_desk_keep`
    DeskKeep,
    /// `vulcedar_desk_undo`
    DeskUndo,
    /// `vulcedar_desk_point_undo`
    DeskPointUndo,
    /// `vulcedar_desk_point_back`
    DeskPointBack,
    /// `vulcedar_desk_record`
    DeskRecord,
    /// `vulcedar_desk_record_by`
    DeskRecordBy,
    /// `vulcedar_rehearse`
    Rehearse,
    /// `vulcedar_workload`
    Workload,
    /// `vulcedar_version`
    Version,
    /// The program `rehearse`; a refused plan or text counts once, otherwise
    /// each step counts.
    Program,
}

/// How many functions there are.
const FUNCTIONS: usize = 39;
/// One more than the highest number; 0 is passed.
const NUMBERS: usize = 31;

impl Function {
    /// All of them, in the order of the table.
    pub const ALL: [Function; FUNCTIONS] = [
        Function::Check,
        Function::Rewrite,
        Function::Renumber,
        Function::ToDepths,
        Function::FromDepths,
        Function::Repeat,
        Function::NextPlan,
        Function::CheckDepths,
        Function::Guard,
        Function::Rule,
        Function::Step,
        Function::Hear,
        Function::Pass,
        Function::Impact,
        Function::Way,
        Function::Simulate,
        Function::Keep,
        Function::Undo,
        Function::PointName,
        Function::PointUndo,
        Function::PointBack,
        Function::Record,
        Function::RecordBy,
        Function::CheckTable,
        Function::PassRecord,
        Function::Central,
        Function::DeskCheck,
        Function::DeskStep,
        Function::DeskSimulate,
        Function::DeskKeep,
        Function::DeskUndo,
        Function::DeskPointUndo,
        Function::DeskPointBack,
        Function::DeskRecord,
        Function::DeskRecordBy,
        Function::Rehearse,
        Function::Workload,
        Function::Version,
        Function::Program,
    ];

    /// Its name in the table.
    pub fn name(self) -> &'static str {
        match self {
            Function::Check => "check",
            Function::Rewrite => "rewrite",
            Function::Renumber => "renumber",
            Function::ToDepths => "to_depths",
            Function::FromDepths => "from_depths",
            Function::Repeat => "repeat",
            Function::NextPlan => "next_plan",
            Function::CheckDepths => "depths",
            Function::Guard => "guard",
            Function::Rule => "rule",
            Function::Step => "step",
            Function::Hear => "hear",
            Function::Pass => "pass",
            Function::Impact => "impact",
            Function::Way => "way",
            Function::Simulate => "simulate",
            Function::Keep => "keep",
            Function::Undo => "undo",
            Function::PointName => "point_name",
            Function::PointUndo => "point_undo",
            Function::PointBack => "point_back",
            Function::Record => "record",
            Function::RecordBy => "record_by",
            Function::CheckTable => "check_table",
            Function::PassRecord => "pass_record",
            Function::Central => "central",
            Function::DeskCheck => "desk_check",
            Function::DeskStep => "desk_step",
            Function::DeskSimulate => "desk_simulate",
            Function::DeskKeep => "desk_keep",
            Function::DeskUndo => "desk_undo",
            Function::DeskPointUndo => "desk_point_undo",
            Function::DeskPointBack => "desk_point_back",
            Function::DeskRecord => "desk_record",
            Function::DeskRecordBy => "desk_record_by",
            Function::Rehearse => "rehearse",
            Function::Workload => "workload",
            Function::Version => "version",
            Function::Program => "program",
        }
    }

    /// The numbers it can answer. A text can't have a buffer of a wrong
    /// length, so the program has no 7.
    pub fn numbers(self) -> &'static [u8] {
        match self {
            Function::Check => &[0, 1, 2, 3, 4, 5, 6],
            Function::Guard | Function::Hear | Function::Central => &[0, 1, 2, 3, 4, 5, 6, 7, 8, 9],
            Function::Rule => &[0, 1, 2, 3, 4, 5, 6, 8, 9],
            Function::Step => &[0, 1, 2, 3, 4, 5, 6, 7, 8, 9, 10, 11],
            Function::Pass => &[0, 1, 2, 3, 4, 5, 6, 7, 13, 14],
            Function::Impact => &[0, 1, 2, 3, 4, 5, 6, 7, 8, 9, 13, 14, 28],
            Function::Way => &[0, 1, 2, 3, 4, 5, 6, 7, 8, 29, 30],
            Function::Simulate | Function::Keep => &[0, 1, 2, 3, 4, 5, 6, 7, 8, 9, 10, 11, 12],
            Function::Undo | Function::PointUndo => &[0, 1, 2, 3, 4, 5, 6, 7, 8, 9, 16],
            Function::PointName => &[0, 7, 20],
            Function::PointBack => &[0, 1, 2, 3, 4, 5, 6, 7, 8, 9, 19],
            Function::Rewrite | Function::Renumber | Function::Record => &[0, 1, 2, 3, 4, 5, 6, 7],
            Function::CheckDepths | Function::Workload => &[0, 1, 2, 3, 4, 5, 6, 7],
            Function::ToDepths => &[0, 1, 2, 3, 4, 5, 6, 7, 18],
            Function::FromDepths => &[0, 1, 2, 4, 5, 6, 7, 17],
            Function::Repeat => &[0, 1, 2, 3, 4, 5, 6, 7, 8, 23, 24, 25],
            Function::NextPlan => &[0, 1, 2, 3, 4, 5, 6, 7, 26, 27],
            Function::RecordBy => &[0, 1, 2, 3, 4, 5, 6, 7, 21],
            Function::CheckTable => &[0, 21],
            Function::PassRecord => &[0, 1, 2, 3, 4, 5, 6, 7, 13, 14, 21],
            Function::DeskCheck => &[0, 1, 2, 3, 4, 5, 6, 22],
            Function::DeskStep => &[0, 1, 2, 3, 4, 5, 6, 7, 8, 9, 10, 11, 22],
            Function::DeskSimulate | Function::DeskKeep => &[0, 1, 2, 3, 4, 5, 6, 7, 8, 9, 10, 11, 12, 22],
            Function::DeskUndo | Function::DeskPointUndo => &[0, 1, 2, 3, 4, 5, 6, 7, 8, 9, 16, 22],
            Function::DeskPointBack => &[0, 1, 2, 3, 4, 5, 6, 7, 8, 9, 19, 22],
            Function::DeskRecord => &[0, 1, 2, 3, 4, 5, 6, 7, 22],
            Function::DeskRecordBy => &[0, 1, 2, 3, 4, 5, 6, 7, 21, 22],
            Function::Rehearse => &[0, 1, 2, 3, 4, 5, 6, 7, 15, 21],
            Function::Version => &[0],
            Function::Program => &[0, 1, 2, 3, 4, 5, 6, 8, 9, 10, 11, 12, 15, 21],
        }
    }
}

/// Counts over whole simulations.
#[derive(Default)]
pub struct Jobs {
    /// Simulations begun.
    pub begun: u64,
    /// Of these, brought to the end.
    pub over: u64,
    /// Of these, with a committed root.
    pub committed: u64,
    /// Of these, with a failed root.
    pub failed: u64,
    /// Of those that are over, with 100 nodes or more.
    pub large: u64,
    /// Events that passed, in all.
    pub events: u64,
    /// Messages that passed, in all.
    pub messages: u64,
    /// Answer lists that agreed with a job's events.
    pub agreeing: u64,
    /// Steps of hosts, compared with the simulation's.
    pub of_hosts: u64,
    /// Steps that were kept in lists of moves.
    pub kept: u64,
    /// Of these, repeats.
    pub repeats: u64,
    /// Of those kept, taken back again.
    pub taken_back: u64,
    /// Steps of such lists that a full journal had no place for.
    pub without_place: u64,
    /// Points that were named in lists of moves.
    pub named: u64,
    /// Of these, moved from where they were.
    pub moved: u64,
    /// Points that were dropped.
    pub dropped: u64,
    /// Slots in use that the caller freed.
    pub freed: u64,
    /// New names that had no free slot.
    pub without_slot: u64,
    /// Goings back that passed.
    pub gone_back: u64,
    /// Steps that they took back.
    pub gone_over: u64,
    /// Points of such lists that were gone back to beside the list.
    pub tried: u64,
    /// Events that were held against the central rule where all are at one
    /// desk.
    pub at_one_desk: u64,
    /// Calls that were made in both forms of a plan.
    pub in_both_forms: u64,
    /// Changes of one answer that passed.
    pub changes: u64,
    /// Of these, with other marks than before.
    pub with_other_marks: u64,
    /// Of these, with other marks behind the task too, in a block that takes
    /// its children in turn.
    pub in_later_subtrees: u64,
    /// Ways that were found.
    pub ways: u64,
    /// Targets without one.
    pub without_way: u64,
    /// Targets that were held against a list of answers that leads there.
    pub against_one_list: u64,
    /// Targets that were held against every list of answers.
    pub against_all_lists: u64,
    /// Plans that were renumbered.
    pub renumbered: u64,
    /// Of these, in another numbering before.
    pub from_other_numberings: u64,
    /// Pairs of plans that were renumbered and compared, of the same tree.
    pub same_trees: u64,
    /// Such pairs of different trees.
    pub different_trees: u64,
    /// Depth forms that were accepted.
    pub accepted_forms: u64,
    /// Templates that were repeated.
    pub repeated: u64,
    /// Of these, just as large as a plan may be.
    pub just_full: u64,
    /// Templates that would have come to one node more than that.
    pub one_too_many: u64,
    /// Small plans that came next.
    pub next_plans: u64,
    /// Of these, the first of their size.
    pub of_new_size: u64,
    /// Walks over all small plans, from what was written each time.
    pub walks: u64,
    /// Test loads that were written.
    pub loads: u64,
    /// Counts of which three times as much has the lent length in 32 bits alone.
    pub wrapping_counts: u64,
    /// Steps of the subject's loads that were run.
    pub load_steps: u64,
    /// Of these, passed.
    pub load_passed: u64,
}

/// A count for each rule byte.
struct Rules([u64; 256]);

impl Default for Rules {
    fn default() -> Rules {
        Rules([0; 256])
    }
}

/// A count for each function and number.
struct Numbers([[u64; NUMBERS]; FUNCTIONS]);

impl Default for Numbers {
    fn default() -> Numbers {
        Numbers([[0; NUMBERS]; FUNCTIONS])
    }
}

/// The counts of a run.
#[derive(Default)]
pub struct Tally {
    counts: Numbers,
    /// How often the central rule allowed an event, and how often not.
    pub allowed: u64,
    /// See `allowed`.
    pub not_allowed: u64,
    /// How often an event passed by each rule.
    rules: Rules,
    /// Counts over whole simulations.
    pub jobs: Jobs,
    /// Texts given to the program.
    pub texts: u64,
    /// The part of the run that is under way, for repeating it.
    pub part: u64,
    comparisons: u64,
    differences: u64,
    described: Vec<String>,
}

impl Tally {
    /// Counts an answer of the reference.
    pub fn count(&mut self, function: Function, number: u8) {
        self.counts.0[function as usize][usize::from(number) % NUMBERS] += 1;
    }

    /// Counts an event that passed by a rule.
    pub fn count_rule(&mut self, rule: u32) {
        self.rules.0[rule as usize % 256] += 1;
    }

    /// By how many different rules events passed.
    pub fn rules(&self) -> usize {
        self.rules.0.iter().filter(|&&count| count > 0).count()
    }

    /// Counts a comparison; a difference is described.
    pub fn compare(&mut self, same: bool, describe: impl FnOnce() -> String) -> bool {
        self.comparisons += 1;
        if !same {
            self.differences += 1;
            if self.described.len() < SHOWN {
                self.described.push(format!("part {}: {}", self.part, describe()));
            }
        }
        same
    }

    /// How many comparisons were made.
    pub fn comparisons(&self) -> u64 {
        self.comparisons
    }

    /// How many of them failed.
    pub fn differences(&self) -> u64 {
        self.differences
    }

    /// The first differences in words.
    pub fn described(&self) -> &[String] {
        &self.described
    }

    /// Calls of simulate and step so far, but for the steps of test loads, which come beside
    /// the others.
    pub fn steps(&self) -> u64 {
        self.calls(Function::Simulate) + self.calls(Function::Step) - self.jobs.load_steps
    }

    /// The same with desks.
    pub fn desk_steps(&self) -> u64 {
        self.calls(Function::DeskSimulate) + self.calls(Function::DeskStep)
    }

    fn calls(&self, function: Function) -> u64 {
        self.counts.0[function as usize].iter().sum()
    }

    /// Numbers that can occur and didn't.
    pub fn missing(&self) -> Vec<(Function, u8)> {
        let all = Function::ALL.into_iter();
        let wanted =
            all.flat_map(|function| function.numbers().iter().map(move |&number| (function, number)));
        wanted
            .filter(|&(function, number)| self.counts.0[function as usize][usize::from(number)] == 0)
            .collect()
    }
}

impl fmt::Display for Tally {
    fn fmt(&self, out: &mut fmt::Formatter) -> fmt::Result {
        let is_used = |number: &u8| Function::ALL.iter().any(|function| function.numbers().contains(number));
        let used: Vec<u8> = (0..NUMBERS as u8).filter(is_used).collect();
        write!(out, "{:<15}", "number")?;
        for number in &used {
            write!(out, "{number:>9}")?;
        }
        for function in Function::ALL {
            write!(out, "\n{:<15}", function.name())?;
            for number in &used {
                let count = self.counts.0[function as usize][usize::from(*number)];
                if function.numbers().contains(number) || count > 0 {
                    write!(out, "{count:>9}")?;
                } else {
                    write!(out, "{:>9}", "-")?;
                }
            }
        }
        let jobs = &self.jobs;
        writeln!(out, "\ncentral rule: {} allowed, {} not allowed", self.allowed, self.not_allowed)?;
        writeln!(
            out,
            "simulations: {} begun, {} over ({} committed, {} failed; {} of 100 nodes or more)",
            jobs.begun, jobs.over, jobs.committed, jobs.failed, jobs.large
        )?;
        writeln!(
            out,
            "             {} events, {} messages, {} agreeing answer lists",
            jobs.events, jobs.messages, jobs.agreeing
        )?;
        writeln!(out, "             {} steps of hosts with rows of their own", jobs.of_hosts)?;
        writeln!(
            out,
            "journals: {} steps kept ({} repeats), {} taken back; {} had no place",
            jobs.kept, jobs.repeats, jobs.taken_back, jobs.without_place
        )?;
        writeln!(
            out,
            "points: {} named ({} moved), {} dropped, {} freed; {} had no slot",
            jobs.named, jobs.moved, jobs.dropped, jobs.freed, jobs.without_slot
        )?;
        writeln!(
            out,
            "        {} gone back to, over {} steps; {} tried beside",
            jobs.gone_back, jobs.gone_over, jobs.tried
        )?;
        writeln!(
            out,
            "desks: {} steps, {} events held against the central rule at one desk, {} calls in both forms",
            self.desk_steps(),
            jobs.at_one_desk,
            jobs.in_both_forms
        )?;
        writeln!(
            out,
            "one answer changed: {} passed, {} with other marks, {} of these in later subtrees too",
            jobs.changes, jobs.with_other_marks, jobs.in_later_subtrees
        )?;
        writeln!(
            out,
            "ways: {} found, {} targets without; {} held against a list that leads there, {} against every list",
            jobs.ways, jobs.without_way, jobs.against_one_list, jobs.against_all_lists
        )?;
        writeln!(
            out,
            "forms: {} plans renumbered, {} from another numbering; {} pairs of the same tree, {} of different \
             ones; {} depth forms accepted",
            jobs.renumbered,
            jobs.from_other_numberings,
            jobs.same_trees,
            jobs.different_trees,
            jobs.accepted_forms
        )?;
        writeln!(
            out,
            "templates: {} repeated, {} of these to a full plan; {} would have one node too many",
            jobs.repeated, jobs.just_full, jobs.one_too_many
        )?;
        writeln!(
            out,
            "small plans: {} came next, {} of these the first of their size; walks over all of them: {}",
            jobs.next_plans, jobs.of_new_size, jobs.walks
        )?;
        writeln!(
            out,
            "test loads: {} written, {} counts that wrap in 32 bits; {} steps run, {} of these passed",
            jobs.loads, jobs.wrapping_counts, jobs.load_steps, jobs.load_passed
        )?;
        writeln!(out, "rules of passed events: {} different", self.rules())?;
        writeln!(out, "texts: {}", self.texts)?;
        write!(out, "simulate and step calls: {}", self.steps())
    }
}

#[cfg(test)]
mod tests {
    use super::*;

    #[test]
    fn everything_is_missing_at_first() {
        let mut tally = Tally::default();
        let all: usize = Function::ALL.iter().map(|function| function.numbers().len()).sum();
        assert_eq!(tally.missing().len(), all);
        tally.count(Function::Step, 11);
        assert_eq!(tally.missing().len(), all - 1);
        assert!(!tally.missing().contains(&(Function::Step, 11)));
    }

    #[test]
    fn differences_are_counted_beyond_those_described() {
        let mut tally = Tally::default();
        for _ in 0..20 {
            tally.compare(false, || "wrong".to_string());
        }
        assert!(tally.compare(true, || unreachable!()));
        assert_eq!((tally.comparisons(), tally.differences()), (21, 20));
        assert_eq!(tally.described().len(), SHOWN);
    }
}
