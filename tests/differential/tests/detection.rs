//! The comparison finds nothing between two copies of the reference, and
//! finds every mistake of the broken copies.

use differential::Reference;
use differential::broken::{Broken, Mistake};
use differential::run::{CASES_PART, HOSTS_PART, JOURNALS_PART, ONLY_CHILD_PART, POINTS_PART, TURN};
use differential::run::{DESK_JOBS_PART, DESK_MOVES_PART, DESK_POINTS_PART, ONE_DESK_PART, OWN_DESKS_PART};
use differential::run::{
    FORMS_PART, IMPACT_PART, SMALL_FORMS_PART, SMALL_PLANS_PART, TARGETS_PART, WAYS_PART,
};
use differential::run::{LOADS_PART, NEXT_PLANS_PART, SMALL_TEMPLATES_PART, TEMPLATES_PART, WALK_PART};
use differential::run::{Options, run, run_against};
use differential::tally::Tally;

/// The mistakes of the calls with points.
fn of_points() -> impl Iterator<Item = Mistake> {
    let before_desks = Mistake::ALL.into_iter().take_while(|&mistake| mistake != Mistake::RowsByFirstUse);
    before_desks.skip_while(|&mistake| mistake != Mistake::MovedPointStandsTwice)
}

/// The mistakes of the calls with desks.
fn of_desks() -> impl Iterator<Item = Mistake> {
    let before_impact = Mistake::ALL.into_iter().take_while(|&mistake| mistake != Mistake::MarksBeforeFaults);
    before_impact.skip_while(|&mistake| mistake != Mistake::RowsByFirstUse)
}

/// The mistakes where one answer is changed.
fn of_impact() -> impl Iterator<Item = Mistake> {
    let before_ways = Mistake::ALL.into_iter().take_while(|&mistake| mistake != Mistake::LargestWay);
    before_ways.skip_while(|&mistake| mistake != Mistake::MarksBeforeFaults)
}

/// The mistakes where a way is looked for.
fn of_ways() -> impl Iterator<Item = Mistake> {
    let before_forms = Mistake::ALL.into_iter().take_while(|&mistake| mistake != Mistake::ChildrenFalling);
    before_forms.skip_while(|&mistake| mistake != Mistake::LargestWay)
}

/// The mistakes where a plan is brought into another form.
fn of_forms() -> impl Iterator<Item = Mistake> {
    let before_templates =
        Mistake::ALL.into_iter().take_while(|&mistake| mistake != Mistake::SerialsRepeated);
    before_templates.skip_while(|&mistake| mistake != Mistake::ChildrenFalling)
}

/// The mistakes where a template is repeated.
fn of_templates() -> impl Iterator<Item = Mistake> {
    let before_small = Mistake::ALL.into_iter().take_while(|&mistake| mistake != Mistake::BytesAlone);
    before_small.skip_while(|&mistake| mistake != Mistake::SerialsRepeated)
}

/// The mistakes where a small plan comes next.
fn of_small_plans() -> impl Iterator<Item = Mistake> {
    let before_loads = Mistake::ALL.into_iter().take_while(|&mistake| mistake != Mistake::FactorOneLess);
    before_loads.skip_while(|&mistake| mistake != Mistake::BytesAlone)
}

/// The mistakes of test loads; they stand at the end.
fn of_loads() -> impl Iterator<Item = Mistake> {
    Mistake::ALL.into_iter().skip_while(|&mistake| mistake != Mistake::FactorOneLess)
}

/// The mistakes of the later calls, which have parts of their own.
fn of_later_calls() -> impl Iterator<Item = Mistake> {
    let before_forms = of_points().chain(of_desks()).chain(of_impact()).chain(of_ways());
    before_forms.chain(of_forms()).chain(of_templates()).chain(of_small_plans()).chain(of_loads())
}

/// These parts find nothing between two copies of the reference, in each of
/// which something is counted, and each of these mistakes even if both sides
/// make it.
fn parts_find(parts: [u64; 2], seed: u64, counted: fn(&Tally) -> u64, mistakes: &[Mistake]) {
    let [first, count] = parts;
    let parts = || (0..count).map(|turn| first + TURN * turn);
    let only = |part| Options { seed, only: Some(part), ..Options::default() };
    for part in parts() {
        let tally = run(Reference, only(part));
        assert_eq!(tally.differences(), 0, "{:#?}", tally.described());
        assert!(counted(&tally) > 0);
    }
    for &mistake in mistakes {
        let found =
            |part| run_against(Broken::new(mistake), Broken::new(mistake), only(part)).differences() > 0;
        assert!(parts().any(found), "{mistake:?} on both sides is not found");
    }
}

#[test]
fn two_copies_of_the_reference_agree() {
    let options = Options { seed: 11, steps: 600_000, texts: 1000, ..Options::default() };
    let tally = run(Reference, options);
    assert_eq!(tally.differences(), 0, "{:#?}", tally.described());
    assert_eq!(tally.missing(), []);
    assert!(tally.steps() >= options.steps);
    assert_eq!(tally.rules(), 37);
    assert!(tally.jobs.over > 500 && tally.jobs.committed > 100 && tally.jobs.failed > 100);
    assert!(tally.jobs.of_hosts > 10_000, "{}", tally.jobs.of_hosts);
    assert!(tally.jobs.kept > 2000 && tally.jobs.repeats > 200, "{}", tally.jobs.kept);
    assert!(tally.jobs.taken_back > 1000 && tally.jobs.without_place > 300, "{}", tally.jobs.taken_back);
    assert!(tally.jobs.named > 1000 && tally.jobs.moved > 300, "{}", tally.jobs.named);
    assert!(tally.jobs.dropped > 300 && tally.jobs.without_slot > 20, "{}", tally.jobs.dropped);
    assert!(tally.jobs.gone_back > 100 && tally.jobs.gone_over > 300, "{}", tally.jobs.gone_over);
    assert!(tally.jobs.tried > 300 && tally.jobs.freed > 100, "{}", tally.jobs.freed);
    assert!(tally.desk_steps() > 30_000 && tally.jobs.at_one_desk > 3000, "{}", tally.desk_steps());
    assert!(tally.jobs.in_both_forms > 1000, "{}", tally.jobs.in_both_forms);
    assert!(tally.jobs.changes > 10_000 && tally.jobs.in_later_subtrees > 1000, "{}", tally.jobs.changes);
    assert!(tally.jobs.ways > 10_000 && tally.jobs.without_way > 10_000, "{}", tally.jobs.ways);
    assert!(tally.jobs.against_one_list > 500, "{}", tally.jobs.against_one_list);
    assert!(tally.jobs.from_other_numberings > 1000, "{}", tally.jobs.from_other_numberings);
    assert!(tally.jobs.same_trees > 500 && tally.jobs.different_trees > 300, "{}", tally.jobs.same_trees);
    assert!(tally.jobs.accepted_forms > 5000, "{}", tally.jobs.accepted_forms);
    assert!(tally.jobs.repeated > 10_000, "{}", tally.jobs.repeated);
    assert!(tally.jobs.just_full > 50 && tally.jobs.one_too_many > 50, "{}", tally.jobs.just_full);
    assert!(tally.jobs.next_plans > 10_000 && tally.jobs.of_new_size > 50, "{}", tally.jobs.next_plans);
    assert_eq!(tally.jobs.walks, 1);
    assert!(tally.jobs.loads > 1000 && tally.jobs.wrapping_counts > 100, "{}", tally.jobs.loads);
    assert!(tally.jobs.load_steps > 20_000 && tally.jobs.load_passed > 1000, "{}", tally.jobs.load_passed);
}

#[test]
fn every_mistake_is_found() {
    let options = Options { seed: 12, steps: 400_000, texts: 1000, enough: 1, only: None };
    for (number, mistake) in (1..).zip(Mistake::ALL) {
        let tally = run(Broken::new(mistake), options);
        assert_ne!(tally.differences(), 0, "mistake {number}, {mistake:?}, is not found");
        println!("{number:>2} {mistake:?}: found after {} comparisons", tally.comparisons());
    }
}

/// Mistakes that the rules themselves give away, even if both sides make
/// them: by what a step may change, by the central rule, by the pass.
#[test]
fn a_mistake_on_both_sides_is_found() {
    let mistakes = [
        Mistake::CommitUnlessAbortHeard,
        Mistake::PickAtTheChild,
        Mistake::TurnedDownStillRuns,
        Mistake::ContingencyStartsEarly,
        Mistake::OfferedMayFail,
        Mistake::PretendsAfterTheFirst,
        Mistake::AllEndedAtTheRootsStart,
        Mistake::GuardNeverHolds,
        Mistake::SetsNothing,
        Mistake::AndWaits,
        Mistake::WaitingAndFailsAtOnce,
        Mistake::SecondBranchOnYes,
        Mistake::FalseMessageBelieved,
        Mistake::MessageInTheWrongRow,
        Mistake::EmptyClauseHolds,
        Mistake::GuardClearsTheRest,
        Mistake::RefusedPassWrites,
        Mistake::AnswersReadEverywhere,
        Mistake::LosersStayOffered,
        Mistake::OfferedBeforeTurnedDown,
        Mistake::BlocksAreClassed,
        Mistake::CentralPicksTwice,
        Mistake::CentralAndWaits,
        Mistake::CentralWaitingAndFailsAtOnce,
        Mistake::PassTakesWaitingAndForOr,
        Mistake::RewriteTouchesOr,
        Mistake::RewriteTouchesParents,
        Mistake::RewriteSparesTheRoot,
        Mistake::RefusedRewriteWrites,
        Mistake::RuleLeftOut,
        Mistake::RuleWithMessages,
        Mistake::RuleWithRefusals,
        Mistake::TableIgnored,
        Mistake::TableStays,
        Mistake::TableClassesBlocks,
        Mistake::AiredInAnyBlock,
        Mistake::OnlyTheParentCounts,
        Mistake::AiredBeforeTheEnd,
        Mistake::OpenBeforeLost,
        Mistake::AllTasksOfALostBlock,
        Mistake::LostAsFailed,
        Mistake::LostByTheCommonTable,
        Mistake::LostTasksAreMarked,
        Mistake::GuardRuleLeftOut,
        Mistake::GuardRuleWithRefusals,
        Mistake::CheckTableTakesNone,
        Mistake::CheckTableByLength,
        Mistake::PassRecordByTheCommonTable,
        Mistake::PassRecordOfEachAlone,
        Mistake::PassRecordWithoutTable,
        Mistake::RefusedPassRecordWrites,
        Mistake::RehearseWritesRefusals,
        Mistake::RehearseClearsTheRest,
        Mistake::RehearseLengthLeftOut,
        Mistake::SimulationSeesAllRows,
        Mistake::FullJournalFindsStepFirst,
        Mistake::FullJournalForgets,
        Mistake::RefusedKeepWrites,
        Mistake::RefusedStepIsKept,
        Mistake::ChangedAlwaysOne,
        Mistake::EventKeptWithItsSite,
        Mistake::MessageKeptAsEvent,
        Mistake::KeepClearsTheRest,
        Mistake::KeepAnswersNumberAlone,
        Mistake::RepeatUndoClears,
        Mistake::MessageUndoAtTheEvent,
        Mistake::PickUndoAtTheChild,
        Mistake::UndoOnlyIfOne,
        Mistake::UndoTogglesTheBit,
        Mistake::UndoClearsTheByte,
        Mistake::UndoNeedsTheBit,
        Mistake::UndoOfAnything,
        Mistake::UndoTrustsRepeats,
        Mistake::UndoTakesTheNextPlace,
        Mistake::UndoRewritesTheEntry,
        Mistake::UndoAnswersTheSite,
        Mistake::NoStepBeforeLength,
        Mistake::RefusedUndoCounts,
        Mistake::CountAboveIsCut,
        Mistake::HearRefusesRepeats,
    ];
    let options = Options { seed: 15, steps: 1_000_000, texts: 0, enough: 1, only: None };
    for mistake in mistakes.into_iter().chain(of_later_calls()) {
        let tally = run_against(Broken::new(mistake), Broken::new(mistake), options);
        assert_ne!(tally.differences(), 0, "{mistake:?} on both sides is not found");
        assert!(tally.part < ONLY_CHILD_PART, "{mistake:?} is found in the fixed parts alone");
        println!("{mistake:?}: found after {} comparisons", tally.comparisons());
    }
}

/// The cases have one right answer each, so mistakes on both sides are found.
#[test]
fn cases_have_their_answers() {
    let options = Options { only: Some(CASES_PART), ..Options::default() };
    let tally = run(Reference, options);
    assert_eq!((tally.comparisons(), tally.differences()), (1556, 0), "{:#?}", tally.described());
    let mistakes = [
        Mistake::VersionInTheLowestByte,
        Mistake::VersionOneHigher,
        Mistake::SameGuardForAll,
        Mistake::SelfAmongSiblings,
        Mistake::StartRuleByOwnKind,
        Mistake::GuardRuleLeftOut,
        Mistake::LosersStayOffered,
        Mistake::AiredInAnyBlock,
        Mistake::RefusedPassWrites,
        Mistake::PassRecordOfEachAlone,
        Mistake::RefusedPassRecordWrites,
        Mistake::RehearseLengthLeftOut,
        Mistake::RehearseClearsTheRest,
        Mistake::FalseMessageBelieved,
        Mistake::SetsNothing,
        Mistake::FullJournalFindsStepFirst,
        Mistake::FullJournalForgets,
        Mistake::RefusedKeepWrites,
        Mistake::RefusedStepIsKept,
        Mistake::ChangedAlwaysOne,
        Mistake::EventKeptWithItsSite,
        Mistake::RepeatUndoClears,
        Mistake::MessageUndoAtTheEvent,
        Mistake::PickUndoAtTheChild,
        Mistake::UndoOnlyIfOne,
        Mistake::UndoRewritesTheEntry,
        Mistake::RefusedUndoCounts,
    ];
    for mistake in mistakes.into_iter().chain(of_later_calls()) {
        let tally = run_against(Broken::new(mistake), Broken::new(mistake), options);
        assert_ne!(tally.differences(), 0, "{mistake:?} on both sides is not found");
    }
}

/// Lists of moves alone find what is wrong with a step that is kept or taken
/// back from a fresh start, even if both sides do it.
#[test]
fn moves_are_held_against_what_remains() {
    let mistakes = [
        Mistake::FullJournalForgets,
        Mistake::RefusedKeepWrites,
        Mistake::RefusedStepIsKept,
        Mistake::ChangedAlwaysOne,
        Mistake::EventKeptWithItsSite,
        Mistake::MessageKeptAsEvent,
        Mistake::KeepClearsTheRest,
        Mistake::RepeatUndoClears,
        Mistake::MessageUndoAtTheEvent,
        Mistake::PickUndoAtTheChild,
        Mistake::UndoClearsTheByte,
        Mistake::UndoTakesTheNextPlace,
        Mistake::UndoRewritesTheEntry,
    ];
    parts_find([JOURNALS_PART, 10], 17, |tally| tally.jobs.kept, &mistakes);
}

/// Lists of moves with points alone find what is wrong with points from a fresh
/// start, and with the take-backs that they rest on, even if both sides do it.
#[test]
fn points_are_held_against_the_moves() {
    let mistakes = [
        Mistake::MovedPointStandsTwice,
        Mistake::KnownNameNeedsAFreeSlot,
        Mistake::LastFreeSlot,
        Mistake::FullSlotsOverwritten,
        Mistake::FreeNameTakesItsSlot,
        Mistake::WordIsTheCount,
        Mistake::SevenBytesOfAName,
        Mistake::NameEndsAtZero,
        Mistake::FreeNamesCompared,
        Mistake::PointAtTheCountRefused,
        Mistake::TakeBackDropsNothing,
        Mistake::BackDropsNothing,
        Mistake::DropsAtTheCount,
        Mistake::DroppedNamesStay,
        Mistake::DropClearsFreeNames,
        Mistake::BackDropsItsPoint,
        Mistake::FreeNameIsGoneBackTo,
        Mistake::BackToHereRefused,
        Mistake::BackFromNoStepRefused,
        Mistake::BackStopsOneEarly,
        Mistake::BackOneTooFar,
        Mistake::BackClearsRepeats,
        Mistake::BackRewritesEntries,
        Mistake::BackAnswersThePlace,
        Mistake::BackLeavesTheCount,
        Mistake::BackPickAtTheChild,
        Mistake::BackMessageAtTheEvent,
        Mistake::RepeatUndoClears,
        Mistake::MessageUndoAtTheEvent,
        Mistake::PickUndoAtTheChild,
        Mistake::UndoClearsTheByte,
    ];
    parts_find([POINTS_PART, 20], 18, |tally| tally.jobs.named, &mistakes);
}

/// Hosts with rows of their own find what only the simulation does wrong, or
/// only a site, even if both sides do.
#[test]
fn hosts_are_held_against_the_simulation() {
    let mistakes = [
        Mistake::HearRefusesRepeats,
        Mistake::SimulationSeesAllRows,
        Mistake::FalseMessageBelieved,
        Mistake::MessageInTheWrongRow,
        Mistake::AllEndedAtTheRootsStart,
        Mistake::PretendsAfterTheFirst,
    ];
    parts_find([HOSTS_PART, 20], 16, |tally| tally.jobs.of_hosts, &mistakes);
}

/// Simulations of plans with desks alone find rows that are mistaken for others,
/// even if both sides do it.
#[test]
fn desks_are_held_against_the_rules() {
    let mistakes = [
        Mistake::RowsByFirstUse,
        Mistake::RowsFalling,
        Mistake::UnusedDesksHaveRows,
        Mistake::RowsOfAllSites,
        Mistake::NotHappenedByTheNamedDesk,
        Mistake::MarkInTheRowOfTheNode,
        Mistake::HighestDeskRefused,
        Mistake::UnusedDeskIsTheFirst,
        Mistake::DesksAboveAreEvents,
        Mistake::DesksCut,
        Mistake::EventHeardEverywhere,
        Mistake::PickSetAtTheNodesDesk,
        Mistake::PickNamesTheNodesDesk,
        Mistake::ResultsNameTheRow,
        Mistake::DeskStepNamesTheSite,
        Mistake::DeskTableIgnored,
    ];
    parts_find([DESK_JOBS_PART, 20], 19, Tally::desk_steps, &mistakes);
}

/// Lists of moves with desks find what is wrong with a step that is kept or
/// taken back there, even if both sides do it.
#[test]
fn moves_with_desks_are_held_against_what_remains() {
    let mistakes = [
        Mistake::EntryHasTheRow,
        Mistake::TakeBackInTheRowOfTheNumber,
        Mistake::TakeBackAtTheEventsDesk,
        Mistake::PickTakenBackAtTheNode,
        Mistake::NotHappenedByTheNamedDesk,
        Mistake::OwnDeskIsNotTold,
        Mistake::ChangedAlwaysOne,
        Mistake::RepeatUndoClears,
    ];
    parts_find([DESK_MOVES_PART, 20], 20, Tally::desk_steps, &mistakes);
    let mistakes = [
        Mistake::DeskTakeBackDropsNothing,
        Mistake::DeskBackDropsNothing,
        Mistake::TakeBackInTheRowOfTheNumber,
        Mistake::TakeBackAtTheEventsDesk,
        Mistake::BackClearsRepeats,
        Mistake::BackOneTooFar,
    ];
    parts_find([DESK_POINTS_PART, 20], 21, Tally::comparisons, &mistakes);
}

/// Calls in both forms find what plans with desks have of their own though each
/// node is at its own, even if both sides do it.
#[test]
fn own_desks_are_held_against_sites() {
    let mistakes = [
        Mistake::RowsFalling,
        Mistake::NotHappenedByTheNamedDesk,
        Mistake::HighestDeskRefused,
        Mistake::MoreThan480Bytes,
        Mistake::UnusedDeskIsTheFirst,
        Mistake::DesksAboveAreEvents,
        Mistake::DesksCut,
        Mistake::OwnDeskIsNotTold,
        Mistake::EventHeardEverywhere,
        Mistake::PickSetAtTheNodesDesk,
        Mistake::PickNamesTheNodesDesk,
        Mistake::TakeBackAtTheEventsDesk,
        Mistake::PickTakenBackAtTheNode,
        Mistake::DeskTakeBackDropsNothing,
        Mistake::DeskBackDropsNothing,
        Mistake::DeskTableIgnored,
        Mistake::DeskPlanBeforeTable,
    ];
    parts_find([OWN_DESKS_PART, 60], 22, |tally| tally.jobs.in_both_forms, &mistakes);
}

/// Where all are at one desk, the central rule finds every guard that is wrong,
/// even if both sides have it.
#[test]
fn one_desk_is_held_against_the_central_rule() {
    let mistakes = [
        Mistake::CommitUnlessAbortHeard,
        Mistake::TurnedDownStillRuns,
        Mistake::ContingencyStartsEarly,
        Mistake::OfferedMayFail,
        Mistake::PretendsAfterTheFirst,
        Mistake::GuardNeverHolds,
        Mistake::AndWaits,
        Mistake::WaitingAndFailsAtOnce,
        Mistake::SecondBranchOnYes,
        Mistake::EmptyClauseHolds,
        Mistake::CentralPicksTwice,
        Mistake::CentralAndWaits,
        Mistake::CentralWaitingAndFailsAtOnce,
    ];
    parts_find([ONE_DESK_PART, 30], 23, |tally| tally.jobs.at_one_desk, &mistakes);
}

/// Changes of one answer alone find what is wrong with them, even if both sides
/// do it.
#[test]
fn changes_are_held_against_the_pass() {
    let mistakes: Vec<Mistake> = of_impact().collect();
    parts_find([IMPACT_PART, 20], 24, |tally| tally.jobs.changes, &mistakes);
}

/// All changes in all small plans find these too, even if both sides make them.
/// What they don't try are marks that are wrong, and tasks above 255.
#[test]
fn every_small_plan_is_tried() {
    let options = Options { only: Some(SMALL_PLANS_PART), enough: 1, ..Options::default() };
    let tally = run(Reference, options);
    assert_eq!(tally.differences(), 0, "{:#?}", tally.described());
    assert!(tally.comparisons() > 1_000_000, "{}", tally.comparisons());
    let mistakes = [
        Mistake::NewAnswersFirst,
        Mistake::AnswerCut,
        Mistake::UnreachedAnswerRefused,
        Mistake::OnlyThePathChanges,
        Mistake::ContingencyForgotten,
        Mistake::SerialForgotten,
        Mistake::SubtreesForgotten,
        Mistake::StopsAtTheParent,
        Mistake::NewlyUnreachedStay,
        Mistake::NewOffersCommit,
        Mistake::AnswerStored,
        Mistake::LargeAnswerFirst,
        Mistake::LargeAnswerFreeWhereUnreached,
        Mistake::MarksOfTheNewAnswers,
        Mistake::ChangeAnswersACount,
    ];
    for mistake in mistakes {
        let tally = run_against(Broken::new(mistake), Broken::new(mistake), options);
        assert_ne!(tally.differences(), 0, "{mistake:?} on both sides is not found");
    }
}

/// Ways alone find what is wrong with them, even if both sides do it: by the
/// pass over them, by lists that are known to lead there, and in small plans by
/// every list.
#[test]
fn ways_are_held_against_the_pass_and_all_lists() {
    let mistakes: Vec<Mistake> = of_ways().collect();
    parts_find([WAYS_PART, 30], 25, |tally| tally.jobs.against_all_lists, &mistakes);
}

/// All targets of all small plans find these too, even if both sides make them.
/// What they don't try are targets that are wrong, other answers before, and
/// wide xors.
#[test]
fn every_target_is_tried() {
    let options = Options { only: Some(TARGETS_PART), enough: 1, ..Options::default() };
    let tally = run(Reference, options);
    assert_eq!(tally.differences(), 0, "{:#?}", tally.described());
    assert!(tally.jobs.against_all_lists > 100_000, "{}", tally.jobs.against_all_lists);
    let mistakes = [
        Mistake::LargestWay,
        Mistake::UnreadAnswersOne,
        Mistake::UnreadAnswersStay,
        Mistake::EndNotLookedAt,
        Mistake::MarkNotLookedAt,
        Mistake::NoWayGivesTheEnd,
        Mistake::OfferIsEnough,
        Mistake::CommitsOnlyIfAllAboveDo,
        Mistake::OnlyTheParentLeavesOut,
        Mistake::TurnedDownNotWanted,
        Mistake::NotStartedNotWanted,
        Mistake::RefusedWayWrites,
        Mistake::WayAnswersItsLength,
        Mistake::PlacesFromZero,
        Mistake::NeverTheLastChild,
        Mistake::NeverNo,
        Mistake::SubtreesInTurn,
        Mistake::LastNodeFirst,
        Mistake::ZeroLast,
        Mistake::NoneOffersLast,
    ];
    for mistake in mistakes {
        let tally = run_against(Broken::new(mistake), Broken::new(mistake), options);
        assert_ne!(tally.differences(), 0, "{mistake:?} on both sides is not found");
    }
}

/// Forms of plans alone find what is wrong with them, even if both sides do it: by
/// the tree, and by going there and back.
#[test]
fn forms_are_held_against_the_tree() {
    let mistakes: Vec<Mistake> = of_forms().collect();
    parts_find([FORMS_PART, 20], 26, |tally| tally.jobs.same_trees, &mistakes);
}

/// All small plans and depth forms find these too, even if both sides make them.
/// What they don't try are plans that are refused, other lengths, what is deep, and
/// bytes that are large.
#[test]
fn every_small_form_is_tried() {
    let options = Options { only: Some(SMALL_FORMS_PART), enough: 1, ..Options::default() };
    let tally = run(Reference, options);
    assert_eq!(tally.differences(), 0, "{:#?}", tally.described());
    assert_eq!((tally.jobs.renumbered, tally.jobs.from_other_numberings), (4962, 1508));
    assert!(tally.comparisons() > 150_000, "{}", tally.comparisons());
    let not_tried = [
        Mistake::RenumberLengthFirst,
        Mistake::RenumberIntoMore,
        Mistake::ShortRenumberWrites,
        Mistake::FormLengthFirst,
        Mistake::LengthBeforeNumbering,
        Mistake::NumberingBeforeTaskParents,
        Mistake::NumberingBeforeDepth,
        Mistake::TooDeepIs17,
        Mistake::FormDepthsCut,
        Mistake::LengthBeforeDepths,
        Mistake::OddByteOverlooked,
        Mistake::FormIntoMore,
    ];
    for mistake in of_forms().filter(|mistake| !not_tried.contains(mistake)) {
        let tally = run_against(Broken::new(mistake), Broken::new(mistake), options);
        assert_ne!(tally.differences(), 0, "{mistake:?} on both sides is not found");
    }
}

/// Repeated templates alone find what is wrong with them, even if both sides do it:
/// by the tree, and by the check and the renumbering.
#[test]
fn templates_are_held_against_the_tree() {
    let mistakes: Vec<Mistake> = of_templates().collect();
    parts_find([TEMPLATES_PART, 20], 27, |tally| tally.jobs.repeated, &mistakes);
}

/// All small templates find these too, even if both sides make them. What they don't
/// try are plans that are refused, other lengths, numbers that are wide or not there, and
/// results of more than 129 nodes.
#[test]
fn every_small_template_is_tried() {
    let options = Options { only: Some(SMALL_TEMPLATES_PART), enough: 1, ..Options::default() };
    let tally = run(Reference, options);
    assert_eq!(tally.differences(), 0, "{:#?}", tally.described());
    assert_eq!((tally.comparisons(), tally.jobs.repeated), (170_184, 39_580));
    let not_tried = [
        Mistake::NoSuchNodeIs23,
        Mistake::MarkCut,
        Mistake::CountCut,
        Mistake::FullPlanRefused,
        Mistake::SizeOfWholeTemplates,
        Mistake::TooManyNodesIs1,
        Mistake::RepeatLengthFirst,
        Mistake::NodeBeforeLength,
        Mistake::RepeatLengthLast,
        Mistake::CountBeforeNode,
        Mistake::SizeBeforeBlock,
        Mistake::SizeBeforeCount,
        Mistake::RepeatIntoEnough,
        Mistake::RepeatIntoMore,
        Mistake::RefusedRepeatWrites,
    ];
    for mistake in of_templates().filter(|mistake| !not_tried.contains(mistake)) {
        let tally = run_against(Broken::new(mistake), Broken::new(mistake), options);
        assert_ne!(tally.differences(), 0, "{mistake:?} on both sides is not found");
    }
}

/// Small plans alone find what is wrong with the next one, even if both sides do it: by
/// the list of all of them.
#[test]
fn next_plans_are_held_against_the_list() {
    let mistakes: Vec<Mistake> = of_small_plans().collect();
    parts_find([NEXT_PLANS_PART, 20], 28, |tally| tally.jobs.next_plans, &mistakes);
}

/// All small plans find these too, even if both sides make them. What they don't try are
/// larger plans that are refused.
#[test]
fn every_small_plan_comes_once() {
    let options = Options { only: Some(WALK_PART), enough: 1, ..Options::default() };
    let tally = run(Reference, options);
    assert_eq!(tally.differences(), 0, "{:#?}", tally.described());
    assert_eq!((tally.comparisons(), tally.jobs.walks), (167_785, 1));
    let not_tried =
        [Mistake::NotSmallBeforeLength, Mistake::NotSmallBeforeKinds, Mistake::NotSmallBeforeDepth];
    for mistake in of_small_plans().filter(|mistake| !not_tried.contains(mistake)) {
        let tally = run_against(Broken::new(mistake), Broken::new(mistake), options);
        assert_ne!(tally.differences(), 0, "{mistake:?} on both sides is not found");
    }
}

/// Test loads alone find what is wrong with them, even if both sides do it: by each step's
/// place.
#[test]
fn loads_are_held_against_their_places() {
    let mistakes: Vec<Mistake> = of_loads().collect();
    parts_find([LOADS_PART, 20], 29, |tally| tally.jobs.load_steps, &mistakes);
}

/// Trying every row of an only child finds a turn-down that passes, and
/// notices if nothing passes at all, even if both sides agree on it.
#[test]
fn every_row_of_an_only_child_is_tried() {
    let options = Options { only: Some(ONLY_CHILD_PART), ..Options::default() };
    let tally = run(Reference, options);
    assert_eq!((tally.steps(), tally.differences()), (2 * 0x1_0000, 0), "{:#?}", tally.described());
    for mistake in [Mistake::EmptyClauseHolds, Mistake::GuardNeverHolds] {
        let tally = run_against(Broken::new(mistake), Broken::new(mistake), options);
        assert_eq!(tally.differences(), 1, "{mistake:?}: {:#?}", tally.described());
    }
}

/// A run comes out the same again, and so does a part of it alone.
#[test]
fn runs_can_be_repeated() {
    let options = Options { seed: 13, steps: 20_000, texts: 64, ..Options::default() };
    let table = |options| run(Reference, options).to_string();
    assert_eq!(table(options), table(options));
    assert_ne!(table(options), table(Options { seed: 14, ..options }));
    let first_found = run(Broken::new(Mistake::OfferedMayFail), Options { enough: 1, ..options });
    let part = first_found.part;
    let again = run(Broken::new(Mistake::OfferedMayFail), Options { only: Some(part), ..options });
    assert_eq!(first_found.described()[0], again.described()[0]);
}
