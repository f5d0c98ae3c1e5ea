//! Copies of the reference with one mistake each. A comparison that can't
//! tell them from the reference would be worth nothing.

use crate::codes::*;
use crate::driver::{Step, Tree};
use crate::form::{Form, Kept};
use crate::implementation::{Change, Entry, Implementation, Reference, Slots, Wanted};
use crate::plans;
use crate::tables;
use crate::texts::{OUT_BYTES, Sound};

mod desks;
mod forms;
mod impact;
mod load;
mod points;
mod repeat;
mod small;
mod way;

/// A mistake: those the document warns of, its worthless versions, and slips
/// at the borders.
#[derive(Clone, Copy, Debug, PartialEq, Eq)]
pub enum Mistake {
    /// A block commits as long as no child's abort was heard.
    CommitUnlessAbortHeard,
    /// A pick is decided and noted at the child, so that two can be picked.
    PickAtTheChild,
    /// A child that was turned down counts as running, so the xor never ends.
    TurnedDownStillRuns,
    /// A contingency's next child starts while the one before is only late.
    ContingencyStartsEarly,
    /// A child that has offered can fail.
    OfferedMayFail,
    /// The first event passes properly, then everything is said to pass.
    PretendsAfterTheFirst,
    /// The root's start marks the whole plan committed.
    AllEndedAtTheRootsStart,
    /// Every event is refused with 11, whatever was heard.
    GuardNeverHolds,
    /// One guard is written for all events.
    SameGuardForAll,
    /// Reports success but leaves the row alone.
    SetsNothing,
    /// No plan is good enough.
    RefusesEveryPlan,
    /// An and waits for all children before it fails, as it once did.
    AndWaits,
    /// The written abort guard of an and is the one it once had.
    AndGuardStaysOld,
    /// A waiting and fails while children still run.
    WaitingAndFailsAtOnce,
    /// A conditional's second child starts on yes.
    SecondBranchOnYes,
    /// Numbers are cut to a byte, so that code 257 is a start.
    NumbersCut,
    /// The guard is tried before the bars.
    GuardBeforeBars,
    /// The site is left out of the result.
    SiteLeftOut,
    /// A message sets a bit for an event that doesn't apply.
    HearsAnything,
    /// A false message is believed.
    FalseMessageBelieved,
    /// A message is noted in its event's row instead of the hearer's.
    MessageInTheWrongRow,
    /// A child stands among its own siblings in a guard.
    SelfAmongSiblings,
    /// A clause without events holds, so that an only child is turned down.
    EmptyClauseHolds,
    /// The rest of the guard's buffer is cleared.
    GuardClearsTheRest,
    /// A short buffer is noticed before a wrong event is.
    ShortBufferFirst,
    /// A refused pass has already written marks.
    RefusedPassWrites,
    /// The pass reads answers of nodes it doesn't reach.
    AnswersReadEverywhere,
    /// In the pass, an offer that isn't picked stays an offer.
    LosersStayOffered,
    /// The record puts offered before turned down.
    OfferedBeforeTurnedDown,
    /// Blocks are classed as tasks are.
    BlocksAreClassed,
    /// The central rule picks a second time.
    CentralPicksTwice,
    /// The central rule has an and wait before it fails.
    CentralAndWaits,
    /// The central rule lets a waiting and fail while children still run.
    CentralWaitingAndFailsAtOnce,
    /// The pass takes a waiting and for an or.
    PassTakesWaitingAndForOr,
    /// The kind 08 is refused.
    RefusesKind8,
    /// A rewrite makes an or wait too.
    RewriteTouchesOr,
    /// A rewrite takes a parent's number for a kind.
    RewriteTouchesParents,
    /// A rewrite leaves the root as it is.
    RewriteSparesTheRoot,
    /// A rewrite into too few bytes writes as many as there are.
    RefusedRewriteWrites,
    /// A passed event hands on no rule.
    RuleLeftOut,
    /// A message hands its event's rule on.
    RuleWithMessages,
    /// A refused event hands its rule on.
    RuleWithRefusals,
    /// The rule of a start is by the node's own kind.
    StartRuleByOwnKind,
    /// The rule of the root's start is by the root's kind.
    RootRuleByItsKind,
    /// The rule of an offer is by the parent's kind.
    OfferRuleByParent,
    /// The commit of an xor's child has a rule as any other commit.
    PickedCommitHasUsualRule,
    /// The rule of a waiting and is that of an and.
    WaitingAndHasRuleOfAnd,
    /// A table handed in is checked and then not used.
    TableIgnored,
    /// A record without a table goes by the last one handed in.
    TableStays,
    /// A table may have any class.
    TableWithAnyClass,
    /// A table may have a class for what has not begun.
    TableClassesIdle,
    /// A table's marks may be in any order.
    TableInAnyOrder,
    /// What stands behind a table's twelve bytes is overlooked.
    LongerTable,
    /// The plan is checked before the table.
    PlanBeforeTable,
    /// By a table of the house, blocks are classed as tasks are.
    TableClassesBlocks,
    /// A table before the plan is read and not used.
    TextTableIgnored,
    /// An empty table before the plan is as none.
    TextEmptyTable,
    /// Of two tables before the plan the second counts.
    TextTwoTables,
    /// A refused plan is reported before a refused table.
    TextPlanBeforeTable,
    /// A refused table is reported before the rest of the text is read.
    TextTableFirst,
    /// A committed task is aired whatever became of the blocks above.
    AiredInAnyBlock,
    /// Of the blocks above a task only the parent counts.
    OnlyTheParentCounts,
    /// A task is aired below blocks that still run.
    AiredBeforeTheEnd,
    /// A block above that isn't through counts before one that is lost.
    OpenBeforeLost,
    /// Below a lost block a task has the class of one that failed.
    LostAsFailed,
    /// Below a lost block a running task too has the class of a lost one.
    AllTasksOfALostBlock,
    /// Below a lost block a table of the house doesn't count.
    LostByTheCommonTable,
    /// A task below a lost block gets the mark of one that was turned down.
    LostTasksAreMarked,
    /// The guard writer hands on no rule.
    GuardRuleLeftOut,
    /// A guard that doesn't fit into its buffer hands its rule on.
    GuardRuleWithRefusals,
    /// The check of a table takes an empty one for the common one.
    CheckTableTakesNone,
    /// The check of a table counts its bytes and no more.
    CheckTableByLength,
    /// The pass's record checks its table and then doesn't use it.
    PassRecordByTheCommonTable,
    /// The pass's record takes an empty table for the common one.
    PassRecordWithoutTable,
    /// The pass's record checks its plan before its table.
    PassRecordPlanFirst,
    /// The pass's record finds a fault before a wrong length of its classes.
    PassRecordFaultsFirst,
    /// In the pass's record a task's class goes by its own mark alone.
    PassRecordOfEachAlone,
    /// A refused record of the pass has already written classes.
    RefusedPassRecordWrites,
    /// A refused text's number is written too.
    RehearseWritesRefusals,
    /// The bytes behind a text's lines are cleared.
    RehearseClearsTheRest,
    /// The length of a text's lines is left out.
    RehearseLengthLeftOut,
    /// Too few bytes for a text's lines are noticed before the text's own fault.
    RehearseLengthFirst,
    /// Bytes that a text's lines just fit into are enough.
    RehearseIntoWhatFits,
    /// The version's first number stands in the lowest byte.
    VersionInTheLowestByte,
    /// The version is the next one.
    VersionOneHigher,
    /// In a simulation an event is decided by what anybody has heard.
    SimulationSeesAllRows,
    /// A full journal's 7 comes after what the step is refused for.
    FullJournalFindsStepFirst,
    /// A step on a full journal passes and is not kept.
    FullJournalForgets,
    /// A refused step has already written its entry.
    RefusedKeepWrites,
    /// A refused step is counted as one that is kept.
    RefusedStepIsKept,
    /// A repeat's entry says that it set its bit.
    ChangedAlwaysOne,
    /// An event's entry has its site instead of ff.
    EventKeptWithItsSite,
    /// A message's entry has ff instead of who heard it.
    MessageKeptAsEvent,
    /// The entries behind a kept step are cleared.
    KeepClearsTheRest,
    /// A kept event hands on neither site nor rule.
    KeepAnswersNumberAlone,
    /// Taking a repeat back clears its bit.
    RepeatUndoClears,
    /// Taking a message back clears the bit in the event's own row.
    MessageUndoAtTheEvent,
    /// Taking a pick back clears the bit in the child's row.
    PickUndoAtTheChild,
    /// Only a changed byte of 1 says that a bit was set.
    UndoOnlyIfOne,
    /// Taking back sets a bit that is not set.
    UndoTogglesTheBit,
    /// Taking back clears all bits of the node.
    UndoClearsTheByte,
    /// Taking back is refused where the bit is not set.
    UndoNeedsTheBit,
    /// An entry whose event does not apply is taken back.
    UndoOfAnything,
    /// An entry that set nothing is not looked at.
    UndoTrustsRepeats,
    /// The entry at the count is taken back, not the last one.
    UndoTakesTheNextPlace,
    /// The entry of a step that is taken back is cleared.
    UndoRewritesTheEntry,
    /// A take-back answers with the event's site.
    UndoAnswersTheSite,
    /// 16 comes before a wrong length of the state.
    NoStepBeforeLength,
    /// A refused take-back lowers the count.
    RefusedUndoCounts,
    /// A count above the entries is taken as their number.
    CountAboveIsCut,
    /// A site refuses to hear a second time.
    HearRefusesRepeats,
    /// One level more than there may be.
    OneLevelMore,
    /// Parents are looked at before kinds.
    ParentsBeforeKinds,
    /// Written depths count from 0.
    DepthsFromZero,
    /// Depth bytes of a wrong length are noticed before the plan's own fault.
    DepthsLengthFirst,
    /// A carriage return is overlooked in a text.
    TextWithReturns,
    /// A refused plan is reported before the rest of the text is read.
    PlanBeforeText,
    /// A naming that moves a point leaves it in its old slot too.
    MovedPointStandsTwice,
    /// Where no slot is free, a known name too is refused with 20.
    KnownNameNeedsAFreeSlot,
    /// A new name gets the last free slot.
    LastFreeSlot,
    /// Where no slot is free, a new name gets the first one.
    FullSlotsOverwritten,
    /// A new name gets the free slot that still has it.
    FreeNameTakesItsSlot,
    /// A point's word is the count, not one more.
    WordIsTheCount,
    /// A count of which no word can be made is named with word 0.
    CountWraps,
    /// Only seven bytes of names are compared.
    SevenBytesOfAName,
    /// Names end at their first zero.
    NameEndsAtZero,
    /// A name may have any length.
    NameOfAnyLength,
    /// There may be any number of slots.
    SlotsOfAnyNumber,
    /// Two points may have one name.
    TwoOfOneName,
    /// Names of free slots must be different too.
    FreeNamesCompared,
    /// A point may be past the count.
    PointPastTheCount,
    /// A point at the count is taken for one past it.
    PointAtTheCountRefused,
    /// Places are cut to 32 bits.
    PlacesCut,
    /// 20 comes before points that are not right.
    NoSlotBeforePoints,
    /// A take-back leaves the points that it passes.
    TakeBackDropsNothing,
    /// A going back leaves the points that it passes.
    BackDropsNothing,
    /// A point exactly at the new count is dropped.
    DropsAtTheCount,
    /// The name of a point that is dropped stays.
    DroppedNamesStay,
    /// Where points are dropped, names of free slots are cleared too.
    DropClearsFreeNames,
    /// 16 comes before points that are not right.
    NoStepBeforePoints,
    /// An entry's 8 or 9 comes before points that are not right.
    EntryBeforePoints,
    /// A take-back that its entry refuses has already dropped points.
    RefusedTakeBackDrops,
    /// The point that is gone back to is dropped.
    BackDropsItsPoint,
    /// 19 comes after the last entry's 8 or 9.
    UnknownAfterEntries,
    /// 19 comes before points that are not right.
    UnknownBeforePoints,
    /// The name of a free slot can be gone back to, to the beginning.
    FreeNameIsGoneBackTo,
    /// A going back that is refused on its way has taken some steps back.
    BackHalfUndone,
    /// Of several entries that are refused on the way the oldest counts.
    FirstFaultFromTheFront,
    /// Of several entries that are refused on the way the lowest number counts.
    LowestFaultOnTheWay,
    /// Going back to the current place is refused with 16.
    BackToHereRefused,
    /// Going back without any step is refused with 16.
    BackFromNoStepRefused,
    /// One step behind the point is left.
    BackStopsOneEarly,
    /// One step before the point is taken back too.
    BackOneTooFar,
    /// Going back over a repeat clears its bit.
    BackClearsRepeats,
    /// Going back simulates the steps up to the point, whatever the state was.
    BackReplays,
    /// Entries before the point are looked at too.
    BackLooksBelowThePoint,
    /// On the way back an entry that set nothing is not looked at.
    BackTrustsRepeats,
    /// The entries that are gone back over are cleared.
    BackRewritesEntries,
    /// A going back answers the place as a value.
    BackAnswersThePlace,
    /// A going back leaves the count.
    BackLeavesTheCount,
    /// On the way back only a changed byte of 1 says that a bit was set.
    BackOnlyIfOne,
    /// Going back over a pick clears the bit in the child's row.
    BackPickAtTheChild,
    /// Going back over a message clears the bit in the event's own row.
    BackMessageAtTheEvent,
    /// Rows stand in the order in which the plan first names their desks.
    RowsByFirstUse,
    /// Rows stand in falling desk number.
    RowsFalling,
    /// Desks that no node has, below the highest in use, have rows too.
    UnusedDesksHaveRows,
    /// A state has as many rows as there are nodes.
    RowsOfAllSites,
    /// Whether a message is false is read in the row of the desk that it names.
    NotHappenedByTheNamedDesk,
    /// A mark is read in the row whose number is the node's.
    MarkInTheRowOfTheNode,
    /// 22 comes before 2.
    DesksBeforeKinds,
    /// 22 comes before 6.
    DesksBeforeDepth,
    /// 22 comes after 7.
    DesksAfterLengths,
    /// The desk a0 is accepted.
    DeskA0Accepted,
    /// The desk 9f is refused.
    HighestDeskRefused,
    /// What stands behind 480 bytes of a plan with desks is overlooked.
    MoreThan480Bytes,
    /// What doesn't make a whole node of three bytes is overlooked.
    BytesLeftOver,
    /// A message to a desk that isn't in use goes to the first row.
    UnusedDeskIsTheFirst,
    /// A desk above 9f is taken for ff.
    DesksAboveAreEvents,
    /// Numbers of desks are cut to a byte.
    DesksCut,
    /// A message to the desk that decides its event is refused with 12.
    OwnDeskIsNotTold,
    /// An event that passes is heard at every desk.
    EventHeardEverywhere,
    /// A pick is decided at the parent's desk and set at the node's.
    PickSetAtTheNodesDesk,
    /// The result of a pick names the node's desk.
    PickNamesTheNodesDesk,
    /// Results name the row instead of the desk.
    ResultsNameTheRow,
    /// A step at a desk answers the number of the site.
    DeskStepNamesTheSite,
    /// A message's entry has the row instead of the desk.
    EntryHasTheRow,
    /// Taking a message back clears the bit in the row that has the desk's number.
    TakeBackInTheRowOfTheNumber,
    /// Taking a message back clears the bit at the desk of its event.
    TakeBackAtTheEventsDesk,
    /// Taking a pick back clears the bit at the node's desk.
    PickTakenBackAtTheNode,
    /// With desks, a take-back leaves the points that it passes.
    DeskTakeBackDropsNothing,
    /// With desks, a going back leaves the points that it passes.
    DeskBackDropsNothing,
    /// With desks, a table handed in is checked and then not used.
    DeskTableIgnored,
    /// With desks, the plan is checked before the table.
    DeskPlanBeforeTable,
    /// A record that is refused with 22 has already written marks.
    RefusedDesksWrite,
    /// 28 comes before 13 and 14.
    MarksBeforeFaults,
    /// 28 comes before 13 and 14 of the new answers.
    MarksBeforeNewFaults,
    /// The new answers' 13 and 14 come before those of the answers.
    NewAnswersFirst,
    /// A node that is no task gets 8, and one that isn't there 9.
    TaskNumbersSwapped,
    /// A new answer is cut to a byte.
    AnswerCut,
    /// A new answer that is neither 1 nor 2 is refused where the pass doesn't
    /// come, too.
    UnreachedAnswerRefused,
    /// The marks are not compared.
    MarksNotCompared,
    /// The marks are compared at the task alone.
    MarksComparedAtTheTask,
    /// The marks are compared in the task's reach alone.
    MarksComparedInTheReach,
    /// A change that is refused with 28 has already written marks.
    RefusedChangeWrites,
    /// Only the task and the blocks above it get new marks.
    OnlyThePathChanges,
    /// Later siblings in a contingency keep their marks.
    ContingencyForgotten,
    /// Later siblings in a serial keep their marks.
    SerialForgotten,
    /// Later siblings get new marks, and what is below them keeps its own.
    SubtreesForgotten,
    /// Of the blocks above the task only the parent gets a new mark.
    StopsAtTheParent,
    /// What isn't reached any more keeps its mark.
    NewlyUnreachedStay,
    /// What offers now beside the picked child gets the mark of a committed
    /// one.
    NewOffersCommit,
    /// The new answer is stored too.
    AnswerStored,
    /// A new answer that is no byte is found before what is wrong with the
    /// answers.
    LargeAnswerFirst,
    /// A new answer that is no byte is found after what is wrong with the new
    /// answers.
    LargeAnswerLast,
    /// A new answer that is no byte is free where the pass doesn't come.
    LargeAnswerFreeWhereUnreached,
    /// The marks must be those of the new answers.
    MarksOfTheNewAnswers,
    /// With the answer that is there already, the marks are not compared.
    SameAnswerUnchecked,
    /// The answer of a block can be changed too.
    AnyNodeChanges,
    /// The task's number is cut to a byte.
    TaskCut,
    /// 8 and 9 come before a wrong length.
    TaskBeforeLengths,
    /// A change answers as a value how many marks are others.
    ChangeAnswersACount,
    /// Of the lists that lead to a target the largest is given.
    LargestWay,
    /// Answers that the pass doesn't read are 1.
    UnreadAnswersOne,
    /// Answers that the pass doesn't read stay as they were.
    UnreadAnswersStay,
    /// Answers that lead to the target stay as they were.
    AnswersThatLeadStay,
    /// The end is not looked at.
    EndNotLookedAt,
    /// The mark is not looked at.
    MarkNotLookedAt,
    /// Where no list leads to a target, one with its end alone is given.
    NoWayGivesTheEnd,
    /// A child of an xor that offers counts as committed, picked or not.
    OfferIsEnough,
    /// There is no way to a committed node below a block that doesn't commit.
    CommitsOnlyIfAllAboveDo,
    /// There is no way to a node that isn't started if its parent isn't either.
    OnlyTheParentLeavesOut,
    /// 29 comes before 8.
    TargetBeforeNode,
    /// 8 and 29 come before 7.
    TargetBeforeLength,
    /// Mark 5 can't be wanted.
    TurnedDownNotWanted,
    /// Mark 0 can't be wanted.
    NotStartedNotWanted,
    /// Marks 1 and 2 can be wanted.
    AnyMarkWanted,
    /// Any mark can be wanted as the end.
    AnyEndWanted,
    /// The target's node is cut to a byte.
    TargetNodeCut,
    /// The target's mark is cut to a byte.
    TargetMarkCut,
    /// The target's end is cut to a byte.
    TargetEndCut,
    /// A call that is refused with 30 has already written answers.
    RefusedWayWrites,
    /// A way has its length as the value.
    WayAnswersItsLength,
    /// Picks are counted from 0.
    PlacesFromZero,
    /// The last child of an xor is never picked.
    NeverTheLastChild,
    /// The child at place 32 is never picked.
    PlacesBelow32,
    /// A conditional never answers no.
    NeverNo,
    /// Lists are compared subtree by subtree.
    SubtreesInTurn,
    /// Lists are compared from the last node on.
    LastNodeFirst,
    /// 0 is tried after all other answers.
    ZeroLast,
    /// An xor picks wherever one of its children can offer.
    NoneOffersLast,
    /// Renumbering takes children in falling number.
    ChildrenFalling,
    /// Renumbering takes children in the order of their kinds.
    ChildrenByKind,
    /// Renumbering goes level by level.
    LevelByLevel,
    /// Renumbering has all children of a node before what is below them.
    SiblingsTogether,
    /// Renumbering brings the subtrees of the root's children together, and no
    /// others.
    TopSubtreesOnly,
    /// Renumbering copies the plan.
    PlanCopied,
    /// A renumbered node names its parent by the old number.
    ParentsNotMoved,
    /// Renumbering moves parents and leaves the kinds where they were.
    KindsNotMoved,
    /// In a renumbered plan the root has 0 for a parent.
    RootIsItsOwnParent,
    /// A plan that is in the fixed numbering already is refused with 18.
    FixedPlanRefused,
    /// Renumbering finds 7 before what is wrong with the plan.
    RenumberLengthFirst,
    /// Renumbering writes into more bytes than the plan has.
    RenumberIntoMore,
    /// A renumbering that is refused with 7 has already written.
    ShortRenumberWrites,
    /// Renumbering answers the number of nodes as a value.
    RenumberAnswersNodes,
    /// For a depth form 7 is found before what is wrong with the plan.
    FormLengthFirst,
    /// 7 comes before 18.
    LengthBeforeNumbering,
    /// 18 comes before 4, 5 and 6.
    NumberingBeforeTaskParents,
    /// 18 comes before 6.
    NumberingBeforeDepth,
    /// A plan in any numbering has its nodes' depths for a depth form.
    AnyNumberingHasAForm,
    /// A plan in another numbering has the depth form of the renumbered one.
    FormRenumbers,
    /// A plan is in the fixed numbering only if each parent is the node before or
    /// its parent.
    OneLevelUpOnly,
    /// A plan is in the fixed numbering if each parent is the last node of its
    /// depth so far.
    LastOfItsDepth,
    /// Depths of a depth form count from 0.
    FormDepthsFromZero,
    /// A depth form has parents in place of depths.
    FormHasParents,
    /// A line of a depth form has its depth before its kind.
    DepthBeforeKind,
    /// A depth form that is refused with 18 has already been written.
    RefusedFormWrites,
    /// The first depth may be any.
    FirstDepthUnchecked,
    /// A later depth may be 1.
    LaterDepthOne,
    /// A depth may be two above that of the line before.
    JumpOfTwo,
    /// A depth that is more than one below that of the line before is 17.
    FallsByOneOnly,
    /// The parent is the first line that is one less deep.
    FirstLineLessDeep,
    /// 17 comes before 2.
    DepthsBeforeKinds,
    /// 17 comes after 4.
    DepthsAfterTaskParents,
    /// 17 comes after 6.
    DepthsAfterTree,
    /// A wrong depth is 3.
    WrongDepthIs3,
    /// A depth above 32 is 17.
    TooDeepIs17,
    /// The highest bit of a depth is overlooked.
    FormDepthsCut,
    /// The plan of a depth form has 0 for the root's parent.
    FormRootIsItself,
    /// A depth form that is refused has already written its plan.
    RefusedPlanWrites,
    /// For the plan of a depth form 7 comes before 17.
    LengthBeforeDepths,
    /// A last byte that makes no line is overlooked.
    OddByteOverlooked,
    /// The plan of a depth form is written into more bytes than it has.
    FormIntoMore,
    /// The plan of a depth form comes with its number of nodes as a value.
    FormAnswersLines,
    /// A serial or a contingency with one child can be marked.
    SerialsRepeated,
    /// An or can't be marked.
    OrNotRepeated,
    /// An xor can't be marked.
    XorNotRepeated,
    /// A waiting and can't be marked.
    WaitingAndNotRepeated,
    /// The root can't be marked.
    RootNotMarked,
    /// A block with several children can be marked; all of them are repeated.
    SeveralChildrenRepeated,
    /// A block with several children can be marked; the first of them is repeated.
    FirstChildRepeated,
    /// The node that is named is the child, and its parent the marked block.
    ChildIsMarked,
    /// A task that is marked is 9.
    MarkedTaskIs9,
    /// A marked node that is not there is 23.
    NoSuchNodeIs23,
    /// The marked node is named by its number in the fixed numbering.
    MarkByTheNewNumber,
    /// Only the lowest byte of the marked node counts.
    MarkCut,
    /// Only the lowest byte of the count counts.
    CountCut,
    /// A count of 0 is taken for 1.
    CountOfNone,
    /// A count of 33 passes.
    CountTo33,
    /// A count of 32 is refused.
    CountBelow32,
    /// The child's subtree stands once more than the count says.
    OneTimeMore,
    /// A repeated plan of 160 nodes is refused.
    FullPlanRefused,
    /// The size of the repeated plan is taken for that of so many templates.
    SizeOfWholeTemplates,
    /// A repeated plan that would be too large is 1.
    TooManyNodesIs1,
    /// For a repeated plan 7 is found before what is wrong with the plan.
    RepeatLengthFirst,
    /// 8 of the marked node comes before 7.
    NodeBeforeLength,
    /// 7 comes after 25.
    RepeatLengthLast,
    /// 24 comes before 8.
    CountBeforeNode,
    /// 24 comes before 23.
    CountBeforeBlock,
    /// 25 comes before 23.
    SizeBeforeBlock,
    /// 25 comes before 24.
    SizeBeforeCount,
    /// A repeated plan is written into any bytes that it fits into.
    RepeatIntoEnough,
    /// A repeated plan is written into more than 320 bytes.
    RepeatIntoMore,
    /// The bytes behind a repeated plan become 0.
    RepeatClearsTheRest,
    /// A repeated plan that is refused with 25 has been written as far as it goes.
    RefusedRepeatWrites,
    /// A repeated plan comes without its number of nodes.
    NodesLeftOut,
    /// A repeated plan comes with its number of bytes.
    BytesForNodes,
    /// A repeated plan comes with the template's number of nodes.
    NodesOfTheTemplate,
    /// Nodes of a later copy have parents in the first one.
    InnerParentsStay,
    /// Nodes behind the copies have the parents that they had in the template.
    ParentsBehindStay,
    /// Each copy stands below the one before it.
    CopiesBelowEachOther,
    /// All copies but the first stand behind the plan.
    CopiesBehindThePlan,
    /// The template keeps its numbers, and the copies stand behind it.
    TemplateNotRenumbered,
    /// With a count of 1 the plan is copied.
    OnceIsACopy,
    /// Copies have the child without what is below it.
    OnlyTheChildRepeated,
    /// The marked block itself is repeated, unless it is the root.
    BlockRepeated,
    /// Whichever node is marked, it is taken for the first that could be.
    FirstBlockMarked,
    /// What stands behind the marked block is left out.
    BehindLeftOut,
    /// Small plans come in the order of their bytes, whatever their number of nodes.
    BytesAlone,
    /// Small plans of one size come in falling order of their bytes.
    BytesFalling,
    /// Small plans of one size come in the order of their last bytes.
    BytesFromTheEnd,
    /// Small plans of one size come in the order of their kinds, then of their parents.
    OrderByKinds,
    /// Small plans of one size come in the order of their parents, then of their kinds.
    OrderByParents,
    /// Small plans come in falling number of nodes.
    SizesFalling,
    /// One small plan does not come.
    OnePlanLeftOut,
    /// The first plan of each size does not come, but for the very first.
    FirstOfASizeLeftOut,
    /// The last plan of each size does not come, but for the very last.
    LastOfASizeLeftOut,
    /// No small plan with an xor comes.
    SmallWithoutXor,
    /// No small plan with a conditional comes.
    SmallWithoutConditional,
    /// No small plan with a waiting and comes.
    SmallWithoutWaitingAnd,
    /// Only small plans in the fixed numbering come.
    FixedNumberingsAlone,
    /// Only small plans whose parents never fall come.
    LevelByLevelAlone,
    /// Small plans of five levels do not come.
    FiveLevelsLeftOut,
    /// Small plans with four children below one block do not come.
    FourChildrenLeftOut,
    /// Small plans with two conditionals do not come.
    TwoConditionalsLeftOut,
    /// Small plans come in which a conditional has three children.
    ThreeBranchesCome,
    /// Small plans come in which a conditional has one child.
    OneBranchComes,
    /// Blocks without children come after the single task.
    LoneBlocksCome,
    /// What comes is the plan behind the next.
    SkipsEverySecond,
    /// What comes is the plan that was handed in.
    StaysWhereItIs,
    /// What comes is the plan before, but for the first.
    GoesBack,
    /// What comes is the plan behind the renumbered one.
    NextOfTheRenumbered,
    /// Behind the last small plan comes the first.
    WrapsAround,
    /// Behind the last small plan comes the last again.
    StaysAtTheLast,
    /// The last small plan is 27.
    LastIs27,
    /// The last plan of each size is 26, but for the very first.
    LastOfASizeIs26,
    /// A plan of five nodes that begins as the last one does is 26.
    LastByItsFront,
    /// A plan that is not small is 26.
    NotSmallIs26,
    /// A plan that is not small is 1.
    NotSmallIs1,
    /// A plan of six nodes counts as small: it is 26.
    SixNodesAre26,
    /// Small plans have at most four nodes.
    FourNodesAtMost,
    /// For a next plan 7 is found before what is wrong with the plan.
    NextLengthFirst,
    /// 7 comes before 26.
    LengthBeforeLast,
    /// 7 comes before 27.
    LengthBeforeNotSmall,
    /// 27 comes before 1: for more than ten bytes.
    NotSmallBeforeLength,
    /// 27 comes before 2.
    NotSmallBeforeKinds,
    /// 27 comes before 6.
    NotSmallBeforeDepth,
    /// A plan of two to ten bytes is not looked at for 2 to 5.
    UncheckedPlansGoOn,
    /// A next plan is written into any bytes that it fits into.
    NextIntoEnough,
    /// A next plan is written into more than ten bytes.
    NextIntoMore,
    /// Just as many bytes must be lent as the next plan has.
    NextIntoItsLength,
    /// The bytes behind a next plan become 0.
    NextClearsTheRest,
    /// A next plan is written to the back of the lent bytes.
    NextAtTheBack,
    /// Of a next plan only what differs from the plan before is written.
    OnlyChangesWritten,
    /// The root of a next plan has 0 for a parent.
    NextRootBelowZero,
    /// Where no plan comes next, the first one is written.
    RefusedNextWrites,
    /// A next plan is written as far as it goes, and then it is 7.
    ShortNextWrites,
    /// A next plan comes without its number of nodes.
    NextNodesLeftOut,
    /// A next plan comes with its number of bytes.
    NextBytesForNodes,
    /// A next plan comes with the number of nodes of the one before.
    NodesOfThePlanBefore,
    /// A next plan comes with its number of nodes in the place of a site.
    NextNodesAsASite,
    /// The generator multiplies by one less.
    FactorOneLess,
    /// The generator multiplies by 1,664,325.
    FactorHasAnotherDigit,
    /// The generator adds one more.
    AddendOneMore,
    /// The generator adds nothing.
    NothingAdded,
    /// The generator adds before it multiplies.
    AddsBefore,
    /// A product of more than 32 bits becomes the largest number.
    LargeProductIsTheLargest,
    /// A sum of more than 32 bits becomes the largest number.
    LargeSumIsTheLargest,
    /// The generator keeps 64 bits.
    AllBitsKept,
    /// The generator keeps 31 bits.
    OneBitFewerKept,
    /// The generator keeps the rest modulo 2^32 - 1.
    ModuloOneLess,
    /// The first draw is made from the seed itself, and so on.
    SeedDrawnFirst,
    /// A draw is the rest of the division.
    RestDrawn,
    /// A draw is the whole number.
    WholeNumberDrawn,
    /// A draw has 15 bits.
    FifteenBitsDrawn,
    /// A draw is the number divided by 65,535.
    DividedByOneLess,
    /// A draw is rounded to the nearest.
    DrawsRounded,
    /// Numbers are signed where they are divided.
    DrawsSigned,
    /// An event takes three draws.
    EventTakesThree,
    /// A step takes five draws.
    StepTakesFive,
    /// Every step is drawn from the seed.
    EachStepFromTheSeed,
    /// A load goes on where the last one ended, whatever the seed.
    GeneratorGoesOn,
    /// Seed 0 counts as 1.
    SeedZeroIsOne,
    /// Only the lower 16 bits of a seed count.
    SeedCut,
    /// A seed's bytes are read in the other order.
    SeedBytesReversed,
    /// The count is added to the seed.
    CountInTheSeed,
    /// Seed and count are taken for each other.
    SeedAndCountSwapped,
    /// An even first draw is a message.
    EvenIsAMessage,
    /// A first draw in the upper half is a message.
    HighDrawsAreMessages,
    /// Codes are drawn from 0 to 7.
    CodesFromZero,
    /// One is added to the second draw before the division, not behind it.
    OneAddedFirst,
    /// Codes are drawn from 1 to 7.
    SevenCodes,
    /// Nodes are drawn from 1 on.
    NodesFromOne,
    /// Nodes are drawn of 160, whatever the plan has.
    NodesOfTheLargestPlan,
    /// Sites are drawn of 160, whatever the plan has.
    SitesOfTheLargestPlan,
    /// The last node is never drawn.
    LastNodeLeftOut,
    /// The node is the third draw's part of all nodes.
    NodesScaled,
    /// Only eight bits of the third draw count.
    NodeDrawCut,
    /// Only eight bits of the fourth draw count.
    SiteDrawCut,
    /// A message is never for its own node's site.
    SiteIsNotTheNode,
    /// The second draw is the node, the third the code.
    NodeDrawnBeforeCode,
    /// The third draw is the site, the fourth the node.
    SiteDrawnBeforeNode,
    /// A step is written as node, code and site.
    NodeWrittenFirst,
    /// A step is written as code, site and node.
    SiteWrittenBeforeNode,
    /// An event has the site of its fourth draw.
    EventReadsItsSite,
    /// An event has its node for a site.
    EventAtItsNode,
    /// An event has 0 for a site.
    EventAtZero,
    /// An event has the number of nodes for a site.
    EventAtTheNodeCount,
    /// Steps whose code does not apply to the node are left out.
    UnfitStepsLeftOut,
    /// Steps that a simulation refuses are left out.
    RefusedStepsLeftOut,
    /// A load begins with the second step.
    FirstStepDropped,
    /// A load begins with the last step.
    LastStepFirst,
    /// The last byte of a load is not written.
    LastSiteNotWritten,
    /// For a load 7 is found before what is wrong with the plan.
    LoadLengthFirst,
    /// A plan is not looked at for 2 to 6 before a load is drawn.
    LoadOfAnyPlan,
    /// A plan is not looked at for 6 before a load is drawn.
    LoadOfDeepPlans,
    /// A load's length is worked out in 32 bits.
    TripleIn32Bits,
    /// A load's length is compared in 16 bits where it is not the right one.
    TripleIn16Bits,
    /// A load is written into more bytes than it has.
    LoadIntoMore,
    /// A load is written as far as the bytes go, and that passes.
    LoadIntoFewer,
    /// Up to two bytes behind the last step are overlooked.
    OddBytesOverlooked,
    /// Any number of whole steps may be lent for a load.
    AnyWholeSteps,
    /// A step has four bytes, as a kept one has.
    FourBytesAStep,
    /// A load of no step is 7.
    NoStepRefused,
    /// A load of more than 65,535 steps is 7.
    ManyStepsRefused,
    /// Only the lower 16 bits of a load's count count.
    StepsCut,
    /// A load is written as far as the bytes go, and then it is 7.
    RefusedLoadWrites,
    /// Where the plan is refused, the bytes for a load become 0.
    RefusedPlanClears,
    /// A load comes with its count.
    LoadAnswersItsCount,
    /// A load comes with the plan's number of nodes.
    LoadAnswersItsNodes,
}

impl Mistake {
    /// All mistakes; the first is number 1.
    pub const ALL: [Mistake; 459] = [
        Mistake::CommitUnlessAbortHeard,
        Mistake::PickAtTheChild,
        Mistake::TurnedDownStillRuns,
        Mistake::ContingencyStartsEarly,
        Mistake::OfferedMayFail,
        Mistake::PretendsAfterTheFirst,
        Mistake::AllEndedAtTheRootsStart,
        Mistake::GuardNeverHolds,
        Mistake::SameGuardForAll,
        Mistake::SetsNothing,
        Mistake::RefusesEveryPlan,
        Mistake::AndWaits,
        Mistake::AndGuardStaysOld,
        Mistake::WaitingAndFailsAtOnce,
        Mistake::SecondBranchOnYes,
        Mistake::NumbersCut,
        Mistake::GuardBeforeBars,
        Mistake::SiteLeftOut,
        Mistake::HearsAnything,
        Mistake::FalseMessageBelieved,
        Mistake::MessageInTheWrongRow,
        Mistake::SelfAmongSiblings,
        Mistake::EmptyClauseHolds,
        Mistake::GuardClearsTheRest,
        Mistake::ShortBufferFirst,
        Mistake::RefusedPassWrites,
        Mistake::AnswersReadEverywhere,
        Mistake::LosersStayOffered,
        Mistake::OfferedBeforeTurnedDown,
        Mistake::BlocksAreClassed,
        Mistake::CentralPicksTwice,
        Mistake::CentralAndWaits,
        Mistake::CentralWaitingAndFailsAtOnce,
        Mistake::PassTakesWaitingAndForOr,
        Mistake::RefusesKind8,
        Mistake::RewriteTouchesOr,
        Mistake::RewriteTouchesParents,
        Mistake::RewriteSparesTheRoot,
        Mistake::RefusedRewriteWrites,
        Mistake::RuleLeftOut,
        Mistake::RuleWithMessages,
        Mistake::RuleWithRefusals,
        Mistake::StartRuleByOwnKind,
        Mistake::RootRuleByItsKind,
        Mistake::OfferRuleByParent,
        Mistake::PickedCommitHasUsualRule,
        Mistake::WaitingAndHasRuleOfAnd,
        Mistake::TableIgnored,
        Mistake::TableStays,
        Mistake::TableWithAnyClass,
        Mistake::TableClassesIdle,
        Mistake::TableInAnyOrder,
        Mistake::LongerTable,
        Mistake::PlanBeforeTable,
        Mistake::TableClassesBlocks,
        Mistake::TextTableIgnored,
        Mistake::TextEmptyTable,
        Mistake::TextTwoTables,
        Mistake::TextPlanBeforeTable,
        Mistake::TextTableFirst,
        Mistake::AiredInAnyBlock,
        Mistake::OnlyTheParentCounts,
        Mistake::AiredBeforeTheEnd,
        Mistake::OpenBeforeLost,
        Mistake::LostAsFailed,
        Mistake::AllTasksOfALostBlock,
        Mistake::LostByTheCommonTable,
        Mistake::LostTasksAreMarked,
        Mistake::GuardRuleLeftOut,
        Mistake::GuardRuleWithRefusals,
        Mistake::CheckTableTakesNone,
        Mistake::CheckTableByLength,
        Mistake::PassRecordByTheCommonTable,
        Mistake::PassRecordWithoutTable,
        Mistake::PassRecordPlanFirst,
        Mistake::PassRecordFaultsFirst,
        Mistake::PassRecordOfEachAlone,
        Mistake::RefusedPassRecordWrites,
        Mistake::RehearseWritesRefusals,
        Mistake::RehearseClearsTheRest,
        Mistake::RehearseLengthLeftOut,
        Mistake::RehearseLengthFirst,
        Mistake::RehearseIntoWhatFits,
        Mistake::VersionInTheLowestByte,
        Mistake::VersionOneHigher,
        Mistake::SimulationSeesAllRows,
        Mistake::FullJournalFindsStepFirst,
        Mistake::FullJournalForgets,
        Mistake::RefusedKeepWrites,
        Mistake::RefusedStepIsKept,
        Mistake::ChangedAlwaysOne,
        Mistake::EventKeptWithItsSite,
        Mistake::MessageKeptAsEvent,
        Mistake::KeepClearsTheRest,
        Mistake::KeepAnswersNumberAlone,
        Mistake::RepeatUndoClears,
        Mistake::MessageUndoAtTheEvent,
        Mistake::PickUndoAtTheChild,
        Mistake::UndoOnlyIfOne,
        Mistake::UndoTogglesTheBit,
        Mistake::UndoClearsTheByte,
        Mistake::UndoNeedsTheBit,
        Mistake::UndoOfAnything,
        Mistake::UndoTrustsRepeats,
        Mistake::UndoTakesTheNextPlace,
        Mistake::UndoRewritesTheEntry,
        Mistake::UndoAnswersTheSite,
        Mistake::NoStepBeforeLength,
        Mistake::RefusedUndoCounts,
        Mistake::CountAboveIsCut,
        Mistake::HearRefusesRepeats,
        Mistake::OneLevelMore,
        Mistake::ParentsBeforeKinds,
        Mistake::DepthsFromZero,
        Mistake::DepthsLengthFirst,
        Mistake::TextWithReturns,
        Mistake::PlanBeforeText,
        Mistake::MovedPointStandsTwice,
        Mistake::KnownNameNeedsAFreeSlot,
        Mistake::LastFreeSlot,
        Mistake::FullSlotsOverwritten,
        Mistake::FreeNameTakesItsSlot,
        Mistake::WordIsTheCount,
        Mistake::CountWraps,
        Mistake::SevenBytesOfAName,
        Mistake::NameEndsAtZero,
        Mistake::NameOfAnyLength,
        Mistake::SlotsOfAnyNumber,
        Mistake::TwoOfOneName,
        Mistake::FreeNamesCompared,
        Mistake::PointPastTheCount,
        Mistake::PointAtTheCountRefused,
        Mistake::PlacesCut,
        Mistake::NoSlotBeforePoints,
        Mistake::TakeBackDropsNothing,
        Mistake::BackDropsNothing,
        Mistake::DropsAtTheCount,
        Mistake::DroppedNamesStay,
        Mistake::DropClearsFreeNames,
        Mistake::NoStepBeforePoints,
        Mistake::EntryBeforePoints,
        Mistake::RefusedTakeBackDrops,
        Mistake::BackDropsItsPoint,
        Mistake::UnknownAfterEntries,
        Mistake::UnknownBeforePoints,
        Mistake::FreeNameIsGoneBackTo,
        Mistake::BackHalfUndone,
        Mistake::FirstFaultFromTheFront,
        Mistake::LowestFaultOnTheWay,
        Mistake::BackToHereRefused,
        Mistake::BackFromNoStepRefused,
        Mistake::BackStopsOneEarly,
        Mistake::BackOneTooFar,
        Mistake::BackClearsRepeats,
        Mistake::BackReplays,
        Mistake::BackLooksBelowThePoint,
        Mistake::BackTrustsRepeats,
        Mistake::BackRewritesEntries,
        Mistake::BackAnswersThePlace,
        Mistake::BackLeavesTheCount,
        Mistake::BackOnlyIfOne,
        Mistake::BackPickAtTheChild,
        Mistake::BackMessageAtTheEvent,
        Mistake::RowsByFirstUse,
        Mistake::RowsFalling,
        Mistake::UnusedDesksHaveRows,
        Mistake::RowsOfAllSites,
        Mistake::NotHappenedByTheNamedDesk,
        Mistake::MarkInTheRowOfTheNode,
        Mistake::DesksBeforeKinds,
        Mistake::DesksBeforeDepth,
        Mistake::DesksAfterLengths,
        Mistake::DeskA0Accepted,
        Mistake::HighestDeskRefused,
        Mistake::MoreThan480Bytes,
        Mistake::BytesLeftOver,
        Mistake::UnusedDeskIsTheFirst,
        Mistake::DesksAboveAreEvents,
        Mistake::DesksCut,
        Mistake::OwnDeskIsNotTold,
        Mistake::EventHeardEverywhere,
        Mistake::PickSetAtTheNodesDesk,
        Mistake::PickNamesTheNodesDesk,
        Mistake::ResultsNameTheRow,
        Mistake::DeskStepNamesTheSite,
        Mistake::EntryHasTheRow,
        Mistake::TakeBackInTheRowOfTheNumber,
        Mistake::TakeBackAtTheEventsDesk,
        Mistake::PickTakenBackAtTheNode,
        Mistake::DeskTakeBackDropsNothing,
        Mistake::DeskBackDropsNothing,
        Mistake::DeskTableIgnored,
        Mistake::DeskPlanBeforeTable,
        Mistake::RefusedDesksWrite,
        Mistake::MarksBeforeFaults,
        Mistake::MarksBeforeNewFaults,
        Mistake::NewAnswersFirst,
        Mistake::TaskNumbersSwapped,
        Mistake::AnswerCut,
        Mistake::UnreachedAnswerRefused,
        Mistake::MarksNotCompared,
        Mistake::MarksComparedAtTheTask,
        Mistake::MarksComparedInTheReach,
        Mistake::RefusedChangeWrites,
        Mistake::OnlyThePathChanges,
        Mistake::ContingencyForgotten,
        Mistake::SerialForgotten,
        Mistake::SubtreesForgotten,
        Mistake::StopsAtTheParent,
        Mistake::NewlyUnreachedStay,
        Mistake::NewOffersCommit,
        Mistake::AnswerStored,
        Mistake::LargeAnswerFirst,
        Mistake::LargeAnswerLast,
        Mistake::LargeAnswerFreeWhereUnreached,
        Mistake::MarksOfTheNewAnswers,
        Mistake::SameAnswerUnchecked,
        Mistake::AnyNodeChanges,
        Mistake::TaskCut,
        Mistake::TaskBeforeLengths,
        Mistake::ChangeAnswersACount,
        Mistake::LargestWay,
        Mistake::UnreadAnswersOne,
        Mistake::UnreadAnswersStay,
        Mistake::AnswersThatLeadStay,
        Mistake::EndNotLookedAt,
        Mistake::MarkNotLookedAt,
        Mistake::NoWayGivesTheEnd,
        Mistake::OfferIsEnough,
        Mistake::CommitsOnlyIfAllAboveDo,
        Mistake::OnlyTheParentLeavesOut,
        Mistake::TargetBeforeNode,
        Mistake::TargetBeforeLength,
        Mistake::TurnedDownNotWanted,
        Mistake::NotStartedNotWanted,
        Mistake::AnyMarkWanted,
        Mistake::AnyEndWanted,
        Mistake::TargetNodeCut,
        Mistake::TargetMarkCut,
        Mistake::TargetEndCut,
        Mistake::RefusedWayWrites,
        Mistake::WayAnswersItsLength,
        Mistake::PlacesFromZero,
        Mistake::NeverTheLastChild,
        Mistake::PlacesBelow32,
        Mistake::NeverNo,
        Mistake::SubtreesInTurn,
        Mistake::LastNodeFirst,
        Mistake::ZeroLast,
        Mistake::NoneOffersLast,
        Mistake::ChildrenFalling,
        Mistake::ChildrenByKind,
        Mistake::LevelByLevel,
        Mistake::SiblingsTogether,
        Mistake::TopSubtreesOnly,
        Mistake::PlanCopied,
        Mistake::ParentsNotMoved,
        Mistake::KindsNotMoved,
        Mistake::RootIsItsOwnParent,
        Mistake::FixedPlanRefused,
        Mistake::RenumberLengthFirst,
        Mistake::RenumberIntoMore,
        Mistake::ShortRenumberWrites,
        Mistake::RenumberAnswersNodes,
        Mistake::FormLengthFirst,
        Mistake::LengthBeforeNumbering,
        Mistake::NumberingBeforeTaskParents,
        Mistake::NumberingBeforeDepth,
        Mistake::AnyNumberingHasAForm,
        Mistake::FormRenumbers,
        Mistake::OneLevelUpOnly,
        Mistake::LastOfItsDepth,
        Mistake::FormDepthsFromZero,
        Mistake::FormHasParents,
        Mistake::DepthBeforeKind,
        Mistake::RefusedFormWrites,
        Mistake::FirstDepthUnchecked,
        Mistake::LaterDepthOne,
        Mistake::JumpOfTwo,
        Mistake::FallsByOneOnly,
        Mistake::FirstLineLessDeep,
        Mistake::DepthsBeforeKinds,
        Mistake::DepthsAfterTaskParents,
        Mistake::DepthsAfterTree,
        Mistake::WrongDepthIs3,
        Mistake::TooDeepIs17,
        Mistake::FormDepthsCut,
        Mistake::FormRootIsItself,
        Mistake::RefusedPlanWrites,
        Mistake::LengthBeforeDepths,
        Mistake::OddByteOverlooked,
        Mistake::FormIntoMore,
        Mistake::FormAnswersLines,
        Mistake::SerialsRepeated,
        Mistake::OrNotRepeated,
        Mistake::XorNotRepeated,
        Mistake::WaitingAndNotRepeated,
        Mistake::RootNotMarked,
        Mistake::SeveralChildrenRepeated,
        Mistake::FirstChildRepeated,
        Mistake::ChildIsMarked,
        Mistake::MarkedTaskIs9,
        Mistake::NoSuchNodeIs23,
        Mistake::MarkByTheNewNumber,
        Mistake::MarkCut,
        Mistake::CountCut,
        Mistake::CountOfNone,
        Mistake::CountTo33,
        Mistake::CountBelow32,
        Mistake::OneTimeMore,
        Mistake::FullPlanRefused,
        Mistake::SizeOfWholeTemplates,
        Mistake::TooManyNodesIs1,
        Mistake::RepeatLengthFirst,
        Mistake::NodeBeforeLength,
        Mistake::RepeatLengthLast,
        Mistake::CountBeforeNode,
        Mistake::CountBeforeBlock,
        Mistake::SizeBeforeBlock,
        Mistake::SizeBeforeCount,
        Mistake::RepeatIntoEnough,
        Mistake::RepeatIntoMore,
        Mistake::RepeatClearsTheRest,
        Mistake::RefusedRepeatWrites,
        Mistake::NodesLeftOut,
        Mistake::BytesForNodes,
        Mistake::NodesOfTheTemplate,
        Mistake::InnerParentsStay,
        Mistake::ParentsBehindStay,
        Mistake::CopiesBelowEachOther,
        Mistake::CopiesBehindThePlan,
        Mistake::TemplateNotRenumbered,
        Mistake::OnceIsACopy,
        Mistake::OnlyTheChildRepeated,
        Mistake::BlockRepeated,
        Mistake::FirstBlockMarked,
        Mistake::BehindLeftOut,
        Mistake::BytesAlone,
        Mistake::BytesFalling,
        Mistake::BytesFromTheEnd,
        Mistake::OrderByKinds,
        Mistake::OrderByParents,
        Mistake::SizesFalling,
        Mistake::OnePlanLeftOut,
        Mistake::FirstOfASizeLeftOut,
        Mistake::LastOfASizeLeftOut,
        Mistake::SmallWithoutXor,
        Mistake::SmallWithoutConditional,
        Mistake::SmallWithoutWaitingAnd,
        Mistake::FixedNumberingsAlone,
        Mistake::LevelByLevelAlone,
        Mistake::FiveLevelsLeftOut,
        Mistake::FourChildrenLeftOut,
        Mistake::TwoConditionalsLeftOut,
        Mistake::ThreeBranchesCome,
        Mistake::OneBranchComes,
        Mistake::LoneBlocksCome,
        Mistake::SkipsEverySecond,
        Mistake::StaysWhereItIs,
        Mistake::GoesBack,
        Mistake::NextOfTheRenumbered,
        Mistake::WrapsAround,
        Mistake::StaysAtTheLast,
        Mistake::LastIs27,
        Mistake::LastOfASizeIs26,
        Mistake::LastByItsFront,
        Mistake::NotSmallIs26,
        Mistake::NotSmallIs1,
        Mistake::SixNodesAre26,
        Mistake::FourNodesAtMost,
        Mistake::NextLengthFirst,
        Mistake::LengthBeforeLast,
        Mistake::LengthBeforeNotSmall,
        Mistake::NotSmallBeforeLength,
        Mistake::NotSmallBeforeKinds,
        Mistake::NotSmallBeforeDepth,
        Mistake::UncheckedPlansGoOn,
        Mistake::NextIntoEnough,
        Mistake::NextIntoMore,
        Mistake::NextIntoItsLength,
        Mistake::NextClearsTheRest,
        Mistake::NextAtTheBack,
        Mistake::OnlyChangesWritten,
        Mistake::NextRootBelowZero,
        Mistake::RefusedNextWrites,
        Mistake::ShortNextWrites,
        Mistake::NextNodesLeftOut,
        Mistake::NextBytesForNodes,
        Mistake::NodesOfThePlanBefore,
        Mistake::NextNodesAsASite,
        Mistake::FactorOneLess,
        Mistake::FactorHasAnotherDigit,
        Mistake::AddendOneMore,
        Mistake::NothingAdded,
        Mistake::AddsBefore,
        Mistake::LargeProductIsTheLargest,
        Mistake::LargeSumIsTheLargest,
        Mistake::AllBitsKept,
        Mistake::OneBitFewerKept,
        Mistake::ModuloOneLess,
        Mistake::SeedDrawnFirst,
        Mistake::RestDrawn,
        Mistake::WholeNumberDrawn,
        Mistake::FifteenBitsDrawn,
        Mistake::DividedByOneLess,
        Mistake::DrawsRounded,
        Mistake::DrawsSigned,
        Mistake::EventTakesThree,
        Mistake::StepTakesFive,
        Mistake::EachStepFromTheSeed,
        Mistake::GeneratorGoesOn,
        Mistake::SeedZeroIsOne,
        Mistake::SeedCut,
        Mistake::SeedBytesReversed,
        Mistake::CountInTheSeed,
        Mistake::SeedAndCountSwapped,
        Mistake::EvenIsAMessage,
        Mistake::HighDrawsAreMessages,
        Mistake::CodesFromZero,
        Mistake::OneAddedFirst,
        Mistake::SevenCodes,
        Mistake::NodesFromOne,
        Mistake::NodesOfTheLargestPlan,
        Mistake::SitesOfTheLargestPlan,
        Mistake::LastNodeLeftOut,
        Mistake::NodesScaled,
        Mistake::NodeDrawCut,
        Mistake::SiteDrawCut,
        Mistake::SiteIsNotTheNode,
        Mistake::NodeDrawnBeforeCode,
        Mistake::SiteDrawnBeforeNode,
        Mistake::NodeWrittenFirst,
        Mistake::SiteWrittenBeforeNode,
        Mistake::EventReadsItsSite,
        Mistake::EventAtItsNode,
        Mistake::EventAtZero,
        Mistake::EventAtTheNodeCount,
        Mistake::UnfitStepsLeftOut,
        Mistake::RefusedStepsLeftOut,
        Mistake::FirstStepDropped,
        Mistake::LastStepFirst,
        Mistake::LastSiteNotWritten,
        Mistake::LoadLengthFirst,
        Mistake::LoadOfAnyPlan,
        Mistake::LoadOfDeepPlans,
        Mistake::TripleIn32Bits,
        Mistake::TripleIn16Bits,
        Mistake::LoadIntoMore,
        Mistake::LoadIntoFewer,
        Mistake::OddBytesOverlooked,
        Mistake::AnyWholeSteps,
        Mistake::FourBytesAStep,
        Mistake::NoStepRefused,
        Mistake::ManyStepsRefused,
        Mistake::StepsCut,
        Mistake::RefusedLoadWrites,
        Mistake::RefusedPlanClears,
        Mistake::LoadAnswersItsCount,
        Mistake::LoadAnswersItsNodes,
    ];
}

/// The reference with one mistake.
pub struct Broken {
    mistake: Mistake,
    honest: Reference,
    has_passed: bool,
    last_table: [u8; 12],
    /// What is taken for all small plans.
    small: small::List,
    loads: load::Loads,
}

impl Broken {
    /// A copy with this mistake.
    pub fn new(mistake: Mistake) -> Broken {
        let (small, loads) = (small::List::new(mistake), load::Loads::new(mistake));
        Broken { mistake, honest: Reference, has_passed: false, last_table: tables::COMMON, small, loads }
    }

    fn cut(&self, number: u32) -> u32 {
        if self.mistake == Mistake::NumbersCut { number & 0xff } else { number }
    }

    /// An event of a valid plan at a row of the right length.
    fn event(&mut self, form: Form, plan: &[u8], code: u32, node: u32, row: &mut [u8]) -> u32 {
        let plain = &*form.plain(plan);
        let tree = Tree::new(plain);
        let mut view = row.to_vec();
        self.misread(&tree, code, node as usize, &mut view);
        let result = self.honest.step(&self.misread_kinds(plain), code, node, &mut view);
        let applies = matches!(number(result), 0 | 10 | 11);
        let at = if applies { form.seat_of_event(plan, code, node as usize) << 8 } else { 0 };
        let rule = self.rule(plain, code, node) & !0xffff;
        let result = if number(result) == 0 { at | rule } else { u32::from(number(result)) | at };
        match self.mistake {
            Mistake::PickAtTheChild if applies && code == PICK => {
                let at = form.seat(plan, node as usize) << 8;
                return pick_at_child(node, row, at, rule);
            }
            Mistake::GuardNeverHolds if applies => return 11 | at,
            Mistake::EmptyClauseHolds if number(result) == 11 && is_lone_offer(&tree, code, node, row) => {
                row[node as usize] |= bit(code);
                return at | rule;
            }
            Mistake::SetsNothing => return result,
            Mistake::PretendsAfterTheFirst if applies && self.has_passed => return at | rule,
            Mistake::RuleWithRefusals if applies && number(result) != 0 => return result | rule,
            Mistake::GuardBeforeBars if number(result) == 10 && !guard_holds(plain, code, node, row) => {
                return 11 | at;
            }
            _ => {}
        }
        if number(result) == 0 {
            self.has_passed = true;
            row[node as usize] |= bit(code);
        }
        match self.mistake {
            Mistake::SiteLeftOut => result & !0xff00,
            Mistake::RuleLeftOut => result & 0xffff,
            _ => result,
        }
    }

    /// Writes a guard; the result has no rule yet.
    fn write_guard(&mut self, plan: &[u8], code: u32, node: u32, buffer: &mut [u8]) -> u32 {
        let plan = match self.mistake {
            Mistake::AndGuardStaysOld => with_kind(plan, AND, WAITING_AND),
            _ => plan.to_vec(),
        };
        let before = buffer.len();
        let result = self.honest.guard(&plan, code, node, buffer) & !0xff00;
        let length = value(result) as usize;
        match self.mistake {
            Mistake::SameGuardForAll if number(result) == 0 && before >= 4 => {
                buffer[..4].copy_from_slice(&[1, 1, 1, node as u8]);
                4 << 16
            }
            Mistake::SelfAmongSiblings if number(result) == 0 && code == TURNED_DOWN => {
                buffer[4] += 1;
                if before > length + 1 {
                    buffer[length..][..2].copy_from_slice(&[7, node as u8]);
                }
                result + (2 << 16)
            }
            Mistake::GuardClearsTheRest if number(result) == 0 => {
                buffer[length..].fill(0);
                result
            }
            Mistake::ShortBufferFirst if matches!(number(result), 8 | 9) && before == 0 => 7,
            _ => result,
        }
    }

    /// What the mistake makes of a plan's kinds before it decides.
    fn misread_kinds(&self, plan: &[u8]) -> Vec<u8> {
        match self.mistake {
            Mistake::AndWaits => with_kind(plan, AND, WAITING_AND),
            Mistake::WaitingAndFailsAtOnce => with_kind(plan, WAITING_AND, AND),
            _ => plan.to_vec(),
        }
    }

    /// What the mistake makes of a table before it is checked.
    fn misread_table(&self, table: &[u8]) -> Vec<u8> {
        let mut table = table.to_vec();
        match self.mistake {
            Mistake::TableWithAnyClass => {
                table.iter_mut().skip(3).step_by(2).for_each(|class| *class &= 3);
            }
            Mistake::TableClassesIdle if table.len() > 1 && table[1] <= 3 => table[1] = 0,
            Mistake::TableInAnyOrder if table.len() == 12 => {
                let mut frames: Vec<[u8; 2]> = table.as_chunks().0.to_vec();
                frames.sort_by_key(|frame| frame[0]);
                table = frames.concat();
            }
            Mistake::LongerTable => table.truncate(12),
            _ => {}
        }
        table
    }

    /// What the mistake makes of a row before it decides.
    fn misread(&self, tree: &Tree, code: u32, node: usize, view: &mut [u8]) {
        let children = tree.children.get(node).map_or(&[][..], Vec::as_slice);
        let is = |kind: u8| node < view.len() && tree.kind(node) == kind;
        let aborted = children.iter().any(|&child| view[child] & bit(ABORT) != 0);
        let finishing = matches!(code, COMMIT | OFFER);
        match self.mistake {
            Mistake::CommitUnlessAbortHeard if finishing && !aborted => {
                children.iter().for_each(|&child| view[child] |= bit(COMMIT));
            }
            Mistake::TurnedDownStillRuns if finishing && is(XOR) => {
                children.iter().for_each(|&child| view[child] &= !bit(TURNED_DOWN));
            }
            Mistake::OfferedMayFail if code == ABORT && node < view.len() => view[node] &= !bit(OFFER),
            Mistake::ContingencyStartsEarly if code == START => {
                if let Some((_, before)) = tree.before(node, CONTINGENCY)
                    && view[before] & bit(COMMIT) == 0
                {
                    view[before] |= bit(ABORT);
                }
            }
            Mistake::SecondBranchOnYes if code == START => {
                if let Some((parent, _)) = tree.before(node, CONDITIONAL)
                    && view[parent] & bit(YES) != 0
                {
                    view[parent] |= bit(NO);
                }
            }
            _ => {}
        }
    }

    /// Classes tasks below blocks that didn't go through as the mistake does.
    fn misclass(&self, plan: &[u8], table: &[u8], marks: &mut [u8], classes: &mut [u8]) {
        let tree = Tree::new(plan);
        let class = |mark: u8| table[2 * usize::from(mark) + 1];
        let is_lost = |mark: &u8| matches!(mark, 4 | 5);
        for node in (0..classes.len()).filter(|&node| tree.kind(node) == TASK) {
            let above: Vec<u8> = tree.above(node).iter().map(|&block| marks[block]).collect();
            let lost = above.iter().any(is_lost);
            let open = above.iter().any(|&mark| mark < 3);
            let committed = marks[node] == 3;
            match self.mistake {
                Mistake::AiredInAnyBlock => classes[node] = class(marks[node]),
                Mistake::OnlyTheParentCounts if committed => {
                    classes[node] = match above.first() {
                        Some(4 | 5) => class(5),
                        Some(0..=2) => class(2),
                        _ => class(3),
                    }
                }
                Mistake::AiredBeforeTheEnd if committed && !lost => classes[node] = class(3),
                Mistake::OpenBeforeLost if committed && open => classes[node] = class(2),
                Mistake::LostAsFailed if committed && lost => classes[node] = class(4),
                Mistake::AllTasksOfALostBlock if lost && marks[node] != 0 => classes[node] = class(5),
                Mistake::LostByTheCommonTable if committed && lost => classes[node] = 2,
                Mistake::LostTasksAreMarked if committed && lost => marks[node] = 5,
                _ => {}
            }
        }
    }

    /// A pass that no length and no table spoils, classed as the mistake does.
    fn classed_pass(
        &mut self,
        plan: &[u8],
        table: &[u8],
        answers: &[u8],
        marks: &mut [u8],
        classes: &mut [u8],
    ) -> u32 {
        let result = self.pass(plan, answers, marks);
        if result != 0 {
            return result;
        }
        let mut table: [u8; 12] = table.try_into().unwrap_or(tables::COMMON);
        if self.mistake == Mistake::PassRecordByTheCommonTable {
            table = tables::COMMON;
        }
        let tree = Tree::new(plan);
        classes.copy_from_slice(&tables::classes(&tree, &table, marks));
        if self.mistake == Mistake::PassRecordOfEachAlone {
            let tasks = (0..classes.len()).filter(|&node| tree.kind(node) == TASK);
            tasks.for_each(|node| classes[node] = table[2 * usize::from(marks[node]) + 1]);
        }
        self.misclass(plan, &table, marks, classes);
        0
    }

    /// What the program prints for a text: by its own steps and record, if no
    /// mistake in reading it comes before.
    fn printed(&mut self, text: &[u8]) -> Vec<u8> {
        match self.mistake {
            Mistake::TextWithReturns => {
                let without: Vec<u8> = text.iter().copied().filter(|&byte| byte != b'\r').collect();
                reference::rehearse(&without)
            }
            Mistake::PlanBeforeText => plan_before_text(text),
            Mistake::TextEmptyTable => reference::rehearse(text.strip_prefix(b"==\n").unwrap_or(text)),
            Mistake::TextTwoTables => second_table(text),
            Mistake::TextTableIgnored | Mistake::TextPlanBeforeTable | Mistake::TextTableFirst => {
                without_table(self.mistake, text)
            }
            _ => match reference::rehearse(text) {
                refused if refused.len() == 3 => refused,
                _ => Sound::read(text).lines(self),
            },
        }
    }

    /// A step that isn't kept: refused by itself, or for want of a place.
    fn not_kept(&self, step: Step, simulated: u32, entries: &mut [Entry], count: &mut usize) -> u32 {
        let has_place = *count < entries.len();
        let by_itself = (8..=12).contains(&number(simulated));
        match self.mistake {
            Mistake::FullJournalFindsStepFirst if by_itself => return simulated,
            Mistake::RefusedKeepWrites if by_itself && has_place => {
                entries[*count] = entry_of(self.mistake, step, simulated, false);
            }
            Mistake::RefusedStepIsKept if by_itself && has_place => *count += 1,
            _ => {}
        }
        if has_place || matches!(number(simulated), 1..=7 | 22) { simulated } else { 7 }
    }

    /// A take-back of a valid plan, with a state of the right length, of an
    /// entry that there is.
    fn take_back(&self, form: Form, plan: &[u8], state: &mut [u8], entry: Entry) -> u32 {
        let entry = misread_entry(self.mistake, form, plan, entry);
        let before = state.to_vec();
        let result = form.undo(&mut Reference, plan, (state, &mut [entry], &mut 1));
        let [code, node, _, changed] = entry;
        let is_read = result == 0 || (result == 9 && self.mistake == Mistake::UndoOfAnything);
        if !is_read || changed == 0 {
            return result;
        }
        let Some(place) = form.place(plan, step_of(entry)) else {
            return result;
        };
        let was_set = before[place] & bit(code.into()) != 0;
        match self.mistake {
            Mistake::UndoTogglesTheBit => state[place] = before[place] ^ bit(code.into()),
            Mistake::UndoClearsTheByte => state[place] = 0,
            Mistake::UndoNeedsTheBit if !was_set => return 12,
            Mistake::UndoOfAnything => state[place] &= !bit(code.into()),
            Mistake::UndoAnswersTheSite => {
                return form.seat_of_event(plan, code.into(), node.into()) << 8;
            }
            _ => {}
        }
        0
    }

    /// A message of a valid plan, with a state of the right length, that the
    /// reference answered with this result.
    fn message(&self, form: Form, plan: &[u8], step: Step, state: &mut [u8], result: u32) -> u32 {
        let Step { code, node, .. } = step;
        let (told, own) = (form.place(plan, step), form.place(plan, Step { site: HAPPENS, ..step }));
        match (self.mistake, number(result), told, own) {
            (Mistake::RuleWithMessages, 0, ..) => Reference.rule(&form.plain(plan), code, node),
            (Mistake::FalseMessageBelieved, 12, Some(told), _) => {
                state[told] |= bit(code);
                0
            }
            (Mistake::MessageInTheWrongRow, 0, Some(told), Some(own)) => {
                state[told] &= !bit(code);
                state[own] |= bit(code);
                0
            }
            _ => result,
        }
    }
}

/// The calls that there are in both forms. What is wrong with desks alone comes
/// in between (`desks`).
impl Broken {
    fn check_in(&mut self, form: Form, plan: &[u8]) -> u32 {
        let honest = form.check(&mut self.honest, plan);
        let plain = form.plain(plan);
        match self.mistake {
            Mistake::RefusesEveryPlan => 1,
            Mistake::RefusesKind8 if honest != 1 && plain.iter().step_by(2).any(|&kind| kind == 8) => 2,
            Mistake::OneLevelMore if honest == 6 && levels(&plain) == 33 => 0,
            Mistake::ParentsBeforeKinds if honest == 2 && !plans::has_tree(&plain) => 3,
            _ => honest,
        }
    }

    fn step_in(&mut self, form: Form, plan: &[u8], code: u32, node: u32, row: &mut [u8]) -> u32 {
        let (code, node) = (self.cut(code), self.cut(node));
        let nodes = form.nodes(plan);
        let is_in_range = (1..=8).contains(&code) && (node as usize) < nodes;
        if form.check(&mut self.honest, plan) == 0 && row.len() == nodes && is_in_range {
            return self.event(form, plan, code, node, row);
        }
        form.step(&mut self.honest, plan, code, node, row)
    }

    fn simulate_in(&mut self, form: Form, plan: &[u8], step: Step, state: &mut [u8]) -> u32 {
        match form {
            Form::Plain => self.simulate_alike(form, plan, step, state),
            Form::Desks => desks::simulate(self, plan, step, state),
        }
    }

    fn simulate_alike(&mut self, form: Form, plan: &[u8], step: Step, state: &mut [u8]) -> u32 {
        let (code, node) = (self.cut(step.code), self.cut(step.node));
        let step = Step { code, node, ..step };
        let nodes = form.nodes(plan);
        let is_valid = form.check(&mut self.honest, plan) == 0 && state.len() == form.state_length(plan);
        if !is_valid || (node as usize) >= nodes || !(1..=8).contains(&code) {
            return form.simulate(&mut self.honest, plan, step, state);
        }
        if step.site != HAPPENS {
            let result = form.simulate(&mut self.honest, plan, step, state);
            return self.message(form, plan, step, state, result);
        }
        let at_child = self.mistake == Mistake::PickAtTheChild;
        let own = match at_child {
            true => form.seat(plan, node as usize),
            false => form.seat_of_event(plan, code, node as usize),
        };
        let own = form.row(plan, own).unwrap_or(0);
        let known = match self.mistake {
            Mistake::SimulationSeesAllRows => all_heard(state, nodes),
            _ => vec![0; nodes],
        };
        let row = &mut state[own * nodes..][..nodes];
        let mut seen: Vec<u8> = row.iter().zip(&known).map(|(own, known)| own | known).collect();
        let result = self.event(form, plan, code, node, &mut seen);
        row[node as usize] |= if number(result) == 0 { seen[node as usize] & bit(code) } else { 0 };
        let root_starts = number(result) == 0 && code == START && node == 0;
        if root_starts && self.mistake == Mistake::AllEndedAtTheRootsStart {
            let own = |node: u32| form.place(plan, Step { code: COMMIT, node, site: HAPPENS });
            (0..nodes as u32).filter_map(own).for_each(|place| state[place] |= bit(COMMIT));
        }
        result
    }

    fn keep_in(&mut self, form: Form, plan: &[u8], step: Step, (state, entries, count): Kept) -> u32 {
        let mut after = state.to_vec();
        let result = self.simulate_in(form, plan, step, &mut after);
        let has_place = *count < entries.len();
        let forgets = self.mistake == Mistake::FullJournalForgets && !has_place;
        if number(result) != 0 || !(has_place || forgets) {
            return self.not_kept(step, result, entries, count);
        }
        let changed = after != state;
        state.copy_from_slice(&after);
        if forgets {
            return result;
        }
        entries[*count] = entry_of(self.mistake, step, result, changed);
        *count += 1;
        match self.mistake {
            Mistake::KeepClearsTheRest => entries[*count..].fill([0; 4]),
            Mistake::KeepAnswersNumberAlone => return 0,
            _ => {}
        }
        result
    }

    fn undo_in(&mut self, form: Form, plan: &[u8], kept: Kept) -> u32 {
        match form {
            Form::Plain => self.undo_alike(form, plan, kept),
            Form::Desks => desks::undo(self, plan, kept),
        }
    }

    fn undo_alike(&mut self, form: Form, plan: &[u8], (state, entries, count): Kept) -> u32 {
        let checked = self.check_in(form, plan);
        let seen = match self.mistake {
            Mistake::CountAboveIsCut => (*count).min(entries.len()),
            Mistake::UndoTakesTheNextPlace if (1..entries.len()).contains(count) => *count + 1,
            _ => *count,
        };
        let no_step_first = self.mistake == Mistake::NoStepBeforeLength && *count == 0;
        if checked != 0 {
            return checked;
        }
        if (state.len() != form.state_length(plan) && !no_step_first) || seen > entries.len() {
            return 7;
        }
        if seen == 0 {
            return 16;
        }
        let result = self.take_back(form, plan, state, entries[seen - 1]);
        match (self.mistake, number(result)) {
            (Mistake::UndoRewritesTheEntry, 0) => entries[seen - 1] = [0; 4],
            (Mistake::CountAboveIsCut, 0) => *count = seen,
            _ => {}
        }
        if number(result) == 0 || self.mistake == Mistake::RefusedUndoCounts {
            *count -= 1;
        }
        result
    }

    fn record_in(
        &mut self,
        form: Form,
        plan: &[u8],
        state: &[u8],
        marks: &mut [u8],
        classes: &mut [u8],
    ) -> u32 {
        let table = self.last_table;
        let result = match self.mistake {
            Mistake::TableStays => form.record_by(&mut self.honest, plan, &table, state, marks, classes),
            _ => form.record(&mut self.honest, plan, state, marks, classes),
        };
        if result != 0 {
            return result;
        }
        let plain = form.plain(plan);
        match self.mistake {
            Mistake::OfferedBeforeTurnedDown => {
                marks.iter_mut().filter(|mark| **mark == 5).for_each(|mark| *mark = 2);
            }
            Mistake::BlocksAreClassed => class_blocks(&plain, &tables::COMMON, marks, classes),
            _ => self.misclass(&plain, &tables::COMMON, marks, classes),
        }
        result
    }

    fn record_by_in(
        &mut self,
        form: Form,
        plan: &[u8],
        table: &[u8],
        state: &[u8],
        marks: &mut [u8],
        classes: &mut [u8],
    ) -> u32 {
        let seen = self.misread_table(table);
        let checked = form.check(&mut self.honest, plan);
        let result = match self.mistake {
            Mistake::PlanBeforeTable if checked != 0 => checked,
            _ => form.record_by(&mut self.honest, plan, &seen, state, marks, classes),
        };
        if result != 0 {
            return result;
        }
        let plain = form.plain(plan);
        match self.mistake {
            Mistake::TableStays => self.last_table.copy_from_slice(&seen),
            Mistake::TableIgnored => return form.record(&mut self.honest, plan, state, marks, classes),
            Mistake::TableClassesBlocks => class_blocks(&plain, &seen, marks, classes),
            _ => self.misclass(&plain, &seen, marks, classes),
        }
        result
    }
}

/// The entry of a step that passed with this result.
fn entry_of(mistake: Mistake, step: Step, result: u32, changed: bool) -> Entry {
    let site = match mistake {
        Mistake::EventKeptWithItsSite if step.site == HAPPENS => site(result),
        Mistake::MessageKeptAsEvent => HAPPENS,
        _ => step.site,
    };
    let changed = changed || mistake == Mistake::ChangedAlwaysOne;
    [step.code as u8, step.node as u8, site as u8, u8::from(changed)]
}

/// What the mistake makes of the last entry before it is taken back.
fn misread_entry(mistake: Mistake, form: Form, plan: &[u8], entry: Entry) -> Entry {
    let [code, node, site, changed] = entry;
    let is_heard = form.row(plan, site.into()).is_some();
    let is_pick = u32::from(code) == PICK && u32::from(site) == HAPPENS;
    match mistake {
        Mistake::RepeatUndoClears => [code, node, site, 1],
        Mistake::MessageUndoAtTheEvent if is_heard => [code, node, HAPPENS as u8, changed],
        Mistake::PickUndoAtTheChild if is_pick => [code, node, form.seat(plan, node.into()) as u8, changed],
        Mistake::UndoOnlyIfOne => [code, node, site, u8::from(changed == 1)],
        Mistake::UndoTrustsRepeats if changed == 0 => [START as u8, 0, HAPPENS as u8, 0],
        _ => entry,
    }
}

/// The step that was kept as an entry.
fn step_of([code, node, site, _]: Entry) -> Step {
    Step { code: code.into(), node: node.into(), site: site.into() }
}

/// Reads the written guard against a row.
fn guard_holds(plan: &[u8], code: u32, node: u32, row: &[u8]) -> bool {
    let mut buffer = [0; 300];
    let length = value(Reference.guard(plan, code, node, &mut buffer)) as usize;
    let mut clauses = &buffer[1..length];
    while let Some((&events, rest)) = clauses.split_first() {
        let (clause, rest) = rest.split_at(2 * usize::from(events));
        let is_heard = |event: &[u8]| row[usize::from(event[1])] & bit(u32::from(event[0])) != 0;
        if !clause.chunks(2).any(is_heard) {
            return false;
        }
        clauses = rest;
    }
    true
}

/// Whether the event turns down an only child that has offered.
fn is_lone_offer(tree: &Tree, code: u32, node: u32, row: &[u8]) -> bool {
    let node = node as usize;
    let is_alone = tree.above(node).first().is_some_and(|&parent| tree.children[parent].len() == 1);
    code == TURNED_DOWN && is_alone && row[node] & bit(OFFER) != 0
}

/// A pick by the child's own row, as if it were the child's business.
fn pick_at_child(node: u32, row: &mut [u8], at: u32, rule: u32) -> u32 {
    let own = &mut row[node as usize];
    if *own & bit(PICK) != 0 {
        10 | at
    } else if *own & bit(OFFER) == 0 {
        11 | at
    } else {
        *own |= bit(PICK);
        at | rule
    }
}

impl Implementation for Broken {
    fn check(&mut self, plan: &[u8]) -> u32 {
        self.check_in(Form::Plain, plan)
    }

    fn rewrite(&mut self, plan: &[u8], out: &mut [u8]) -> u32 {
        let result = self.honest.rewrite(plan, out);
        match (self.mistake, number(result)) {
            (Mistake::RewriteTouchesOr, 0) => out.copy_from_slice(&with_kind(out, OR, WAITING_AND)),
            (Mistake::RewriteTouchesParents, 0) => {
                out.iter_mut().filter(|byte| **byte == AND).for_each(|byte| *byte = WAITING_AND);
            }
            (Mistake::RewriteSparesTheRoot, 0) => out[0] = plan[0],
            (Mistake::RefusedRewriteWrites, 7) => {
                out.iter_mut().zip(plan).for_each(|(byte, of_plan)| *byte = *of_plan);
            }
            _ => {}
        }
        result
    }

    fn renumber(&mut self, plan: &[u8], out: &mut [u8]) -> u32 {
        forms::renumber(self.mistake, plan, out)
    }

    fn to_depths(&mut self, plan: &[u8], out: &mut [u8]) -> u32 {
        forms::to_depths(self.mistake, plan, out)
    }

    fn from_depths(&mut self, depths: &[u8], out: &mut [u8]) -> u32 {
        forms::from_depths(self.mistake, depths, out)
    }

    fn repeat(&mut self, plan: &[u8], node: u32, count: u32, out: &mut [u8]) -> u32 {
        repeat::repeat(self.mistake, plan, node, count, out)
    }

    fn next_plan(&mut self, plan: &[u8], out: &mut [u8]) -> u32 {
        self.small.next_plan(plan, out)
    }

    fn check_depths(&mut self, plan: &[u8], depths: &mut [u8]) -> u32 {
        let honest = self.honest.check_depths(plan, depths);
        match self.mistake {
            Mistake::RefusesEveryPlan => 1,
            Mistake::DepthsFromZero if honest == 0 => {
                depths.iter_mut().for_each(|depth| *depth -= 1);
                0
            }
            Mistake::DepthsLengthFirst if depths.len() * 2 != plan.len() => 7,
            _ => honest,
        }
    }

    fn guard(&mut self, plan: &[u8], code: u32, node: u32, buffer: &mut [u8]) -> u32 {
        let (code, node) = (self.cut(code), self.cut(node));
        let result = self.write_guard(plan, code, node, buffer);
        let rule = value(self.rule(plan, code, node)) << 8;
        match (self.mistake, number(result)) {
            (Mistake::GuardRuleLeftOut, 0) => result,
            (Mistake::GuardRuleWithRefusals, 0 | 7) | (_, 0) => result | rule,
            _ => result,
        }
    }

    fn rule(&mut self, plan: &[u8], code: u32, node: u32) -> u32 {
        let (code, node) = (self.cut(code), self.cut(node));
        let result = self.honest.rule(plan, code, node);
        if number(result) != 0 {
            return result;
        }
        let kind = |node: usize| u32::from(plan[2 * node]);
        let by_kind = |kind: u32| (kind << 4 | code) << 16;
        let own = node as usize;
        let parent = || usize::from(plan[2 * own + 1]);
        match (self.mistake, code) {
            (Mistake::StartRuleByOwnKind, START) if own > 0 => by_kind(kind(own)),
            (Mistake::RootRuleByItsKind, START) if own == 0 => by_kind(kind(own)),
            (Mistake::OfferRuleByParent, OFFER) => by_kind(kind(parent())),
            (Mistake::PickedCommitHasUsualRule, COMMIT) => by_kind(kind(own)),
            (Mistake::WaitingAndHasRuleOfAnd, _) => {
                self.honest.rule(&with_kind(plan, WAITING_AND, AND), code, node)
            }
            _ => result,
        }
    }

    fn step(&mut self, plan: &[u8], code: u32, node: u32, row: &mut [u8]) -> u32 {
        self.step_in(Form::Plain, plan, code, node, row)
    }

    fn hear(&mut self, plan: &[u8], code: u32, node: u32, row: &mut [u8]) -> u32 {
        let before = row.to_vec();
        let result = self.honest.hear(plan, self.cut(code), self.cut(node), row);
        if self.mistake == Mistake::HearRefusesRepeats && result == 0 && row == before {
            return 10;
        }
        if self.mistake == Mistake::HearsAnything && number(result) == 9 {
            row[node as usize] |= bit(code);
            return 0;
        }
        result
    }

    fn pass(&mut self, plan: &[u8], answers: &[u8], marks: &mut [u8]) -> u32 {
        if self.mistake == Mistake::AnswersReadEverywhere
            && self.honest.check(plan) == 0
            && answers.len() == plan.len() / 2
            && marks.len() == answers.len()
            && !plan
                .chunks(2)
                .zip(answers)
                .all(|(node, answer)| !matches!(node[0], TASK | CONDITIONAL) || matches!(answer, 1 | 2))
        {
            return 13;
        }
        let result = match self.mistake {
            Mistake::PassTakesWaitingAndForOr => {
                self.honest.pass(&with_kind(plan, WAITING_AND, OR), answers, marks)
            }
            _ => self.honest.pass(plan, answers, marks),
        };
        match self.mistake {
            Mistake::RefusedPassWrites if matches!(number(result), 13 | 14) => marks[0] = 4,
            Mistake::LosersStayOffered if result == 0 => {
                marks.iter_mut().filter(|mark| **mark == 5).for_each(|mark| *mark = 2);
            }
            _ => {}
        }
        result
    }

    fn impact(&mut self, plan: &[u8], answers: &mut [u8], marks: &mut [u8], change: Change) -> u32 {
        impact::impact(self.mistake, plan, answers, marks, change)
    }

    fn way(&mut self, plan: &[u8], wanted: Wanted, answers: &mut [u8]) -> u32 {
        way::way(self.mistake, plan, wanted, answers)
    }

    fn simulate(&mut self, plan: &[u8], code: u32, node: u32, site: u32, state: &mut [u8]) -> u32 {
        self.simulate_in(Form::Plain, plan, Step { code, node, site }, state)
    }

    fn keep(
        &mut self,
        plan: &[u8],
        step: Step,
        state: &mut [u8],
        entries: &mut [Entry],
        count: &mut usize,
    ) -> u32 {
        self.keep_in(Form::Plain, plan, step, (state, entries, count))
    }

    fn undo(&mut self, plan: &[u8], state: &mut [u8], entries: &mut [Entry], count: &mut usize) -> u32 {
        self.undo_in(Form::Plain, plan, (state, entries, count))
    }

    fn point_name(&mut self, name: &[u8], count: usize, slots: Slots) -> u32 {
        points::name(self.mistake, name, count, slots)
    }

    fn point_undo(
        &mut self,
        plan: &[u8],
        state: &mut [u8],
        entries: &mut [Entry],
        count: &mut usize,
        slots: Slots,
    ) -> u32 {
        points::undo(self, Form::Plain, plan, (state, entries, count), slots)
    }

    fn point_back(
        &mut self,
        plan: &[u8],
        name: &[u8],
        state: &mut [u8],
        entries: &mut [Entry],
        count: &mut usize,
        slots: Slots,
    ) -> u32 {
        points::back(self, Form::Plain, plan, name, (state, entries, count), slots)
    }

    fn record(&mut self, plan: &[u8], state: &[u8], marks: &mut [u8], classes: &mut [u8]) -> u32 {
        self.record_in(Form::Plain, plan, state, marks, classes)
    }

    fn record_by(
        &mut self,
        plan: &[u8],
        table: &[u8],
        state: &[u8],
        marks: &mut [u8],
        classes: &mut [u8],
    ) -> u32 {
        self.record_by_in(Form::Plain, plan, table, state, marks, classes)
    }

    fn desk_check(&mut self, plan: &[u8]) -> u32 {
        desks::check(self, plan)
    }

    fn desk_step(&mut self, plan: &[u8], code: u32, node: u32, row: &mut [u8]) -> u32 {
        desks::step(self, plan, code, node, row)
    }

    fn desk_simulate(&mut self, plan: &[u8], code: u32, node: u32, desk: u32, state: &mut [u8]) -> u32 {
        self.simulate_in(Form::Desks, plan, Step { code, node, site: desk }, state)
    }

    fn desk_keep(
        &mut self,
        plan: &[u8],
        step: Step,
        state: &mut [u8],
        entries: &mut [Entry],
        count: &mut usize,
    ) -> u32 {
        desks::keep(self, plan, step, (state, entries, count))
    }

    fn desk_undo(&mut self, plan: &[u8], state: &mut [u8], entries: &mut [Entry], count: &mut usize) -> u32 {
        self.undo_in(Form::Desks, plan, (state, entries, count))
    }

    fn desk_point_undo(
        &mut self,
        plan: &[u8],
        state: &mut [u8],
        entries: &mut [Entry],
        count: &mut usize,
        slots: Slots,
    ) -> u32 {
        points::undo(self, Form::Desks, plan, (state, entries, count), slots)
    }

    fn desk_point_back(
        &mut self,
        plan: &[u8],
        name: &[u8],
        state: &mut [u8],
        entries: &mut [Entry],
        count: &mut usize,
        slots: Slots,
    ) -> u32 {
        points::back(self, Form::Desks, plan, name, (state, entries, count), slots)
    }

    fn desk_record(&mut self, plan: &[u8], state: &[u8], marks: &mut [u8], classes: &mut [u8]) -> u32 {
        desks::record(self, plan, state, marks, classes)
    }

    fn desk_record_by(
        &mut self,
        plan: &[u8],
        table: &[u8],
        state: &[u8],
        marks: &mut [u8],
        classes: &mut [u8],
    ) -> u32 {
        desks::record_by(self, plan, table, state, marks, classes)
    }

    fn check_table(&mut self, table: &[u8]) -> u32 {
        match self.mistake {
            Mistake::CheckTableTakesNone if table.is_empty() => 0,
            Mistake::CheckTableByLength if table.len() == tables::COMMON.len() => 0,
            _ => self.honest.check_table(&self.misread_table(table)),
        }
    }

    fn pass_record(
        &mut self,
        plan: &[u8],
        table: &[u8],
        answers: &[u8],
        marks: &mut [u8],
        classes: &mut [u8],
    ) -> u32 {
        let seen = match self.mistake {
            Mistake::PassRecordWithoutTable if table.is_empty() => tables::COMMON.to_vec(),
            _ => self.misread_table(table),
        };
        let nodes = plan.len() / 2;
        let honest =
            self.honest.pass_record(plan, &seen, answers, &mut marks.to_vec(), &mut classes.to_vec());
        match (self.mistake, honest) {
            (Mistake::PassRecordPlanFirst, 21) if self.honest.check(plan) != 0 => self.honest.check(plan),
            (Mistake::PassRecordFaultsFirst, 7) if marks.len() == nodes => {
                let fault = self.honest.pass(plan, answers, &mut vec![0; nodes]);
                if fault == 0 { 7 } else { fault }
            }
            (Mistake::RefusedPassRecordWrites, 13 | 14) => {
                classes[0] = 0;
                honest
            }
            (_, 0 | 13 | 14) => self.classed_pass(plan, &seen, answers, marks, classes),
            _ => honest,
        }
    }

    fn rehearse(&mut self, text: &[u8], out: &mut [u8]) -> u32 {
        let lines = self.printed(text);
        let refused = (lines.len() == 3).then(|| number_of_line(&lines));
        match (self.mistake, refused) {
            (Mistake::RehearseWritesRefusals, Some(number)) if out.len() > 3 => {
                out[..3].copy_from_slice(&lines);
                number
            }
            (Mistake::RehearseLengthFirst, Some(_)) if out.len() < OUT_BYTES => 7,
            (_, Some(number)) => number,
            (Mistake::RehearseIntoWhatFits, None) if lines.len() <= out.len() => put(&lines, out),
            (_, None) if out.len() < OUT_BYTES => 7,
            (Mistake::RehearseLengthLeftOut, None) => put(&lines, out) & 0xffff,
            (Mistake::RehearseClearsTheRest, None) => {
                out.fill(0);
                put(&lines, out)
            }
            (_, None) => put(&lines, out),
        }
    }

    fn workload(&mut self, plan: &[u8], seed: u32, count: u32, out: &mut [u8]) -> u32 {
        self.loads.workload(plan, seed, count, out)
    }

    fn version(&mut self) -> u32 {
        match self.mistake {
            Mistake::VersionInTheLowestByte => 1,
            Mistake::VersionOneHigher => self.honest.version() + 1,
            _ => self.honest.version(),
        }
    }

    fn central(&mut self, plan: &[u8], code: u32, node: u32, marks: &mut [u8], notes: &mut [u8]) -> u32 {
        let (code, node) = (self.cut(code), self.cut(node));
        let plan = match self.mistake {
            Mistake::CentralAndWaits => with_kind(plan, AND, WAITING_AND),
            Mistake::CentralWaitingAndFailsAtOnce => with_kind(plan, WAITING_AND, AND),
            _ => plan.to_vec(),
        };
        if self.mistake != Mistake::CentralPicksTwice || code != PICK {
            return self.honest.central(&plan, code, node, marks, notes);
        }
        let mut unpicked: Vec<u8> = notes.iter().map(|note| note & !bit(PICK)).collect();
        let result = self.honest.central(&plan, code, node, marks, &mut unpicked);
        if value(result) == 1 {
            notes[node as usize] |= unpicked[node as usize];
        }
        result
    }

    fn print(&mut self, texts: &[Vec<u8>]) -> Vec<Vec<u8>> {
        texts.iter().map(|text| self.printed(text)).collect()
    }
}

/// What any of the rows of a state has heard.
fn all_heard(state: &[u8], nodes: usize) -> Vec<u8> {
    (0..nodes)
        .map(|node| state.iter().skip(node).step_by(nodes).fold(0, |heard, byte| heard | byte))
        .collect()
}

/// The number in a line of its own.
fn number_of_line(line: &[u8]) -> u32 {
    let digits = String::from_utf8_lossy(line);
    u32::from_str_radix(digits.trim_end(), 16).expect("two digits and a line feed")
}

/// Writes lines to the front of lent bytes; answers as the call does.
fn put(lines: &[u8], out: &mut [u8]) -> u32 {
    out[..lines.len()].copy_from_slice(lines);
    (lines.len() as u32) << 16
}

/// The plan with one kind taken for another.
fn with_kind(plan: &[u8], from: u8, to: u8) -> Vec<u8> {
    let mut plan = plan.to_vec();
    plan.iter_mut().step_by(2).filter(|kind| **kind == from).for_each(|kind| *kind = to);
    plan
}

/// Reports a refused plan although the text goes wrong further on.
fn plan_before_text(text: &[u8]) -> Vec<u8> {
    let divider = text.windows(4).position(|window| window == b"\n--\n");
    let first = divider.map(|place| reference::rehearse(&text[..place + 4]));
    match first {
        Some(output) if output.len() == 3 && output < b"07".to_vec() => output,
        _ => reference::rehearse(text),
    }
}

/// Gives blocks the classes that tasks would have.
fn class_blocks(plan: &[u8], table: &[u8], marks: &[u8], classes: &mut [u8]) {
    for (node, class) in classes.iter_mut().enumerate().filter(|(node, _)| plan[2 * node] != TASK) {
        *class = table[2 * usize::from(marks[node]) + 1];
    }
}

/// A text's table with the line that closes it, and the rest.
fn split_table(text: &[u8]) -> Option<(&[u8], &[u8])> {
    let mut at = 0;
    for line in text.split_inclusive(|&byte| byte == b'\n') {
        at += line.len();
        match line {
            b"--\n" => return None,
            b"==\n" => return Some(text.split_at(at)),
            _ => {}
        }
    }
    None
}

/// Drops the first of two tables.
fn second_table(text: &[u8]) -> Vec<u8> {
    match split_table(text) {
        Some((_, rest)) if split_table(rest).is_some() => reference::rehearse(rest),
        _ => reference::rehearse(text),
    }
}

/// What a text leads to if its table counts too little, or too much.
fn without_table(mistake: Mistake, text: &[u8]) -> Vec<u8> {
    let honest = reference::rehearse(text);
    let Some((table, rest)) = split_table(text) else {
        return honest;
    };
    let is_refused = honest == b"15\n";
    let by_rest = reference::rehearse(rest);
    match mistake {
        Mistake::TextTableIgnored if honest.len() > 3 => by_rest,
        Mistake::TextPlanBeforeTable if is_refused && by_rest.len() == 3 => by_rest,
        Mistake::TextTableFirst => {
            let alone = reference::rehearse(&[table, b"01ff\n--\n"].concat());
            if alone == b"15\n" { alone } else { honest }
        }
        _ => honest,
    }
}

/// How many levels a plan has whose parents are right.
fn levels(plan: &[u8]) -> usize {
    let mut level = vec![1; plan.len() / 2];
    for node in 1..level.len() {
        level[node] = level[usize::from(plan[2 * node + 1])] + 1;
    }
    level.into_iter().max().unwrap_or(0)
}
