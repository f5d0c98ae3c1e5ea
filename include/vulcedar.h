/*
 * Vulcedar 1.9.0: jobs that follow a plan, decided by the sites that do the work.
 *
 * A plan is a tree of tasks and blocks. Every node has a site; a site keeps one row of bytes, what it has heard, and
 * decides the events of its node from that row alone. This header is all that a host needs; docs/GUIDE.md shows how a
 * host uses it, docs/RULES.md has every rule, docs/CHANGES.md says what a later version may change.
 *
 * PLANS. Two bytes a node, a kind (enum vulcedar_kind) and the number of the parent; nodes are numbered from 0 in the
 * order of the bytes. Node 0 is the root and has VULCEDAR_NO_PARENT for a parent; a parent stands before its children. A
 * task has no children, a conditional two, any other block 1 to VULCEDAR_CHILDREN_MOST. A plan has at most
 * VULCEDAR_NODES_MOST nodes, none deeper than VULCEDAR_DEPTH_MOST; the root has depth 1. All sites of a job need the same
 * plan, byte for byte, from the job's beginning to its end.
 *
 * NUMBERING. One tree can be numbered in several ways, each a plan of its own. A plan is in the fixed numbering if every
 * subtree has its numbers together: behind each node stands the subtree of its first child, then that of its second, and so
 * on. Each tree has one such plan. Another editor's depth form has two bytes a line, a kind and a depth, in the order of the
 * fixed numbering; the root's depth is 1, and the parent of any other line is the last one before it that is one less deep.
 * Everything that a host stores by node numbers (rows, states, journals, answers, marks) belongs to one numbering: renumber
 * a plan before its job begins, not during it.
 *
 * EVENTS. A code (enum vulcedar_code, named by verbs; marks have participles) and a node. A pick of a node is decided at
 * the site of the node's parent, any other event at the site of its own node.
 *
 * ROWS. A row has one byte a node: bit code - 1 of a node's byte is set once the site has heard of that event. A fresh row
 * is zeros. A row has one owner at a time: two calls on the same row must not run at once, and between them nothing but
 * these calls may write it.
 *
 * JOURNALS. A list of entries (vulcedar_entry) and a count, both lent by the host: the first entries, as many as the count
 * says, are the steps of a simulation that were kept and not taken back, oldest first. A fresh journal has count 0 and
 * entries of any bytes, and goes with a state of zeros. While nothing but vulcedar_keep, vulcedar_undo and the calls with
 * points, with one plan, writes state, entries and count, the state is the one that the steps in the journal give from zeros
 * by vulcedar_simulate, and each of them passes there. A step on a full journal is refused with 7: lend a longer list with
 * the same entries in front, and call again; nothing else changes. The entries are the host's to store and to send, four
 * bytes each. Taking back believes them: it cannot know whether a simulation kept an entry. So keep the steps of a journal
 * that comes from elsewhere anew, from a state of zeros.
 *
 * POINTS. Names for places in a journal, to go back to: sixteen slots (VULCEDAR_POINTS_MOST), each with a name of
 * VULCEDAR_NAME_LENGTH bytes, which may be any, and a place. The host lends them as two lists, names and places; the struct
 * vulcedar_points has both, and zeros are no points. In places, 0 is a free slot, and n + 1 a point behind the first n steps.
 * The calls with points refuse with 7 other lengths than 128 bytes and 16 places, a point above the count, and two points of
 * one name. While nothing but vulcedar_keep, vulcedar_point_name, vulcedar_point_undo and vulcedar_point_back writes what is
 * lent, there is no such point; a host may also free a slot by storing 0 as its place. vulcedar_undo knows no points and
 * leaves those that it passes above the count: in a journal with points, take back with vulcedar_point_undo.
 *
 * DESKS. Sites that share a machine can share a row. A plan with desks has three bytes a node: kind, parent, and the node's
 * desk, 0 to VULCEDAR_DESK_HIGHEST; without the third bytes it is its plain plan, of two bytes a node. A desk is in use if a
 * node has it, and each desk in use has one row for all of its sites. What passes at a desk is heard there at once. The
 * state of a simulation is the rows of the desks in use, lowest desk first: desks in use times nodes bytes. The calls named
 * vulcedar_desk_.. take plans with desks. In their parameters, entries and results a desk stands where the others have a
 * site, and 8 refuses every desk that is not in use. All other calls take plain plans: a desk hears by vulcedar_hear with
 * its row and the plain plan. A plan in which each node has its own number for a desk is treated by the calls with desks
 * just as its plain plan is by the others. Neither form is taken for the other: a plan that one check accepts, the other
 * refuses with 1 or 2.
 *
 * RECORDS. Every node's mark (enum vulcedar_mark) and class (enum vulcedar_class, how long its work is kept). A block has
 * no class. A task's class is what a table has for the mark as which the task counts: its own mark, unless it committed;
 * a committed task counts as turned down if a block above it (its parent, and so on up to the root) failed or was turned
 * down, else as offered if one of them is not committed, else as committed. A table is VULCEDAR_TABLE_LENGTH bytes, each
 * mark in rising order and behind it its class; not started has no class.
 *
 * RULES. One byte says by which rule an event passes, for a log. Its low hexadecimal digit is the event's code, its high
 * digit a kind: for offer, commit, abort, yes and no the kind of the node itself; for start, pick and turned down the kind
 * of its parent, 0 for the root. The commit of an xor's child, which goes by the pick alone, is f3. These 37 occur: 01;
 * 12-14; 21-24; 31-34; 41-44; 51-54, 57, 58; 61-64; 71-76; 81-84; f3.
 *
 * RESULTS. Every call but vulcedar_version answers 32 bits:
 *   bits 0-7    VULCEDAR_NUMBER: an enum vulcedar_number, 0 if the call passed, else why it was refused
 *   bits 8-15   VULCEDAR_SITE: the event's site, of a call with desks VULCEDAR_DESK: its desk; for vulcedar_guard,
 *               VULCEDAR_GUARD_RULE: the guard's rule
 *   bits 16-31  VULCEDAR_VALUE: what the call says there
 * Bits 8-15 are 0 also where they say nothing, and 0 is a site too, so let the number tell: a result of vulcedar_step, or
 * of vulcedar_simulate or vulcedar_keep with an event, has a site if its number is VULCEDAR_PASSED, VULCEDAR_BARRED or
 * VULCEDAR_UNMET; one of vulcedar_desk_step, vulcedar_desk_simulate or vulcedar_desk_keep then has the event's desk there;
 * and no other result has one.
 * The lowest number that fits is answered, unless a call says another order. A later version may have more numbers: take
 * a number that you do not know as a refusal. A refused call leaves every byte of every buffer as it was.
 *
 * CALLING. No call allocates anything or remembers an earlier one; each may be called from any thread. Buffers of one call
 * must not overlap, and nobody else may write them during the call. A length says how many bytes behind the pointer are
 * there, entries_len how many entries, places_len how many places; with length 0 nothing is read or written, and the
 * pointer may be null. Where count is a pointer it is a buffer too, of one number, and never null. A call takes at most
 * VULCEDAR_STACK_MOST bytes of stack, vulcedar_rehearse at most VULCEDAR_REHEARSE_STACK_MOST (measured for the largest plans
 * and texts).
 *
 * MACHINES. The library is compiled for x86-64 Linux with glibc (any x86-64 processor; position independent code). Of the
 * C library it needs memcpy and memset.
 */
#ifndef VULCEDAR_H
#define VULCEDAR_H

#include <stddef.h>
#include <stdint.h>

#ifdef __cplusplus
extern "C" {
#endif

/* The version of this header. vulcedar_version() is that of the library that is linked. */
#define VULCEDAR_VERSION_MAJOR 1
#define VULCEDAR_VERSION_MINOR 9
#define VULCEDAR_VERSION_PATCH 0
#define VULCEDAR_VERSION (65536u * VULCEDAR_VERSION_MAJOR + 256u * VULCEDAR_VERSION_MINOR + VULCEDAR_VERSION_PATCH)

enum vulcedar_kind {
    VULCEDAR_TASK = 1,        /* does work: commits or aborts */
    VULCEDAR_SERIAL = 2,      /* children one after another, as long as they commit */
    VULCEDAR_AND = 3,         /* all children side by side, all must commit; may abort as soon as one has */
    VULCEDAR_OR = 4,          /* all children side by side, one must commit; waits for all of them */
    VULCEDAR_XOR = 5,         /* children offer, one is picked and commits, other offers are turned down */
    VULCEDAR_CONTINGENCY = 6, /* children one after another, until one commits */
    VULCEDAR_CONDITIONAL = 7, /* answers yes (first child) or no (second child) */
    VULCEDAR_WAITING_AND = 8  /* as VULCEDAR_AND, but aborts only when every child has committed or aborted */
};

enum vulcedar_code {
    VULCEDAR_START = 1,  /* of any node, as commit and abort */
    VULCEDAR_OFFER = 2,  /* of a child of an xor, as pick and turn-down */
    VULCEDAR_COMMIT = 3,
    VULCEDAR_ABORT = 4,
    VULCEDAR_YES = 5,    /* of a conditional, as no */
    VULCEDAR_NO = 6,
    VULCEDAR_PICK = 7,
    VULCEDAR_TURN_DOWN = 8
};

enum vulcedar_mark {
    VULCEDAR_NOT_STARTED = 0,
    VULCEDAR_RUNNING = 1,
    VULCEDAR_OFFERED = 2,
    VULCEDAR_COMMITTED = 3,
    VULCEDAR_FAILED = 4,
    VULCEDAR_TURNED_DOWN = 5
};

enum vulcedar_class {
    VULCEDAR_NO_CLASS = 0, /* nothing is kept */
    VULCEDAR_AIRED = 1,    /* kept a year */
    VULCEDAR_DRAFT = 2,    /* a week */
    VULCEDAR_LOG_ONLY = 3  /* a day */
};

enum vulcedar_number {
    VULCEDAR_PASSED = 0,
    VULCEDAR_BAD_LENGTH = 1,       /* the plan has no byte, an odd number of them, or more than 320; with desks: none, no multiple of 3, or above 480 */
    VULCEDAR_BAD_KIND = 2,         /* a node's kind is none */
    VULCEDAR_BAD_PARENT = 3,       /* the root has a parent, or a node's parent does not stand before it */
    VULCEDAR_TASK_PARENT = 4,      /* a task has a child */
    VULCEDAR_BAD_CHILDREN = 5,     /* a block has too few or too many children */
    VULCEDAR_TOO_DEEP = 6,         /* a node lies deeper than 32 */
    VULCEDAR_BAD_BUFFER = 7,       /* a buffer has not the length that the call says, a journal is full, or points are not right */
    VULCEDAR_NOT_IN_PLAN = 8,      /* there is no such code, or the plan has no such node or site, or the desk is not in use */
    VULCEDAR_NOT_APPLICABLE = 9,   /* the node has no such event; vulcedar_impact: it is no task */
    VULCEDAR_BARRED = 10,          /* it happened already, or something that rules it out did; this will not change, unless a step is taken back */
    VULCEDAR_UNMET = 11,           /* the site has not heard all that the event waits for; this may change */
    VULCEDAR_NOT_HAPPENED = 12,    /* simulation: the message tells of something that did not happen */
    VULCEDAR_BAD_ANSWER = 13,      /* pass: a task or a conditional that it comes to has another answer than 1 and 2; vulcedar_impact: or a new answer above 255 */
    VULCEDAR_BAD_PICK = 14,        /* pass: an xor's answer names no child that offers though one does, or names one though none does */
    VULCEDAR_BAD_TEXT = 15,        /* the text of a simulation is not one */
    VULCEDAR_NOTHING_TO_UNDO = 16, /* the journal has no step left to take back */
    VULCEDAR_BAD_DEPTH = 17,       /* a depth form has a depth that cannot be there: the first is not 1, a later one below 2 or more than one deeper than the line before */
    VULCEDAR_NOT_RENUMBERED = 18,  /* the plan is not in the fixed numbering; found behind 6 and before 7 */
    VULCEDAR_UNKNOWN_POINT = 19,   /* no point has this name */
    VULCEDAR_NO_FREE_POINT = 20,   /* sixteen other points are in use */
    VULCEDAR_BAD_TABLE = 21,       /* the table of classes is not one; found before the plan's own numbers */
    VULCEDAR_BAD_DESK = 22,        /* a plan with desks has a desk above VULCEDAR_DESK_HIGHEST; found behind 6 and before 7 */
    VULCEDAR_NOT_REPEATABLE = 23,  /* the marked node is no block of kind 03, 04, 05 or 08 with exactly one child */
    VULCEDAR_BAD_COUNT = 24,       /* the count is not 1 to VULCEDAR_CHILDREN_MOST */
    VULCEDAR_TOO_MANY_NODES = 25,  /* the repeated plan would have more than VULCEDAR_NODES_MOST nodes */
    VULCEDAR_LAST_PLAN = 26,       /* no plan of up to VULCEDAR_SMALL_NODES_MOST nodes comes after this one; found behind 6 and before 7 */
    VULCEDAR_NOT_SMALL = 27,       /* the plan has more than VULCEDAR_SMALL_NODES_MOST nodes; found behind 6 and before 7 */
    VULCEDAR_BAD_MARKS = 28,       /* the marks are not those that the pass leaves for these answers */
    VULCEDAR_BAD_TARGET = 29,      /* a mark is wanted that the pass leaves at no node, or an end that it leaves at no root */
    VULCEDAR_NO_WAY = 30           /* the pass accepts no answers with the marks that are wanted */
};

/* The parts of a result r, a uint32_t. */
#define VULCEDAR_NUMBER(r) ((r) & 0xffu)
#define VULCEDAR_SITE(r) ((r) >> 8 & 0xffu)
#define VULCEDAR_DESK(r) ((r) >> 8 & 0xffu)
#define VULCEDAR_VALUE(r) ((r) >> 16)

/* The rule in a result of vulcedar_rule, and in one of a step, a step of a simulation or a kept step whose event passed. */
#define VULCEDAR_RULE(r) ((r) >> 16 & 0xffu)

/* The rule in a result of vulcedar_guard that passed. */
#define VULCEDAR_GUARD_RULE(r) ((r) >> 8 & 0xffu)

/* The parent byte of the root. */
#define VULCEDAR_NO_PARENT 0xffu

/* The site, or desk, of a step of a simulation, of a kept step and of an entry that stands for "the event happens". */
#define VULCEDAR_HAPPENS 0xffu

/* Limits. No plan of two bytes a node has more bytes than VULCEDAR_PLAN_MOST, no guard more than VULCEDAR_GUARD_MOST. */
#define VULCEDAR_NODES_MOST 160u
#define VULCEDAR_PLAN_MOST 320u
#define VULCEDAR_SMALL_NODES_MOST 5u
#define VULCEDAR_SMALL_PLAN_MOST 10u
#define VULCEDAR_DESK_HIGHEST 0x9fu
#define VULCEDAR_CHILDREN_MOST 32u
#define VULCEDAR_DEPTH_MOST 32u
#define VULCEDAR_GUARD_MOST 290u
#define VULCEDAR_TABLE_LENGTH 12u
#define VULCEDAR_POINTS_MOST 16u
#define VULCEDAR_NAME_LENGTH 8u
#define VULCEDAR_STACK_MOST 8192u
#define VULCEDAR_REHEARSE_STACK_MOST 65536u

/* The common table, to initialise VULCEDAR_TABLE_LENGTH bytes: static const uint8_t table[] = VULCEDAR_COMMON_TABLE; */
#define VULCEDAR_COMMON_TABLE { \
    VULCEDAR_NOT_STARTED, VULCEDAR_NO_CLASS, VULCEDAR_RUNNING, VULCEDAR_LOG_ONLY, VULCEDAR_OFFERED, VULCEDAR_LOG_ONLY, \
    VULCEDAR_COMMITTED, VULCEDAR_AIRED, VULCEDAR_FAILED, VULCEDAR_DRAFT, VULCEDAR_TURNED_DOWN, VULCEDAR_DRAFT }

/* The version of the library: 65536 times the major number, 256 times the minor one and the patch number, added up. */
uint32_t vulcedar_version(void);

/* Checks a plan: 0, or 1 to 6. Its time grows with the number of nodes and no faster, so that an editor can check at every key. */
uint32_t vulcedar_check(const uint8_t *plan, size_t plan_len);

/*
 * For plans made when kind 03 still waited: writes the plan to out with every kind 03 made 08 and every other byte as it
 * is, so that each of its events waits for what it waited for then. A kind 08 stays. 1 to 6, then 7 if out_len is not
 * plan_len. out is written only on 0. Call it once for such a plan, and use the result at every site.
 */
uint32_t vulcedar_rewrite(const uint8_t *plan, size_t plan_len, uint8_t *out, size_t out_len);

/*
 * Writes the same tree in the fixed numbering to out: same kinds, same parents, children in the same order. Two plans become
 * the same bytes if and only if they are the same tree; a plan in the fixed numbering stays as it is. 1 to 6, then 7 if
 * out_len is not plan_len. out is written only on 0.
 */
uint32_t vulcedar_renumber(const uint8_t *plan, size_t plan_len, uint8_t *out, size_t out_len);

/*
 * Writes the depth form of a plan to out: each node's kind and depth. 1 to 6; 18 if the plan is not in the fixed numbering
 * (call vulcedar_renumber first); then 7 if out_len is not plan_len. out is written only on 0.
 */
uint32_t vulcedar_to_depths(const uint8_t *plan, size_t plan_len, uint8_t *out, size_t out_len);

/*
 * Writes the plan of a depth form to out; it is in the fixed numbering, and vulcedar_to_depths gives the form again. 1 and 2
 * as for a plan; 17 for a first depth other than 1, a later one below 2, or one more than one above that of the line before;
 * 4 to 6 as for a plan; then 7 if out_len is not depths_len. out is written only on 0.
 */
uint32_t vulcedar_from_depths(const uint8_t *depths, size_t depths_len, uint8_t *out, size_t out_len);

/*
 * One block for each channel: writes to the front of out a plan in which the subtree of the marked block's child stands
 * count times, side by side below that block, and all else is as in the plan handed in. node is the marked block, by its
 * number in that plan: of kind 03, 04, 05 or 08, with one child. The plan written is in the fixed numbering and within all
 * limits; with a count of 1 it is that of vulcedar_renumber. The value is its number of nodes; the bytes of out behind its
 * two bytes a node are left. 1 to 6, 7 if out_len is not VULCEDAR_PLAN_MOST, 8 if the plan has no such node, 23, 24, 25. out
 * is written only on 0.
 */
uint32_t vulcedar_repeat(const uint8_t *plan, size_t plan_len, uint32_t node, uint32_t count, uint8_t *out, size_t out_len);

/*
 * All small plans, one after another: writes to the front of out the plan that comes next, of all that vulcedar_check
 * accepts with up to VULCEDAR_SMALL_NODES_MOST nodes. They come in rising number of nodes, and those of one number in rising
 * order of their bytes. Begin with the single task, 01ff, and hand in what was written until 26 is answered: there are 4,962,
 * and each comes up once. The value is the number of nodes of the plan written; the bytes of out behind its two bytes a node
 * are left. 1 to 6; 26 if the plan handed in is the last one, 27 if it has more than VULCEDAR_SMALL_NODES_MOST nodes; then 7
 * if out_len is not VULCEDAR_SMALL_PLAN_MOST. out is written only on 0.
 */
uint32_t vulcedar_next_plan(const uint8_t *plan, size_t plan_len, uint8_t *out, size_t out_len);

/*
 * Checks a plan and tells how deep every node lies, for an editor that shows the tree while it is typed. depths has one
 * byte a node; on 0 the root's is 1 and any other node's is one more than its parent's. The number is the one that
 * vulcedar_check gives the plan, 1 to 6; where that would be 0 and depths_len is not the number of nodes, it is 7. depths
 * is written only on 0.
 */
uint32_t vulcedar_check_depths(const uint8_t *plan, size_t plan_len, uint8_t *depths, size_t depths_len);

/*
 * Writes what an event waits for to the front of buf: the number of clauses; for each clause its number of events, then
 * code and node of each. Any event of a clause that is heard satisfies the clause; the event may pass once every clause
 * is satisfied. On 0 the value is the guard's length and bits 8-15 are its rule; the bytes of buf behind the guard are
 * left. 1 to 6, 8, 9, then 7 if buf is too short for this guard.
 */
uint32_t vulcedar_guard(const uint8_t *plan, size_t plan_len, uint32_t code, uint32_t node, uint8_t *buf, size_t buf_len);

/*
 * The rule of an event, whether or not it can happen now: the value is the rule byte. 1 to 6, 8, 9. It reads the plan and
 * nothing else.
 */
uint32_t vulcedar_rule(const uint8_t *plan, size_t plan_len, uint32_t code, uint32_t node);

/*
 * An event wants to happen at its site. row is the row of that site: of the node itself, for a pick that of the node's
 * parent; another row cannot be noticed. If the event passes, its bit is set in row; store the row before you tell anyone.
 * The value is the event's rule if it passes, and 0 if it is refused. 1 to 11.
 */
uint32_t vulcedar_step(const uint8_t *plan, size_t plan_len, uint32_t code, uint32_t node, uint8_t *row, size_t row_len);

/*
 * A site hears of an event: its bit is set in row, the row of the site that hears. A repeat changes nothing. The message
 * is believed: tell a site only of events that passed (docs/GUIDE.md, "A host's two rules"). 1 to 9.
 */
uint32_t vulcedar_hear(const uint8_t *plan, size_t plan_len, uint32_t code, uint32_t node, uint8_t *row, size_t row_len);

/*
 * The single pass: what becomes of every node, once it is known how the tasks end and what is decided. answers has one
 * byte a node; the pass looks at those of the nodes that it comes to: for a task whether it works (1) or fails (2), for a
 * conditional whether it says yes (1) or no (2), for an xor which of its children is picked, counted from 1, and 0 where
 * none of them offers. 1 to 7, then the first of 13 and 14 that is met. marks is written only on 0.
 */
uint32_t vulcedar_pass(const uint8_t *plan, size_t plan_len, const uint8_t *answers, size_t answers_len, uint8_t *marks,
                       size_t marks_len);

/*
 * What if one task ended otherwise? answers and marks are those of a pass, task a node that is a task, answer its new one: 1
 * works, 2 fails, as for vulcedar_pass. On 0 marks is what vulcedar_pass leaves for the answers with the new one in the
 * task's place; it changes only at the task, at blocks above it, and in the subtrees of later siblings of any of these whose
 * parent is a serial or a contingency. answers is left: store the new answer there, and the next change can follow; the one
 * with the old answer brings the old marks back. 1 to 6; 7; 8; 9; the first of 13 and 14 that the pass over the answers meets;
 * 13 for an answer above 255; the first of 13 and 14 that the pass over the new answers meets; 28 if the marks are not those
 * of the pass over the answers.
 */
uint32_t vulcedar_impact(const uint8_t *plan, size_t plan_len, const uint8_t *answers, size_t answers_len, uint8_t *marks,
                         size_t marks_len, uint32_t task, uint32_t answer);

/*
 * Which answers lead there? mark is wanted for node: VULCEDAR_NOT_STARTED, _COMMITTED, _FAILED or _TURNED_DOWN; end is wanted
 * for the root: VULCEDAR_COMMITTED or _FAILED. answers has one byte a node. On 0 it has answers that vulcedar_pass accepts and
 * with which it leaves both marks; of all such answers the smallest, compared byte by byte from node 0 on, so that an answer
 * which the pass does not look at is 0 (at an xor that it comes to, it looks at 0 too: none of its children offers). What was in
 * answers before does not matter, and it is written only on 0. 1 to 6; 7; 8; 29 for another mark or end; 30 if there are no such
 * answers, whatever bytes are tried. Where mark and end are both VULCEDAR_COMMITTED, or both VULCEDAR_FAILED, there are some, at
 * every node of every plan.
 */
uint32_t vulcedar_way(const uint8_t *plan, size_t plan_len, uint32_t node, uint32_t mark, uint32_t end, uint8_t *answers,
                      size_t answers_len);

/*
 * A step of a simulation of all sites. state has the rows of all sites one after another, nodes times nodes bytes, zeros
 * at first. site VULCEDAR_HAPPENS: the event happens, at its own site; any other site hears of it, refused with 12 unless
 * it happened. The value is the rule of an event that passes; it is 0 for a refusal, and for a message, passed or not.
 * 1 to 12.
 */
uint32_t vulcedar_simulate(const uint8_t *plan, size_t plan_len, uint32_t code, uint32_t node, uint32_t site, uint8_t *state,
                           size_t state_len);

/* A step that was kept. */
typedef struct vulcedar_entry {
    uint8_t code, node; /* of the event that happened or was told */
    uint8_t site;       /* the site that was told; VULCEDAR_HAPPENS for the event itself */
    uint8_t changed;    /* 1 if the step set its bit; 0 if the bit was set before, as by a message that is a repeat */
} vulcedar_entry;

/*
 * A step of a simulation that is kept in a journal. While the journal has a place left, it answers as vulcedar_simulate does
 * and leaves the state so; if it passes, its entry is written at place *count, and *count is one more. Other entries are
 * left. 1 to 12, where 7 also says that the journal is full (*count is entries_len) or that *count is above entries_len.
 */
uint32_t vulcedar_keep(const uint8_t *plan, size_t plan_len, uint32_t code, uint32_t node, uint32_t site, uint8_t *state,
                       size_t state_len, vulcedar_entry *entries, size_t entries_len, size_t *count);

/*
 * Takes back the last step of a journal, the entry at place *count - 1: *count is one less, and unless changed is 0 the
 * step's bit is cleared, in the row of the event's own site if the entry's site is VULCEDAR_HAPPENS, else in the row of the
 * site that was told. A repeat is a step too: nothing is cleared for it. The entries are left; the next step that is kept
 * takes the place. The result is the number alone: 1 to 7, where 7 also says that *count is above entries_len; then 16 if
 * *count is 0; then 8 or 9 for the entry's code, node and site.
 */
uint32_t vulcedar_undo(const uint8_t *plan, size_t plan_len, uint8_t *state, size_t state_len, const vulcedar_entry *entries,
                       size_t entries_len, size_t *count);

/* Points, for a host to hold: names and places are lent apart. Zeros are no points. */
typedef struct vulcedar_points {
    uint8_t names[VULCEDAR_POINTS_MOST * VULCEDAR_NAME_LENGTH];
    uint64_t places[VULCEDAR_POINTS_MOST]; /* 0: the slot is free; n + 1: a point behind the first n steps */
} vulcedar_points;

/*
 * Names the current place of a journal, that behind its count steps. A point that has the name moves there, in its slot;
 * otherwise the first free slot gets the name and the place. Other slots are left. It needs no plan and serves every
 * journal. The result is the number alone: 7 if a length is not right (name_len is VULCEDAR_NAME_LENGTH), if a point is above
 * count or two have one name, or if count is 2^64 - 1; 20 if sixteen other points are in use.
 */
uint32_t vulcedar_point_name(const uint8_t *name, size_t name_len, size_t count, uint8_t *names, size_t names_len,
                             uint64_t *places, size_t places_len);

/*
 * Takes back the last step of a journal, as vulcedar_undo does, and drops the points that are above the new count: their
 * slots are free, name and place zeros. A point exactly at the new count stays. The result is the number alone: as of
 * vulcedar_undo, where 7 also says that the points are not right.
 */
uint32_t vulcedar_point_undo(const uint8_t *plan, size_t plan_len, uint8_t *state, size_t state_len,
                             const vulcedar_entry *entries, size_t entries_len, size_t *count, uint8_t *names, size_t names_len,
                             uint64_t *places, size_t places_len);

/*
 * Goes back to a point: takes back the last step, and again, until *count is the point's place, and drops the points that
 * are above it. The point itself stays. If it is at *count already, nothing is taken back and the call passes. The result
 * is the number alone: 1 to 7 as of vulcedar_point_undo, where 7 also says that name_len is not VULCEDAR_NAME_LENGTH; then 19
 * if no point has the name; then the first of 8 and 9 that is met, from the last entry on, and then nothing is taken back at
 * all. It is never 16.
 */
uint32_t vulcedar_point_back(const uint8_t *plan, size_t plan_len, const uint8_t *name, size_t name_len, uint8_t *state,
                             size_t state_len, const vulcedar_entry *entries, size_t entries_len, size_t *count,
                             uint8_t *names, size_t names_len, uint64_t *places, size_t places_len);

/*
 * The record of a simulation, or of all rows side by side: every node's mark by its own site's row, and its class by the
 * common table. marks and classes have one byte a node and are written only on 0. 1 to 7.
 */
uint32_t vulcedar_record(const uint8_t *plan, size_t plan_len, const uint8_t *state, size_t state_len, uint8_t *marks,
                         size_t marks_len, uint8_t *classes, size_t classes_len);

/*
 * The central rule, which knows every mark: one byte a node in marks, and in notes the bits of codes 5, 6 and 7 as in a
 * row. Both are zeros at first. Value 1: the rule allows the event, and marks and notes are advanced by it; value 0: it
 * does not, and both are left. 1 to 9. A host can replay a log against it.
 */
uint32_t vulcedar_central(const uint8_t *plan, size_t plan_len, uint32_t code, uint32_t node, uint8_t *marks, size_t marks_len,
                          uint8_t *notes, size_t notes_len);

/* Checks a table of classes, as every call that takes one does: 0, or 21 if it is not what RECORDS above says. */
uint32_t vulcedar_check_table(const uint8_t *table, size_t table_len);

/*
 * The record of the single pass: the marks of vulcedar_pass for these answers, classed by a table. There is no table of
 * its own: hand in the common one or the house's. 21, then 1 to 7, then the first of 13 and 14 that is met. marks and
 * classes are written only on 0.
 */
uint32_t vulcedar_pass_record(const uint8_t *plan, size_t plan_len, const uint8_t *table, size_t table_len, const uint8_t *answers,
                              size_t answers_len, uint8_t *marks, size_t marks_len, uint8_t *classes, size_t classes_len);

/*
 * The record of vulcedar_record, classed by the house's own table: 21 if vulcedar_check_table refuses it, then 1 to 7.
 * marks and classes are written only on 0.
 */
uint32_t vulcedar_record_by(const uint8_t *plan, size_t plan_len, const uint8_t *table, size_t table_len, const uint8_t *state,
                            size_t state_len, uint8_t *marks, size_t marks_len, uint8_t *classes, size_t classes_len);

/*
 * PLANS WITH DESKS. What each call below does and answers is said with the call of the same name without desk_: the
 * parameters are the same, plan is a plan with desks, state has desks in use times nodes bytes, and a desk stands for a
 * site. The numbers have the same order; 22 comes behind 6 and before 7.
 */

/* Checks a plan with desks: 0, or 1 to 6, or 22. */
uint32_t vulcedar_desk_check(const uint8_t *plan, size_t plan_len);

/*
 * An event wants to happen at its desk. row is the row of the desk of the node itself, for a pick that of the desk of the
 * node's parent. 1 to 6, 22, 7 to 11.
 */
uint32_t vulcedar_desk_step(const uint8_t *plan, size_t plan_len, uint32_t code, uint32_t node, uint8_t *row, size_t row_len);

/*
 * A step of a simulation of all desks. desk VULCEDAR_HAPPENS: the event happens, at its own desk; any other desk hears of
 * it, refused with 12 unless it happened. 1 to 6, 22, 7 to 12.
 */
uint32_t vulcedar_desk_simulate(const uint8_t *plan, size_t plan_len, uint32_t code, uint32_t node, uint32_t desk, uint8_t *state,
                                size_t state_len);

/* A step that is kept in a journal; the entry's site is the desk. 1 to 6, 22, 7 to 12. */
uint32_t vulcedar_desk_keep(const uint8_t *plan, size_t plan_len, uint32_t code, uint32_t node, uint32_t desk, uint8_t *state,
                            size_t state_len, vulcedar_entry *entries, size_t entries_len, size_t *count);

/* Takes back the last step of a journal. 1 to 6, 22, 7, 16, 8, 9. */
uint32_t vulcedar_desk_undo(const uint8_t *plan, size_t plan_len, uint8_t *state, size_t state_len, const vulcedar_entry *entries,
                            size_t entries_len, size_t *count);

/* The same in a journal with points; they are named by vulcedar_point_name. 1 to 6, 22, 7, 16, 8, 9. */
uint32_t vulcedar_desk_point_undo(const uint8_t *plan, size_t plan_len, uint8_t *state, size_t state_len,
                                  const vulcedar_entry *entries, size_t entries_len, size_t *count, uint8_t *names,
                                  size_t names_len, uint64_t *places, size_t places_len);

/* Goes back to a point. 1 to 6, 22, 7, 19, then the first of 8 and 9 that is met. */
uint32_t vulcedar_desk_point_back(const uint8_t *plan, size_t plan_len, const uint8_t *name, size_t name_len, uint8_t *state,
                                  size_t state_len, const vulcedar_entry *entries, size_t entries_len, size_t *count,
                                  uint8_t *names, size_t names_len, uint64_t *places, size_t places_len);

/* The record: every node's mark by its own desk's row, and its class by the common table. 1 to 6, 22, 7. */
uint32_t vulcedar_desk_record(const uint8_t *plan, size_t plan_len, const uint8_t *state, size_t state_len, uint8_t *marks,
                              size_t marks_len, uint8_t *classes, size_t classes_len);

/* The record, classed by the house's own table. 21, then 1 to 6, 22, 7. */
uint32_t vulcedar_desk_record_by(const uint8_t *plan, size_t plan_len, const uint8_t *table, size_t table_len,
                                 const uint8_t *state, size_t state_len, uint8_t *marks, size_t marks_len, uint8_t *classes,
                                 size_t classes_len);

/* The text of a simulation never has more bytes than this; what it prints always fits into the other. */
#define VULCEDAR_TEXT_MOST 32768u
#define VULCEDAR_PRINTED_MOST 16384u

/*
 * Runs the text of a simulation, a table of classes if it has one, a plan and steps (docs/RULES.md, J), from a state of
 * zeros, and prints at the front of out a line for each step, its number, and a line for each node, its number, kind, mark
 * and class. The value is the length printed; the bytes of out behind it are left. 15 if the text is malformed or longer
 * than VULCEDAR_TEXT_MOST, then 21 for its table, 1 to 6 for its plan, then 7 if out_len is below VULCEDAR_PRINTED_MOST. A
 * step that is refused has its number in its line and does not refuse the text. out is written only on 0.
 */
uint32_t vulcedar_rehearse(const uint8_t *text, size_t text_len, uint8_t *out, size_t out_len);

/* A step of a load has so many bytes: code, node, and VULCEDAR_HAPPENS for an event or the site that a message is for. */
#define VULCEDAR_STEP_BYTES 3u

/*
 * A test load: writes count steps that a generator draws from the seed, the same for everybody who has the plan, the seed and
 * the count (docs/RULES.md, U). They come in no sensible order, and most of them are refused where they are run; refused ones
 * are steps like any other. A smaller count gives the front of the same load. Seed and count may be any numbers. 1 to 6, then
 * 7 if out_len is not VULCEDAR_STEP_BYTES times count. out is written only on 0, from end to end.
 */
uint32_t vulcedar_workload(const uint8_t *plan, size_t plan_len, uint32_t seed, uint32_t count, uint8_t *out, size_t out_len);

#ifdef __cplusplus
}
#endif

#endif
