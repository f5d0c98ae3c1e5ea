/*
 * How much stack a call takes: every exported function is called on a painted stack of its own, for plans of 160 nodes as
 * deep and as wide as they may be, and for every event of them, refused and passed; with desks, three nodes share one. An answer
 * is changed for every node, and a way is looked for to every target. Templates are repeated up to 160 nodes, as deep and as wide
 * as they may be, and beyond. The next plan is asked for at every small one. Loads have many steps, one and none. Prints the deepest
 * of each function; fails if one is above what the header says. Symbols must be bound beforehand (-Wl,-z,now): the loader's own stack
 * is not the library's.
 */
#define _GNU_SOURCE
#include <stdio.h>
#include <stdlib.h>
#include <string.h>
#include <ucontext.h>

#include "vulcedar.h"

enum { NODES = VULCEDAR_NODES_MOST };
#define PAINT 0xa5a5a5a5a5a5a5a5u

static uint8_t plan[2 * NODES], row[NODES], marks[NODES], notes[NODES], classes[NODES], answers[NODES], out[2 * NODES];
static uint8_t fixed[2 * NODES], depths[2 * NODES]; /* the plan in the fixed numbering, and its depth form */
static uint8_t drawn[2 * NODES]; /* a template, its marked node, and how many times its channel fits */
static uint32_t drawn_nodes, marked, times;
static uint8_t small[VULCEDAR_SMALL_PLAN_MOST] = { VULCEDAR_TASK, VULCEDAR_NO_PARENT }; /* a small plan */
static uint32_t small_nodes = 1;
static uint8_t load[1000 * VULCEDAR_STEP_BYTES];
static uint8_t passed[NODES]; /* the marks of the pass over the answers */
static uint8_t with_desks[3 * NODES], desk_state[NODES * NODES]; /* the same plan with desks */
static size_t desk_len; /* of that state */
static uint8_t state[NODES * NODES], buf[VULCEDAR_GUARD_MOST], text[VULCEDAR_TEXT_MOST], printed[VULCEDAR_PRINTED_MOST];
static size_t text_len, fresh, one;
static vulcedar_entry kept[1], event[1], message[1], way[8], desk_message[1], desk_way[8];
static size_t eight;
static vulcedar_points points;
static const uint8_t zeros[VULCEDAR_NAME_LENGTH]; /* the first point's name */
static const uint8_t table[] = VULCEDAR_COMMON_TABLE;
static uint32_t nodes, code, node, answer;

static void nothing(void) { answer = 0; }
static void check(void) { answer = vulcedar_check(plan, 2 * nodes); }
static void rewrite(void) { answer = vulcedar_rewrite(plan, 2 * nodes, out, 2 * nodes); }
static void renumber(void) { answer = vulcedar_renumber(plan, 2 * nodes, out, 2 * nodes); }
static void to_depths(void) { answer = vulcedar_to_depths(fixed, 2 * nodes, out, 2 * nodes); }
static void not_renumbered(void) { answer = vulcedar_to_depths(plan, 2 * nodes, out, 2 * nodes); }
static void from_depths(void) { answer = vulcedar_from_depths(depths, 2 * nodes, out, 2 * nodes); }
static void repeat(void) { answer = vulcedar_repeat(drawn, 2 * drawn_nodes, marked, times, out, sizeof out); }
static void repeat_too_often(void) { answer = vulcedar_repeat(drawn, 2 * drawn_nodes, marked, times + 1, out, sizeof out); }
static void next_plan(void) { answer = vulcedar_next_plan(small, 2 * small_nodes, out, sizeof small); }
static void not_small(void) { answer = vulcedar_next_plan(plan, 2 * nodes, out, sizeof small); }
static void workload(void) { answer = vulcedar_workload(plan, 2 * nodes, 0xffffffffu, sizeof load / VULCEDAR_STEP_BYTES, load, sizeof load); }
static void one_step(void) { answer = vulcedar_workload(plan, 2 * nodes, 0, 1, load, VULCEDAR_STEP_BYTES); }
static void no_step(void) { answer = vulcedar_workload(plan, 2 * nodes, 0, 0, load, 0); }
static void no_load(void) { answer = vulcedar_workload(plan, 2 * nodes, 0, 0xffffffffu, load, sizeof load); }
static void check_depths(void) { answer = vulcedar_check_depths(plan, 2 * nodes, out, nodes); }
static void guard(void) { answer = vulcedar_guard(plan, 2 * nodes, code, node, buf, sizeof buf); }
static void short_guard(void) { answer = vulcedar_guard(plan, 2 * nodes, code, node, buf, sizeof buf - 1); }
static void rule(void) { answer = vulcedar_rule(plan, 2 * nodes, code, node); }
static void step(void) { answer = vulcedar_step(plan, 2 * nodes, code, node, row, nodes); }
static void hear(void) { answer = vulcedar_hear(plan, 2 * nodes, code, node, row, nodes); }
static void pass(void) { answer = vulcedar_pass(plan, 2 * nodes, answers, nodes, marks, nodes); }
static void impact(void) { answer = vulcedar_impact(plan, 2 * nodes, answers, nodes, passed, nodes, node, code); }
static void find(void) /* the way to the node, for each of the eight targets there */
{
    static const uint32_t wanted[] = { VULCEDAR_NOT_STARTED, VULCEDAR_COMMITTED, VULCEDAR_FAILED, VULCEDAR_TURNED_DOWN };
    answer = vulcedar_way(plan, 2 * nodes, node, wanted[code / 2 % 4], code % 2 ? VULCEDAR_COMMITTED : VULCEDAR_FAILED, out, nodes);
}
static void happen(void) { answer = vulcedar_simulate(plan, 2 * nodes, code, node, VULCEDAR_HAPPENS, state, nodes * nodes); }
static void tell(void) { answer = vulcedar_simulate(plan, 2 * nodes, code, node, 0, state, nodes * nodes); }
static void keep_event(void) { answer = vulcedar_keep(plan, 2 * nodes, code, node, VULCEDAR_HAPPENS, state, nodes * nodes, kept, 1, &fresh); }
static void keep_message(void) { answer = vulcedar_keep(plan, 2 * nodes, code, node, 0, state, nodes * nodes, kept, 1, &fresh); }
static void undo_event(void) { answer = vulcedar_undo(plan, 2 * nodes, state, nodes * nodes, event, 1, &one); }
static void undo_message(void) { answer = vulcedar_undo(plan, 2 * nodes, state, nodes * nodes, message, 1, &one); }
static void point_name(void) { answer = vulcedar_point_name(zeros, sizeof zeros, eight, points.names, sizeof points.names, points.places, VULCEDAR_POINTS_MOST); }
static void point_undo(void) { answer = vulcedar_point_undo(plan, 2 * nodes, state, nodes * nodes, way, 8, &eight, points.names, sizeof points.names, points.places, VULCEDAR_POINTS_MOST); }
static void point_back(void) { answer = vulcedar_point_back(plan, 2 * nodes, zeros, sizeof zeros, state, nodes * nodes, way, 8, &eight, points.names, sizeof points.names, points.places, VULCEDAR_POINTS_MOST); }
static void record(void) { answer = vulcedar_record(plan, 2 * nodes, state, nodes * nodes, marks, nodes, classes, nodes); }
static void record_by(void) { answer = vulcedar_record_by(plan, 2 * nodes, table, sizeof table, state, nodes * nodes, marks, nodes, classes, nodes); }
static void central(void) { answer = vulcedar_central(plan, 2 * nodes, code, node, marks, nodes, notes, nodes); }
static void check_table(void) { answer = vulcedar_check_table(table, sizeof table); }
static void pass_record(void) { answer = vulcedar_pass_record(plan, 2 * nodes, table, sizeof table, answers, nodes, marks, nodes, classes, nodes); }
static void desk_check(void) { answer = vulcedar_desk_check(with_desks, 3 * nodes); }
static void desk_step(void) { answer = vulcedar_desk_step(with_desks, 3 * nodes, code, node, row, nodes); }
static void desk_happen(void) { answer = vulcedar_desk_simulate(with_desks, 3 * nodes, code, node, VULCEDAR_HAPPENS, desk_state, desk_len); }
static void desk_tell(void) { answer = vulcedar_desk_simulate(with_desks, 3 * nodes, code, node, with_desks[2], desk_state, desk_len); }
static void desk_keep_event(void) { answer = vulcedar_desk_keep(with_desks, 3 * nodes, code, node, VULCEDAR_HAPPENS, desk_state, desk_len, kept, 1, &fresh); }
static void desk_keep_message(void) { answer = vulcedar_desk_keep(with_desks, 3 * nodes, code, node, with_desks[2], desk_state, desk_len, kept, 1, &fresh); }
static void desk_undo_event(void) { answer = vulcedar_desk_undo(with_desks, 3 * nodes, desk_state, desk_len, event, 1, &one); }
static void desk_undo_message(void) { answer = vulcedar_desk_undo(with_desks, 3 * nodes, desk_state, desk_len, desk_message, 1, &one); }
static void desk_point_undo(void) { answer = vulcedar_desk_point_undo(with_desks, 3 * nodes, desk_state, desk_len, desk_way, 8, &eight, points.names, sizeof points.names, points.places, VULCEDAR_POINTS_MOST); }
static void desk_point_back(void) { answer = vulcedar_desk_point_back(with_desks, 3 * nodes, zeros, sizeof zeros, desk_state, desk_len, desk_way, 8, &eight, points.names, sizeof points.names, points.places, VULCEDAR_POINTS_MOST); }
static void desk_record(void) { answer = vulcedar_desk_record(with_desks, 3 * nodes, desk_state, desk_len, marks, nodes, classes, nodes); }
static void desk_record_by(void) { answer = vulcedar_desk_record_by(with_desks, 3 * nodes, table, sizeof table, desk_state, desk_len, marks, nodes, classes, nodes); }
static void version(void) { answer = vulcedar_version(); }
static void rehearse(void) { answer = vulcedar_rehearse(text, text_len, printed, sizeof printed); }

/* events: 0 called once, 1 for each event and all that may have been heard, 2 for each target. */
static struct call { const char *name; void (*run)(void); int events; size_t most; } calls[] = {
    { "check", check, 0, 0 }, { "rewrite", rewrite, 0, 0 }, { "check_depths", check_depths, 0, 0 },
    { "renumber", renumber, 0, 0 }, { "to_depths", to_depths, 0, 0 }, { "to_depths (as it is)", not_renumbered, 0, 0 }, { "from_depths", from_depths, 0, 0 },
    { "repeat", repeat, 0, 0 }, { "repeat (too often)", repeat_too_often, 0, 0 },
    { "next_plan", next_plan, 0, 0 }, { "next_plan (not small)", not_small, 0, 0 },
    { "workload", workload, 0, 0 }, { "workload (one step)", one_step, 0, 0 }, { "workload (no step)", no_step, 0, 0 }, { "workload (refused)", no_load, 0, 0 },
    { "guard", guard, 1, 0 }, { "guard (short buffer)", short_guard, 1, 0 }, { "rule", rule, 1, 0 }, { "step", step, 1, 0 },
    { "hear", hear, 1, 0 }, { "pass", pass, 0, 0 }, { "impact", impact, 1, 0 }, { "way", find, 2, 0 }, { "simulate (event)", happen, 1, 0 }, { "simulate (message)", tell, 1, 0 },
    { "keep (event)", keep_event, 1, 0 }, { "keep (message)", keep_message, 1, 0 },
    { "undo (event)", undo_event, 1, 0 }, { "undo (message)", undo_message, 1, 0 },
    { "point_name", point_name, 0, 0 }, { "point_undo", point_undo, 1, 0 }, { "point_back", point_back, 1, 0 },
    { "record", record, 0, 0 }, { "record_by", record_by, 0, 0 }, { "central", central, 1, 0 },
    { "check_table", check_table, 0, 0 }, { "pass_record", pass_record, 0, 0 }, { "version", version, 0, 0 }, { "rehearse", rehearse, 0, 0 },
    { "desk_check", desk_check, 0, 0 }, { "desk_step", desk_step, 1, 0 }, { "desk_simulate (event)", desk_happen, 1, 0 }, { "desk_simulate (message)", desk_tell, 1, 0 },
    { "desk_keep (event)", desk_keep_event, 1, 0 }, { "desk_keep (message)", desk_keep_message, 1, 0 },
    { "desk_undo (event)", desk_undo_event, 1, 0 }, { "desk_undo (message)", desk_undo_message, 1, 0 },
    { "desk_point_undo", desk_point_undo, 1, 0 }, { "desk_point_back", desk_point_back, 1, 0 },
    { "desk_record", desk_record, 0, 0 }, { "desk_record_by", desk_record_by, 0, 0 },
};
enum { CALLS = sizeof calls / sizeof calls[0] };

static _Alignas(64) uint64_t stack[2 * VULCEDAR_REHEARSE_STACK_MOST / sizeof(uint64_t)];
static ucontext_t here, there;

/* How much stack the header says a function takes. */
static size_t granted(void (*run)(void)) { return run == rehearse ? VULCEDAR_REHEARSE_STACK_MOST : VULCEDAR_STACK_MOST; }

/* The bytes of a fresh stack, twice as large as should do, that a function touches, in whole words. */
static size_t touched(void (*run)(void))
{
    size_t i = 0, words = 2 * granted(run) / sizeof(uint64_t);
    for (size_t k = 0; k < words; k++) stack[k] = PAINT;
    getcontext(&there);
    there.uc_stack.ss_sp = stack;
    there.uc_stack.ss_size = words * sizeof(uint64_t);
    there.uc_link = &here;
    makecontext(&there, run, 0);
    swapcontext(&here, &there);
    while (i < words && stack[i] == PAINT) i++;
    return (words - i) * sizeof(uint64_t);
}

/* What a site has heard: nothing, everything, or all but what bars the event, so that most events pass. */
enum heard { NOTHING, ALL, OTHERS };

static void lend(enum heard heard)
{
    int b = heard == NOTHING ? 0 : 0xff;
    memset(row, b, nodes);
    memset(state, b, nodes * nodes);
    memset(desk_state, b, desk_len);
    if (heard == OTHERS) row[node] = state[node * nodes + node] = 1u << (VULCEDAR_START - 1);
    if (heard == OTHERS) for (size_t at = node; at < desk_len; at += nodes) desk_state[at] = row[node];
    memset(marks, heard == NOTHING ? 0 : VULCEDAR_COMMITTED, nodes);
    memset(notes, 0, nodes);
    memset(answers, heard == NOTHING ? 1 : 2, nodes);
    for (uint32_t v = 0; heard != NOTHING && v < nodes; v++) if (plan[2 * v] == VULCEDAR_XOR) answers[v] = 0; /* none offers */
    if (vulcedar_pass(plan, 2 * nodes, answers, nodes, passed, nodes) != VULCEDAR_PASSED) printf("stack: a pass is refused\n"), exit(1);
    fresh = 0;
    one = 1;
    event[0] = (vulcedar_entry){ (uint8_t)code, (uint8_t)node, VULCEDAR_HAPPENS, 1 };
    message[0] = (vulcedar_entry){ (uint8_t)code, (uint8_t)node, 0, 1 };
    desk_message[0] = (vulcedar_entry){ (uint8_t)code, (uint8_t)node, with_desks[2], 1 };
    eight = 8;
    for (size_t i = 0; i < 8; i++) way[i] = i % 2 ? event[0] : message[0], desk_way[i] = i % 2 ? event[0] : desk_message[0];
    for (size_t slot = 0; slot < VULCEDAR_POINTS_MOST; slot++) { /* all in use, the first at the beginning of the way */
        memset(points.names + slot * VULCEDAR_NAME_LENGTH, (int)slot, VULCEDAR_NAME_LENGTH);
        points.places[slot] = 1 + slot % 9;
    }
}

static void measure(struct call *c, size_t none, enum heard heard)
{
    lend(heard);
    c->run(); /* once outside, so that nothing is done for the first time */
    lend(heard);
    size_t n = touched(c->run) - none;
    if (n > c->most) c->most = n;
}

static void add(uint32_t kind, uint32_t parent)
{
    plan[2 * nodes] = (uint8_t)kind;
    plan[2 * nodes + 1] = (uint8_t)parent;
    nodes++;
}

/* A chain of blocks as deep as a plan may be, each with `side` tasks before the next; further tasks go to the deepest. */
static void deep(uint32_t kind, uint32_t side)
{
    uint32_t chain[VULCEDAR_DEPTH_MOST] = { VULCEDAR_NO_PARENT };
    nodes = 0;
    for (uint32_t d = 1; d < VULCEDAR_DEPTH_MOST; d++) {
        chain[d] = nodes;
        add(kind, chain[d - 1]);
        for (uint32_t k = 0; k < side; k++) add(VULCEDAR_TASK, chain[d]);
    }
    if (kind == VULCEDAR_CONDITIONAL) add(VULCEDAR_TASK, nodes - 2);
    else for (uint32_t k = 0; nodes < NODES; k++) add(VULCEDAR_TASK, chain[VULCEDAR_DEPTH_MOST - 1 - k / 28]);
}

/* As wide as a plan may be: a root of 32 children, the first four of them blocks with the other tasks. */
static void wide(uint32_t kind)
{
    nodes = 0;
    add(kind, VULCEDAR_NO_PARENT);
    while (nodes <= 32) add(nodes <= 4 ? kind : (uint32_t)VULCEDAR_TASK, 0);
    while (nodes < NODES) add(VULCEDAR_TASK, 1 + (nodes - 33) / 32);
}

/* A template: a chain of so many serials, the marked block, and a chain of so many more with tasks at its end. The tasks of the
   serials above come last, so that the numbering is not the fixed one. */
static void draw(uint32_t above, uint32_t below, uint32_t tasks)
{
    uint32_t chain = above + 1 + below, all = chain + tasks + above;
    for (uint32_t v = 0; v < all; v++) {
        uint32_t parent = v == 0 ? VULCEDAR_NO_PARENT : v < chain ? v - 1 : v < chain + tasks ? chain - 1 : v - chain - tasks;
        drawn[2 * v] = (uint8_t)(v == above ? VULCEDAR_AND : v < chain ? VULCEDAR_SERIAL : VULCEDAR_TASK);
        drawn[2 * v + 1] = (uint8_t)parent;
    }
    drawn_nodes = all;
    marked = above;
    times = (NODES - 2 * above - 1) / (below + tasks);
    if (times > VULCEDAR_CHILDREN_MOST) times = VULCEDAR_CHILDREN_MOST;
}

/* The plan as a text, with as many steps as fit behind it, every event in turn and every message. */
static void write_text(void)
{
    char *at = (char *)text, *end = at + sizeof text;
    for (uint32_t v = 0; v < nodes; v++) at += sprintf(at, "%02x%02x\n", plan[2 * v], plan[2 * v + 1]);
    at += sprintf(at, "--\n");
    for (uint32_t k = 0; end - at > 7; k++)
        at += sprintf(at, "%02x%02x%02x\n", 1 + k / 2 % 8, k / 16 % nodes, k % 2 ? k % nodes : VULCEDAR_HAPPENS);
    text_len = (size_t)(at - (char *)text);
}

/* The plan with desks, each of which three nodes share; their numbers are not in order. */
static void seat(void)
{
    uint32_t desks = (nodes + 2) / 3;
    for (uint32_t v = 0; v < nodes; v++) {
        with_desks[3 * v] = plan[2 * v];
        with_desks[3 * v + 1] = plan[2 * v + 1];
        with_desks[3 * v + 2] = (uint8_t)((v % desks * 37 + 11) % 160);
    }
    desk_len = desks * nodes;
}

static void measure_plan(size_t none)
{
    uint32_t r = vulcedar_check(plan, 2 * nodes);
    if (r != VULCEDAR_PASSED) printf("stack: a plan is refused with %u\n", r), exit(1);
    r = vulcedar_renumber(plan, 2 * nodes, fixed, 2 * nodes);
    if (r == VULCEDAR_PASSED) r = vulcedar_to_depths(fixed, 2 * nodes, depths, 2 * nodes);
    if (r != VULCEDAR_PASSED) printf("stack: a plan has no depth form: %u\n", r), exit(1);
    r = vulcedar_repeat(drawn, 2 * drawn_nodes, marked, times, out, sizeof out);
    if (VULCEDAR_NUMBER(r) != VULCEDAR_PASSED) printf("stack: a template is refused with %u\n", VULCEDAR_NUMBER(r)), exit(1);
    r = vulcedar_workload(plan, 2 * nodes, 1, sizeof load / VULCEDAR_STEP_BYTES, load, sizeof load);
    if (r != VULCEDAR_PASSED) printf("stack: a load is refused with %u\n", r), exit(1);
    seat();
    r = vulcedar_desk_record(with_desks, 3 * nodes, desk_state, desk_len, marks, nodes, classes, nodes);
    if (r != VULCEDAR_PASSED) printf("stack: a plan with desks is refused with %u\n", r), exit(1);
    write_text();
    r = vulcedar_rehearse(text, text_len, printed, sizeof printed);
    if (VULCEDAR_NUMBER(r) != VULCEDAR_PASSED) printf("stack: a text is refused with %u\n", VULCEDAR_NUMBER(r)), exit(1);
    for (size_t c = 0; c < CALLS; c++)
        for (node = 0; node < (calls[c].events ? nodes : 1); node++)
            for (code = 1; code <= (calls[c].events ? 8 : 1); code++)
                for (int heard = NOTHING; heard <= (calls[c].events == 2 ? NOTHING : OTHERS); heard++) measure(&calls[c], none, (enum heard)heard);
}

/* The next plan at every small one, from the single task on. */
static void measure_walk(size_t none)
{
    struct call *c = calls;
    uint32_t all = 0;
    while (c->run != next_plan) c++;
    do {
        all++;
        measure(c, none, NOTHING);
        if (VULCEDAR_NUMBER(answer) != VULCEDAR_PASSED) break;
        small_nodes = VULCEDAR_VALUE(answer);
        memcpy(small, out, 2 * small_nodes);
    } while (all < 4962);
    if (all != 4962 || answer != VULCEDAR_LAST_PLAN) printf("stack: small plan %u is refused with %u\n", all, VULCEDAR_NUMBER(answer)), exit(1);
}

int main(void)
{
    size_t none = touched(nothing);
    int over = 0;
    for (uint32_t kind = VULCEDAR_SERIAL; kind <= VULCEDAR_WAITING_AND; kind++) {
        deep(kind, 1), draw(30, 0, 1), measure_plan(none); /* the channel is a task at depth 32 */
        if (kind == VULCEDAR_CONDITIONAL) continue;
        deep(kind, 0), draw(0, 30, 1), measure_plan(none); /* it reaches from depth 2 to 32 */
        deep(kind, 3), draw(3, 1, 16), measure_plan(none); /* nine of 17 nodes, 160 in all */
        wide(kind), draw(0, 1, 4), measure_plan(none);     /* 31 of five */
    }
    measure_walk(none);
    for (size_t c = 0; c < CALLS; c++) {
        printf("%-24s %6zu bytes of %zu\n", calls[c].name, calls[c].most, granted(calls[c].run));
        over += calls[c].most > granted(calls[c].run);
    }
    printf("stack: %d calls take more than the header says\n", over);
    return over == 0 ? 0 : 1;
}
