/*
 * What include/vulcedar.h and docs/GUIDE.md say about calling, tried: null pointers with length 0, where a result has a
 * site, the rule beside a guard, the common table, the version, a journal and its points, plans with desks, one answer of a
 * pass changed, the way to each target of a plan, one tree in each of its numberings, depth forms, templates that are
 * repeated, all small plans one after another, test loads, and what a false message does. Compiled as C and as C++.
 */
#include <inttypes.h>
#include <stdio.h>
#include <stdlib.h>
#include <string.h>

#include "vulcedar.h"

/* Where the bytes of a struct stand, tried by the compiler. */
#define LAYOUT(what, holds) typedef char what##_layout[(holds) ? 1 : -1]
LAYOUT(entry, sizeof(vulcedar_entry) == 4 && offsetof(vulcedar_entry, code) == 0 && offsetof(vulcedar_entry, node) == 1);
LAYOUT(entry_behind, offsetof(vulcedar_entry, site) == 2 && offsetof(vulcedar_entry, changed) == 3);
LAYOUT(points, sizeof(vulcedar_points) == 256 && offsetof(vulcedar_points, names) == 0 && offsetof(vulcedar_points, places) == 128);
LAYOUT(limits, VULCEDAR_POINTS_MOST == 16 && VULCEDAR_NAME_LENGTH == 8 && VULCEDAR_UNKNOWN_POINT == 19 && VULCEDAR_NO_FREE_POINT == 20);
LAYOUT(marks, VULCEDAR_BAD_MARKS == 28 && VULCEDAR_BAD_ANSWER == 13 && VULCEDAR_BAD_PICK == 14);
LAYOUT(targets, VULCEDAR_BAD_TARGET == 29 && VULCEDAR_NO_WAY == 30);
LAYOUT(forms, VULCEDAR_BAD_DEPTH == 17 && VULCEDAR_NOT_RENUMBERED == 18);
LAYOUT(templates, VULCEDAR_NOT_REPEATABLE == 23 && VULCEDAR_BAD_COUNT == 24 && VULCEDAR_TOO_MANY_NODES == 25 && VULCEDAR_PLAN_MOST == 2 * VULCEDAR_NODES_MOST);
LAYOUT(small, VULCEDAR_LAST_PLAN == 26 && VULCEDAR_NOT_SMALL == 27 && VULCEDAR_SMALL_NODES_MOST == 5 && VULCEDAR_SMALL_PLAN_MOST == 2 * VULCEDAR_SMALL_NODES_MOST);
LAYOUT(steps, VULCEDAR_STEP_BYTES == 3 && VULCEDAR_HAPPENS == 0xff && VULCEDAR_START == 1 && VULCEDAR_TURN_DOWN == 8);
LAYOUT(desks, VULCEDAR_DESK_HIGHEST == 0x9f && VULCEDAR_BAD_DESK == 22 && VULCEDAR_DESK_HIGHEST + 1 == VULCEDAR_NODES_MOST);

static int wrong;

static void expect(const char *what, uint32_t is, uint32_t should)
{
    if (is == should) return;
    printf("header: %s is %08" PRIx32 ", not %08" PRIx32 "\n", what, is, should);
    wrong++;
}

static uint8_t byte_of(size_t number) { return number & 0xffu; }

/* A result from its parts. */
static uint32_t result(uint32_t number, uint32_t middle, uint32_t value) { return number + 256u * middle + 65536u * value; }

/* Every pointer null, every length 0; then, behind a plan that is one, every other buffer null. */
static void nulls(void)
{
    static const uint8_t plan[] = { VULCEDAR_TASK, VULCEDAR_NO_PARENT };
    static const uint8_t form[] = { VULCEDAR_TASK, 1 };
    static const uint8_t table[] = VULCEDAR_COMMON_TABLE;
    static const uint8_t text[] = { '0', '1', 'f', 'f', '\n', '-', '-', '\n' };
    static const uint8_t name[VULCEDAR_NAME_LENGTH] = { 0 };
    uint8_t state[1] = { 0 }, names[VULCEDAR_POINTS_MOST * VULCEDAR_NAME_LENGTH] = { 0 };
    uint64_t places[VULCEDAR_POINTS_MOST] = { 0 };
    size_t count = 0;
    expect("check of nothing", vulcedar_check(NULL, 0), VULCEDAR_BAD_LENGTH);
    expect("rewrite of nothing", vulcedar_rewrite(NULL, 0, NULL, 0), VULCEDAR_BAD_LENGTH);
    expect("renumbering of nothing", vulcedar_renumber(NULL, 0, NULL, 0), VULCEDAR_BAD_LENGTH);
    expect("depth form of nothing", vulcedar_to_depths(NULL, 0, NULL, 0), VULCEDAR_BAD_LENGTH);
    expect("plan of no depth form", vulcedar_from_depths(NULL, 0, NULL, 0), VULCEDAR_BAD_LENGTH);
    expect("repeating of nothing", vulcedar_repeat(NULL, 0, 0, 1, NULL, 0), VULCEDAR_BAD_LENGTH);
    expect("the next of nothing", vulcedar_next_plan(NULL, 0, NULL, 0), VULCEDAR_BAD_LENGTH);
    expect("the load of nothing", vulcedar_workload(NULL, 0, 1, 0, NULL, 0), VULCEDAR_BAD_LENGTH);
    expect("depths of nothing", vulcedar_check_depths(NULL, 0, NULL, 0), VULCEDAR_BAD_LENGTH);
    expect("guard of nothing", vulcedar_guard(NULL, 0, VULCEDAR_START, 0, NULL, 0), VULCEDAR_BAD_LENGTH);
    expect("rule of nothing", vulcedar_rule(NULL, 0, VULCEDAR_START, 0), VULCEDAR_BAD_LENGTH);
    expect("step of nothing", vulcedar_step(NULL, 0, VULCEDAR_START, 0, NULL, 0), VULCEDAR_BAD_LENGTH);
    expect("hear of nothing", vulcedar_hear(NULL, 0, VULCEDAR_START, 0, NULL, 0), VULCEDAR_BAD_LENGTH);
    expect("pass of nothing", vulcedar_pass(NULL, 0, NULL, 0, NULL, 0), VULCEDAR_BAD_LENGTH);
    expect("a change in nothing", vulcedar_impact(NULL, 0, NULL, 0, NULL, 0, 0, 1), VULCEDAR_BAD_LENGTH);
    expect("a way in nothing", vulcedar_way(NULL, 0, 0, VULCEDAR_COMMITTED, VULCEDAR_COMMITTED, NULL, 0), VULCEDAR_BAD_LENGTH);
    expect("simulate of nothing", vulcedar_simulate(NULL, 0, VULCEDAR_START, 0, 0, NULL, 0), VULCEDAR_BAD_LENGTH);
    expect("keep of nothing", vulcedar_keep(NULL, 0, VULCEDAR_START, 0, 0, NULL, 0, NULL, 0, &count), VULCEDAR_BAD_LENGTH);
    expect("undo of nothing", vulcedar_undo(NULL, 0, NULL, 0, NULL, 0, &count), VULCEDAR_BAD_LENGTH);
    expect("naming of nothing", vulcedar_point_name(NULL, 0, 0, NULL, 0, NULL, 0), VULCEDAR_BAD_BUFFER);
    expect("undo with points of nothing", vulcedar_point_undo(NULL, 0, NULL, 0, NULL, 0, &count, NULL, 0, NULL, 0), VULCEDAR_BAD_LENGTH);
    expect("going back in nothing", vulcedar_point_back(NULL, 0, NULL, 0, NULL, 0, NULL, 0, &count, NULL, 0, NULL, 0), VULCEDAR_BAD_LENGTH);
    expect("record of nothing", vulcedar_record(NULL, 0, NULL, 0, NULL, 0, NULL, 0), VULCEDAR_BAD_LENGTH);
    expect("central of nothing", vulcedar_central(NULL, 0, VULCEDAR_START, 0, NULL, 0, NULL, 0), VULCEDAR_BAD_LENGTH);
    expect("table of nothing", vulcedar_check_table(NULL, 0), VULCEDAR_BAD_TABLE);
    expect("record by no table", vulcedar_record_by(NULL, 0, NULL, 0, NULL, 0, NULL, 0, NULL, 0), VULCEDAR_BAD_TABLE);
    expect("record by a table", vulcedar_record_by(NULL, 0, table, sizeof table, NULL, 0, NULL, 0, NULL, 0), VULCEDAR_BAD_LENGTH);
    expect("pass's record by no table", vulcedar_pass_record(NULL, 0, NULL, 0, NULL, 0, NULL, 0, NULL, 0), VULCEDAR_BAD_TABLE);
    expect("pass's record by a table", vulcedar_pass_record(NULL, 0, table, sizeof table, NULL, 0, NULL, 0, NULL, 0), VULCEDAR_BAD_LENGTH);

    expect("rehearsal of nothing", vulcedar_rehearse(NULL, 0, NULL, 0), VULCEDAR_BAD_TEXT);
    expect("rehearsal into nothing", vulcedar_rehearse(text, sizeof text, NULL, 0), VULCEDAR_BAD_BUFFER);
    expect("rewrite into nothing", vulcedar_rewrite(plan, sizeof plan, NULL, 0), VULCEDAR_BAD_BUFFER);
    expect("renumbering into nothing", vulcedar_renumber(plan, sizeof plan, NULL, 0), VULCEDAR_BAD_BUFFER);
    expect("depth form into nothing", vulcedar_to_depths(plan, sizeof plan, NULL, 0), VULCEDAR_BAD_BUFFER);
    expect("plan of a depth form into nothing", vulcedar_from_depths(form, sizeof form, NULL, 0), VULCEDAR_BAD_BUFFER);
    expect("repeating into nothing", vulcedar_repeat(plan, sizeof plan, 0, 1, NULL, 0), VULCEDAR_BAD_BUFFER);
    expect("the next plan into nothing", vulcedar_next_plan(plan, sizeof plan, NULL, 0), VULCEDAR_BAD_BUFFER);
    expect("a load into nothing", vulcedar_workload(plan, sizeof plan, 1, 1, NULL, 0), VULCEDAR_BAD_BUFFER);
    expect("a load of no step", vulcedar_workload(plan, sizeof plan, 1, 0, NULL, 0), VULCEDAR_PASSED);
    expect("depths into nothing", vulcedar_check_depths(plan, sizeof plan, NULL, 0), VULCEDAR_BAD_BUFFER);
    expect("guard into nothing", vulcedar_guard(plan, sizeof plan, VULCEDAR_START, 0, NULL, 0), VULCEDAR_BAD_BUFFER);
    expect("step on nothing", vulcedar_step(plan, sizeof plan, VULCEDAR_START, 0, NULL, 0), VULCEDAR_BAD_BUFFER);
    expect("hear on nothing", vulcedar_hear(plan, sizeof plan, VULCEDAR_START, 0, NULL, 0), VULCEDAR_BAD_BUFFER);
    expect("pass without answers", vulcedar_pass(plan, sizeof plan, NULL, 0, NULL, 0), VULCEDAR_BAD_BUFFER);
    expect("a change without answers", vulcedar_impact(plan, sizeof plan, NULL, 0, NULL, 0, 0, 1), VULCEDAR_BAD_BUFFER);
    expect("a way into nothing", vulcedar_way(plan, sizeof plan, 0, VULCEDAR_COMMITTED, VULCEDAR_COMMITTED, NULL, 0), VULCEDAR_BAD_BUFFER);
    expect("simulate on nothing", vulcedar_simulate(plan, sizeof plan, VULCEDAR_START, 0, VULCEDAR_HAPPENS, NULL, 0), VULCEDAR_BAD_BUFFER);
    expect("keep on nothing", vulcedar_keep(plan, sizeof plan, VULCEDAR_START, 0, VULCEDAR_HAPPENS, NULL, 0, NULL, 0, &count), VULCEDAR_BAD_BUFFER);
    expect("keep in no journal", vulcedar_keep(plan, sizeof plan, VULCEDAR_START, 0, VULCEDAR_HAPPENS, state, 1, NULL, 0, &count), VULCEDAR_BAD_BUFFER);
    expect("undo on nothing", vulcedar_undo(plan, sizeof plan, NULL, 0, NULL, 0, &count), VULCEDAR_BAD_BUFFER);
    expect("undo in no journal", vulcedar_undo(plan, sizeof plan, state, 1, NULL, 0, &count), VULCEDAR_NOTHING_TO_UNDO);
    expect("naming without a name", vulcedar_point_name(NULL, 0, 0, names, sizeof names, places, VULCEDAR_POINTS_MOST), VULCEDAR_BAD_BUFFER);
    expect("naming without names", vulcedar_point_name(name, sizeof name, 0, NULL, 0, places, VULCEDAR_POINTS_MOST), VULCEDAR_BAD_BUFFER);
    expect("naming without places", vulcedar_point_name(name, sizeof name, 0, names, sizeof names, NULL, 0), VULCEDAR_BAD_BUFFER);
    expect("undo with points on nothing", vulcedar_point_undo(plan, sizeof plan, NULL, 0, NULL, 0, &count, names, sizeof names, places, VULCEDAR_POINTS_MOST), VULCEDAR_BAD_BUFFER);
    expect("undo without points", vulcedar_point_undo(plan, sizeof plan, state, 1, NULL, 0, &count, NULL, 0, NULL, 0), VULCEDAR_BAD_BUFFER);
    expect("undo with points in no journal", vulcedar_point_undo(plan, sizeof plan, state, 1, NULL, 0, &count, names, sizeof names, places, VULCEDAR_POINTS_MOST), VULCEDAR_NOTHING_TO_UNDO);
    expect("going back without points", vulcedar_point_back(plan, sizeof plan, name, sizeof name, state, 1, NULL, 0, &count, NULL, 0, NULL, 0), VULCEDAR_BAD_BUFFER);
    expect("going back without a name", vulcedar_point_back(plan, sizeof plan, NULL, 0, state, 1, NULL, 0, &count, names, sizeof names, places, VULCEDAR_POINTS_MOST), VULCEDAR_BAD_BUFFER);
    expect("going back to no point", vulcedar_point_back(plan, sizeof plan, name, sizeof name, state, 1, NULL, 0, &count, names, sizeof names, places, VULCEDAR_POINTS_MOST), VULCEDAR_UNKNOWN_POINT);
    expect("naming the beginning", vulcedar_point_name(name, sizeof name, 0, names, sizeof names, places, VULCEDAR_POINTS_MOST), VULCEDAR_PASSED);
    expect("going back in no journal", vulcedar_point_back(plan, sizeof plan, name, sizeof name, state, 1, NULL, 0, &count, names, sizeof names, places, VULCEDAR_POINTS_MOST), VULCEDAR_PASSED);
    expect("record of no state", vulcedar_record(plan, sizeof plan, NULL, 0, NULL, 0, NULL, 0), VULCEDAR_BAD_BUFFER);
    expect("central on nothing", vulcedar_central(plan, sizeof plan, VULCEDAR_START, 0, NULL, 0, NULL, 0), VULCEDAR_BAD_BUFFER);
    expect("record by table of no state", vulcedar_record_by(plan, sizeof plan, table, sizeof table, NULL, 0, NULL, 0, NULL, 0), VULCEDAR_BAD_BUFFER);
    expect("pass's record without answers", vulcedar_pass_record(plan, sizeof plan, table, sizeof table, NULL, 0, NULL, 0, NULL, 0), VULCEDAR_BAD_BUFFER);
}

/* The same of the calls with desks. */
static void desk_nulls(void)
{
    static const uint8_t plan[] = { VULCEDAR_TASK, VULCEDAR_NO_PARENT, 7 };
    static const uint8_t table[] = VULCEDAR_COMMON_TABLE;
    static const uint8_t name[VULCEDAR_NAME_LENGTH] = { 0 };
    uint8_t state[1] = { 0 }, names[VULCEDAR_POINTS_MOST * VULCEDAR_NAME_LENGTH] = { 0 };
    uint64_t places[VULCEDAR_POINTS_MOST] = { 0 };
    size_t count = 0;
    expect("check with desks of nothing", vulcedar_desk_check(NULL, 0), VULCEDAR_BAD_LENGTH);
    expect("step at a desk of nothing", vulcedar_desk_step(NULL, 0, VULCEDAR_START, 0, NULL, 0), VULCEDAR_BAD_LENGTH);
    expect("simulate with desks of nothing", vulcedar_desk_simulate(NULL, 0, VULCEDAR_START, 0, 0, NULL, 0), VULCEDAR_BAD_LENGTH);
    expect("keep with desks of nothing", vulcedar_desk_keep(NULL, 0, VULCEDAR_START, 0, 0, NULL, 0, NULL, 0, &count), VULCEDAR_BAD_LENGTH);
    expect("undo with desks of nothing", vulcedar_desk_undo(NULL, 0, NULL, 0, NULL, 0, &count), VULCEDAR_BAD_LENGTH);
    expect("undo with desks and points of nothing", vulcedar_desk_point_undo(NULL, 0, NULL, 0, NULL, 0, &count, NULL, 0, NULL, 0), VULCEDAR_BAD_LENGTH);
    expect("going back with desks in nothing", vulcedar_desk_point_back(NULL, 0, NULL, 0, NULL, 0, NULL, 0, &count, NULL, 0, NULL, 0), VULCEDAR_BAD_LENGTH);
    expect("record with desks of nothing", vulcedar_desk_record(NULL, 0, NULL, 0, NULL, 0, NULL, 0), VULCEDAR_BAD_LENGTH);
    expect("record with desks by no table", vulcedar_desk_record_by(NULL, 0, NULL, 0, NULL, 0, NULL, 0, NULL, 0), VULCEDAR_BAD_TABLE);
    expect("record with desks by a table", vulcedar_desk_record_by(NULL, 0, table, sizeof table, NULL, 0, NULL, 0, NULL, 0), VULCEDAR_BAD_LENGTH);

    expect("step at a desk on nothing", vulcedar_desk_step(plan, sizeof plan, VULCEDAR_START, 0, NULL, 0), VULCEDAR_BAD_BUFFER);
    expect("simulate with desks on nothing", vulcedar_desk_simulate(plan, sizeof plan, VULCEDAR_START, 0, VULCEDAR_HAPPENS, NULL, 0), VULCEDAR_BAD_BUFFER);
    expect("keep with desks on nothing", vulcedar_desk_keep(plan, sizeof plan, VULCEDAR_START, 0, VULCEDAR_HAPPENS, NULL, 0, NULL, 0, &count), VULCEDAR_BAD_BUFFER);
    expect("keep with desks in no journal", vulcedar_desk_keep(plan, sizeof plan, VULCEDAR_START, 0, VULCEDAR_HAPPENS, state, 1, NULL, 0, &count), VULCEDAR_BAD_BUFFER);
    expect("undo with desks on nothing", vulcedar_desk_undo(plan, sizeof plan, NULL, 0, NULL, 0, &count), VULCEDAR_BAD_BUFFER);
    expect("undo with desks in no journal", vulcedar_desk_undo(plan, sizeof plan, state, 1, NULL, 0, &count), VULCEDAR_NOTHING_TO_UNDO);
    expect("undo with desks without points", vulcedar_desk_point_undo(plan, sizeof plan, state, 1, NULL, 0, &count, NULL, 0, NULL, 0), VULCEDAR_BAD_BUFFER);
    expect("undo with desks and points in no journal", vulcedar_desk_point_undo(plan, sizeof plan, state, 1, NULL, 0, &count, names, sizeof names, places, VULCEDAR_POINTS_MOST), VULCEDAR_NOTHING_TO_UNDO);
    expect("going back with desks without a name", vulcedar_desk_point_back(plan, sizeof plan, NULL, 0, state, 1, NULL, 0, &count, names, sizeof names, places, VULCEDAR_POINTS_MOST), VULCEDAR_BAD_BUFFER);
    expect("going back with desks to no point", vulcedar_desk_point_back(plan, sizeof plan, name, sizeof name, state, 1, NULL, 0, &count, names, sizeof names, places, VULCEDAR_POINTS_MOST), VULCEDAR_UNKNOWN_POINT);
    expect("naming the beginning", vulcedar_point_name(name, sizeof name, 0, names, sizeof names, places, VULCEDAR_POINTS_MOST), VULCEDAR_PASSED);
    expect("going back with desks in no journal", vulcedar_desk_point_back(plan, sizeof plan, name, sizeof name, state, 1, NULL, 0, &count, names, sizeof names, places, VULCEDAR_POINTS_MOST), VULCEDAR_PASSED);
    expect("record with desks of no state", vulcedar_desk_record(plan, sizeof plan, NULL, 0, NULL, 0, NULL, 0), VULCEDAR_BAD_BUFFER);
    expect("record with desks by table of no state", vulcedar_desk_record_by(plan, sizeof plan, table, sizeof table, NULL, 0, NULL, 0, NULL, 0), VULCEDAR_BAD_BUFFER);
}

/* An xor of two tasks: the parts of results, site 0 among them. */
static void parts(void)
{
    static const uint8_t plan[] = { VULCEDAR_XOR, VULCEDAR_NO_PARENT, VULCEDAR_TASK, 0, VULCEDAR_TASK, 0 };
    uint8_t row0[3] = { 0, 0, 0 }, row1[3] = { 0, 0, 0 }, state[9], buf[VULCEDAR_GUARD_MOST];
    memset(state, 0, sizeof state);
    expect("early start of 1", vulcedar_step(plan, sizeof plan, VULCEDAR_START, 1, row1, 3), result(VULCEDAR_UNMET, 1, 0));
    expect("early pick of 1", vulcedar_step(plan, sizeof plan, VULCEDAR_PICK, 1, row0, 3), result(VULCEDAR_UNMET, 0, 0));
    expect("start of 0", vulcedar_step(plan, sizeof plan, VULCEDAR_START, 0, row0, 3), result(VULCEDAR_PASSED, 0, 0x01));
    expect("second start of 0", vulcedar_step(plan, sizeof plan, VULCEDAR_START, 0, row0, 3), result(VULCEDAR_BARRED, 0, 0));
    expect("offer of 0", vulcedar_step(plan, sizeof plan, VULCEDAR_OFFER, 0, row0, 3), result(VULCEDAR_NOT_APPLICABLE, 0, 0));
    expect("message to 1", vulcedar_hear(plan, sizeof plan, VULCEDAR_START, 0, row1, 3), result(VULCEDAR_PASSED, 0, 0));
    expect("start of 1", vulcedar_step(plan, sizeof plan, VULCEDAR_START, 1, row1, 3), result(VULCEDAR_PASSED, 1, 0x51));
    expect("simulated start of 0", vulcedar_simulate(plan, sizeof plan, VULCEDAR_START, 0, VULCEDAR_HAPPENS, state, 9), result(VULCEDAR_PASSED, 0, 0x01));
    expect("simulated message", vulcedar_simulate(plan, sizeof plan, VULCEDAR_START, 0, 1, state, 9), result(VULCEDAR_PASSED, 0, 0));
    expect("simulated false message", vulcedar_simulate(plan, sizeof plan, VULCEDAR_START, 1, 0, state, 9), result(VULCEDAR_NOT_HAPPENED, 0, 0));
    for (uint32_t node = 0; node < 3; node++)
        for (uint32_t code = VULCEDAR_START; code <= VULCEDAR_TURN_DOWN; code++) {
            uint32_t rule = vulcedar_rule(plan, sizeof plan, code, node);
            uint32_t guard = vulcedar_guard(plan, sizeof plan, code, node, buf, sizeof buf);
            expect("number of rule and guard", VULCEDAR_NUMBER(guard), VULCEDAR_NUMBER(rule));
            if (VULCEDAR_NUMBER(rule) == VULCEDAR_PASSED) expect("rule of a guard", VULCEDAR_GUARD_RULE(guard), VULCEDAR_RULE(rule));
            else expect("refused guard", guard, rule);
        }
}

/* An xor of two tasks, and what its journal's calls are lent; of the entries, the first `room`. */
static const uint8_t chosen[] = { VULCEDAR_XOR, VULCEDAR_NO_PARENT, VULCEDAR_TASK, 0, VULCEDAR_TASK, 0 };
static struct { uint8_t state[9]; vulcedar_entry entries[6]; size_t room, count; } journal;

static uint32_t keep(uint32_t code, uint32_t node, uint32_t site)
{
    return vulcedar_keep(chosen, sizeof chosen, code, node, site, journal.state, sizeof journal.state, journal.entries, journal.room, &journal.count);
}

static uint32_t undo(void) { return vulcedar_undo(chosen, sizeof chosen, journal.state, sizeof journal.state, journal.entries, journal.room, &journal.count); }

/* How many steps are kept, and the bytes of one entry. */
static void expect_entry(const char *what, size_t kept, size_t place, uint32_t code, uint32_t node, uint32_t site, uint32_t changed)
{
    const vulcedar_entry e = journal.entries[place];
    expect(what, journal.count == kept && e.code == code && e.node == node && e.site == site && e.changed == changed, 1);
}

static void kept(void)
{
    journal.room = 3;
    memset(journal.entries, 0xee, sizeof journal.entries);
    expect("undo of a fresh journal", undo(), VULCEDAR_NOTHING_TO_UNDO);
    expect("early kept start", keep(VULCEDAR_START, 1, VULCEDAR_HAPPENS), result(VULCEDAR_UNMET, 1, 0));
    expect_entry("nothing kept", 0, 0, 0xee, 0xee, 0xee, 0xee);
    expect("kept start", keep(VULCEDAR_START, 0, VULCEDAR_HAPPENS), result(VULCEDAR_PASSED, 0, 0x01));
    expect_entry("its entry", 1, 0, VULCEDAR_START, 0, VULCEDAR_HAPPENS, 1);
    expect("second kept start", keep(VULCEDAR_START, 0, VULCEDAR_HAPPENS), result(VULCEDAR_BARRED, 0, 0));
    expect("kept message", keep(VULCEDAR_START, 0, 1), result(VULCEDAR_PASSED, 0, 0));
    expect_entry("its entry", 2, 1, VULCEDAR_START, 0, 1, 1);
    expect("false message", keep(VULCEDAR_START, 1, 0), result(VULCEDAR_NOT_HAPPENED, 0, 0));
    expect("kept repeat", keep(VULCEDAR_START, 0, 1), result(VULCEDAR_PASSED, 0, 0));
    expect_entry("its entry", 3, 2, VULCEDAR_START, 0, 1, 0);
    expect("start in a full journal", keep(VULCEDAR_START, 1, VULCEDAR_HAPPENS), VULCEDAR_BAD_BUFFER);
    expect("no code in a full journal", keep(9, 1, VULCEDAR_HAPPENS), VULCEDAR_BAD_BUFFER);
    expect_entry("a full journal is left", 3, 2, VULCEDAR_START, 0, 1, 0);
}

/* From there: the repeat is taken back, its place is used, a longer list is lent, and all is taken back. */
static void taken_back(void)
{
    static const uint8_t zeros[sizeof journal.state] = { 0 };
    expect("undo of the repeat", undo(), VULCEDAR_PASSED);
    expect_entry("its entry is left", 2, 2, VULCEDAR_START, 0, 1, 0);
    expect("kept start of 1", keep(VULCEDAR_START, 1, VULCEDAR_HAPPENS), result(VULCEDAR_PASSED, 1, 0x51));
    expect_entry("in the repeat's place", 3, 2, VULCEDAR_START, 1, VULCEDAR_HAPPENS, 1);
    journal.room = 6;
    expect("kept offer in a longer list", keep(VULCEDAR_OFFER, 1, VULCEDAR_HAPPENS), result(VULCEDAR_PASSED, 1, 0x12));
    expect("kept message of it", keep(VULCEDAR_OFFER, 1, 0), VULCEDAR_PASSED);
    expect("kept pick", keep(VULCEDAR_PICK, 1, VULCEDAR_HAPPENS), result(VULCEDAR_PASSED, 0, 0x57));
    expect("its bit at the parent's site", journal.state[1], 1u << (VULCEDAR_OFFER - 1) | 1u << (VULCEDAR_PICK - 1));
    expect("undo of the pick", undo(), VULCEDAR_PASSED);
    expect("its bit is cleared", journal.state[1], 1u << (VULCEDAR_OFFER - 1));
    for (uint32_t left = 5; left > 0; left--) expect("undo", undo(), VULCEDAR_PASSED);
    expect("undo of none", undo(), VULCEDAR_NOTHING_TO_UNDO);
    expect("the state and the count of the beginning", memcmp(journal.state, zeros, sizeof journal.state) == 0 && journal.count == 0, 1);
}

/* Entries and counts that no simulation left. */
static void foreign(void)
{
    static const struct { vulcedar_entry last; uint32_t number; } lent[] = {
        { { 0, 0, VULCEDAR_HAPPENS, 1 }, VULCEDAR_NOT_IN_PLAN }, { { 9, 0, VULCEDAR_HAPPENS, 1 }, VULCEDAR_NOT_IN_PLAN },
        { { VULCEDAR_START, 3, VULCEDAR_HAPPENS, 1 }, VULCEDAR_NOT_IN_PLAN }, { { VULCEDAR_START, 0, 3, 0 }, VULCEDAR_NOT_IN_PLAN },
        { { VULCEDAR_YES, 0, VULCEDAR_HAPPENS, 0 }, VULCEDAR_NOT_APPLICABLE }, { { VULCEDAR_PICK, 0, 1, 1 }, VULCEDAR_NOT_APPLICABLE },
    };
    static const vulcedar_entry two = { VULCEDAR_ABORT, 2, 1, 2 };
    memset(journal.state, 0xff, sizeof journal.state);
    for (size_t i = 0; i < sizeof lent / sizeof lent[0]; i++) {
        journal.count = 1;
        journal.entries[0] = lent[i].last;
        expect("undo of a foreign entry", undo(), lent[i].number);
        journal.count = 0;
        expect("undo of none before it", undo(), VULCEDAR_NOTHING_TO_UNDO);
    }
    for (size_t above = 0; above < 2; above++) {
        journal.count = above == 0 ? journal.room + 1 : SIZE_MAX;
        expect("undo of more than there are", undo(), VULCEDAR_BAD_BUFFER);
        expect("keep behind more than there are", keep(VULCEDAR_START, 0, 1), VULCEDAR_BAD_BUFFER);
    }
    for (size_t i = 0; i < sizeof journal.state; i++) expect("the state is left", journal.state[i], 0xff);
    /* changed 2 is read as 1, and a bit that is not set stays so */
    journal.entries[0] = two;
    for (uint32_t twice = 0; twice < 2; twice++) {
        journal.count = 1;
        expect("undo of a foreign message", undo(), VULCEDAR_PASSED);
        expect("its bit", journal.state[5], 0xff - (1u << (VULCEDAR_ABORT - 1)));
    }
}

/* Points in that journal. Their names are a letter and seven zeros: all eight bytes count, and none of them ends a name. */
static vulcedar_points points;

static const uint8_t *called(char letter)
{
    static uint8_t name[VULCEDAR_NAME_LENGTH];
    memcpy(name, &letter, 1);
    return name;
}

static uint32_t name_at(char letter, size_t count)
{
    return vulcedar_point_name(called(letter), VULCEDAR_NAME_LENGTH, count, points.names, sizeof points.names, points.places, VULCEDAR_POINTS_MOST);
}

static uint32_t name_here(char letter) { return name_at(letter, journal.count); }

static uint32_t undo_to_points(void)
{
    return vulcedar_point_undo(chosen, sizeof chosen, journal.state, sizeof journal.state, journal.entries, journal.room, &journal.count, points.names, sizeof points.names, points.places, VULCEDAR_POINTS_MOST);
}

static uint32_t back_to(char letter)
{
    return vulcedar_point_back(chosen, sizeof chosen, called(letter), VULCEDAR_NAME_LENGTH, journal.state, sizeof journal.state, journal.entries, journal.room, &journal.count, points.names, sizeof points.names, points.places, VULCEDAR_POINTS_MOST);
}

/* How many steps are kept, and the first three slots: a letter and a word each. */
static void expect_points(const char *what, size_t kept, const char *letters, uint64_t first, uint64_t second, uint64_t third)
{
    const uint64_t words[3] = { first, second, third };
    int right = journal.count == kept;
    for (size_t slot = 0; slot < 3; slot++) {
        const uint8_t *name = points.names + slot * VULCEDAR_NAME_LENGTH;
        right = right && points.places[slot] == words[slot] && memcmp(name, called(letters[slot] == '-' ? '\0' : letters[slot]), VULCEDAR_NAME_LENGTH) == 0;
    }
    expect(what, right ? 1 : 0, 1);
}

/* From a fresh journal: places are named, a point moves, a take-back drops two, and two are gone back to. */
static void named(void)
{
    memset(&journal, 0, sizeof journal);
    memset(&points, 0, sizeof points);
    journal.room = 6;
    expect("going back before there are points", back_to('a'), VULCEDAR_UNKNOWN_POINT);
    expect("naming of the beginning", name_here('a'), VULCEDAR_PASSED);
    expect("going back to it at once", back_to('a'), VULCEDAR_PASSED);
    expect("undo of no step", undo_to_points(), VULCEDAR_NOTHING_TO_UNDO);
    expect("a kept start", keep(VULCEDAR_START, 0, VULCEDAR_HAPPENS), result(VULCEDAR_PASSED, 0, 0x01));
    expect("naming behind one step", name_here('b'), VULCEDAR_PASSED);
    expect("a kept message", keep(VULCEDAR_START, 0, 1), VULCEDAR_PASSED);
    expect("a kept repeat", keep(VULCEDAR_START, 0, 1), VULCEDAR_PASSED);
    expect("naming behind three", name_here('c'), VULCEDAR_PASSED);
    expect_points("three points", 3, "abc", 1, 2, 4);
    expect("naming again", name_here('a'), VULCEDAR_PASSED);
    expect_points("a point that moved", 3, "abc", 4, 2, 4);
    expect("undo past two points", undo_to_points(), VULCEDAR_PASSED);
    expect_points("their slots are free", 2, "-b-", 0, 2, 0);
    expect("going back to one of them", back_to('c'), VULCEDAR_UNKNOWN_POINT);
    expect("a new name", name_here('d'), VULCEDAR_PASSED);
    expect_points("is in the first free slot", 2, "db-", 3, 2, 0);
    expect("a kept start of 1", keep(VULCEDAR_START, 1, VULCEDAR_HAPPENS), result(VULCEDAR_PASSED, 1, 0x51));
    expect("going back over it", back_to('d'), VULCEDAR_PASSED);
    expect("its bit is cleared", journal.state[4], 0);
    expect("the message's bit is left", journal.state[3], 1u << (VULCEDAR_START - 1));
    expect("going back to the first step", back_to('b'), VULCEDAR_PASSED);
    expect_points("the later point is dropped", 1, "-b-", 0, 2, 0);
    expect("the message's bit is cleared", journal.state[3], 0);
    expect("the first step's bit is left", journal.state[0], 1u << (VULCEDAR_START - 1));
}

/* vulcedar_undo leaves a point above the count; every call with points is refused until a step is kept there again. */
static void mixed(void)
{
    expect("undo without points", undo(), VULCEDAR_PASSED);
    expect("naming below a point", name_here('e'), VULCEDAR_BAD_BUFFER);
    expect("undo below a point", undo_to_points(), VULCEDAR_BAD_BUFFER);
    expect("going back below a point", back_to('b'), VULCEDAR_BAD_BUFFER);
    expect_points("all is left", 0, "-b-", 0, 2, 0);
    expect("the step once more", keep(VULCEDAR_START, 0, VULCEDAR_HAPPENS), result(VULCEDAR_PASSED, 0, 0x01));
    expect("going back to the point", back_to('b'), VULCEDAR_PASSED);
}

/* Every length that is not right, in each call: of the name, of the names, and how many places. */
static void lengths(void)
{
    static const size_t lent[][3] = { { 7, 128, 16 }, { 9, 128, 16 }, { 8, 127, 16 }, { 8, 136, 16 }, { 8, 128, 15 }, { 8, 128, 17 }, { 8, 120, 15 }, { 8, 136, 17 } };
    uint8_t name[9] = { 'a', 0, 0, 0, 0, 0, 0, 0, 0 }, names[136] = { 'a' };
    uint64_t places[17] = { 1 };
    for (size_t i = 0; i < sizeof lent / sizeof lent[0]; i++) {
        size_t n = lent[i][0], bytes = lent[i][1], words = lent[i][2];
        expect("naming with another length", vulcedar_point_name(name, n, 1, names, bytes, places, words), VULCEDAR_BAD_BUFFER);
        if (n == VULCEDAR_NAME_LENGTH)
            expect("undo with another length", vulcedar_point_undo(chosen, sizeof chosen, journal.state, sizeof journal.state, journal.entries, journal.room, &journal.count, names, bytes, places, words), VULCEDAR_BAD_BUFFER);
        expect("going back with another length", vulcedar_point_back(chosen, sizeof chosen, name, n, journal.state, sizeof journal.state, journal.entries, journal.room, &journal.count, names, bytes, places, words), VULCEDAR_BAD_BUFFER);
    }
    expect("one step as before, and a point", journal.count == 1 && names[0] == 'a' && places[0] == 1, 1);
    expect("going back with the right ones", vulcedar_point_back(chosen, sizeof chosen, name, 8, journal.state, sizeof journal.state, journal.entries, journal.room, &journal.count, names, 128, places, 16), VULCEDAR_PASSED);
    expect("the step once more", keep(VULCEDAR_START, 0, VULCEDAR_HAPPENS), result(VULCEDAR_PASSED, 0, 0x01));
}

/* Sixteen points; points and counts that are not right. */
static void too_many(void)
{
    vulcedar_points before;
    memset(&points, 0, sizeof points);
    for (char letter = 'a'; letter <= 'p'; letter++) expect("one of sixteen", name_here(letter), VULCEDAR_PASSED);
    before = points;
    expect("a seventeenth", name_here('z'), VULCEDAR_NO_FREE_POINT);
    expect("a known one", name_here('p'), VULCEDAR_PASSED);
    expect("naming behind the last number", name_at('p', SIZE_MAX), VULCEDAR_BAD_BUFFER);
    expect("the points are left", memcmp(&points, &before, sizeof points) == 0, 1);
    memcpy(points.names, called('b'), VULCEDAR_NAME_LENGTH);
    expect("two of one name", name_here('p'), VULCEDAR_BAD_BUFFER);
    points.places[0] = 0;
    expect("one of them free", name_here('p'), VULCEDAR_PASSED);
    expect("naming behind all but the last number", name_at('p', SIZE_MAX - 1), VULCEDAR_PASSED);
    expect("its word", points.places[15] == UINT64_MAX, 1);
    expect("a point above the count", name_here('a'), VULCEDAR_BAD_BUFFER);
}

/* A way back over entries that no simulation left: the first fault that is met counts, and all is left. */
static void foreign_way(void)
{
    static const vulcedar_entry fine = { VULCEDAR_ABORT, 2, 1, 1 }, no_site = { VULCEDAR_START, 0, 3, 0 }, no_event = { VULCEDAR_YES, 0, VULCEDAR_HAPPENS, 1 };
    memset(journal.state, 0xff, sizeof journal.state);
    memset(&points, 0, sizeof points);
    journal.entries[0] = no_site, journal.entries[1] = no_site, journal.entries[2] = no_event, journal.entries[3] = fine;
    journal.count = 1;
    expect("naming", name_here('a'), VULCEDAR_PASSED);
    journal.count = 4;
    expect("naming the end", name_here('b'), VULCEDAR_PASSED);
    expect("going back", back_to('a'), VULCEDAR_NOT_APPLICABLE);
    journal.entries[2] = fine;
    expect("going back", back_to('a'), VULCEDAR_NOT_IN_PLAN);
    expect("going back to a name that is unknown", back_to('c'), VULCEDAR_UNKNOWN_POINT);
    for (size_t i = 0; i < sizeof journal.state; i++) expect("the state is left", journal.state[i], 0xff);
    expect_points("and so is all else", 4, "ab-", 2, 5, 0);
    journal.entries[1] = fine;
    expect("going back", back_to('a'), VULCEDAR_PASSED);
    expect("the bit that the entries name", journal.state[5], 0xff - (1u << (VULCEDAR_ABORT - 1)));
    expect_points("the point at the end is dropped", 1, "a--", 2, 0, 0);
}

/* The common table: what a record has without one. */
static void tables(void)
{
    static const uint8_t plan[] = { VULCEDAR_XOR, VULCEDAR_NO_PARENT, VULCEDAR_SERIAL, 0, VULCEDAR_TASK, 1, VULCEDAR_TASK, 0 };
    static const uint8_t answers[] = { 2, 0, 1, 1 };
    static const uint8_t ends[] = { VULCEDAR_COMMITTED, VULCEDAR_TURNED_DOWN, VULCEDAR_COMMITTED, VULCEDAR_COMMITTED };
    static const uint8_t kept[] = { VULCEDAR_NO_CLASS, VULCEDAR_NO_CLASS, VULCEDAR_DRAFT, VULCEDAR_AIRED };
    uint8_t table[VULCEDAR_TABLE_LENGTH] = VULCEDAR_COMMON_TABLE, marks[4], classes[4];
    expect("the common table", vulcedar_check_table(table, sizeof table), VULCEDAR_PASSED);
    expect("the pass's record", vulcedar_pass_record(plan, sizeof plan, table, sizeof table, answers, 4, marks, 4, classes, 4), VULCEDAR_PASSED);
    expect("its marks", memcmp(marks, ends, 4) == 0, 1);
    expect("its classes", memcmp(classes, kept, 4) == 0, 1);
    table[1] = VULCEDAR_DRAFT;
    expect("a table that keeps what was not started", vulcedar_check_table(table, sizeof table), VULCEDAR_BAD_TABLE);
    expect("a table of 11 bytes", vulcedar_check_table(table, sizeof table - 1), VULCEDAR_BAD_TABLE);
}

/* An xor at desk 20, its first child at desk 10, its second at the xor's desk: rows of desks 10 and 20. */
static const uint8_t shared[] = { VULCEDAR_XOR, VULCEDAR_NO_PARENT, 0x20, VULCEDAR_TASK, 0, 0x10, VULCEDAR_TASK, 0, 0x20 };
static struct { uint8_t state[2][3]; vulcedar_entry entries[8]; size_t count; } office;

static uint32_t desk_keep(uint32_t code, uint32_t node, uint32_t desk)
{
    return vulcedar_desk_keep(shared, sizeof shared, code, node, desk, office.state[0], sizeof office.state, office.entries, 8, &office.count);
}

static uint32_t desk_undo(void) { return vulcedar_desk_undo(shared, sizeof shared, office.state[0], sizeof office.state, office.entries, 8, &office.count); }

static uint32_t desk_undo_to_points(void)
{
    return vulcedar_desk_point_undo(shared, sizeof shared, office.state[0], sizeof office.state, office.entries, 8, &office.count, points.names, sizeof points.names, points.places, VULCEDAR_POINTS_MOST);
}

static uint32_t desk_back_to(char letter)
{
    return vulcedar_desk_point_back(shared, sizeof shared, called(letter), VULCEDAR_NAME_LENGTH, office.state[0], sizeof office.state, office.entries, 8, &office.count, points.names, sizeof points.names, points.places, VULCEDAR_POINTS_MOST);
}

/* A row of the office: that of desk 10, or of desk 20. */
static void expect_row(const char *what, size_t row, uint32_t first, uint32_t second, uint32_t third)
{
    const uint8_t *r = office.state[row];
    expect(what, r[0] == first && r[1] == second && r[2] == third, 1);
}

/* A job with desks, kept: who hears of what, where results name a desk, and all the way back. */
static void desks(void)
{
    static const uint8_t plain[] = { VULCEDAR_XOR, VULCEDAR_NO_PARENT, VULCEDAR_TASK, 0, VULCEDAR_TASK, 0 };
    static const uint8_t ends[] = { VULCEDAR_RUNNING, VULCEDAR_OFFERED, VULCEDAR_RUNNING };
    uint8_t row[3] = { 0, 0, 0 }, marks[3], classes[3];
    memset(&office, 0, sizeof office);
    memset(&points, 0, sizeof points);
    expect("early message", desk_keep(VULCEDAR_START, 0, 0x20), result(VULCEDAR_NOT_HAPPENED, 0, 0));
    expect("start at desk 20", desk_keep(VULCEDAR_START, 0, VULCEDAR_HAPPENS), result(VULCEDAR_PASSED, 0x20, 0x01));
    expect("the same again", desk_keep(VULCEDAR_START, 0, VULCEDAR_HAPPENS), result(VULCEDAR_BARRED, 0x20, 0));
    expect("start of 2, which shares the desk", desk_keep(VULCEDAR_START, 2, VULCEDAR_HAPPENS), result(VULCEDAR_PASSED, 0x20, 0x51));
    expect("early start of 1", desk_keep(VULCEDAR_START, 1, VULCEDAR_HAPPENS), result(VULCEDAR_UNMET, 0x10, 0));
    expect("message to the own desk", desk_keep(VULCEDAR_START, 0, 0x20), result(VULCEDAR_PASSED, 0, 0));
    expect("is a repeat", office.count == 3 && office.entries[2].site == 0x20 && office.entries[2].changed == 0, 1);
    expect("message to desk 10", desk_keep(VULCEDAR_START, 0, 0x10), result(VULCEDAR_PASSED, 0, 0));
    expect_row("what desk 10 has heard", 0, 1, 0, 0);
    expect("start of 1", desk_keep(VULCEDAR_START, 1, VULCEDAR_HAPPENS), result(VULCEDAR_PASSED, 0x10, 0x51));
    expect("naming", vulcedar_point_name(called('a'), VULCEDAR_NAME_LENGTH, office.count, points.names, sizeof points.names, points.places, VULCEDAR_POINTS_MOST), VULCEDAR_PASSED);
    expect("offer of 1", desk_keep(VULCEDAR_OFFER, 1, VULCEDAR_HAPPENS), result(VULCEDAR_PASSED, 0x10, 0x12));
    expect("record", vulcedar_desk_record(shared, sizeof shared, office.state[0], sizeof office.state, marks, 3, classes, 3), VULCEDAR_PASSED);
    expect("its marks", memcmp(marks, ends, 3) == 0, 1);
    expect("message of it", desk_keep(VULCEDAR_OFFER, 1, 0x20), VULCEDAR_PASSED);
    expect("pick of 1, at the desk of its parent", desk_keep(VULCEDAR_PICK, 1, VULCEDAR_HAPPENS), result(VULCEDAR_PASSED, 0x20, 0x57));
    expect_row("its bit is there", 1, 1, 1u << (VULCEDAR_OFFER - 1) | 1u << (VULCEDAR_PICK - 1), 1);
    expect("a full journal", desk_keep(VULCEDAR_PICK, 1, 0x10), VULCEDAR_BAD_BUFFER);
    expect("undo of the pick", desk_undo(), VULCEDAR_PASSED);
    expect_row("its bit is cleared there", 1, 1, 1u << (VULCEDAR_OFFER - 1), 1);
    expect("going back", desk_back_to('a'), VULCEDAR_PASSED);
    expect_row("to the start of 1", 0, 1, 1, 0);
    expect("undo past the point", desk_undo_to_points(), VULCEDAR_PASSED);
    expect("its slot is free", points.places[0] == 0 && office.count == 4, 1);
    expect("going back to it", desk_back_to('a'), VULCEDAR_UNKNOWN_POINT);
    for (uint32_t left = 4; left > 0; left--) expect("undo", desk_undo(), VULCEDAR_PASSED);
    expect("undo of none", desk_undo(), VULCEDAR_NOTHING_TO_UNDO);
    expect_row("desk 10 as it began", 0, 0, 0, 0);
    expect_row("desk 20 as it began", 1, 0, 0, 0);
    /* at a desk alone: a message with the plain plan, a step with the other */
    expect("a desk hears", vulcedar_hear(plain, sizeof plain, VULCEDAR_START, 0, row, 3), VULCEDAR_PASSED);
    expect("a step at a desk", vulcedar_desk_step(shared, sizeof shared, VULCEDAR_START, 1, row, 3), result(VULCEDAR_PASSED, 0x10, 0x51));
    expect("its desk", VULCEDAR_DESK(vulcedar_desk_step(shared, sizeof shared, VULCEDAR_PICK, 1, row, 3)), 0x20);
}

/* Numbers that are no desk in use, in steps and in entries. */
static void unused_desks(void)
{
    static const uint32_t others[] = { 0, 1, 2, 0x0f, 0x11, 0x1f, 0x21, 0x9f, 0xa0, 0xfe, 0x100, 0x110, 0x120, 0x1ff, 0x80000010u, 0xffffffffu };
    memset(&office, 0, sizeof office);
    expect("start", desk_keep(VULCEDAR_START, 0, VULCEDAR_HAPPENS), result(VULCEDAR_PASSED, 0x20, 0x01));
    for (size_t i = 0; i < sizeof others / sizeof others[0]; i++) {
        expect("message to no desk", vulcedar_desk_simulate(shared, sizeof shared, VULCEDAR_START, 0, others[i], office.state[0], sizeof office.state), VULCEDAR_NOT_IN_PLAN);
        expect("kept message to no desk", desk_keep(VULCEDAR_START, 0, others[i]), VULCEDAR_NOT_IN_PLAN);
        if (others[i] > 0xff) continue;
        memset(office.entries, byte_of(others[i]), sizeof office.entries);
        office.entries[0].code = VULCEDAR_START;
        office.entries[0].node = 0;
        expect("undo of a message to no desk", desk_undo(), VULCEDAR_NOT_IN_PLAN);
        expect("undo of it with points", desk_undo_to_points(), VULCEDAR_NOT_IN_PLAN);
    }
    expect("one step as before", office.count == 1, 1);
    expect_row("and its row", 1, 1, 0, 0);
}

/* Every length of a plan with desks, of a row and of a state; and 22 behind 6, before 7. */
static void desk_lengths(void)
{
    uint8_t plan[3 * VULCEDAR_NODES_MOST + 3], bytes[16], marks[16], classes[16];
    static const uint8_t table[] = VULCEDAR_COMMON_TABLE;
    static const uint8_t early[][6] = {
        { 0, VULCEDAR_NO_PARENT, 0xa0, VULCEDAR_TASK, 0, 0 }, { VULCEDAR_SERIAL, 0, 0xa0, VULCEDAR_TASK, 0, 0 },
        { VULCEDAR_TASK, VULCEDAR_NO_PARENT, 0xa0, VULCEDAR_TASK, 0, 0 }, { VULCEDAR_CONDITIONAL, VULCEDAR_NO_PARENT, 0xa0, VULCEDAR_TASK, 0, 0 },
    };
    static const uint8_t above[] = { VULCEDAR_SERIAL, VULCEDAR_NO_PARENT, 0, VULCEDAR_TASK, 0, 0xa0 };
    size_t length;
    for (length = 0; length < sizeof plan; length += 3) { /* a serial of serials of tasks */
        size_t node = length / 3;
        plan[length] = node == 0 || node % 20 == 1 ? VULCEDAR_SERIAL : VULCEDAR_TASK;
        plan[length + 1] = byte_of(node == 0 ? VULCEDAR_NO_PARENT : node % 20 == 1 ? 0 : (node - 1) / 20 * 20 + 1);
        plan[length + 2] = byte_of(node % 7);
    }
    for (length = 0; length <= sizeof plan; length++) {
        uint32_t number = vulcedar_desk_check(plan, length);
        expect("a plan's length", number == VULCEDAR_BAD_LENGTH, length == 0 || length % 3 != 0 || length > 480);
    }
    expect("480 bytes", vulcedar_desk_check(plan, 480), VULCEDAR_PASSED);
    plan[479] = 0xa0;
    expect("480 bytes with a desk that is none", vulcedar_desk_check(plan, 480), VULCEDAR_BAD_DESK);
    for (length = 0; length <= sizeof bytes; length++) {
        memset(bytes, 0, sizeof bytes);
        expect("a row's length", vulcedar_desk_step(shared, sizeof shared, VULCEDAR_START, 0, bytes, length) == VULCEDAR_BAD_BUFFER, length != 3);
        memset(bytes, 0, sizeof bytes);
        expect("a state's length", vulcedar_desk_simulate(shared, sizeof shared, VULCEDAR_START, 0, VULCEDAR_HAPPENS, bytes, length) == VULCEDAR_BAD_BUFFER, length != 6);
        expect("a record's state", vulcedar_desk_record(shared, sizeof shared, bytes, length, marks, 3, classes, 3) == VULCEDAR_BAD_BUFFER, length != 6);
        expect("marks", vulcedar_desk_record(shared, sizeof shared, bytes, 6, marks, length, classes, 3) == VULCEDAR_BAD_BUFFER, length != 3);
        expect("classes", vulcedar_desk_record_by(shared, sizeof shared, table, sizeof table, bytes, 6, marks, 3, classes, length) == VULCEDAR_BAD_BUFFER, length != 3);
        expect("22 before a row's length", vulcedar_desk_step(above, sizeof above, VULCEDAR_START, 0, bytes, length), VULCEDAR_BAD_DESK);
        expect("22 before a state's length", vulcedar_desk_simulate(above, sizeof above, 0, 300, 300, bytes, length), VULCEDAR_BAD_DESK);
        expect("22 before a record's", vulcedar_desk_record(above, sizeof above, bytes, length, marks, 1, classes, 1), VULCEDAR_BAD_DESK);
    }
    expect("21 before 22", vulcedar_desk_record_by(above, sizeof above, table, 11, bytes, 4, marks, 2, classes, 2), VULCEDAR_BAD_TABLE);
    for (uint32_t i = 0; i < sizeof early / sizeof early[0]; i++) expect("2 to 5 before 22", vulcedar_desk_check(early[i], sizeof early[i]), VULCEDAR_BAD_KIND + i);
}

/* A contingency: an xor of two tasks, else a task. What is lent where one answer is changed, and what was there before. */
static const uint8_t staged[] = { VULCEDAR_CONTINGENCY, VULCEDAR_NO_PARENT, VULCEDAR_XOR, 0, VULCEDAR_TASK, 1, VULCEDAR_TASK, 1, VULCEDAR_TASK, 0 };
static struct { uint8_t answers[5], marks[5]; } stage;

/* A change, and whether it left the answers, and where it was refused the marks too. */
static uint32_t change(uint32_t task, uint32_t to)
{
    uint8_t answers[5], marks[5];
    memcpy(answers, stage.answers, 5);
    memcpy(marks, stage.marks, 5);
    uint32_t r = vulcedar_impact(staged, sizeof staged, stage.answers, 5, stage.marks, 5, task, to);
    expect("the answers are left", memcmp(answers, stage.answers, 5) == 0, 1);
    if (r != VULCEDAR_PASSED) expect("refused marks are left", memcmp(marks, stage.marks, 5) == 0, 1);
    return r;
}

static void set_stage(const uint8_t answers[5])
{
    memcpy(stage.answers, answers, 5);
    expect("the pass", vulcedar_pass(staged, sizeof staged, stage.answers, 5, stage.marks, 5), VULCEDAR_PASSED);
}

/* One answer changed and stored, until all have failed; then back again. After each the marks are the pass's. */
static void changed(void)
{
    static const uint8_t first[] = { 0, 1, 1, 1, 99 }, none[] = { 0, 0, 2, 2, 1 };
    static const uint8_t turned[] = { 3, 3, 3, 4, 0 }, other[] = { 3, 4, 4, 4, 3 }, ended[] = { 4, 4, 4, 4, 4 };
    set_stage(first);
    expect("the other wording fails", change(3, 2), VULCEDAR_PASSED);
    expect("its marks", memcmp(stage.marks, turned, 5) == 0, 1);
    expect("marks of a change that is not stored", change(3, 2), VULCEDAR_BAD_MARKS);
    stage.answers[3] = 2;
    expect("stored", change(3, 2), VULCEDAR_PASSED);
    expect("back", change(3, 1), VULCEDAR_PASSED);
    stage.answers[3] = 1;
    expect("a byte for a task that is not reached", change(4, 255), VULCEDAR_PASSED);
    set_stage(none);
    expect("marks of another child", memcmp(stage.marks, other, 5) == 0, 1);
    expect("all fail", change(4, 2), VULCEDAR_PASSED);
    expect("marks of none", memcmp(stage.marks, ended, 5) == 0, 1);
}

/* The numbers of a change, each before the next. */
static void unchanged(void)
{
    static const uint8_t right[] = { 0, 1, 1, 1, 2 }, bad_answer[] = { 0, 1, 3, 1, 2 }, bad_pick[] = { 0, 3, 1, 1, 2 };
    set_stage(right);
    stage.marks[4] ^= 1;
    expect("no such node", change(5, 1), VULCEDAR_NOT_IN_PLAN);
    expect("no such node above 255", change(256 + 2, 1), VULCEDAR_NOT_IN_PLAN);
    expect("no task", change(1, 256), VULCEDAR_NOT_APPLICABLE);
    expect("no answer", change(3, 0), VULCEDAR_BAD_ANSWER);
    expect("no byte", change(2, 256 + 2), VULCEDAR_BAD_ANSWER);
    expect("no byte, where it is not reached", change(4, 256), VULCEDAR_BAD_ANSWER);
    expect("the picked one", change(2, 2), VULCEDAR_BAD_PICK);
    expect("other marks", change(3, 2), VULCEDAR_BAD_MARKS);
    expect("other marks with the same answer", change(3, 1), VULCEDAR_BAD_MARKS);
    memcpy(stage.answers, bad_answer, 5);
    expect("an answer that was there", change(2, 1), VULCEDAR_BAD_ANSWER);
    memcpy(stage.answers, bad_pick, 5);
    expect("a pick that was there, before no byte", change(2, 256), VULCEDAR_BAD_PICK);
    for (size_t length = 0; length < 8; length++) {
        uint8_t bytes[8] = { 0 };
        expect("answers' length", vulcedar_impact(staged, sizeof staged, bytes, length, stage.marks, 5, 9, 256) == VULCEDAR_BAD_BUFFER, length != 5);
        expect("marks' length", vulcedar_impact(staged, sizeof staged, stage.answers, 5, bytes, length, 9, 256) == VULCEDAR_BAD_BUFFER, length != 5);
    }
}

/* A target, over bytes that mean nothing; and whether they are left where it is refused. */
static uint32_t look(uint32_t node, uint32_t mark, uint32_t end, uint8_t answers[5])
{
    static const uint8_t left[] = { 99, 99, 99, 99, 99 };
    memcpy(answers, left, 5);
    uint32_t r = vulcedar_way(staged, sizeof staged, node, mark, end, answers, 5);
    if (r != VULCEDAR_PASSED) expect("refused answers are left", memcmp(answers, left, 5) == 0, 1);
    return r;
}

/* The next list of bytes 0 to 3 in rising order, which are all that mean something here, and one that means nothing. */
static int next_list(uint8_t answers[5])
{
    for (size_t v = 5; v-- > 0;) {
        if (answers[v] < 3) return answers[v]++, 1;
        answers[v] = 0;
    }
    return 0;
}

/* Every target: the way there is the first of all lists that the pass accepts with both marks. */
static void ways(void)
{
    static const uint32_t wanted[] = { VULCEDAR_NOT_STARTED, VULCEDAR_COMMITTED, VULCEDAR_FAILED, VULCEDAR_TURNED_DOWN };
    static const uint8_t turned[] = { 0, 2, 1, 1, 0 }, failed[] = { 0, 0, 2, 2, 2 };
    uint8_t answers[5], list[5], marks[5];
    expect("the first wording is turned down", look(2, VULCEDAR_TURNED_DOWN, VULCEDAR_COMMITTED, answers), VULCEDAR_PASSED);
    expect("its answers", memcmp(answers, turned, 5) == 0, 1);
    expect("all fail", look(0, VULCEDAR_FAILED, VULCEDAR_FAILED, answers), VULCEDAR_PASSED);
    expect("their answers", memcmp(answers, failed, 5) == 0, 1);
    expect("a wording commits, and the job fails", look(2, VULCEDAR_COMMITTED, VULCEDAR_FAILED, answers), VULCEDAR_NO_WAY);
    for (uint32_t node = 0; node < 5; node++)
        for (uint32_t target = 0; target < 8; target++) {
            uint32_t mark = wanted[target / 2], end = target % 2 ? VULCEDAR_FAILED : VULCEDAR_COMMITTED;
            int more = 1;
            memset(list, 0, 5);
            while (more && (vulcedar_pass(staged, sizeof staged, list, 5, marks, 5) != VULCEDAR_PASSED || marks[node] != mark || marks[0] != end)) more = next_list(list);
            expect("a target", look(node, mark, end, answers), more ? VULCEDAR_PASSED : VULCEDAR_NO_WAY);
            if (more) expect("the way there", memcmp(answers, list, 5) == 0, 1);
            if (mark == end) expect("every node can commit and fail", more == 1, 1);
        }
}

/* The numbers of a target, each before the next; no number is cut. */
static void no_targets(void)
{
    static const uint32_t marks[] = { VULCEDAR_RUNNING, VULCEDAR_OFFERED, 6, 255, 256, 256 + VULCEDAR_COMMITTED, 0x80000004u };
    static const uint32_t ends[] = { VULCEDAR_NOT_STARTED, VULCEDAR_RUNNING, VULCEDAR_OFFERED, VULCEDAR_TURNED_DOWN, 0x103, 0xffffffffu };
    uint8_t answers[8] = { 0 };
    for (size_t length = 0; length < 8; length++)
        expect("answers' length", vulcedar_way(staged, sizeof staged, 5, VULCEDAR_RUNNING, 0, answers, length) == VULCEDAR_BAD_BUFFER, length != 5);
    expect("no such node", look(5, VULCEDAR_RUNNING, VULCEDAR_RUNNING, answers), VULCEDAR_NOT_IN_PLAN);
    expect("no such node above 255", look(256, VULCEDAR_COMMITTED, VULCEDAR_COMMITTED, answers), VULCEDAR_NOT_IN_PLAN);
    for (size_t i = 0; i < sizeof marks / sizeof marks[0]; i++) expect("no such mark", look(2, marks[i], VULCEDAR_COMMITTED, answers), VULCEDAR_BAD_TARGET);
    for (size_t i = 0; i < sizeof ends / sizeof ends[0]; i++) expect("no such end", look(0, VULCEDAR_TURNED_DOWN, ends[i], answers), VULCEDAR_BAD_TARGET);
    expect("no way", look(0, VULCEDAR_TURNED_DOWN, VULCEDAR_COMMITTED, answers), VULCEDAR_NO_WAY);
}

/* A call that writes one form of a plan from another. */
typedef uint32_t (*conversion)(const uint8_t *, size_t, uint8_t *, size_t);

/* Such a call into out_len bytes, which are left where it is refused; nothing is written behind them. */
static uint32_t convert(conversion call, const uint8_t *from, size_t from_len, uint8_t *out, size_t out_len)
{
    uint8_t room[VULCEDAR_NODES_MOST * 2 + 16], left[sizeof room];
    memset(left, 99, sizeof left);
    memset(room, 99, sizeof room);
    uint32_t r = call(from, from_len, room, out_len);
    expect("bytes behind are left", memcmp(room + out_len, left, sizeof room - out_len) == 0, 1);
    if (r != VULCEDAR_PASSED) expect("refused bytes are left", memcmp(room, left, out_len) == 0, 1);
    else memcpy(out, room, out_len);
    return r;
}

/* A serial of an and with two tasks, an or with one, and a task: every order of the six nodes below the root in which parents
   and earlier siblings stand first is a plan of this tree, and becomes the same bytes. */
static const uint8_t renumbered[] = {
    VULCEDAR_SERIAL, VULCEDAR_NO_PARENT, VULCEDAR_AND, 0, VULCEDAR_TASK, 1, VULCEDAR_TASK, 1, VULCEDAR_OR, 0, VULCEDAR_TASK, 4, VULCEDAR_TASK, 0,
};
static const uint8_t listed[] = {
    VULCEDAR_SERIAL, 1, VULCEDAR_AND, 2, VULCEDAR_TASK, 3, VULCEDAR_TASK, 3, VULCEDAR_OR, 2, VULCEDAR_TASK, 3, VULCEDAR_TASK, 2,
};
enum { LISTED = sizeof listed / 2 };

/* Takes a node into a plan once its parent and the sibling before it are there; answers how many plans come of it. */
static unsigned numberings(uint8_t plan[2 * LISTED], uint8_t number[LISTED], size_t taken)
{
    static const size_t before[LISTED] = { 0, 0, 1, 2, 1, 4, 4 }; /* the sibling before, else the parent */
    unsigned found = 0;
    uint8_t out[2 * LISTED], depths[LISTED];
    if (taken == LISTED) {
        int fixed = memcmp(plan, renumbered, sizeof renumbered) == 0;
        expect("a numbering", vulcedar_check_depths(plan, sizeof renumbered, depths, LISTED), VULCEDAR_PASSED);
        expect("its renumbering", convert(vulcedar_renumber, plan, sizeof renumbered, out, sizeof renumbered), VULCEDAR_PASSED);
        expect("the renumbered plan", memcmp(out, renumbered, sizeof renumbered) == 0, 1);
        expect("its depth form", convert(vulcedar_to_depths, plan, sizeof renumbered, out, sizeof renumbered), fixed ? VULCEDAR_PASSED : VULCEDAR_NOT_RENUMBERED);
        for (size_t v = 0; fixed && v < LISTED; v++) expect("a depth", out[2 * v + 1], depths[v]);
        return 1;
    }
    for (size_t v = 1; v < LISTED; v++) {
        if (number[v] != 0 || (before[v] != 0 && number[before[v]] == 0)) continue;
        number[v] = byte_of(taken);
        plan[2 * taken] = renumbered[2 * v];
        plan[2 * taken + 1] = number[renumbered[2 * v + 1]];
        found += numberings(plan, number, taken + 1);
        number[v] = 0;
    }
    return found;
}

/* One tree in each of its numberings; its depth form, there and back. */
static void forms(void)
{
    uint8_t plan[2 * LISTED] = { VULCEDAR_SERIAL, VULCEDAR_NO_PARENT }, number[LISTED] = { 0 }, out[2 * LISTED];
    expect("all numberings", numberings(plan, number, 1), 20);
    expect("the depth form", convert(vulcedar_to_depths, renumbered, sizeof renumbered, out, sizeof out), VULCEDAR_PASSED);
    expect("its lines", memcmp(out, listed, sizeof listed) == 0, 1);
    expect("the plan of it", convert(vulcedar_from_depths, listed, sizeof listed, out, sizeof out), VULCEDAR_PASSED);
    expect("is the same", memcmp(out, renumbered, sizeof renumbered) == 0, 1);
}

/* Every length of what is lent, of a plan and of a depth form; then the numbers, each before the next. */
static void refused_forms(void)
{
    static const struct { uint32_t number; size_t len; uint8_t bytes[10]; } plans[] = { /* none in the fixed numbering */
        { VULCEDAR_BAD_KIND, 10, { VULCEDAR_SERIAL, VULCEDAR_NO_PARENT, VULCEDAR_AND, 0, VULCEDAR_OR, 0, VULCEDAR_TASK, 2, 0, 1 } },
        { VULCEDAR_BAD_PARENT, 10, { VULCEDAR_SERIAL, VULCEDAR_NO_PARENT, VULCEDAR_AND, 0, VULCEDAR_OR, 0, VULCEDAR_TASK, 2, VULCEDAR_TASK, 4 } },
        { VULCEDAR_TASK_PARENT, 10, { VULCEDAR_SERIAL, VULCEDAR_NO_PARENT, VULCEDAR_TASK, 0, VULCEDAR_OR, 0, VULCEDAR_TASK, 2, VULCEDAR_TASK, 1 } },
        { VULCEDAR_BAD_CHILDREN, 10, { VULCEDAR_SERIAL, VULCEDAR_NO_PARENT, VULCEDAR_CONDITIONAL, 0, VULCEDAR_OR, 0, VULCEDAR_TASK, 2, VULCEDAR_TASK, 1 } },
        { VULCEDAR_NOT_RENUMBERED, 10, { VULCEDAR_SERIAL, VULCEDAR_NO_PARENT, VULCEDAR_AND, 0, VULCEDAR_OR, 0, VULCEDAR_TASK, 2, VULCEDAR_TASK, 1 } },
    }, lists[] = {
        { VULCEDAR_BAD_KIND, 6, { VULCEDAR_SERIAL, 0, VULCEDAR_TASK, 2, 9, 1 } },
        { VULCEDAR_BAD_DEPTH, 4, { VULCEDAR_SERIAL, 0, VULCEDAR_TASK, 2 } },
        { VULCEDAR_BAD_DEPTH, 4, { VULCEDAR_SERIAL, 2, VULCEDAR_TASK, 3 } },
        { VULCEDAR_BAD_DEPTH, 4, { VULCEDAR_SERIAL, 1, VULCEDAR_TASK, 1 } },
        { VULCEDAR_BAD_DEPTH, 4, { VULCEDAR_SERIAL, 1, VULCEDAR_TASK, 0 } },
        { VULCEDAR_BAD_DEPTH, 4, { VULCEDAR_SERIAL, 1, VULCEDAR_TASK, 3 } },
        { VULCEDAR_BAD_DEPTH, 4, { VULCEDAR_SERIAL, 1, VULCEDAR_TASK, 255 } },
        { VULCEDAR_BAD_DEPTH, 6, { VULCEDAR_TASK, 1, VULCEDAR_TASK, 2, VULCEDAR_TASK, 1 } },
        { VULCEDAR_TASK_PARENT, 6, { VULCEDAR_CONDITIONAL, 1, VULCEDAR_TASK, 2, VULCEDAR_TASK, 3 } },
        { VULCEDAR_BAD_CHILDREN, 4, { VULCEDAR_CONDITIONAL, 1, VULCEDAR_TASK, 2 } },
    };
    uint8_t deep[2 * VULCEDAR_DEPTH_MOST + 6], out[2 * VULCEDAR_NODES_MOST + 16];
    for (size_t length = 0; length < 2 * sizeof listed; length++) {
        uint32_t number = length == sizeof listed ? VULCEDAR_PASSED : VULCEDAR_BAD_BUFFER;
        expect("a renumbered plan's length", convert(vulcedar_renumber, renumbered, sizeof renumbered, out, length), number);
        expect("a depth form's length", convert(vulcedar_to_depths, renumbered, sizeof renumbered, out, length), number);
        expect("its plan's length", convert(vulcedar_from_depths, listed, sizeof listed, out, length), number);
        for (size_t i = 0; i < sizeof plans / sizeof plans[0]; i++) {
            uint32_t behind = length == plans[i].len ? VULCEDAR_PASSED : VULCEDAR_BAD_BUFFER;
            uint32_t renumbering = plans[i].number == VULCEDAR_NOT_RENUMBERED ? behind : plans[i].number;
            expect("renumbering a plan", convert(vulcedar_renumber, plans[i].bytes, plans[i].len, out, length), renumbering);
            expect("a plan's depth form", convert(vulcedar_to_depths, plans[i].bytes, plans[i].len, out, length), plans[i].number);
        }
        for (size_t i = 0; i < sizeof lists / sizeof lists[0]; i++)
            expect("a depth form", convert(vulcedar_from_depths, lists[i].bytes, lists[i].len, out, length), lists[i].number);
    }
    for (size_t length = 1; length < sizeof listed; length += 2) {
        expect("half a node", convert(vulcedar_renumber, renumbered, length, out, length), VULCEDAR_BAD_LENGTH);
        expect("half a node's depth", convert(vulcedar_to_depths, renumbered, length, out, length), VULCEDAR_BAD_LENGTH);
        expect("half a line", convert(vulcedar_from_depths, listed, length, out, length), VULCEDAR_BAD_LENGTH);
    }
    /* as deep as may be, and one deeper: serials below each other, a task, and one more task below the root */
    for (size_t levels = VULCEDAR_DEPTH_MOST; levels <= VULCEDAR_DEPTH_MOST + 1; levels++) {
        uint32_t number = levels > VULCEDAR_DEPTH_MOST ? VULCEDAR_TOO_DEEP : VULCEDAR_PASSED;
        uint32_t mixed = levels > VULCEDAR_DEPTH_MOST ? VULCEDAR_TOO_DEEP : VULCEDAR_NOT_RENUMBERED;
        for (size_t v = 0; v < levels; v++) deep[2 * v] = byte_of(v + 1 < levels ? VULCEDAR_SERIAL : VULCEDAR_TASK), deep[2 * v + 1] = byte_of(v + 1);
        deep[2 * levels] = VULCEDAR_TASK, deep[2 * levels + 1] = 2;
        expect("a deep form", convert(vulcedar_from_depths, deep, 2 * levels + 2, out, 2 * levels + 2), number);
        deep[2 * levels + 1] = 1;
        expect("17 before 6", convert(vulcedar_from_depths, deep, 2 * levels + 2, out, 2 * levels + 2), VULCEDAR_BAD_DEPTH);
        for (size_t v = 0; v < levels; v++) deep[2 * v + 1] = byte_of(v == 0 ? VULCEDAR_NO_PARENT : v - 1);
        deep[2 * levels + 1] = 1, deep[2 * levels + 2] = VULCEDAR_TASK, deep[2 * levels + 3] = 0;
        expect("a deep plan", convert(vulcedar_to_depths, deep, 2 * levels + 4, out, 2 * levels + 4), number);
        deep[2 * levels + 1] = 0, deep[2 * levels + 3] = 1;
        expect("6 before 18", convert(vulcedar_to_depths, deep, 2 * levels + 4, out, 2 * levels + 4), mixed);
        expect("renumbering it", convert(vulcedar_renumber, deep, 2 * levels + 4, out, 2 * levels + 4), number);
    }
}

/* Repeats a template into out_len bytes: those behind the plan are left, and all where it is refused. The plan written is accepted
   and in the fixed numbering; with a count of 1 it is the template renumbered. */
static uint32_t repeat(const uint8_t *plan, size_t plan_len, uint32_t node, uint32_t count, uint8_t out[VULCEDAR_PLAN_MOST], size_t out_len)
{
    uint8_t room[2 * VULCEDAR_PLAN_MOST], left[sizeof room], again[VULCEDAR_PLAN_MOST];
    memset(left, 99, sizeof left);
    memset(room, 99, sizeof room);
    uint32_t r = vulcedar_repeat(plan, plan_len, node, count, room, out_len);
    size_t written = VULCEDAR_NUMBER(r) == VULCEDAR_PASSED ? 2 * VULCEDAR_VALUE(r) : 0;
    expect("bytes behind a repeated plan are left", memcmp(room + written, left, sizeof room - written) == 0, 1);
    if (written == 0) return r;
    expect("a passed result has nothing else", r, result(VULCEDAR_PASSED, 0, VULCEDAR_VALUE(r)));
    expect("a repeated plan", vulcedar_check(room, written), VULCEDAR_PASSED);
    expect("renumbering it", vulcedar_renumber(room, written, again, written), VULCEDAR_PASSED);
    expect("leaves it", memcmp(again, room, written) == 0, 1);
    if (count == 1) expect("renumbering a template", vulcedar_renumber(plan, plan_len, again, plan_len), VULCEDAR_PASSED);
    if (count == 1) expect("is its plan", written == plan_len && memcmp(again, room, written) == 0, 1);
    memcpy(out, room, written);
    return r;
}

/* A serial of a marked block and a task; below the block a serial of two tasks. The last task stands before these. */
static const uint8_t marked[] = {
    VULCEDAR_SERIAL, VULCEDAR_NO_PARENT, VULCEDAR_AND, 0, VULCEDAR_TASK, 0, VULCEDAR_SERIAL, 1, VULCEDAR_TASK, 3, VULCEDAR_TASK, 3,
};
enum { CHANNEL = 3, AROUND = sizeof marked / 2 - CHANNEL }; /* nodes below the marked block, and all others */

/* Every count of each kind of block: where each node of the repeated plan stands, and what its parent is. */
static void repeated(void)
{
    static const uint8_t kinds[] = { VULCEDAR_AND, VULCEDAR_OR, VULCEDAR_XOR, VULCEDAR_WAITING_AND };
    uint8_t plan[sizeof marked], out[VULCEDAR_PLAN_MOST];
    memcpy(plan, marked, sizeof marked);
    for (size_t k = 0; k < sizeof kinds; k++)
        for (uint32_t count = 1; count <= VULCEDAR_CHILDREN_MOST; count++) {
            uint32_t nodes = AROUND + CHANNEL * count;
            plan[2] = kinds[k];
            expect("a template", repeat(plan, sizeof plan, 1, count, out, sizeof out), result(VULCEDAR_PASSED, 0, nodes));
            expect("the block", out[2] == kinds[k] && out[3] == 0, 1);
            for (size_t v = 2; v + 1 < nodes; v++) {
                size_t first = v - (v - 2) % CHANNEL; /* of this copy */
                expect("a kind", out[2 * v], v == first ? VULCEDAR_SERIAL : VULCEDAR_TASK);
                expect("a parent", out[2 * v + 1], v == first ? 1 : byte_of(first));
            }
            expect("the task behind", out[2 * nodes - 2] == VULCEDAR_TASK && out[2 * nodes - 1] == 0, 1);
        }
}

/* The numbers of a template, each before the next; no number is cut. */
static void not_repeated(void)
{
    static const uint32_t no_nodes[] = { 6, 7, 160, 255, 256, 257, 0x10001u, 0x80000001u, 0xffffffffu };
    static const uint32_t no_counts[] = { 0, 33, 34, 255, 256, 257, 0x10001u, 0x80000001u, 0xffffffffu };
    static const uint8_t contingency[] = { VULCEDAR_CONTINGENCY, VULCEDAR_NO_PARENT, VULCEDAR_TASK, 0 };
    static const uint8_t conditional[] = { VULCEDAR_CONDITIONAL, VULCEDAR_NO_PARENT, VULCEDAR_TASK, 0, VULCEDAR_TASK, 0 };
    static const uint8_t two[] = { VULCEDAR_AND, VULCEDAR_NO_PARENT, VULCEDAR_TASK, 0, VULCEDAR_TASK, 0 };
    uint8_t out[VULCEDAR_PLAN_MOST], large[VULCEDAR_PLAN_MOST + 2] = { VULCEDAR_OR, VULCEDAR_NO_PARENT, VULCEDAR_SERIAL, 0 };
    for (size_t length = 0; length < 10; length++) /* cut anywhere, a block has no child */
        expect("a plan before all else", repeat(marked, length, 99, 0, out, 5), length % 2 || length == 0 ? VULCEDAR_BAD_LENGTH : VULCEDAR_BAD_CHILDREN);
    for (size_t length = 0; length < 2 * VULCEDAR_PLAN_MOST; length++) {
        if (length == VULCEDAR_PLAN_MOST) continue;
        expect("a repeated plan's length", repeat(marked, sizeof marked, 1, 2, out, length), VULCEDAR_BAD_BUFFER);
        expect("7 before 8", repeat(marked, sizeof marked, 6, 0, out, length), VULCEDAR_BAD_BUFFER);
    }
    for (size_t i = 0; i < sizeof no_nodes / sizeof no_nodes[0]; i++) {
        expect("no such node", repeat(marked, sizeof marked, no_nodes[i], 2, out, sizeof out), VULCEDAR_NOT_IN_PLAN);
        expect("8 before 24", repeat(marked, sizeof marked, no_nodes[i], 0, out, sizeof out), VULCEDAR_NOT_IN_PLAN);
    }
    for (uint32_t count = 0; count <= 33; count++) { /* with each of these counts 23 comes first */
        for (uint32_t node = 0; node < 6; node++)
            if (node != 1) expect("no block for it", repeat(marked, sizeof marked, node, count, out, sizeof out), VULCEDAR_NOT_REPEATABLE);
        expect("a contingency", repeat(contingency, sizeof contingency, 0, count, out, sizeof out), VULCEDAR_NOT_REPEATABLE);
        expect("a conditional", repeat(conditional, sizeof conditional, 0, count, out, sizeof out), VULCEDAR_NOT_REPEATABLE);
        expect("two children", repeat(two, sizeof two, 0, count, out, sizeof out), VULCEDAR_NOT_REPEATABLE);
    }
    for (size_t v = 2; v < 34; v++) large[2 * v] = VULCEDAR_TASK, large[2 * v + 1] = 1; /* a channel of 33 nodes */
    for (size_t i = 0; i < sizeof no_counts / sizeof no_counts[0]; i++) {
        expect("no such count", repeat(marked, sizeof marked, 1, no_counts[i], out, sizeof out), VULCEDAR_BAD_COUNT);
        expect("24 before 25", repeat(large, 68, 0, no_counts[i], out, sizeof out), VULCEDAR_BAD_COUNT);
    }
    for (uint32_t count = 1; count <= VULCEDAR_CHILDREN_MOST; count++) {
        uint32_t nodes = 1 + 33 * count, five = 1 + 5 * count; /* and one of five: 156 nodes and 161 */
        uint32_t r = nodes > VULCEDAR_NODES_MOST ? result(VULCEDAR_TOO_MANY_NODES, 0, 0) : result(VULCEDAR_PASSED, 0, nodes);
        expect("a large channel", repeat(large, 68, 0, count, out, sizeof out), r);
        r = five > VULCEDAR_NODES_MOST ? result(VULCEDAR_TOO_MANY_NODES, 0, 0) : result(VULCEDAR_PASSED, 0, five);
        expect("one of five", repeat(large, 12, 0, count, out, sizeof out), r);
    }
}

/* Asks for the next plan into out_len bytes: those behind it are left, and all where it is refused. The plan written is accepted, and
   has as many nodes as the one handed in and larger bytes, or one node more. */
static uint32_t next_plan(const uint8_t *plan, size_t plan_len, uint8_t out[VULCEDAR_SMALL_PLAN_MOST], size_t out_len)
{
    uint8_t room[4 * VULCEDAR_SMALL_PLAN_MOST], left[sizeof room];
    memset(left, 99, sizeof left);
    memset(room, 99, sizeof room);
    uint32_t r = vulcedar_next_plan(plan, plan_len, room, out_len);
    size_t written = VULCEDAR_NUMBER(r) == VULCEDAR_PASSED ? 2 * VULCEDAR_VALUE(r) : 0;
    expect("bytes behind a next plan are left", memcmp(room + written, left, sizeof room - written) == 0, 1);
    if (written == 0) return r;
    expect("a passed result has nothing else", r, result(VULCEDAR_PASSED, 0, VULCEDAR_VALUE(r)));
    expect("a next plan", vulcedar_check(room, written), VULCEDAR_PASSED);
    expect("it comes after", written == plan_len ? memcmp(room, plan, written) > 0 : written == plan_len + 2, 1);
    memcpy(out, room, written);
    return r;
}

/* The last small plan. */
static const uint8_t chain[] = {
    VULCEDAR_WAITING_AND, VULCEDAR_NO_PARENT, VULCEDAR_WAITING_AND, 0, VULCEDAR_WAITING_AND, 1, VULCEDAR_WAITING_AND, 2, VULCEDAR_TASK, 3,
};

/* From the single task on until no plan comes: how many there are of each size, which come first, and which is last. */
static void small_plans(void)
{
    static const uint32_t counts[] = { 0, 1, 6, 43, 390, 4522 };
    static const uint8_t kinds[] = { VULCEDAR_SERIAL, VULCEDAR_AND, VULCEDAR_OR, VULCEDAR_XOR, VULCEDAR_CONTINGENCY, VULCEDAR_WAITING_AND };
    uint32_t met[VULCEDAR_SMALL_NODES_MOST + 1] = { 0 }, all = 0, r = result(VULCEDAR_PASSED, 0, 1);
    uint8_t plan[VULCEDAR_SMALL_PLAN_MOST] = { VULCEDAR_TASK, VULCEDAR_NO_PARENT }, out[sizeof plan];
    while (VULCEDAR_NUMBER(r) == VULCEDAR_PASSED && all < 10000) {
        uint32_t nodes = VULCEDAR_VALUE(r);
        if (nodes == 2) expect("a block with a task", plan[0] == kinds[met[2] % 6] && plan[2] == VULCEDAR_TASK && plan[3] == 0, 1);
        met[nodes]++;
        all++;
        r = next_plan(plan, 2 * nodes, out, sizeof out);
        if (VULCEDAR_NUMBER(r) == VULCEDAR_PASSED) memcpy(plan, out, 2 * VULCEDAR_VALUE(r));
    }
    expect("behind the last", r, VULCEDAR_LAST_PLAN);
    expect("the last small plan", memcmp(plan, chain, sizeof chain) == 0, 1);
    expect("all small plans", all, 4962);
    for (size_t nodes = 0; nodes <= VULCEDAR_SMALL_NODES_MOST; nodes++) expect("small plans of a size", met[nodes], counts[nodes]);
}

/* 1 to 6, then 26 and 27, then 7. */
static void not_small(void)
{
    static const uint8_t task[] = { VULCEDAR_TASK, VULCEDAR_NO_PARENT };
    uint8_t out[VULCEDAR_SMALL_PLAN_MOST], deep[2 * VULCEDAR_DEPTH_MOST + 4], six[sizeof chain + 2], faulty[sizeof six];
    memcpy(six, chain, sizeof chain);
    six[8] = VULCEDAR_SERIAL, six[10] = VULCEDAR_TASK, six[11] = 4; /* one node more */
    for (size_t v = 0; v < sizeof deep / 2; v++) {
        deep[2 * v] = v + 1 < sizeof deep / 2 ? VULCEDAR_AND : VULCEDAR_TASK;
        deep[2 * v + 1] = v == 0 ? byte_of(VULCEDAR_NO_PARENT) : byte_of(v - 1);
    }
    for (size_t length = 0; length <= 4 * VULCEDAR_SMALL_PLAN_MOST; length++) {
        for (size_t cut = 0; cut < sizeof chain; cut++) /* cut anywhere, a block has no child */
            expect("a cut plan", next_plan(chain, cut, out, length), cut % 2 || cut == 0 ? VULCEDAR_BAD_LENGTH : VULCEDAR_BAD_CHILDREN);
        for (uint32_t fault = VULCEDAR_BAD_KIND; fault <= VULCEDAR_TASK_PARENT; fault++) { /* of a larger plan and of a small one */
            memcpy(faulty, six, sizeof six);
            faulty[4] = fault == VULCEDAR_BAD_KIND ? 9 : fault == VULCEDAR_TASK_PARENT ? VULCEDAR_TASK : VULCEDAR_WAITING_AND;
            faulty[5] = fault == VULCEDAR_BAD_PARENT ? 2 : 1;
            expect("a fault before 27", next_plan(faulty, sizeof faulty, out, length), fault);
            expect("a fault of a small plan", next_plan(faulty, sizeof chain, out, length), fault);
        }
        expect("a plan that is too deep", next_plan(deep, sizeof deep, out, length), VULCEDAR_TOO_DEEP);
        expect("26 before 7", next_plan(chain, sizeof chain, out, length), VULCEDAR_LAST_PLAN);
        expect("27 before 7", next_plan(six, sizeof six, out, length), VULCEDAR_NOT_SMALL);
        uint32_t r = length == VULCEDAR_SMALL_PLAN_MOST ? result(VULCEDAR_PASSED, 0, 2) : result(VULCEDAR_BAD_BUFFER, 0, 0);
        expect("a next plan's length", next_plan(task, sizeof task, out, length), r);
    }
}

enum { LOAD_STEPS = 400, LOAD_BYTES = LOAD_STEPS * VULCEDAR_STEP_BYTES };

/* Asks for a load into out_len bytes: those around them are left, and all where it is refused. */
static uint32_t workload(const uint8_t *plan, size_t plan_len, uint32_t seed, uint32_t count, uint8_t out[LOAD_BYTES], size_t out_len)
{
    enum { BEFORE = 8 };
    uint8_t room[LOAD_BYTES + 2 * BEFORE], left[sizeof room];
    memset(left, 99, sizeof left);
    memset(room, 99, sizeof room);
    uint32_t r = vulcedar_workload(plan, plan_len, seed, count, room + BEFORE, out_len);
    size_t written = r == VULCEDAR_PASSED ? out_len : 0;
    expect("bytes before a load are left", memcmp(room, left, BEFORE) == 0, 1);
    expect("bytes behind a load are left", memcmp(room + BEFORE + written, left, sizeof room - BEFORE - written) == 0, 1);
    memcpy(out, room + BEFORE, written);
    return r;
}

/* Another maker's generator: moves s, and gives the new s divided by 65536. */
static uint32_t draw(uint64_t *s)
{
    *s = (*s * 1664525 + 1013904223) % (UINT64_C(1) << 32);
    return *s / 65536 & 0xffffu;
}

/* A plan of so many nodes: tasks in blocks of 31. */
static void plan_of(size_t nodes, uint8_t plan[VULCEDAR_PLAN_MOST])
{
    for (size_t v = 0; v < nodes; v++) {
        size_t block = v == 0 ? 0 : (v - 1) / 32 * 32 + 1;
        plan[2 * v] = v == block && nodes > 1 ? (v == 0 ? byte_of(VULCEDAR_SERIAL) : byte_of(VULCEDAR_OR)) : byte_of(VULCEDAR_TASK);
        plan[2 * v + 1] = v == 0 ? byte_of(VULCEDAR_NO_PARENT) : byte_of(v == block ? 0 : block);
    }
}

/* Loads for plans of several sizes are those of the other maker, also of the smaller counts, and a simulation takes each step:
   it finds no code, no node and no site that is not there. The first one begins as it is known to. */
static void loads(void)
{
    static const size_t sizes[] = { 1, 3, 6, 35, 160 };
    static const uint32_t seeds[] = { 0, 1, 2580, 2581, 0x10000u, 634785765u, 653637408u, 0x7fffffffu, 0x80000000u, 0xffffffffu };
    static const uint8_t known[] = { VULCEDAR_START, 2, VULCEDAR_HAPPENS, VULCEDAR_PICK, 2, VULCEDAR_HAPPENS, VULCEDAR_START, 2, 1 };
    static const uint8_t six[] = {
        VULCEDAR_SERIAL, VULCEDAR_NO_PARENT, VULCEDAR_TASK, 0, VULCEDAR_XOR, 0, VULCEDAR_TASK, 2, VULCEDAR_TASK, 2, VULCEDAR_TASK, 0,
    };
    static uint8_t state[VULCEDAR_NODES_MOST * VULCEDAR_NODES_MOST];
    uint8_t plan[VULCEDAR_PLAN_MOST], out[LOAD_BYTES], front[LOAD_BYTES];
    expect("a known load", workload(six, sizeof six, 0, 3, out, sizeof known), VULCEDAR_PASSED);
    expect("its steps", memcmp(out, known, sizeof known) == 0, 1);
    for (size_t i = 0; i < sizeof sizes / sizeof sizes[0]; i++) {
        size_t nodes = sizes[i];
        plan_of(nodes, plan);
        for (size_t k = 0; k < sizeof seeds / sizeof seeds[0]; k++) {
            uint64_t s = seeds[k];
            memset(state, 0, sizeof state);
            expect("a load", workload(plan, 2 * nodes, seeds[k], LOAD_STEPS, out, sizeof out), VULCEDAR_PASSED);
            for (const uint8_t *step = out; step < out + sizeof out; step += VULCEDAR_STEP_BYTES) {
                uint32_t what = draw(&s), code = draw(&s) % 8 + 1, node = draw(&s) % byte_of(nodes), site = draw(&s) % byte_of(nodes);
                expect("a step's code", step[0], code);
                expect("a step's node", step[1], node);
                expect("a step's site", step[2], what % 2 == 0 ? 0xff : site);
                uint32_t number = VULCEDAR_NUMBER(vulcedar_simulate(plan, 2 * nodes, step[0], step[1], step[2], state, nodes * nodes));
                expect("a step that is run", number == VULCEDAR_PASSED || (number >= VULCEDAR_NOT_APPLICABLE && number <= VULCEDAR_NOT_HAPPENED), 1);
            }
            for (uint32_t count = 0; count <= LOAD_STEPS; count += 25) {
                size_t length = count * VULCEDAR_STEP_BYTES;
                expect("a smaller count", workload(plan, 2 * nodes, seeds[k], count, front, length), VULCEDAR_PASSED);
                expect("is the front", memcmp(front, out, length) == 0, 1);
            }
        }
    }
}

/* 1 to 6, then 7; three times the count is not cut. */
static void no_loads(void)
{
    static const uint32_t huge[] = { 0x5555u, 0x5556u, 0xaaabu, 0x10000u, 0x10001u, 0x55555555u, 0x55555556u, 0x80000000u, 0xaaaaaaaau, 0xaaaaaaabu, 0xffffffffu };
    uint8_t out[LOAD_BYTES], plan[VULCEDAR_PLAN_MOST], faulty[12], deep[2 * VULCEDAR_DEPTH_MOST + 4];
    plan_of(6, plan);
    for (size_t v = 0; v < sizeof deep / 2; v++) {
        deep[2 * v] = v + 1 < sizeof deep / 2 ? VULCEDAR_AND : VULCEDAR_TASK;
        deep[2 * v + 1] = v == 0 ? byte_of(VULCEDAR_NO_PARENT) : byte_of(v - 1);
    }
    for (size_t length = 0; length <= 30; length++) {
        for (uint32_t count = 0; count <= 10; count++) {
            uint32_t r = length == count * VULCEDAR_STEP_BYTES ? VULCEDAR_PASSED : VULCEDAR_BAD_BUFFER;
            expect("a load's length", workload(plan, 12, 7, count, out, length), r);
            for (size_t cut = 0; cut < 4; cut++) /* a block has no child */
                expect("a cut plan", workload(plan, cut, 7, count, out, length), cut == 2 ? VULCEDAR_BAD_CHILDREN : VULCEDAR_BAD_LENGTH);
            for (uint32_t fault = VULCEDAR_BAD_KIND; fault <= VULCEDAR_BAD_CHILDREN; fault++) {
                memcpy(faulty, plan, sizeof faulty);
                faulty[6] = fault == VULCEDAR_BAD_KIND ? 9 : fault == VULCEDAR_BAD_CHILDREN ? VULCEDAR_CONDITIONAL : VULCEDAR_TASK;
                faulty[7] = fault == VULCEDAR_BAD_PARENT ? 3 : fault == VULCEDAR_TASK_PARENT ? 2 : 1;
                expect("a fault before 7", workload(faulty, sizeof faulty, 7, count, out, length), fault);
            }
            expect("a plan that is too deep", workload(deep, sizeof deep, 7, count, out, length), VULCEDAR_TOO_DEEP);
        }
        for (size_t i = 0; i < sizeof huge / sizeof huge[0]; i++) {
            expect("a huge count", workload(plan, 12, 7, huge[i], out, length), VULCEDAR_BAD_BUFFER);
            expect("a fault before it", workload(deep, sizeof deep, 7, huge[i], out, length), VULCEDAR_TOO_DEEP);
        }
    }
}

/* 7 as well for 2^32 bytes more than there should be, if so many can be had; nobody writes them. */
static void too_many_bytes(void)
{
#ifndef __SANITIZE_ADDRESS__ /* the sanitizer would write an eighth as many of its own */
    static const uint8_t plan[] = { VULCEDAR_TASK, VULCEDAR_NO_PARENT };
    size_t length = (UINT64_C(1) << 32) + VULCEDAR_STEP_BYTES;
    void *memory = calloc(length, 1);
    uint8_t *room;
    if (memory == NULL) return;
    memcpy(&room, &memory, sizeof room);
    expect("a load into too many bytes", vulcedar_workload(plan, sizeof plan, 1, 1, room, length), VULCEDAR_BAD_BUFFER);
    expect("they are left", room[0] == 0 && room[1] == 0 && room[2] == 0, 1);
    free(memory);
#endif
}

/* Task 1, then task 2: site 2 is told that 1 committed, which it did not, and the block commits without it. */
static void false_message(void)
{
    static const uint8_t plan[] = { VULCEDAR_SERIAL, VULCEDAR_NO_PARENT, VULCEDAR_TASK, 0, VULCEDAR_TASK, 0 };
    static const uint8_t ends[] = { VULCEDAR_COMMITTED, VULCEDAR_NOT_STARTED, VULCEDAR_COMMITTED };
    uint8_t rows[3][3], state[9], marks[3], classes[3], pass[3], answers[3] = { 0, 0, 0 };
    memset(rows, 0, sizeof rows);
    memset(state, 0, sizeof state);
    expect("start of the block", VULCEDAR_NUMBER(vulcedar_step(plan, sizeof plan, VULCEDAR_START, 0, rows[0], 3)), VULCEDAR_PASSED);
    expect("start of 2 without a message", VULCEDAR_NUMBER(vulcedar_step(plan, sizeof plan, VULCEDAR_START, 2, rows[2], 3)), VULCEDAR_UNMET);
    expect("the false message", vulcedar_hear(plan, sizeof plan, VULCEDAR_COMMIT, 1, rows[2], 3), VULCEDAR_PASSED);
    expect("start of 2", VULCEDAR_NUMBER(vulcedar_step(plan, sizeof plan, VULCEDAR_START, 2, rows[2], 3)), VULCEDAR_PASSED);
    expect("commit of 2", VULCEDAR_NUMBER(vulcedar_step(plan, sizeof plan, VULCEDAR_COMMIT, 2, rows[2], 3)), VULCEDAR_PASSED);
    expect("the true message", vulcedar_hear(plan, sizeof plan, VULCEDAR_COMMIT, 2, rows[0], 3), VULCEDAR_PASSED);
    expect("commit of the block", VULCEDAR_NUMBER(vulcedar_step(plan, sizeof plan, VULCEDAR_COMMIT, 0, rows[0], 3)), VULCEDAR_PASSED);
    expect("the record", vulcedar_record(plan, sizeof plan, rows[0], sizeof rows, marks, 3, classes, 3), VULCEDAR_PASSED);
    expect("its marks", memcmp(marks, ends, 3) == 0, 1);
    for (answers[1] = 0; answers[1] < 4; answers[1]++)
        for (answers[2] = 0; answers[2] < 4; answers[2]++) {
            memset(pass, 0xff, sizeof pass);
            vulcedar_pass(plan, sizeof plan, answers, 3, pass, 3);
            expect("no pass ends so", memcmp(marks, pass, 3) == 0, 0);
        }
    expect("in a simulation", vulcedar_simulate(plan, sizeof plan, VULCEDAR_COMMIT, 1, 2, state, 9), VULCEDAR_NOT_HAPPENED);
}

int main(void)
{
    expect("the version", vulcedar_version(), VULCEDAR_VERSION);
    nulls();
    desk_nulls();
    parts();
    kept();
    taken_back();
    foreign();
    named();
    mixed();
    lengths();
    too_many();
    foreign_way();
    tables();
    desks();
    unused_desks();
    desk_lengths();
    changed();
    unchanged();
    ways();
    no_targets();
    forms();
    refused_forms();
    repeated();
    not_repeated();
    small_plans();
    not_small();
    loads();
    no_loads();
    too_many_bytes();
    false_message();
    if (wrong == 0) printf("header: nulls, parts of results, a journal, its points, tables, desks, a changed answer, ways, forms of a plan, repeated templates, all small plans, test loads, the version and a false message are as it says\n");
    return wrong == 0 ? 0 : 1;
}
