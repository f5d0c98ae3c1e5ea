/*
 * An example editor: what if one task ended otherwise? A planner has a captioning plan and expects every task to work. By the
 * single pass the editor knows what becomes of each node. For every task it then asks what would become of the job if that
 * task alone ended the other way, prints which nodes change and how, and puts the marks back by a second call with the old
 * answer. One change is kept, by storing its answer, and all is asked once more (docs/GUIDE.md, "What if a task failed?").
 *
 * An auditor, which a real editor does not need, compares the marks with those of a whole pass after every call, and stops the
 * program if they differ, or if a mark changes that is out of the task's reach. The program always prints the same:
 * examples/what_if.out.
 *
 * usage: what_if      exit status 0 if the auditor did not stop it
 */
#include <stdbool.h>
#include <stdio.h>
#include <stdlib.h>
#include <string.h>

#include "vulcedar.h"

enum { WORKS = 1, FAILS = 2 };

/* The answers are the planner's: all tasks work, and the xor picks its second child. Other blocks have none. */
static const struct { uint8_t kind, parent, answer; const char *name; } SHOW[] = {
    { VULCEDAR_SERIAL, VULCEDAR_NO_PARENT, 0, "evening debate" },
    { VULCEDAR_AND, 0, 0, "preparation" },
    { VULCEDAR_TASK, 1, WORKS, "glossary" },
    { VULCEDAR_TASK, 1, WORKS, "speaker list" },
    { VULCEDAR_CONTINGENCY, 0, 0, "captions" },
    { VULCEDAR_SERIAL, 4, 0, "captions by hand" },
    { VULCEDAR_TASK, 5, WORKS, "respeaking" },
    { VULCEDAR_TASK, 5, WORKS, "correction" },
    { VULCEDAR_TASK, 4, WORKS, "captions by machine" },
    { VULCEDAR_XOR, 0, 2, "line to the studio" },
    { VULCEDAR_TASK, 9, WORKS, "satellite" },
    { VULCEDAR_TASK, 9, WORKS, "cable" },
    { VULCEDAR_OR, 0, 0, "archive" },
    { VULCEDAR_TASK, 12, WORKS, "transcript" },
    { VULCEDAR_TASK, 12, WORKS, "summary" },
};
enum { NODES = sizeof SHOW / sizeof SHOW[0] };

static const char *const MARK[] = { "not started", "running", "offered", "committed", "failed", "turned down" };
static const char *const CLASS[] = { "none", "aired", "draft", "log only" };
enum { MARKS = sizeof MARK / sizeof MARK[0] };

static uint8_t plan[2 * NODES], answers[NODES], marks[NODES];

static void fail(const char *what)
{
    printf("FAILED: %s\n", what);
    exit(1);
}

/* What the result of a task can upset at most, by the plan alone: the task, the blocks above it, and later children of a serial
   or a contingency on that way, with all that is below them. Parents stand before their children. */
static void find_reach(uint32_t task, bool reach[NODES])
{
    memset(reach, 0, NODES * sizeof reach[0]);
    reach[task] = true;
    for (uint32_t at = task; at != 0; at = SHOW[at].parent) {
        uint32_t parent = SHOW[at].parent;
        bool in_turn = SHOW[parent].kind == VULCEDAR_SERIAL || SHOW[parent].kind == VULCEDAR_CONTINGENCY;
        bool later[NODES] = { false };
        reach[parent] = true;
        for (uint32_t v = at + 1; in_turn && v < NODES; v++)
            if (SHOW[v].parent == parent || later[SHOW[v].parent]) reach[v] = later[v] = true;
    }
}

/* A task ends otherwise: the marks follow, and the answer is stored, so that the next change can follow too. Where the call is
   refused, neither changes. */
static uint32_t change(uint32_t task, uint8_t answer)
{
    uint32_t r = vulcedar_impact(plan, sizeof plan, answers, NODES, marks, NODES, task, answer);
    if (r == VULCEDAR_PASSED) answers[task] = answer;
    return r;
}

/* The auditor: the marks are those of a whole pass over the answers. */
static void audit(void)
{
    uint8_t whole[NODES];
    if (vulcedar_pass(plan, sizeof plan, answers, NODES, whole, NODES) != VULCEDAR_PASSED) fail("the pass refuses the answers");
    if (memcmp(marks, whole, NODES) != 0) fail("the marks are not those of the pass");
}

/* Every node whose mark is another now, under its new mark. */
static void print_changes(const uint8_t *before)
{
    bool any = false;
    for (uint8_t mark = 0; mark < MARKS; mark++) {
        const char *between = "";
        for (size_t v = 0; v < NODES; v++) {
            if (marks[v] != mark || before[v] == mark) continue;
            if (!*between) printf("      %-12s ", MARK[mark]);
            printf("%s%s", between, SHOW[v].name);
            between = ", ", any = true;
        }
        if (*between) printf("\n");
    }
    if (!any) printf("      nothing changes\n");
}

/* One question: what if this task ended the other way? The marks are put back. */
static void ask(uint32_t task)
{
    uint8_t before[NODES], old = answers[task], other = old == WORKS ? FAILS : WORKS;
    bool reach[NODES];
    unsigned most = 0;
    memcpy(before, marks, NODES);
    find_reach(task, reach);
    for (size_t v = 0; v < NODES; v++) most += reach[v];
    printf("  if %s %s, of at most %u nodes:\n", SHOW[task].name, other == FAILS ? "failed" : "worked", most);
    uint32_t r = change(task, other);
    if (r == VULCEDAR_BAD_PICK) printf("      a pick must change too\n");
    else if (r != VULCEDAR_PASSED) fail("a change is refused");
    if (r != VULCEDAR_PASSED) return;
    audit();
    for (size_t v = 0; v < NODES; v++)
        if (marks[v] != before[v] && !reach[v]) fail("a mark changes that is out of reach");
    print_changes(before);
    if (change(task, old) != VULCEDAR_PASSED || memcmp(marks, before, NODES) != 0) fail("the marks are not put back");
}

static void ask_all(void)
{
    printf("\nwhat if one task ended otherwise?\n");
    for (uint32_t v = 0; v < NODES; v++)
        if (SHOW[v].kind == VULCEDAR_TASK) ask(v);
}

/* Marks and classes by the common table. */
static void print_record(void)
{
    static const uint8_t table[] = VULCEDAR_COMMON_TABLE;
    uint8_t same[NODES], classes[NODES];
    if (vulcedar_pass_record(plan, sizeof plan, table, sizeof table, answers, NODES, same, NODES, classes, NODES) != VULCEDAR_PASSED) fail("no record");
    for (size_t v = 0; v < NODES; v++) printf("%3u  %-20s %-12s %s\n", (unsigned)v, SHOW[v].name, MARK[marks[v]], CLASS[classes[v]]);
}

int main(void)
{
    enum { RESPEAKING = 6 };
    uint8_t before[NODES];
    for (size_t v = 0; v < NODES; v++) {
        plan[2 * v] = SHOW[v].kind;
        plan[2 * v + 1] = SHOW[v].parent;
        answers[v] = SHOW[v].answer;
    }
    if (vulcedar_pass(plan, sizeof plan, answers, NODES, marks, NODES) != VULCEDAR_PASSED) fail("the plan or an answer is refused");
    print_record();
    ask_all();

    memcpy(before, marks, NODES);
    if (change(RESPEAKING, FAILS) != VULCEDAR_PASSED) fail("the change is refused");
    audit();
    printf("\nkept: %s fails\n", SHOW[RESPEAKING].name);
    print_changes(before);
    ask_all();
    printf("\n");
    print_record();
    return 0;
}
