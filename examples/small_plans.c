/*
 * An example of a test that the maker of a screen runs before it is delivered: every plan of up to five nodes is shown once, from
 * the single task to the last one. For each of them the test makes the calls that a screen makes when it opens a plan: how deep
 * every node lies, the fixed numbering, the depth form for another editor, and the record of a job that has not begun. If one of
 * these is refused, the test says for which plan, and goes on. Most lines are not printed; a sum over all bytes stands for them
 * (docs/GUIDE.md, "All small plans").
 *
 * An auditor, which a real test does not need, stops the program if a plan does not come after the one before, or if there are not
 * as many as the header says. The program always prints the same: examples/small_plans.out.
 *
 * usage: small_plans      exit status 0 if every plan was shown; 1 if a call of the screen was refused; 2 if a next plan was
 *                         refused before the last; 3 if the auditor stopped it
 */
#include <stdio.h>
#include <stdlib.h>
#include <string.h>

#include "vulcedar.h"

enum { SHOWN = 0, NOT_SHOWN = 1, CUT_SHORT = 2, STOPPED = 3 };
enum { NODES = VULCEDAR_SMALL_NODES_MOST, BYTES = VULCEDAR_SMALL_PLAN_MOST, ALL = 4962, FIRST_LINES = 8 };

/* What was met so far: plans by nodes and by levels, different trees, a sum over all bytes, and refused calls of the screen. */
static unsigned all, by_nodes[NODES + 1], by_levels[NODES + 1], trees, refused;
static uint32_t sum = 0x811c9dc5u;

static void stop(const char *what)
{
    printf("STOPPED: %s\n", what);
    exit(STOPPED);
}

/* Why a call is refused. */
static const char *reason(uint32_t number)
{
    switch (number) {
    case VULCEDAR_BAD_LENGTH: return "the plan has no byte, an odd number of them, or too many";
    case VULCEDAR_BAD_KIND: return "a kind is none";
    case VULCEDAR_BAD_PARENT: return "a parent does not stand before its child";
    case VULCEDAR_TASK_PARENT: return "a task has a child";
    case VULCEDAR_BAD_CHILDREN: return "a block has too few or too many children";
    case VULCEDAR_TOO_DEEP: return "a node lies too deep";
    case VULCEDAR_BAD_BUFFER: return "not as many bytes are lent as are needed";
    case VULCEDAR_NOT_RENUMBERED: return "the plan is not in the fixed numbering";
    case VULCEDAR_LAST_PLAN: return "this is the last small plan";
    case VULCEDAR_NOT_SMALL: return "the plan has more than five nodes";
    default: return "a number that this program does not know";
    }
}

static void print_bytes(const uint8_t *plan, size_t nodes)
{
    for (size_t v = 0; v < nodes; v++) printf("%s%02x%02x", v ? " " : "", plan[2 * v], plan[2 * v + 1]);
}

/* A call of the screen; answers whether it passed. */
static int passes(const char *call, uint32_t r, const uint8_t *plan, size_t nodes)
{
    uint32_t number = VULCEDAR_NUMBER(r);
    if (number == VULCEDAR_PASSED) return 1;
    refused++;
    printf("NOT SHOWN: ");
    print_bytes(plan, nodes);
    printf(", %s answers %u: %s\n", call, (unsigned)number, reason(number));
    return 0;
}

/* The calls that a screen makes when it opens a plan; answers how many levels the tree has. */
static unsigned open_plan(const uint8_t *plan, size_t nodes)
{
    uint8_t depth[NODES] = { 0 }, fixed[BYTES], form[BYTES], state[NODES * NODES] = { 0 }, marks[NODES], classes[NODES];
    unsigned levels = 0;
    passes("check_depths", vulcedar_check_depths(plan, 2 * nodes, depth, nodes), plan, nodes);
    for (size_t v = 0; v < nodes; v++) if (depth[v] > levels) levels = depth[v];
    if (passes("renumber", vulcedar_renumber(plan, 2 * nodes, fixed, 2 * nodes), plan, nodes)) {
        trees += memcmp(fixed, plan, 2 * nodes) == 0; /* each tree has one plan in the fixed numbering */
        passes("to_depths", vulcedar_to_depths(fixed, 2 * nodes, form, 2 * nodes), fixed, nodes);
    }
    passes("record", vulcedar_record(plan, 2 * nodes, state, nodes * nodes, marks, nodes, classes, nodes), plan, nodes);
    return levels;
}

/* Shows a plan. A line is printed for the first ones, and for the first of each size. */
static void show(const uint8_t *plan, size_t nodes)
{
    unsigned levels = open_plan(plan, nodes);
    if (levels < 1 || levels > nodes) stop("a tree has more levels than nodes, or none");
    all++;
    by_levels[levels]++;
    for (size_t i = 0; i < 2 * nodes; i++) sum = (sum ^ plan[i]) * 0x01000193u; /* FNV-1a */
    if (by_nodes[nodes]++ > 0 && all > FIRST_LINES && all < ALL) return;
    printf("  %4u  %5u  %6u  ", all, (unsigned)nodes, levels);
    print_bytes(plan, nodes);
    printf("\n");
}

/* What the header says of a next plan and the one before. */
static void audit(const uint8_t *plan, size_t nodes, const uint8_t *next, size_t next_nodes)
{
    if (next_nodes < nodes || next_nodes > NODES) stop("a plan has fewer nodes than the one before, or too many");
    if (next_nodes == nodes && memcmp(next, plan, 2 * nodes) <= 0) stop("a plan comes too late, or twice");
    if (all >= ALL) stop("there are more plans than the header says");
}

/* Shows all plans, one after another; answers the result that ends it. */
static uint32_t show_all(void)
{
    uint8_t plan[BYTES] = { VULCEDAR_TASK, VULCEDAR_NO_PARENT }, next[BYTES];
    size_t nodes = 1;
    for (;;) {
        show(plan, nodes);
        uint32_t r = vulcedar_next_plan(plan, 2 * nodes, next, sizeof next);
        if (VULCEDAR_NUMBER(r) != VULCEDAR_PASSED) return r;
        audit(plan, nodes, next, VULCEDAR_VALUE(r));
        nodes = VULCEDAR_VALUE(r);
        memcpy(plan, next, 2 * nodes);
    }
}

/* A call that must be refused, and leaves every byte. */
static void try_call(const char *what, const uint8_t *plan, size_t plan_len, size_t out_len)
{
    uint8_t out[2 * BYTES], before[sizeof out];
    memset(out, 0xee, sizeof out);
    memset(before, 0xee, sizeof before);
    uint32_t r = vulcedar_next_plan(plan, plan_len, out, out_len);
    if (VULCEDAR_NUMBER(r) == VULCEDAR_PASSED) stop("a wrong call passes");
    if (memcmp(out, before, sizeof out) != 0) stop("a refused call writes");
    printf("  %s: %u, %s\n", what, (unsigned)VULCEDAR_NUMBER(r), reason(VULCEDAR_NUMBER(r)));
}

/* What a maker may run into. */
static void try_refused_calls(void)
{
    static const uint8_t last[] = { 8, VULCEDAR_NO_PARENT, 8, 0, 8, 1, 8, 2, VULCEDAR_TASK, 3 };
    static const uint8_t six[] = { VULCEDAR_SERIAL, VULCEDAR_NO_PARENT, 1, 0, 1, 0, 1, 0, 1, 0, 1, 0 };
    static const uint8_t task[] = { VULCEDAR_TASK, VULCEDAR_NO_PARENT };
    static const uint8_t block[] = { VULCEDAR_SERIAL, VULCEDAR_NO_PARENT, VULCEDAR_TASK, 0 };
    static const uint8_t buffer[BYTES] = { VULCEDAR_TASK, VULCEDAR_NO_PARENT };
    try_call("behind the last", last, sizeof last, BYTES);
    try_call("behind six nodes", six, sizeof six, BYTES);
    try_call("into four bytes, though the next plan has four", task, sizeof task, 4);
    try_call("the whole buffer in place of the plan in front", buffer, sizeof buffer, BYTES);
    try_call("the number of nodes in place of the bytes", task, 1, BYTES);
    try_call("a block without its task", block, 2, BYTES);
}

int main(void)
{
    printf("all small plans\n  plan  nodes  levels  bytes\n");
    uint32_t r = show_all();
    if (VULCEDAR_NUMBER(r) != VULCEDAR_LAST_PLAN) {
        uint32_t number = VULCEDAR_NUMBER(r);
        printf("CUT SHORT: behind plan %u next_plan answers %u: %s\n", all, (unsigned)number, reason(number));
        return CUT_SHORT;
    }
    if (all != ALL) stop("there are fewer plans than the header says");

    printf("\nplans with so many      1     2     3     4     5\n  nodes            ");
    for (size_t n = 1; n <= NODES; n++) printf("%6u", by_nodes[n]);
    printf("\n  levels           ");
    for (size_t n = 1; n <= NODES; n++) printf("%6u", by_levels[n]);
    printf("\nin all %u plans, %u different trees; the sum of their bytes is %08x\n", all, trees, (unsigned)sum);
    printf("calls of the screen that were refused: %u\n", refused);

    printf("\nrefused\n");
    try_refused_calls();
    return refused == 0 ? SHOWN : NOT_SHOWN;
}
