/*
 * An example of two makers who try their software with the same steps. They have told each other a plan, a seed and a count; each
 * draws the load himself, runs it, and reads out two sums, one over the load and one over what came of it. If the sums are the same,
 * so were all steps and all answers. Here one maker's engine is the library, and the second asks for a longer load and stops
 * earlier: the front of a load does not depend on its count (docs/GUIDE.md, "A load that two makers share").
 *
 * An auditor, which a real test does not need, stops the program if a step is not one of the plan, or if the loads differ. The program
 * always prints the same: examples/shared_load.out.
 *
 * usage: shared_load      exit status 0 if both makers read out the same; 1 if not; 3 if the auditor stopped it
 */
#include <stdio.h>
#include <stdlib.h>
#include <string.h>

#include "vulcedar.h"

enum { SAME = 0, DIFFERENT = 1, STOPPED = 3 };
enum { NODES = 6, COUNT = 2000, LONGER = 5000 };

/* A serial: a draft, an xor of two takes, and the air. */
static const uint8_t plan[2 * NODES] = {
    VULCEDAR_SERIAL, VULCEDAR_NO_PARENT, VULCEDAR_TASK, 0, VULCEDAR_XOR, 0, VULCEDAR_TASK, 2, VULCEDAR_TASK, 2, VULCEDAR_TASK, 0,
};
static const uint32_t seed = 45542; /* most seeds end in a task that fails early */

/* What a maker reads out. */
struct result {
    uint32_t load, answers;         /* sums over the load, and over the results and the state that it left */
    unsigned passed;                /* how many steps passed */
    uint8_t marks[NODES], classes[NODES];
};

static void stop(const char *what)
{
    printf("STOPPED: %s\n", what);
    exit(STOPPED);
}

static uint32_t add(uint32_t sum, uint32_t byte) { return (sum ^ byte) * 0x01000193u; } /* FNV-1a */

static const char *code_name(uint8_t code)
{
    static const char *const names[] = { "?", "start", "offer", "commit", "abort", "yes", "no", "pick", "turned down" };
    return code < sizeof names / sizeof names[0] ? names[code] : names[0];
}

/* Runs the first steps of a load from a fresh start, each as it is: a refused one is a step like any other. Prints the events that pass. */
static struct result run(const uint8_t *load, unsigned count, int shown)
{
    static uint8_t state[NODES * NODES];
    struct result out = { 0x811c9dc5u, 0x811c9dc5u, 0, { 0 }, { 0 } };
    memset(state, 0, sizeof state);
    for (unsigned i = 0; i < count; i++) {
        const uint8_t *step = load + VULCEDAR_STEP_BYTES * i;
        uint32_t r = vulcedar_simulate(plan, sizeof plan, step[0], step[1], step[2], state, sizeof state);
        if (VULCEDAR_NUMBER(r) == VULCEDAR_NOT_IN_PLAN) stop("a step is none of this plan");
        for (unsigned b = 0; b < VULCEDAR_STEP_BYTES; b++) out.load = add(out.load, step[b]);
        out.answers = add(out.answers, VULCEDAR_NUMBER(r));
        out.passed += VULCEDAR_NUMBER(r) == VULCEDAR_PASSED;
        if (shown && VULCEDAR_NUMBER(r) == VULCEDAR_PASSED && step[2] == VULCEDAR_HAPPENS)
            printf("  step %4u  %02x%02x%02x  %s of node %u\n", i, step[0], step[1], step[2], code_name(step[0]), step[1]);
    }
    for (size_t i = 0; i < sizeof state; i++) out.answers = add(out.answers, state[i]);
    if (vulcedar_record(plan, sizeof plan, state, sizeof state, out.marks, NODES, out.classes, NODES) != VULCEDAR_PASSED) stop("there is no record");
    return out;
}

/* Draws a load; answers the number. */
static uint32_t draw(uint32_t count, uint8_t *load, size_t length)
{
    return VULCEDAR_NUMBER(vulcedar_workload(plan, sizeof plan, seed, count, load, length));
}

/* A call that must be refused, and leaves every byte. */
static void try_call(const char *what, uint32_t count, size_t length)
{
    uint8_t out[16], before[sizeof out];
    memset(out, 0xee, sizeof out);
    memset(before, 0xee, sizeof before);
    uint32_t number = draw(count, out, length);
    if (number == VULCEDAR_PASSED) stop("a wrong call passes");
    if (memcmp(out, before, sizeof out) != 0) stop("a refused call writes");
    printf("  %s: %u\n", what, (unsigned)number);
}

static void print_result(const char *who, const struct result *r)
{
    printf("%s: %u of %u steps passed; load %08x, answers %08x; marks", who, r->passed, (unsigned)COUNT, (unsigned)r->load, (unsigned)r->answers);
    for (size_t v = 0; v < NODES; v++) printf(" %u", r->marks[v]);
    printf("\n");
}

int main(void)
{
    static uint8_t mine[VULCEDAR_STEP_BYTES * COUNT], theirs[VULCEDAR_STEP_BYTES * LONGER];
    printf("seed %u, %u nodes, %u steps\n", (unsigned)seed, (unsigned)NODES, (unsigned)COUNT);
    if (draw(COUNT, mine, sizeof mine) != VULCEDAR_PASSED || draw(LONGER, theirs, sizeof theirs) != VULCEDAR_PASSED) stop("a load is refused");
    if (memcmp(mine, theirs, sizeof mine) != 0) stop("the shorter load is not the front of the longer one");
    struct result one = run(mine, COUNT, 1), two = run(theirs, COUNT, 0);
    print_result("one maker", &one);
    print_result("the other", &two);
    int same = one.load == two.load && one.answers == two.answers;
    printf("%s\n", same ? "both read out the same" : "they differ");

    printf("\nrefused\n");
    try_call("three bytes for two steps", 2, 3);
    try_call("two bytes a step", 4, 8);
    try_call("two bytes for 1431655766 steps, whose triple is 2 in 32 bits", 1431655766u, 2);
    return same ? SAME : DIFFERENT;
}
