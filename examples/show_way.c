/*
 * An example editor: show me a way there. A supervisor points at a node of a captioning plan and says what is to become of it, and
 * how the job is to end: this draft is turned down, and the job commits. The editor asks for the way there and prints it node by
 * node: which task must work or fail, which branch is taken, which child is picked, and what is free, since the pass does not look
 * at it. Where no answers lead there it says so, and asks for the same in a job that ends otherwise (docs/GUIDE.md, "A way there").
 *
 * An auditor, which a real editor does not need, stops the program if the pass over the answers does not leave what was wanted,
 * or if an answer that is free is not 0. The program always prints the same: examples/show_way.out.
 *
 * usage: show_way      exit status 0 if the auditor did not stop it
 */
#include <stdbool.h>
#include <stdio.h>
#include <stdlib.h>

#include "vulcedar.h"

enum { WORKS = 1, YES = 1 };

static const struct { uint8_t kind, parent; const char *name; } JOB[] = {
    { VULCEDAR_SERIAL, VULCEDAR_NO_PARENT, "evening news" },
    { VULCEDAR_XOR, 0, "wording" },
    { VULCEDAR_TASK, 1, "draft by Ann" },
    { VULCEDAR_TASK, 1, "draft by Ben" },
    { VULCEDAR_CONDITIONAL, 0, "is it live?" },
    { VULCEDAR_TASK, 4, "respeaking" },
    { VULCEDAR_TASK, 4, "typing" },
    { VULCEDAR_CONTINGENCY, 0, "line to the studio" },
    { VULCEDAR_TASK, 7, "cable" },
    { VULCEDAR_TASK, 7, "satellite" },
    { VULCEDAR_TASK, 7, "telephone" },
};
enum { NODES = sizeof JOB / sizeof JOB[0], DRAFT_BY_ANN = 2, DRAFT_BY_BEN, TYPING = 6, LINE, SATELLITE = 9, TELEPHONE };

static const char *const MARK[] = { "not started", "running", "offered", "committed", "failed", "turned down" };

static uint8_t plan[2 * NODES], answers[NODES], marks[NODES];

static void fail(const char *what)
{
    printf("FAILED: %s\n", what);
    exit(1);
}

/* The way to a target, and the marks that the pass leaves with it. Where there is none, answers and marks stay. */
static uint32_t find_way(uint32_t node, uint32_t mark, uint32_t end)
{
    uint32_t r = vulcedar_way(plan, sizeof plan, node, mark, end, answers, NODES);
    if (r == VULCEDAR_PASSED) r = vulcedar_pass(plan, sizeof plan, answers, NODES, marks, NODES);
    return r;
}

/* The pass looks at the answers of tasks, xors and conditionals that it comes to. Every other answer is free, and 0. */
static bool is_read(size_t v)
{
    uint8_t kind = JOB[v].kind;
    return marks[v] != VULCEDAR_NOT_STARTED && (kind == VULCEDAR_TASK || kind == VULCEDAR_XOR || kind == VULCEDAR_CONDITIONAL);
}

/* The name of a block's child, by its place counted from 1. */
static const char *child(size_t block, unsigned place)
{
    size_t v = block;
    while (place > 0)
        if (JOB[++v].parent == block) place--;
    return JOB[v].name;
}

/* An answer in words. */
static void print_answer(size_t v)
{
    if (!is_read(v)) printf("free");
    else if (JOB[v].kind == VULCEDAR_TASK) printf("%s", answers[v] == WORKS ? "works" : "fails");
    else if (JOB[v].kind == VULCEDAR_CONDITIONAL) printf("%s: %s", answers[v] == YES ? "yes" : "no", child(v, answers[v]));
    else if (answers[v] == 0) printf("nobody offers");
    else printf("picks %s", child(v, answers[v]));
}

/* The auditor: both marks are as they were wanted, and what is free is 0. */
static void audit(uint32_t node, uint32_t mark, uint32_t end)
{
    if (marks[node] != mark || marks[0] != end) fail("the answers lead elsewhere");
    for (size_t v = 0; v < NODES; v++)
        if (!is_read(v) && answers[v] != 0) fail("a free answer is not 0");
}

/* The answers and what becomes of each node, if a way was found. */
static void print_way(uint32_t node, uint32_t mark, uint32_t end)
{
    audit(node, mark, end);
    for (size_t v = 0; v < NODES; v++) {
        printf("%3u  %-20s %-12s ", (unsigned)v, JOB[v].name, MARK[marks[v]]);
        print_answer(v);
        printf("\n");
    }
}

/* One question. Where no answers lead there, the same is asked with the other end, so that the editor can say more than no. */
static void ask(uint32_t node, uint32_t mark, uint32_t end)
{
    uint32_t other = end == VULCEDAR_COMMITTED ? VULCEDAR_FAILED : VULCEDAR_COMMITTED;
    printf("\nwanted: %s %s, the job %s\n", JOB[node].name, MARK[mark], MARK[end]);
    uint32_t r = find_way(node, mark, end);
    if (r == VULCEDAR_NO_WAY) {
        printf("  no answers lead there; ");
        end = other;
        r = find_way(node, mark, end);
        printf(r == VULCEDAR_NO_WAY ? "none with the job %s either\n" : "with the job %s these do\n", MARK[end]);
    }
    if (r == VULCEDAR_PASSED) print_way(node, mark, end);
    else if (r != VULCEDAR_NO_WAY) fail("a target is refused");
}

int main(void)
{
    for (size_t v = 0; v < NODES; v++) {
        plan[2 * v] = JOB[v].kind;
        plan[2 * v + 1] = JOB[v].parent;
    }
    if (vulcedar_check(plan, sizeof plan) != VULCEDAR_PASSED) fail("the plan is refused");
    printf("which answers lead there?\n");
    ask(DRAFT_BY_ANN, VULCEDAR_TURNED_DOWN, VULCEDAR_COMMITTED);
    ask(SATELLITE, VULCEDAR_COMMITTED, VULCEDAR_COMMITTED);
    ask(TYPING, VULCEDAR_COMMITTED, VULCEDAR_FAILED);
    ask(LINE, VULCEDAR_NOT_STARTED, VULCEDAR_FAILED);
    ask(TELEPHONE, VULCEDAR_FAILED, VULCEDAR_COMMITTED);
    ask(DRAFT_BY_BEN, VULCEDAR_NOT_STARTED, VULCEDAR_COMMITTED);
    return 0;
}
