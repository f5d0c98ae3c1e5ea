/*
 * An example editor for programmes in several languages. A planner draws the plan for one language channel, and marks the block
 * below which the channel stands. The editor repeats the channel for as many languages as there are, and gives every node of the
 * new plan a name. Where a count or a mark is refused it says why, and by asking it finds how many channels fit into one plan. A
 * job of three channels then shows that each has marks of its own (docs/GUIDE.md, "One block for each channel").
 *
 * An auditor, which a real editor does not need, stops the program if a name goes astray, if a repeated plan is refused or is not
 * in the fixed numbering, or if one channel is not the plan as it was drawn. The program always prints the same:
 * examples/channels.out.
 *
 * usage: channels      exit status 0 if the auditor did not stop it
 */
#include <stdio.h>
#include <stdlib.h>
#include <string.h>

#include "vulcedar.h"

enum { WORKS = 1, FAILS = 2 };

/* The plan as it was drawn. The report was there before the channel, so that the numbering is not the fixed one. */
static const struct { uint8_t kind, parent; const char *name; } DRAWN[] = {
    { VULCEDAR_SERIAL, VULCEDAR_NO_PARENT, "song contest" },
    { VULCEDAR_TASK, 0, "glossary" },
    { VULCEDAR_AND, 0, "languages" },
    { VULCEDAR_TASK, 0, "report" },
    { VULCEDAR_SERIAL, 2, "channel" },
    { VULCEDAR_TASK, 4, "transcription" },
    { VULCEDAR_CONTINGENCY, 4, "wording" },
    { VULCEDAR_TASK, 6, "translation" },
    { VULCEDAR_TASK, 6, "respeaking" },
    { VULCEDAR_TASK, 4, "check" },
    { VULCEDAR_TASK, 4, "air" },
};
enum { NODES = sizeof DRAWN / sizeof DRAWN[0], GLOSSARY = 1, LANGUAGES, CHANNEL = 4, TRANSLATION = 7, CHECK = 9 };

static const char *const KIND[] = { "?", "task", "serial", "and", "or", "xor", "contingency", "conditional", "waiting and" };
static const char *const MARK[] = { "not started", "running", "offered", "committed", "failed", "turned down" };

/* The drawn plan as bytes. The repeated plan, and for each of its nodes the one that was drawn and its channel, 0 outside. */
static uint8_t drawn[2 * NODES], plan[VULCEDAR_PLAN_MOST];
static struct { size_t drawn; unsigned channel; } origin[VULCEDAR_NODES_MOST];
static size_t nodes;

static void fail(const char *what)
{
    printf("FAILED: %s\n", what);
    exit(1);
}

/* Why a plan is not repeated. */
static const char *reason(uint32_t number)
{
    switch (number) {
    case VULCEDAR_NOT_IN_PLAN: return "the plan has no such node";
    case VULCEDAR_NOT_REPEATABLE: return "only an and, or, xor or waiting and with one child can be marked";
    case VULCEDAR_BAD_COUNT: return "there can be 1 to 32 channels";
    case VULCEDAR_TOO_MANY_NODES: return "the plan would have more than 160 nodes";
    default: return "the plan itself is refused";
    }
}

/* Where the nodes of the repeated plan come from, in the order of its numbers: a node, then the subtrees of its children, and
   below the marked block the channel's subtree again and again. */
static size_t walk(size_t v, unsigned channel, unsigned channels, size_t at)
{
    origin[at].drawn = v;
    origin[at].channel = channel;
    at++;
    for (size_t child = v + 1; child < NODES; child++) {
        if (DRAWN[child].parent != v) continue;
        if (v != LANGUAGES) at = walk(child, channel, channels, at);
        else for (unsigned c = 1; c <= channels; c++) at = walk(child, c, channels, at);
    }
    return at;
}

/* What the header says of a repeated plan. */
static void audit(unsigned channels)
{
    uint8_t again[VULCEDAR_PLAN_MOST];
    if (vulcedar_check(plan, 2 * nodes) != VULCEDAR_PASSED) fail("the repeated plan is refused");
    if (vulcedar_renumber(plan, 2 * nodes, again, 2 * nodes) != VULCEDAR_PASSED) fail("it is not renumbered");
    if (memcmp(again, plan, 2 * nodes) != 0) fail("it is not in the fixed numbering");
    for (size_t v = 0; v < nodes; v++)
        if (plan[2 * v] != DRAWN[origin[v].drawn].kind) fail("a name goes to a node of another kind");
    if (channels != 1) return;
    if (vulcedar_renumber(drawn, sizeof drawn, again, sizeof drawn) != VULCEDAR_PASSED) fail("the drawn plan is refused");
    if (memcmp(again, plan, sizeof drawn) != 0) fail("one channel is not the plan as it was drawn");
}

/* Repeats the channel. Where that is refused, plan and names stay. */
static uint32_t repeat(unsigned channels)
{
    uint32_t r = vulcedar_repeat(drawn, sizeof drawn, LANGUAGES, channels, plan, sizeof plan);
    if (VULCEDAR_NUMBER(r) != VULCEDAR_PASSED) return r;
    nodes = VULCEDAR_VALUE(r);
    if (walk(0, 0, channels, 0) != nodes) fail("a node has no name");
    audit(channels);
    return VULCEDAR_PASSED;
}

/* The tree, with marks if there are any. */
static void print_tree(const uint8_t *marks)
{
    uint8_t depth[VULCEDAR_NODES_MOST];
    if (vulcedar_check_depths(plan, 2 * nodes, depth, nodes) != VULCEDAR_PASSED) fail("the plan is refused");
    for (size_t v = 0; v < nodes; v++) {
        size_t d = origin[v].drawn;
        printf("%3u  %*s%s", (unsigned)v, 2 * (depth[v] - 1), "", DRAWN[d].name);
        if (d == CHANNEL) printf(" %u", origin[v].channel);
        printf(" (%s)%s%s\n", KIND[DRAWN[d].kind], marks ? ": " : "", marks ? MARK[marks[v]] : "");
    }
}

/* A call that must be refused. */
static void try_call(const char *what, uint32_t r)
{
    if (VULCEDAR_NUMBER(r) == VULCEDAR_PASSED) fail("a wrong call passes");
    printf("  %s: %s\n", what, reason(VULCEDAR_NUMBER(r)));
}

/* The number that a drawn node has in a channel. */
static size_t find(size_t node, unsigned channel)
{
    for (size_t v = 0; v < nodes; v++)
        if (origin[v].drawn == node && origin[v].channel == channel) return v;
    fail("a channel has no such node");
    return 0;
}

/* A job in which each channel goes its own way: the second is respoken, the third is stopped by its check. */
static void run_job(void)
{
    uint8_t answers[VULCEDAR_NODES_MOST], marks[VULCEDAR_NODES_MOST];
    memset(answers, WORKS, nodes);
    answers[find(TRANSLATION, 2)] = FAILS;
    answers[find(CHECK, 3)] = FAILS;
    if (vulcedar_pass(plan, 2 * nodes, answers, nodes, marks, nodes) != VULCEDAR_PASSED) fail("the pass is refused");
    print_tree(marks);
    if (marks[find(CHANNEL, 1)] != VULCEDAR_COMMITTED || marks[find(CHANNEL, 2)] != VULCEDAR_COMMITTED) fail("a channel is upset by another");
    if (marks[find(CHANNEL, 3)] != VULCEDAR_FAILED) fail("a channel is not its own");
}

int main(void)
{
    for (size_t v = 0; v < NODES; v++) {
        drawn[2 * v] = DRAWN[v].kind;
        drawn[2 * v + 1] = DRAWN[v].parent;
    }
    printf("one channel\n");
    if (repeat(1) != VULCEDAR_PASSED) fail("one channel is refused");
    print_tree(NULL);
    printf("\nthree channels\n");
    if (repeat(3) != VULCEDAR_PASSED) fail("three channels are refused");
    print_tree(NULL);
    printf("\na job of three channels\n");
    run_job();

    printf("\nrefused\n");
    try_call("no channel", repeat(0));
    try_call("33 channels", repeat(33));
    try_call("32 channels", repeat(32));
    uint8_t out[VULCEDAR_PLAN_MOST];
    try_call("the glossary marked", vulcedar_repeat(drawn, sizeof drawn, GLOSSARY, 3, out, sizeof out));
    try_call("node 11 marked", vulcedar_repeat(drawn, sizeof drawn, NODES, 3, out, sizeof out));
    try_call("the three channels repeated", vulcedar_repeat(plan, 2 * nodes, LANGUAGES, 3, out, sizeof out));

    /* from above: the first count that passes is the largest */
    unsigned most = VULCEDAR_CHILDREN_MOST;
    while (most > 0 && repeat(most) != VULCEDAR_PASSED) most--;
    if (most == 0) fail("no count passes");
    printf("\nas many as fit: %u channels, %u nodes\n", most, (unsigned)nodes);
    printf("  channel 1 begins at node %u, channel %u at node %u\n", (unsigned)find(CHANNEL, 1), most, (unsigned)find(CHANNEL, most));
    return 0;
}
