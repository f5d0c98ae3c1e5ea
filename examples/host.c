/*
 * An example host: the plan of a captioning day, one site a node, all in one process, over a bad line.
 *
 * The line drops messages (the sender resends until it has heard back), doubles them and mixes their order, and now and
 * then a site tells of an event that is not its own to tell. Every site decides its own events by vulcedar_step on its own
 * row and hears of others by vulcedar_hear. When nothing can happen any more, the end record is printed beside the one of
 * a single pass.
 *
 * What it relies on, as every host must (docs/GUIDE.md, "A host's two rules"):
 *   1. Each step is taken on the row of the event's own site: happen() is the only caller of vulcedar_step that counts.
 *   2. A site is told only of events that happened: arrive() believes of an event only the site that decides it, and that
 *      site tells only what stands in its own row (resend). So `from` must be the true sender. Here it is; on a real line
 *      this takes a connection that proves who speaks. vulcedar_hear itself believes whatever it is given.
 *
 * An auditor, which a real host does not need, runs every step in one simulation beside it and the events against the
 * central rule, and stops the program if either differs.
 *
 * With `old` the plan is taken as one from before VULCEDAR_WAITING_AND, when an and-block waited for all its children: it
 * is rewritten first, and the block of the two live desks waits for both of them before it fails.
 *
 * usage: host [seed [old]]      exit status 0 if the two records are the same
 */
#include <stdbool.h>
#include <stdio.h>
#include <stdlib.h>
#include <string.h>

#include "vulcedar.h"

/* What a line of the plan is for. The second byte is the number of the parent. */
static const struct { uint8_t kind, parent; const char *name; } DAY[] = {
    { VULCEDAR_SERIAL, VULCEDAR_NO_PARENT, "captioning day" },
    { VULCEDAR_CONDITIONAL, 0, "script at hand?" },
    { VULCEDAR_TASK, 1, "load the script" },
    { VULCEDAR_TASK, 1, "train the recogniser" },
    { VULCEDAR_AND, 0, "two live desks" },
    { VULCEDAR_XOR, 4, "take for channel 1" },
    { VULCEDAR_TASK, 5, "take by Ann" },
    { VULCEDAR_TASK, 5, "take by Ben" },
    { VULCEDAR_TASK, 5, "take by machine" },
    { VULCEDAR_OR, 4, "check for channel 2" },
    { VULCEDAR_TASK, 9, "first checker" },
    { VULCEDAR_TASK, 9, "second checker" },
    { VULCEDAR_CONTINGENCY, 0, "archive" },
    { VULCEDAR_TASK, 12, "archive at the house" },
    { VULCEDAR_TASK, 12, "archive at the back-up" },
};
enum { NODES = sizeof DAY / sizeof DAY[0], LINE = 4096 };

static const char *const CODE[] = { "?", "start", "offer", "commit", "abort", "yes", "no", "pick", "turn-down" };
static const char *const KIND[] = { "root", "task", "serial", "and", "or", "xor", "contingency", "conditional", "waiting and" };
static const char *const MARK[] = { "not started", "running", "offered", "committed", "failed", "turned down" };
static const char *const CLASS[] = { "none", "aired", "draft", "log only" };

struct message { uint8_t code, node, from, to; };
struct record { uint8_t marks[NODES], classes[NODES]; };

static uint8_t plan[2 * NODES];
static uint8_t rows[NODES][NODES];                    /* what each site stores */
static bool told[NODES][9][NODES][NODES];             /* told[from][code][node][to]: `to` has confirmed it */
static struct message line[LINE];
static size_t waiting;
static uint8_t state[NODES * NODES], marks[NODES], notes[NODES]; /* the auditor's */
static uint32_t seed = 1;
static unsigned sent, dropped, doubled, disbelieved, events;

static uint32_t draw(uint32_t below)
{
    seed = seed * 1664525u + 1013904223u;
    return (seed >> 16) % below;
}

static uint32_t site_of(uint32_t code, uint32_t node) { return code == VULCEDAR_PICK ? DAY[node].parent : node; }

static bool heard(const uint8_t *row, uint32_t code, uint32_t node) { return row[node] >> (code - 1) & 1; }

static void fail(const char *what)
{
    printf("FAILED: %s\n", what);
    exit(1);
}

/* What an event waits for, in words. */
static void print_guard(uint32_t code, uint32_t node)
{
    uint8_t g[VULCEDAR_GUARD_MOST];
    uint32_t r = vulcedar_guard(plan, sizeof plan, code, node, g, sizeof g);
    if (VULCEDAR_NUMBER(r) != VULCEDAR_PASSED) fail("no guard");
    const uint8_t *at = g + 1;
    if (g[0] == 0) printf("nothing");
    for (int clause = 0; clause < g[0]; clause++) {
        int n = *at++;
        printf("%s%s", clause ? ", and " : "", n ? "" : "what can never be");
        for (int e = 0; e < n; e++, at += 2) printf("%s%s of %u", e ? " or " : "", CODE[at[0]], at[1]);
    }
}

/* The rule of an event that passed, in words: the kind it goes by, and the event. */
static void print_rule(uint32_t rule)
{
    if (rule == 0xf3) printf("xor's picked child: commit");
    else printf("%s: %s", KIND[rule >> 4], CODE[rule & 15]);
}

static void post(struct message m)
{
    if (waiting == LINE) return; /* a full line drops, and the sender resends */
    line[waiting++] = m;
    sent++;
}

/* An event wants to happen at its site. The row is stored before anyone is told. */
static bool happen(uint32_t code, uint32_t node)
{
    uint32_t at = site_of(code, node);
    uint32_t r = vulcedar_step(plan, sizeof plan, code, node, rows[at], NODES);
    if (VULCEDAR_NUMBER(r) != VULCEDAR_PASSED) return false;
    if (VULCEDAR_SITE(r) != at) fail("another site answered");
    if (vulcedar_rule(plan, sizeof plan, code, node) != VULCEDAR_RULE(r) << 16) fail("another rule");
    printf("%3u  %-9s of %2u  %-22s waited for ", ++events, CODE[code], node, DAY[node].name);
    print_guard(code, node);
    printf("; rule %02x, ", VULCEDAR_RULE(r));
    print_rule(VULCEDAR_RULE(r));
    printf("\n");
    /* the auditor */
    if (vulcedar_simulate(plan, sizeof plan, code, node, VULCEDAR_HAPPENS, state, sizeof state) != r) fail("the auditor's simulation differs");
    if (VULCEDAR_VALUE(vulcedar_central(plan, sizeof plan, code, node, marks, NODES, notes, NODES)) != 1) fail("the central rule forbids it");
    return true;
}

/* The auditor on a message that arrive() drops: the simulation refuses it, unless the event had happened after all. */
static void audit_dropped(struct message m)
{
    uint32_t n;
    if (heard(rows[site_of(m.code, m.node)], m.code, m.node)) return;
    n = VULCEDAR_NUMBER(vulcedar_simulate(plan, sizeof plan, m.code, m.node, m.to, state, sizeof state));
    if (n != VULCEDAR_NOT_HAPPENED && n != VULCEDAR_NOT_APPLICABLE) fail("the auditor believes a false message");
}

/* A message arrives. A site believes of an event only the site that decides it; whatever another one tells is dropped. */
static void arrive(struct message m)
{
    if (m.from != site_of(m.code, m.node)) {
        disbelieved++;
        audit_dropped(m);
        return;
    }
    if (vulcedar_hear(plan, sizeof plan, m.code, m.node, rows[m.to], NODES) != VULCEDAR_PASSED) fail("a message was refused");
    if (vulcedar_simulate(plan, sizeof plan, m.code, m.node, m.to, state, sizeof state) != VULCEDAR_PASSED) fail("the auditor refuses a message");
    if (draw(4)) told[m.from][m.code][m.node][m.to] = true; /* else the confirmation was lost */
}

/* One message of the line, any: it is dropped, arrives, or arrives and stays to arrive again. */
static void deliver(void)
{
    if (waiting == 0) return;
    size_t i = draw((uint32_t)waiting);
    struct message m = line[i];
    uint32_t fate = draw(8);
    if (fate == 0) dropped++;
    else arrive(m);
    if (fate == 1) doubled++;
    else line[i] = line[--waiting];
}

/* Every site resends what it knows of its own events until it is confirmed. True if nothing is left to tell. */
static bool resend(void)
{
    bool all = true;
    for (uint32_t node = 0; node < NODES; node++)
        for (uint32_t code = VULCEDAR_START; code <= VULCEDAR_TURN_DOWN; code++) {
            uint32_t at = site_of(code, node);
            if (at >= NODES || !heard(rows[at], code, node)) continue;
            for (uint32_t to = 0; to < NODES; to++)
                if (to != at && !told[at][code][node][to]) {
                    all = false;
                    if (draw(3) == 0) post((struct message){ (uint8_t)code, (uint8_t)node, (uint8_t)at, (uint8_t)to });
                }
        }
    return all;
}

/* The desk's own will: which of its events a site tries. Tasks fail one time in four. */
static bool wants(uint32_t code, uint32_t node)
{
    if (DAY[node].kind == VULCEDAR_TASK && (code == VULCEDAR_ABORT || code == VULCEDAR_COMMIT || code == VULCEDAR_OFFER)) return (draw(4) == 0) == (code == VULCEDAR_ABORT);
    if (code == VULCEDAR_YES || code == VULCEDAR_NO) return draw(2) == 0;
    return true;
}

/* True if some event could pass. */
static bool work(void)
{
    bool open = false;
    for (uint32_t node = 0; node < NODES; node++)
        for (uint32_t code = VULCEDAR_START; code <= VULCEDAR_TURN_DOWN; code++) {
            uint32_t at = site_of(code, node);
            uint8_t trial[NODES];
            if (at >= NODES) continue;
            memcpy(trial, rows[at], NODES);
            if (VULCEDAR_NUMBER(vulcedar_step(plan, sizeof plan, code, node, trial, NODES)) != VULCEDAR_PASSED) continue;
            open = true;
            if (draw(3) == 0 && wants(code, node)) happen(code, node);
        }
    return open;
}

/* The bytes of the pass that agree with what happened; where nothing did, any byte. */
static void agree(uint8_t *answers)
{
    for (uint32_t v = 0; v < NODES; v++) {
        uint32_t place = 0, picked = 0;
        const uint8_t *row = rows[v];
        answers[v] = (uint8_t)draw(256);
        if (DAY[v].kind == VULCEDAR_TASK && (heard(row, VULCEDAR_OFFER, v) || heard(row, VULCEDAR_COMMIT, v))) answers[v] = 1;
        if (DAY[v].kind == VULCEDAR_TASK && heard(row, VULCEDAR_ABORT, v)) answers[v] = 2;
        if (DAY[v].kind == VULCEDAR_CONDITIONAL && heard(row, VULCEDAR_YES, v)) answers[v] = 1;
        if (DAY[v].kind == VULCEDAR_CONDITIONAL && heard(row, VULCEDAR_NO, v)) answers[v] = 2;
        for (uint32_t c = 1; c < NODES; c++)
            if (DAY[c].parent == v && (place++, heard(row, VULCEDAR_PICK, c))) picked = place;
        if (DAY[v].kind == VULCEDAR_XOR && heard(row, VULCEDAR_START, v)) answers[v] = (uint8_t)picked;
    }
}

/* Aired is a committed task below blocks that all committed, and nothing else, by the common table. */
static bool filed(const struct record *end)
{
    for (int v = 0; v < NODES; v++) {
        bool through = DAY[v].kind == VULCEDAR_TASK && end->marks[v] == VULCEDAR_COMMITTED;
        for (int above = DAY[v].parent; above != (int)VULCEDAR_NO_PARENT; above = DAY[above].parent) 
            through = through && end->marks[above] == VULCEDAR_COMMITTED;
        if ((end->classes[v] == VULCEDAR_AIRED) != through) return false;
    }
    return true;
}

static void print_records(const struct record *end, const struct record *pass)
{
    printf("\nnode                        end record             single pass\n");
    for (int v = 0; v < NODES; v++)
        printf("%2d  %-22s  %-12s %-8s  %-12s %s\n", v, DAY[v].name, MARK[end->marks[v]], CLASS[end->classes[v]], MARK[pass->marks[v]], CLASS[pass->classes[v]]);
}

/* The plan as it was meant before kind 08. */
static void rewrite(void)
{
    uint8_t old[sizeof plan];
    memcpy(old, plan, sizeof plan);
    if (vulcedar_rewrite(old, sizeof old, plan, sizeof plan) != VULCEDAR_PASSED) fail("the plan is not rewritten");
    for (int v = 0; v < NODES; v++)
        if (plan[2 * v] != (DAY[v].kind == VULCEDAR_AND ? VULCEDAR_WAITING_AND : DAY[v].kind) || plan[2 * v + 1] != DAY[v].parent) fail("the rewritten plan is another");
}

int main(int argc, char **argv)
{
    static const uint8_t table[] = VULCEDAR_COMMON_TABLE;
    uint8_t answers[NODES];
    struct record end, pass;
    if (argc > 1) seed = (uint32_t)strtoul(argv[1], NULL, 10);
    for (int v = 0; v < NODES; v++) plan[2 * v] = DAY[v].kind, plan[2 * v + 1] = DAY[v].parent;
    if (vulcedar_check(plan, sizeof plan) != VULCEDAR_PASSED) fail("the plan is refused");
    if (argc > 2 && strcmp(argv[2], "old") == 0) rewrite();

    bool open = true, informed = false;
    while (open || !informed) {
        open = work();
        informed = resend();
        for (int i = 0; i < 40; i++) deliver();
        /* the root's site tells of something that is not its own to tell */
        if (draw(5) == 0) post((struct message){ (uint8_t)(VULCEDAR_START + draw(4)), (uint8_t)(1 + draw(NODES - 1)), 0, (uint8_t)draw(NODES) });
    }

    agree(answers);
    if (vulcedar_pass_record(plan, sizeof plan, table, sizeof table, answers, NODES, pass.marks, NODES, pass.classes, NODES) != VULCEDAR_PASSED) fail("the pass refuses the answers");
    if (vulcedar_record(plan, sizeof plan, rows[0], sizeof rows, end.marks, NODES, end.classes, NODES) != VULCEDAR_PASSED) fail("no record");
    print_records(&end, &pass);
    printf("\n%u events, %u messages sent, %u dropped, %u doubled, %u not believed\n", events, sent, dropped, doubled, disbelieved);
    if (memcmp(rows, state, sizeof rows) != 0) fail("the sites' rows are not those of the auditor's simulation");
    if (memcmp(end.marks, marks, NODES) != 0) fail("the marks are not the central rule's");
    if (!filed(&end)) fail("the classes are not those of the marks");
    if (memcmp(&end, &pass, sizeof end) != 0) fail("the records differ");
    printf("the end record is the pass's\n");
    return 0;
}
