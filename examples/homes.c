/*
 * An example host: two homes and three desks. Ann captions at home: draft, timing and a wording of hers are on one machine, so
 * their sites are at one desk and share its row. At the other home the editor has a desk, and the supervisor has another.
 *
 * Every desk keeps one row. It takes its steps by vulcedar_desk_step, with the plan that has desks; what passes is heard by all
 * sites of the desk at once, and the other desks are told of it, each one time. They hear by vulcedar_hear, with the plain plan.
 * The line is late, mixes the order and repeats every third message (docs/GUIDE.md, "Several sites at one desk").
 *
 * An auditor, which a real host does not need, runs the same steps in one simulation by vulcedar_desk_simulate, and stops the
 * program if an answer or a row is another. At the end the record by vulcedar_desk_record is printed; it is the single pass's.
 * The program always prints the same: examples/homes.out.
 *
 * usage: homes      exit status 0 if the auditor did not stop it and the two records are the same
 */
#include <stdbool.h>
#include <stdio.h>
#include <stdlib.h>
#include <string.h>

#include "vulcedar.h"

/* Any numbers up to VULCEDAR_DESK_HIGHEST will do. Here the first hexadecimal digit is the home. */
enum { ANN = 0x10, SUPERVISOR = 0x20, EDITOR = 0x21 };

static const struct { uint8_t kind, parent, desk; const char *name; } SHOW[] = {
    { VULCEDAR_SERIAL, VULCEDAR_NO_PARENT, SUPERVISOR, "evening show" },
    { VULCEDAR_AND, 0, ANN, "captions" },
    { VULCEDAR_TASK, 1, ANN, "draft" },
    { VULCEDAR_TASK, 1, ANN, "timing" },
    { VULCEDAR_XOR, 0, EDITOR, "wording" },
    { VULCEDAR_TASK, 4, EDITOR, "edited wording" },
    { VULCEDAR_TASK, 4, ANN, "wording as drafted" },
    { VULCEDAR_CONTINGENCY, 0, SUPERVISOR, "put on air" },
    { VULCEDAR_TASK, 7, SUPERVISOR, "by satellite" },
    { VULCEDAR_TASK, 7, SUPERVISOR, "by cable" },
};
enum { NODES = sizeof SHOW / sizeof SHOW[0], DESKS = 3, LINE = 256 };

static const char *const CODE[] = { "?", "start", "offer", "commit", "abort", "yes", "no", "pick", "turn-down" };
static const char *const MARK[] = { "not started", "running", "offered", "committed", "failed", "turned down" };
static const char *const CLASS[] = { "none", "aired", "draft", "log only" };

struct message { uint32_t code, node, desk; bool repeated; };

static uint8_t plan[3 * NODES], plain[2 * NODES];
static uint8_t rows[DESKS][NODES], state[DESKS][NODES]; /* the desks', and the auditor's */
static bool used[VULCEDAR_DESK_HIGHEST + 1];
static size_t desks, row_number[VULCEDAR_DESK_HIGHEST + 1];
static struct message line[LINE];
static size_t waiting;
static unsigned events, sent, arrived;

static void fail(const char *what)
{
    printf("FAILED: %s\n", what);
    exit(1);
}

/* The desks that the plan has, and their rows in a state, lowest desk first. The plan has been checked, so no desk is too high. */
static void count_desks(void)
{
    for (size_t v = 0; v < NODES; v++) used[plan[3 * v + 2]] = true;
    for (size_t desk = 0; desk <= VULCEDAR_DESK_HIGHEST; desk++)
        if (used[desk]) row_number[desk] = desks++;
}

static uint8_t *row_of(uint32_t desk) { return rows[row_number[desk]]; }

/* Where an event is decided: at the desk of its node, but a pick at that of the node's parent. */
static uint32_t desk_of(uint32_t code, uint32_t node) { return SHOW[code == VULCEDAR_PICK ? SHOW[node].parent : node].desk; }

static const char *who(uint32_t desk) { return desk == ANN ? "Ann" : desk == EDITOR ? "editor" : "supervisor"; }

static uint32_t simulate(uint32_t code, uint32_t node, uint32_t desk)
{
    return vulcedar_desk_simulate(plan, sizeof plan, code, node, desk, state[0], sizeof state);
}

/* What passed is told to every other desk, one time each. */
static void tell_others(uint32_t code, uint32_t node, uint32_t at)
{
    for (uint32_t desk = 0; desk <= VULCEDAR_DESK_HIGHEST; desk++) {
        if (!used[desk] || desk == at) continue;
        if (waiting == LINE) fail("the line is full");
        line[waiting++] = (struct message){ code, node, desk, false };
        sent++;
    }
}

/* An event wants to happen at its desk. A real host stores the row before it tells anyone. */
static bool happen(uint32_t code, uint32_t node)
{
    uint32_t at = desk_of(code, node);
    uint32_t r = vulcedar_desk_step(plan, sizeof plan, code, node, row_of(at), NODES);
    if (VULCEDAR_NUMBER(r) != VULCEDAR_PASSED) return false;
    printf("%3u  %-10s  %-9s of %u, %s\n", ++events, who(VULCEDAR_DESK(r)), CODE[code], (unsigned)node, SHOW[node].name);
    tell_others(code, node, at);
    if (simulate(code, node, VULCEDAR_HAPPENS) != r) fail("the auditor's simulation differs");
    return true;
}

/* The youngest message arrives first, and every third one once more. A desk hears with the plain plan. */
static void deliver(void)
{
    struct message m = line[--waiting];
    if (vulcedar_hear(plain, sizeof plain, m.code, m.node, row_of(m.desk), NODES) != VULCEDAR_PASSED) fail("a message is refused");
    if (simulate(m.code, m.node, m.desk) != VULCEDAR_PASSED) fail("the auditor refuses a message");
    if (++arrived % 3 != 0 || m.repeated) return;
    memmove(line + 1, line, waiting++ * sizeof line[0]);
    line[0] = m, line[0].repeated = true;
}

/* The desks' own will: all goes well, but for the satellite. */
static bool wants(uint32_t code, uint32_t node)
{
    bool fails = strcmp(SHOW[node].name, "by satellite") == 0;
    if (code == VULCEDAR_ABORT || code == VULCEDAR_COMMIT) return SHOW[node].kind != VULCEDAR_TASK || fails == (code == VULCEDAR_ABORT);
    return true;
}

/* Each event that a desk wants is tried; between two of them a message arrives. True if one passed. */
static bool work(void)
{
    bool passed = false;
    for (uint32_t node = 0; node < NODES; node++)
        for (uint32_t code = VULCEDAR_START; code <= VULCEDAR_TURN_DOWN; code++) {
            if (vulcedar_rule(plain, sizeof plain, code, node) == VULCEDAR_NOT_APPLICABLE || !wants(code, node)) continue;
            passed = happen(code, node) || passed;
            if (waiting > 0) deliver();
        }
    return passed;
}

static bool heard(uint32_t code, uint32_t node) { return row_of(desk_of(code, node))[node] >> (code - 1) & 1; }

/* What the pass is to be told: how the tasks ended, and which child the xor picked. */
static void agree(uint8_t *answers)
{
    for (uint32_t v = 0; v < NODES; v++) {
        uint8_t place = 0;
        answers[v] = heard(VULCEDAR_ABORT, v) ? 2 : 1;
        if (SHOW[v].kind != VULCEDAR_XOR) continue;
        for (uint32_t child = 1; child < NODES; child++)
            if (SHOW[child].parent == v && (place++, heard(VULCEDAR_PICK, child))) answers[v] = place;
    }
}

int main(void)
{
    static const uint8_t table[] = VULCEDAR_COMMON_TABLE;
    uint8_t answers[NODES], marks[NODES], classes[NODES], pass_marks[NODES], pass_classes[NODES];
    for (size_t v = 0; v < NODES; v++) {
        plan[3 * v] = plain[2 * v] = SHOW[v].kind;
        plan[3 * v + 1] = plain[2 * v + 1] = SHOW[v].parent;
        plan[3 * v + 2] = SHOW[v].desk;
    }
    if (vulcedar_desk_check(plan, sizeof plan) != VULCEDAR_PASSED) fail("the plan is refused");
    count_desks();
    if (desks != DESKS) fail("another number of desks is in use");

    while (work() || waiting > 0) {}

    agree(answers);
    if (memcmp(rows, state, sizeof rows) != 0) fail("the desks' rows are not those of the auditor's simulation");
    if (vulcedar_desk_record(plan, sizeof plan, rows[0], sizeof rows, marks, NODES, classes, NODES) != VULCEDAR_PASSED) fail("no record");
    if (vulcedar_pass_record(plain, sizeof plain, table, sizeof table, answers, NODES, pass_marks, NODES, pass_classes, NODES) != VULCEDAR_PASSED) fail("the pass refuses the answers");
    if (memcmp(marks, pass_marks, NODES) != 0 || memcmp(classes, pass_classes, NODES) != 0) fail("the records differ");
    printf("\n");
    for (size_t v = 0; v < NODES; v++) printf("%2u  %-20s %-10s  %-12s %s\n", (unsigned)v, SHOW[v].name, who(SHOW[v].desk), MARK[marks[v]], CLASS[classes[v]]);
    printf("\n%u events, told by %u messages between %u desks; a row for each site would have taken %u\n", events, sent, DESKS, events * (NODES - 1));
    printf("%u arrived, with those that came twice; the end record is the pass's\n", arrived);
    return 0;
}
