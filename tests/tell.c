/*
 * The table "Whom to tell" of docs/GUIDE.md against every guard of every plan of up to five nodes: a site stands in the
 * table for an event just if a guard that is tried at this site names it. (The site that decides the event knows it.)
 */
#include <stdbool.h>
#include <stdio.h>
#include <string.h>

#include "vulcedar.h"

enum { MOST = 5 };

static uint8_t plan[2 * MOST];
static uint32_t nodes;
static unsigned long plans, guards;

static uint32_t kind(uint32_t v) { return plan[2 * v]; }
static uint32_t parent(uint32_t v) { return plan[2 * v + 1]; }
static uint32_t site(uint32_t code, uint32_t v) { return code == VULCEDAR_PICK ? parent(v) : v; }

/* The first child of a block behind node v; nodes if there is none. */
static uint32_t child_behind(uint32_t block, uint32_t v)
{
    do v++;
    while (v < nodes && parent(v) != block);
    return v;
}

static uint32_t first_child(uint32_t v) { return child_behind(v, v); }

/* The table: does site s wait for this event? */
static bool waits(uint32_t code, uint32_t v, uint32_t s)
{
    uint32_t above = parent(v), next = v == 0 ? nodes : child_behind(above, v), in = v == 0 ? 0 : kind(above);
    switch (code) {
    case VULCEDAR_START:
        if (kind(v) == VULCEDAR_SERIAL || kind(v) == VULCEDAR_CONTINGENCY) return s == first_child(v);
        return s != 0 && parent(s) == v && kind(v) != VULCEDAR_CONDITIONAL;
    case VULCEDAR_COMMIT:
        return in == VULCEDAR_SERIAL && next < nodes ? s == next : s == above;
    case VULCEDAR_ABORT:
        return in == VULCEDAR_CONTINGENCY && next < nodes ? s == next : s == above;
    case VULCEDAR_OFFER:
    case VULCEDAR_TURN_DOWN:
        return s == above;
    case VULCEDAR_YES:
        return s == first_child(v);
    case VULCEDAR_NO:
        return s == child_behind(v, first_child(v));
    default: /* a pick */
        return s != 0 && parent(s) == above;
    }
}

static bool compare(void)
{
    bool named[9][MOST][MOST]; /* a guard of the site names the event */
    uint8_t g[VULCEDAR_GUARD_MOST];
    memset(named, 0, sizeof named);
    for (uint32_t v = 0; v < nodes; v++)
        for (uint32_t code = VULCEDAR_START; code <= VULCEDAR_TURN_DOWN; code++) {
            if (VULCEDAR_NUMBER(vulcedar_guard(plan, 2 * nodes, code, v, g, sizeof g)) != VULCEDAR_PASSED) continue;
            const uint8_t *at = g + 1;
            guards++;
            for (uint32_t clause = 0; clause < g[0]; clause++)
                for (uint32_t left = *at++; left > 0; left--, at += 2) named[at[0]][at[1]][site(code, v)] = true;
        }
    for (uint32_t v = 0; v < nodes; v++)
        for (uint32_t code = VULCEDAR_START; code <= VULCEDAR_TURN_DOWN; code++) {
            if (VULCEDAR_NUMBER(vulcedar_rule(plan, 2 * nodes, code, v)) != VULCEDAR_PASSED) continue;
            for (uint32_t s = 0; s < nodes; s++)
                if (s != site(code, v) && named[code][v][s] != waits(code, v, s)) {
                    printf("tell: event %u of node %u, site %u: the guards %s it, the table says otherwise; plan", code, v, s, named[code][v][s] ? "name" : "do not name");
                    for (uint32_t i = 0; i < 2 * nodes; i++) printf(" %02x", plan[i]);
                    printf("\n");
                    return false;
                }
        }
    return true;
}

/* Every plan that begins with the first n nodes. */
static bool every(uint32_t n)
{
    nodes = n;
    if (n > 0 && vulcedar_check(plan, 2 * n) == VULCEDAR_PASSED && (plans++, !compare())) return false;
    if (n == MOST) return true;
    for (uint32_t k = VULCEDAR_TASK; k <= VULCEDAR_WAITING_AND; k++)
        for (uint32_t p = 0; p < (n == 0 ? 1 : n); p++) {
            plan[2 * n] = (uint8_t)k;
            plan[2 * n + 1] = (uint8_t)(n == 0 ? VULCEDAR_NO_PARENT : p);
            if (!every(n + 1)) return false;
        }
    return true;
}

int main(void)
{
    if (!every(0)) return 1;
    printf("tell: %lu plans, %lu guards: the table names just the sites that wait\n", plans, guards);
    return 0;
}
