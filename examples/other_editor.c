/*
 * An example editor that shares its plans with another one. The other editor lists a plan line by line, a kind and a depth, as
 * one reads it from the top. This one turns the list into a plan, and where it is refused says which line is wrong. Then a planner
 * adds a task to an earlier block. An editor appends the new node, so that no other number changes; but then the plan is not in the
 * fixed numbering any more, and has no depth form. So the editor renumbers it before it goes back, and moves the names along
 * (docs/GUIDE.md, "Plans from another editor").
 *
 * An auditor, which a real editor does not need, stops the program if a name goes astray, or if what goes back is not read as the
 * same plan. The program always prints the same: examples/other_editor.out.
 *
 * usage: other_editor      exit status 0 if the auditor did not stop it
 */
#include <stdbool.h>
#include <stdio.h>
#include <stdlib.h>
#include <string.h>

#include "vulcedar.h"

/* A line of the other editor. */
struct line { uint8_t kind, depth; const char *name; };

static const struct line LIST[] = {
    { VULCEDAR_SERIAL, 1, "evening news" },
    { VULCEDAR_AND, 2, "preparation" },
    { VULCEDAR_TASK, 3, "glossary" },
    { VULCEDAR_TASK, 3, "speaker list" },
    { VULCEDAR_XOR, 2, "wording" },
    { VULCEDAR_TASK, 3, "draft by Ann" },
    { VULCEDAR_TASK, 3, "draft by Ben" },
    { VULCEDAR_CONDITIONAL, 2, "is it live?" },
    { VULCEDAR_TASK, 3, "respeaking" },
    { VULCEDAR_TASK, 3, "typing" },
};
enum { LINES = sizeof LIST / sizeof LIST[0], MOST = LINES + 1 };

static const char *const KIND[] = { "?", "task", "serial", "and", "or", "xor", "contingency", "conditional", "waiting and" };

/* The plan as this editor holds it, and the nodes' names, by their numbers. */
static uint8_t plan[2 * MOST];
static const char *name[MOST];
static size_t nodes;

static void fail(const char *what)
{
    printf("FAILED: %s\n", what);
    exit(1);
}

/* How many lines are right below one. */
static unsigned count_below(const struct line *lines, size_t at)
{
    unsigned below = 0;
    for (size_t i = at + 1; i < LINES && lines[i].depth > lines[at].depth; i++) below += lines[i].depth == lines[at].depth + 1;
    return below;
}

/* Whether a line is one that a number is about. */
static bool is_wrong(uint32_t number, const struct line *lines, size_t i)
{
    uint8_t kind = lines[i].kind;
    unsigned below = count_below(lines, i);
    switch (number) {
    case VULCEDAR_BAD_KIND: return kind < VULCEDAR_TASK || kind > VULCEDAR_WAITING_AND;
    case VULCEDAR_BAD_DEPTH: return i == 0 ? lines[i].depth != 1 : lines[i].depth < 2 || lines[i].depth > lines[i - 1].depth + 1;
    case VULCEDAR_TASK_PARENT: return kind == VULCEDAR_TASK && below > 0;
    case VULCEDAR_BAD_CHILDREN:
        if (kind == VULCEDAR_CONDITIONAL) return below != 2;
        return kind != VULCEDAR_TASK && (below < 1 || below > VULCEDAR_CHILDREN_MOST);
    case VULCEDAR_TOO_DEEP: return lines[i].depth > VULCEDAR_DEPTH_MOST;
    default: return false;
    }
}

/* A refusal in words, with the first line that it is about. */
static void print_refusal(uint32_t number, const struct line *lines)
{
    size_t i = 0;
    while (i < LINES && !is_wrong(number, lines, i)) i++;
    if (i == LINES) fail("no line is wrong");
    printf("  line %u, %s: ", (unsigned)i + 1, lines[i].name);
    switch (number) {
    case VULCEDAR_BAD_KIND: printf("there is no kind %u\n", lines[i].kind); break;
    case VULCEDAR_BAD_DEPTH:
        if (i == 0) printf("the first depth is 1, not %u\n", lines[i].depth);
        else printf("depth %u cannot follow depth %u\n", lines[i].depth, lines[i - 1].depth);
        break;
    case VULCEDAR_TASK_PARENT: printf("a task has no line below it\n"); break;
    case VULCEDAR_BAD_CHILDREN: printf("%u is a wrong number of lines right below it\n", count_below(lines, i)); break;
    default: printf("it lies too deep\n");
    }
}

/* Reads the other editor's list: line and node have the same number. Where it is refused, plan and names stay. */
static uint32_t read_list(const struct line *lines)
{
    uint8_t depths[2 * LINES];
    for (size_t i = 0; i < LINES; i++) {
        depths[2 * i] = lines[i].kind;
        depths[2 * i + 1] = lines[i].depth;
    }
    uint32_t r = vulcedar_from_depths(depths, sizeof depths, plan, sizeof depths);
    if (r != VULCEDAR_PASSED) return r;
    nodes = LINES;
    for (size_t i = 0; i < LINES; i++) name[i] = lines[i].name;
    return r;
}

/* The list with one line changed, as someone may type it. */
static void try_line(size_t changed, uint8_t kind, uint8_t depth)
{
    struct line lines[LINES];
    memcpy(lines, LIST, sizeof lines);
    lines[changed].kind = kind;
    lines[changed].depth = depth;
    uint32_t r = read_list(lines);
    if (r == VULCEDAR_PASSED) fail("a wrong list is read");
    print_refusal(r, lines);
}

/* The nodes from v down in the order of the fixed numbering: a node, then the subtrees of its children. */
static size_t walk(size_t v, size_t order[MOST], size_t at)
{
    order[at++] = v;
    for (size_t child = v + 1; child < nodes; child++)
        if (plan[2 * child + 1] == v) at = walk(child, order, at);
    return at;
}

/* The tree, with the numbers that its nodes have now. */
static void print_tree(void)
{
    size_t order[MOST];
    uint8_t depth[MOST];
    if (vulcedar_check_depths(plan, 2 * nodes, depth, nodes) != VULCEDAR_PASSED) fail("the plan is refused");
    walk(0, order, 0);
    for (size_t i = 0; i < nodes; i++) {
        size_t v = order[i];
        printf("%3u  %*s%s (%s)\n", (unsigned)v, 2 * (depth[v] - 1), "", name[v], KIND[plan[2 * v]]);
    }
}

/* A new task, behind all other nodes: every number stays what it was. */
static void append(uint8_t block, const char *what)
{
    plan[2 * nodes] = VULCEDAR_TASK;
    plan[2 * nodes + 1] = block;
    name[nodes++] = what;
}

/* Renumbers the plan. The names follow: the node that the walk meets first becomes number 0, the next one number 1, and so on. All
   else that is stored by number must follow in the same way, so renumber before a job begins. */
static void renumber(void)
{
    uint8_t out[2 * MOST];
    const char *moved[MOST];
    size_t order[MOST];
    if (vulcedar_renumber(plan, 2 * nodes, out, 2 * nodes) != VULCEDAR_PASSED) fail("the plan is refused");
    walk(0, order, 0);
    for (size_t i = 0; i < nodes; i++) {
        moved[i] = name[order[i]];
        if (plan[2 * order[i]] != out[2 * i]) fail("a name goes to a node of another kind");
    }
    memcpy(plan, out, 2 * nodes);
    memcpy(name, moved, nodes * sizeof name[0]);
}

/* The list as it goes back. A plan that is not in the fixed numbering has none. */
static uint32_t write_list(void)
{
    uint8_t depths[2 * MOST], again[2 * MOST];
    uint32_t r = vulcedar_to_depths(plan, 2 * nodes, depths, 2 * nodes);
    if (r != VULCEDAR_PASSED) return r;
    for (size_t i = 0; i < nodes; i++) printf("  %02x %02x  %s\n", depths[2 * i], depths[2 * i + 1], name[i]);
    if (vulcedar_from_depths(depths, 2 * nodes, again, 2 * nodes) != VULCEDAR_PASSED) fail("what goes back is refused");
    if (memcmp(again, plan, 2 * nodes) != 0) fail("what goes back is another plan");
    return r;
}

int main(void)
{
    enum { PREPARATION = 1, GLOSSARY, DRAFT_BY_ANN = 5, LIVE = 7, TYPING = 9 };
    printf("lists that are refused\n");
    try_line(0, VULCEDAR_SERIAL, 0);
    try_line(GLOSSARY, VULCEDAR_TASK, 4);
    try_line(LIVE, VULCEDAR_CONDITIONAL, 1);
    try_line(DRAFT_BY_ANN, 9, 3);
    try_line(PREPARATION, VULCEDAR_TASK, 2);
    try_line(TYPING, VULCEDAR_TASK, 2);

    printf("\nthe other editor's plan\n");
    if (read_list(LIST) != VULCEDAR_PASSED) fail("the list is refused");
    print_tree();

    printf("\na task more for the preparation\n");
    append(PREPARATION, "names of players");
    print_tree();
    if (write_list() != VULCEDAR_NOT_RENUMBERED) fail("the numbering is still the fixed one");
    printf("  not in the fixed numbering: it has no depth form yet\n");

    printf("\nrenumbered\n");
    renumber();
    print_tree();
    printf("\nback to the other editor: kind, depth\n");
    if (write_list() != VULCEDAR_PASSED) fail("it has no depth form");
    return 0;
}
