/*
 * An example host: a training room. All sites of a small plan run in one simulation, a trainee clicks, and what was clicked
 * too soon is taken back. A supervisor names places, "pre-show" before air, and goes back to them.
 *
 * The steps that pass are kept in a journal, which has four entries at first and is made longer when it is full. After every
 * click an auditor, which a real host does not need, runs the steps that remain once more from the beginning, and stops the
 * program if the state is another; it also goes back to every point, on a copy (docs/GUIDE.md, "A training room"). The
 * clicks are a fixed list, so the program always prints the same: examples/training.out.
 *
 * usage: training      exit status 0 if the auditor did not stop it
 */
#include <stdio.h>
#include <stdlib.h>
#include <string.h>

#include "vulcedar.h"

static const struct { uint8_t kind, parent; const char *name; } NEWS[] = {
    { VULCEDAR_SERIAL, VULCEDAR_NO_PARENT, "evening news" },
    { VULCEDAR_XOR, 0, "caption" },
    { VULCEDAR_TASK, 1, "caption by the trainee" },
    { VULCEDAR_TASK, 1, "caption by machine" },
    { VULCEDAR_TASK, 0, "put on air" },
};
enum { NODES = sizeof NEWS / sizeof NEWS[0] };

/* A click: an event happens, a site is told of one, the last step is taken back, a place gets a name, or it is gone back to. */
enum what { STEP, BACK_ONE, NAME_PLACE, BACK_TO };
struct click { enum what what; uint8_t code, node, site; const char *point; };
#define EVENT(code, node) { STEP, VULCEDAR_##code, node, VULCEDAR_HAPPENS, NULL }
#define TELL(site, code, node) { STEP, VULCEDAR_##code, node, site, NULL }
#define TAKE_BACK { BACK_ONE, 0, 0, 0, NULL }
#define NAME(point) { NAME_PLACE, 0, 0, 0, point } /* of eight bytes */
#define GO_BACK(point) { BACK_TO, 0, 0, 0, point }

static const struct click CLICKS[] = {
    TAKE_BACK,                                                                  /* there is nothing yet */
    EVENT(START, 0), EVENT(START, 1),                                           /* too soon: site 1 is told next */
    TELL(1, START, 0), EVENT(START, 1), NAME("captions"), TELL(2, START, 1),
    TELL(2, START, 1), TAKE_BACK, EVENT(START, 2),                              /* a repeat */
    TELL(3, START, 1), EVENT(START, 3), EVENT(OFFER, 3), TELL(1, OFFER, 3),
    TELL(4, COMMIT, 1),                                                         /* it did not happen */
    EVENT(PICK, 3), NAME("the pick"),
    EVENT(OFFER, 2), TELL(1, OFFER, 2), EVENT(PICK, 2),                         /* too late: another one is picked */
    TAKE_BACK, TAKE_BACK, TAKE_BACK, GO_BACK("the pick"),                       /* that pick is gone, and so is its point */
    EVENT(OFFER, 2), TELL(1, OFFER, 2), EVENT(PICK, 2), TELL(2, PICK, 2), EVENT(COMMIT, 2),
    TELL(3, PICK, 2), EVENT(TURN_DOWN, 3), TELL(1, COMMIT, 2), TELL(1, TURN_DOWN, 3), EVENT(COMMIT, 1),
    NAME("pre-show"), TELL(4, COMMIT, 1), NAME("pre-show"),                     /* named again, it moves */
    EVENT(START, 4), NAME("live now"), EVENT(ABORT, 4), TELL(0, ABORT, 4), EVENT(ABORT, 0), /* the wrong button */
    GO_BACK("pre-show"), GO_BACK("live now"),                                   /* a later point is dropped */
    EVENT(START, 4), EVENT(COMMIT, 4), TELL(0, COMMIT, 4), EVENT(COMMIT, 0),
};

static const char *const CODE[] = { "?", "start", "offer", "commit", "abort", "yes", "no", "pick", "turn-down" };
static const char *const MARK[] = { "not started", "running", "offered", "committed", "failed", "turned down" };
static const char *const CLASS[] = { "none", "aired", "draft", "log only" };

static uint8_t plan[2 * NODES], state[NODES * NODES];
static vulcedar_entry *entries;
static size_t room, count;
static vulcedar_points points;

static void fail(const char *what)
{
    printf("FAILED: %s\n", what);
    exit(1);
}

/* A longer list with the same entries in front. The state and the count stay as they are. */
static void lengthen(size_t longer)
{
    entries = realloc(entries, longer * sizeof *entries);
    if (entries == NULL) fail("no memory");
    room = longer;
}

/* A step that is kept. A full journal refuses any step, so it is tried again on a longer one. */
static uint32_t keep(uint32_t code, uint32_t node, uint32_t site)
{
    uint32_t r = vulcedar_keep(plan, sizeof plan, code, node, site, state, sizeof state, entries, room, &count);
    if (VULCEDAR_NUMBER(r) != VULCEDAR_BAD_BUFFER || count < room) return r;
    lengthen(2 * room);
    printf("the journal is full and gets %zu entries; ", room);
    return vulcedar_keep(plan, sizeof plan, code, node, site, state, sizeof state, entries, room, &count);
}

/* The last step is taken back, and the points behind it are dropped. */
static uint32_t take_back(void)
{
    return vulcedar_point_undo(plan, sizeof plan, state, sizeof state, entries, room, &count,
                               points.names, sizeof points.names, points.places, VULCEDAR_POINTS_MOST);
}

/* The current place gets a name, or a point that has it moves here. */
static uint32_t name_place(const uint8_t name[VULCEDAR_NAME_LENGTH])
{
    return vulcedar_point_name(name, VULCEDAR_NAME_LENGTH, count, points.names, sizeof points.names, points.places, VULCEDAR_POINTS_MOST);
}

/* Steps are taken back until the count is the point's place, and later points are dropped. */
static uint32_t go_back(const uint8_t name[VULCEDAR_NAME_LENGTH])
{
    return vulcedar_point_back(plan, sizeof plan, name, VULCEDAR_NAME_LENGTH, state, sizeof state, entries, room, &count,
                               points.names, sizeof points.names, points.places, VULCEDAR_POINTS_MOST);
}

static const char *in_words(uint32_t number)
{
    switch (number) {
    case VULCEDAR_PASSED: return "passed";
    case VULCEDAR_BARRED: return "refused, it is ruled out";
    case VULCEDAR_UNMET: return "refused, its site has not heard what it waits for";
    case VULCEDAR_NOT_HAPPENED: return "refused, it did not happen";
    case VULCEDAR_NOTHING_TO_UNDO: return "refused, no step is left";
    case VULCEDAR_UNKNOWN_POINT: return "refused, no point has this name";
    case VULCEDAR_NO_FREE_POINT: return "refused, sixteen others are in use";
    default: return "refused";
    }
}

static size_t in_use(void)
{
    size_t used = 0;
    for (size_t slot = 0; slot < VULCEDAR_POINTS_MOST; slot++) used += points.places[slot] != 0;
    return used;
}

static void print_step(const char *how, uint32_t code, uint32_t node, uint32_t site)
{
    char told[24] = "";
    if (site != VULCEDAR_HAPPENS) snprintf(told, sizeof told, " to site %u", (unsigned)site);
    printf("%-10s %-9s of %u%-10s  ", how, CODE[code], (unsigned)node, told);
}

static void click_step(struct click c)
{
    print_step(c.site == VULCEDAR_HAPPENS ? "event" : "tell", c.code, c.node, c.site);
    uint32_t number = VULCEDAR_NUMBER(keep(c.code, c.node, c.site));
    printf("%s%s\n", in_words(number), number == VULCEDAR_PASSED && !entries[count - 1].changed ? ", a repeat" : "");
}

static void click_take_back(void)
{
    size_t before = in_use();
    uint32_t number = take_back();
    if (number == VULCEDAR_PASSED) { /* the entry is still there, at the place that is free now */
        print_step("take back", entries[count].code, entries[count].node, entries[count].site);
        printf("%s%s", in_words(number), entries[count].changed ? "" : ", and clears nothing");
        if (in_use() < before) printf(", points dropped: %zu", before - in_use());
        printf("\n");
    } else printf("%-37s%s\n", "take back", in_words(number));
}

static void click_point(struct click c)
{
    const uint8_t *name = (const uint8_t *)c.point;
    size_t steps = count, before = in_use();
    uint32_t number = c.what == NAME_PLACE ? name_place(name) : go_back(name);
    printf("%-10s %-26s%s", c.what == NAME_PLACE ? "name" : "go back", c.point, in_words(number));
    if (number == VULCEDAR_PASSED && c.what == NAME_PLACE) printf(", %s behind %zu steps", in_use() > before ? "a point" : "its point moves", count);
    if (number == VULCEDAR_PASSED && c.what == BACK_TO) printf(", %zu steps taken back, points dropped: %zu", steps - count, before - in_use());
    printf("\n");
}

static void click(struct click c)
{
    if (c.what == STEP) click_step(c);
    else if (c.what == BACK_ONE) click_take_back();
    else click_point(c);
}

/* Whether a state is the one that the first steps give from the beginning, where each of them passes. */
static int is_replayed(const uint8_t *now, size_t steps)
{
    uint8_t again[sizeof state] = { 0 };
    for (size_t i = 0; i < steps; i++)
        if (VULCEDAR_NUMBER(vulcedar_simulate(plan, sizeof plan, entries[i].code, entries[i].node, entries[i].site, again, sizeof again)) != VULCEDAR_PASSED) return 0;
    return memcmp(again, now, sizeof again) == 0;
}

/* The auditor: the steps that remain give the state; and every point can be gone back to and gives that of the steps up to it. */
static void audit(void)
{
    if (!is_replayed(state, count)) fail("the steps that remain give another state");
    for (size_t slot = 0; slot < VULCEDAR_POINTS_MOST; slot++) {
        vulcedar_points copy = points;
        uint8_t there[sizeof state];
        size_t place = count;
        if (points.places[slot] == 0) continue;
        memcpy(there, state, sizeof state);
        uint32_t number = vulcedar_point_back(plan, sizeof plan, points.names + slot * VULCEDAR_NAME_LENGTH, VULCEDAR_NAME_LENGTH, there, sizeof there, entries, room, &place,
                                              copy.names, sizeof copy.names, copy.places, VULCEDAR_POINTS_MOST);
        if (number != VULCEDAR_PASSED || place != points.places[slot] - 1 || !is_replayed(there, place)) fail("a point cannot be gone back to");
    }
}

int main(void)
{
    uint8_t marks[NODES], classes[NODES];
    for (int v = 0; v < NODES; v++) plan[2 * v] = NEWS[v].kind, plan[2 * v + 1] = NEWS[v].parent;
    if (vulcedar_check(plan, sizeof plan) != VULCEDAR_PASSED) fail("the plan is refused");
    lengthen(4);
    for (size_t i = 0; i < sizeof CLICKS / sizeof CLICKS[0]; i++) {
        printf("%3zu  ", i + 1);
        click(CLICKS[i]);
        audit();
    }
    if (vulcedar_record(plan, sizeof plan, state, sizeof state, marks, NODES, classes, NODES) != VULCEDAR_PASSED) fail("no record");
    printf("\n%zu of %zu clicks remain as steps\n", count, sizeof CLICKS / sizeof CLICKS[0]);
    for (size_t slot = 0; slot < VULCEDAR_POINTS_MOST; slot++)
        if (points.places[slot] != 0) printf("point %.8s behind %2u of them\n", (const char *)points.names + slot * VULCEDAR_NAME_LENGTH, (unsigned)(points.places[slot] - 1));
    for (int v = 0; v < NODES; v++) printf("%2d  %-22s  %-12s %s\n", v, NEWS[v].name, MARK[marks[v]], CLASS[classes[v]]);
    free(entries);
    return 0;
}
