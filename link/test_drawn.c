/*
 * Tests of sheet.h with drawn calls and drawn bytes, which test.c runs with its
 * own. The proved library is the judge: of a tree's bytes exactly those are
 * copied that it accepts, and no sheet, tree or chain that is finished is
 * refused, whatever the calls were.
 */
#include <string.h>

#include "sheet.h"
#include "test.h"

enum { TREES = 20000, SHEETS = 20000, LONGEST_TREE = 24 * MARKER_RECORD };

static uint8_t bytes[MARKER_MOST_SHEET];
static struct marker_builder b;

static uint32_t state = 1;

/* A number below this one. */
static uint32_t below(uint32_t limit)
{
    state = state * 1664525u + 1013904223u;
    return (state >> 8) % limit;
}

/* Once in so many times. */
static int once_in(uint32_t times)
{
    return below(times) == 0;
}

/* Writes a tree of kinds, leaves and pairs within the limits; the place after it. */
static uint8_t *drawn_tree(uint8_t *at, int depth)
{
    uint32_t min = below(3);
    int64_t max = once_in(4) ? STAR : (int64_t)(min + below(3));
    int kind = depth < 3 ? (int)below(5) : (int)below(2);
    if (kind <= WILDCARD) {
        return record(at, kind, (int)below(MOST_LEAVES), 0, min, max);
    }
    int items = (int)below(3);
    uint8_t *end = record(at, kind, 0, items, kind == ALL ? below(2) : min, kind == ALL ? 1 : max);
    while (items-- > 0) {
        end = kind == ALL ? record(end, ELEMENT, 1, 0, min, max) : drawn_tree(end, depth + 1);
    }
    return end;
}

/* Damages some bytes: most places of a record matter, and small numbers most. */
static size_t damaged(uint8_t *tree, size_t length)
{
    for (uint32_t times = below(3); times > 0; times--) {
        tree[below((uint32_t)length)] = (uint8_t)(once_in(2) ? below(5) : below(256));
    }
    return once_in(8) ? length - below((uint32_t)length) : length;
}

static void test_copies(void)
{
    static uint8_t tree[LONGEST_TREE];
    unsigned accepted = 0, refused = 0;
    for (int k = 0; k < TREES; k++) {
        size_t length = damaged(tree, (size_t)(drawn_tree(tree, 0) - tree));
        int good = marker_number_refusal(marker_total_min(tree, length)) == 0;
        marker_build_tree(&b, bytes, sizeof bytes);
        marker_copy_tree(&b, tree, length);
        check("copied where it is accepted", good ? length : 0, marker_finish(&b));
        if (good) {
            check("a copy", 0, (uint64_t)(memcmp(bytes, tree, length) != 0));
        }
        accepted += (unsigned)good;
        refused += (unsigned)!good;
    }
    check("many are accepted and many refused", 1, accepted > TREES / 4 && refused > TREES / 4);
}

/* Adds a tree; now and then with something wrong. */
static void add_tree(int depth, uint32_t elements, uint32_t leaves)
{
    uint64_t min = below(3), max = once_in(4) ? MARKER_UNBOUNDED : min + below(3);
    uint32_t kind = depth < 3 ? below(5) : below(2);
    if (once_in(100)) {
        max = once_in(2) ? below(2) : (uint64_t)below(3) << 32;
    }
    if (kind == MARKER_ELEMENT) {
        marker_element(&b, below(once_in(100) ? leaves + 1 : elements), min, max);
    } else if (kind == MARKER_WILDCARD) {
        marker_wildcard(&b, once_in(100) ? below(leaves) : elements + below(leaves - elements), min,
                        max);
    } else {
        marker_open(&b, kind, kind == MARKER_ALL ? 0 : min, kind == MARKER_ALL ? 1 : max);
        for (uint32_t items = below(3); items > 0; items--) {
            if (kind == MARKER_ALL && !once_in(50)) {
                marker_element(&b, below(elements), min, max);
            } else {
                add_tree(depth + 1, elements, leaves);
            }
        }
        if (!once_in(200)) {
            marker_close(&b);
        }
    }
}

static void add_sheet(void)
{
    uint32_t elements = 1 + below(3), wildcards = 1 + below(2), leaves = elements + wildcards;
    marker_build_sheet(&b, bytes, once_in(10) ? below(300) : sizeof bytes);
    for (uint32_t leaf = 0; leaf < leaves; leaf++) {
        if (leaf < elements) {
            marker_new_element(&b, below(once_in(50) ? 100000 : 65536));
        } else {
            marker_new_wildcard(&b, below(once_in(50) ? 4 : 3));
        }
    }
    for (uint32_t verdicts = below(4); verdicts > 0; verdicts--) {
        uint32_t verdict = once_in(50) ? below(400) : once_in(2) ? below(2) : 140 + below(13);
        marker_first_verdict(&b, below(leaves), below(leaves), verdict);
        marker_second_verdict(&b, below(leaves), below(leaves), below(2));
    }
    if (!once_in(100)) {
        marker_derived_tree(&b);
    }
    add_tree(0, elements, leaves);
    marker_base_tree(&b);
    add_tree(0, elements, leaves);
}

static void test_sheets(void)
{
    unsigned finished = 0, faults = 0, marks[3] = {0, 0, 0};
    for (int k = 0; k < SHEETS; k++) {
        add_sheet();
        size_t length = marker_finish(&b);
        check("a fault, or finished", (uint64_t)(length == 0),
              (uint64_t)(b.fault != MARKER_FAULT_NONE));
        if (length > 0) {
            uint32_t mark_of = marker_mark(bytes, length);
            check("a drawn sheet is not refused", 0, marker_mark_refusal(mark_of));
            marks[mark_of < 2 ? mark_of : 2]++;
        }
        finished += length > 0;
        faults += length == 0;
    }
    check("many are finished and many are not", 1, finished > SHEETS / 4 && faults > SHEETS / 10);
    check("each kind of mark", 1, marks[0] > 0 && marks[1] > 0 && marks[2] > 0);
}

static void test_drawn_chains(void)
{
    static uint8_t out[MARKER_MOST_TREE];
    unsigned joined = 0, over = 0;
    for (int k = 0; k < SHEETS; k++) {
        uint32_t levels = 1 + below(MARKER_MOST_LEVELS);
        marker_build_chain(&b, bytes, sizeof bytes, levels);
        while (levels-- > 0) {
            if (once_in(2)) {
                marker_absent_level(&b);
            } else {
                marker_level(&b);
                add_tree(0, MOST_LEAVES - 1, MOST_LEAVES);
            }
        }
        size_t length = marker_finish(&b);
        if (length > 0) {
            uint32_t refusal = marker_number_refusal(
                marker_effective_particle(bytes, length, out, sizeof out));
            check("a drawn chain is refused by 16 at most", 1,
                  (uint64_t)(refusal == 0 || refusal == MARKER_REFUSAL_LIMIT));
            joined += refusal == 0;
            over += refusal != 0;
        }
    }
    check("many are joined, some are over the limits", 1, joined > SHEETS / 4 && over > 100);
}

void test_drawn(void)
{
    test_copies();
    test_sheets();
    test_drawn_chains();
}
