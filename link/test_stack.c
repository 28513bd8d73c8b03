/*
 * Deep and wide trees on a stack of the size that marker.h states and a page
 * more, with a page below it that may not be touched: a call that takes more
 * ends the process. These calls are not the deepest that there can be; how deep
 * those go is the matter of link/stack.
 */
#define _DEFAULT_SOURCE
#define _XOPEN_SOURCE 700
#include <string.h>
#include <sys/mman.h>
#include <ucontext.h>
#include <unistd.h>

#include "test.h"

/* How many items a root may have, and a group below all the others. */
enum { WIDTH = MOST_RECORDS - 1, WIDTH_BELOW = MOST_RECORDS - (MOST_DEPTH - 1) };
enum { WILDCARD_AT = CONTENTS_SIZE + LEAF_SIZE, DERIVED_AT = TREES_AT(2) };
enum { SECOND_AT = DERIVED_AT - 2 * 2 };
enum { AN_ELEMENT = 0, A_WILDCARD = 1 };

static uint8_t sheet[DERIVED_AT + 2 * MARKER_MOST_TREE], filled_by[sizeof sheet];
static uint8_t chain[MARKER_MOST_CHAIN];
static uint8_t chain_of_types[MARKER_MOST_TYPES];
static size_t length, derived_length, chain_length;
static struct {
    uint64_t min, max, emptiable, records, joined, item, verdict, filled, verdict_by, by, mark;
} got;
static ucontext_t test, small;

/* A leaf below groups of (0,2), which tidying leaves as they are. */
static uint8_t *below(uint8_t *at, int kind, int groups, int leaf)
{
    while (groups-- > 0) {
        at = record(at, kind, 0, 1, 0, 2);
    }
    return leaf == AN_ELEMENT ? record(at, ELEMENT, leaf, 0, 1, 1)
                              : record(at, WILDCARD, leaf, 0, 0, STAR);
}

/* A group with so many elements. */
static uint8_t *wide(uint8_t *at, int kind, int items, int64_t max)
{
    at = record(at, kind, 0, items, 0, max);
    while (items-- > 0) {
        at = record(at, ELEMENT, AN_ELEMENT, 0, 0, 1);
    }
    return at;
}

/* As many records as there may be at as many levels, the last of them wide. */
static uint8_t *wide_below(uint8_t *at, int kind)
{
    for (int level = 1; level < MOST_DEPTH - 1; level++) {
        at = record(at, kind, 0, 1, 0, 2);
    }
    return wide(at, kind, WIDTH_BELOW, 2);
}

/* What is done on the small stack: each entry with the derived tree, with types, and
 * the mark. */
static void calls(void)
{
    static uint8_t out[MARKER_MOST_TREE];
    static const uint8_t types[2] = {MARKER_TYPE_UNSIGNED_BYTE, MARKER_NO_TYPE};
    static const uint8_t last[2] = {MARKER_MOST_TYPES - 1, MARKER_NO_TYPE};
    const size_t rows = sizeof chain_of_types;
    const uint8_t *derived = sheet + DERIVED_AT;
    got.min = marker_total_min(derived, derived_length);
    got.max = marker_total_max(derived, derived_length);
    got.emptiable = marker_emptiable(derived, derived_length);
    got.records = marker_tidy(derived, derived_length, out, sizeof out);
    got.joined = marker_effective_particle(chain, chain_length, out, sizeof out);
    got.item = marker_item(derived, derived_length, 0, out, sizeof out);
    got.verdict = marker_type_derivation_ok(types[0], MARKER_TYPE_DECIMAL);
    got.filled = marker_fill_types(sheet, length, types, sizeof types);
    got.verdict_by = marker_type_derivation_ok_by(chain_of_types, rows, last[0], 2);
    got.by = marker_fill_types_by(filled_by, length, last, sizeof last, chain_of_types, rows);
    got.mark = marker_mark(sheet, length);
}

/* Runs `calls` there; 0 where such a stack is not to be had. */
static int on_small_stack(void)
{
    size_t page = (size_t)sysconf(_SC_PAGESIZE), size = MARKER_MOST_STACK + page;
    int flags = MAP_PRIVATE | MAP_ANONYMOUS;
    uint8_t *low = (uint8_t *)mmap(NULL, page + size, PROT_READ | PROT_WRITE, flags, -1, 0);
    if (low == (uint8_t *)MAP_FAILED || mprotect(low, page, PROT_NONE) != 0
        || getcontext(&small) != 0) {
        return 0;
    }
    small.uc_stack.ss_sp = low + page;
    small.uc_stack.ss_size = size;
    small.uc_link = &test;
    makecontext(&small, calls, 0);
    int done = swapcontext(&test, &small) == 0;
    munmap(low, page + size);
    return done;
}

/* Two leaves, an element, whose verdict against itself is to be filled in, and a
 * wildcard; the derived tree ends at `base`, the base tree at `end`. The derived root
 * has one group or many elements. */
static void check_passes(const char *what, const uint8_t *base, const uint8_t *end, uint64_t max)
{
    const uint8_t *derived = sheet + DERIVED_AT;
    derived_length = (size_t)(base - derived);
    const int records[1] = {(int)(derived_length / MARKER_RECORD)};
    memset(sheet, 0, DERIVED_AT);
    length = contents(sheet, 2, (size_t)records[0], (size_t)(end - base) / MARKER_RECORD);
    sheet[WILDCARD_AT] = 1;
    sheet[SECOND_AT] = MARKER_UNDECIDED;
    memcpy(filled_by, sheet, length);
    uint8_t *tree = levels(chain, 1, records);
    memcpy(tree, derived, derived_length);
    chain_length = (size_t)(tree - chain) + derived_length;
    memset(&got, 255, sizeof got);
    check(what, 1, (uint64_t)on_small_stack());
    check(what, 0, got.min);
    check(what, max, got.max);
    check(what, MARKER_EMPTIABLE, got.emptiable);
    check(what, (uint64_t)records[0], got.records);
    check(what, (uint64_t)records[0], got.joined);
    check(what, derived[COUNT] == 1 ? derived_length - MARKER_RECORD : MARKER_RECORD, got.item);
    check(what, MARKER_DERIVATION_OK, got.verdict);
    check(what, MARKER_FILLED, got.filled);
    check(what, MARKER_DERIVATION_OK, got.verdict_by);
    check(what, MARKER_FILLED, got.by);
    check(what, 0, (uint64_t)(memcmp(sheet, filled_by, length) != 0));
    check(what, MARKER_PASSES, got.mark);
}

void test_stack(void)
{
    for (size_t row = 1; row < sizeof chain_of_types; row++) {
        chain_of_types[row] = (uint8_t)(row - 1);
    }
    for (int kind = SEQUENCE; kind <= CHOICE; kind++) {
        uint64_t deep_max = UINT64_C(1) << (MOST_DEPTH - 1);
        uint8_t *base = below(sheet + DERIVED_AT, kind, MOST_DEPTH - 1, AN_ELEMENT);
        check_passes("a deep tree against w", base, below(base, kind, 0, A_WILDCARD), deep_max);
        uint8_t *end = below(base, kind, MOST_DEPTH - 1, A_WILDCARD);
        check_passes("a deep tree against a deep one", base, end, deep_max);
        uint64_t both_max = kind == CHOICE ? deep_max : deep_max * WIDTH_BELOW;
        base = wide_below(sheet + DERIVED_AT, kind);
        check_passes("a deep and wide tree against w", base, below(base, kind, 0, A_WILDCARD),
                     both_max);
        check_passes("two deep and wide trees", base, wide_below(base, kind), both_max);
    }
    for (int kind = SEQUENCE; kind <= ALL; kind++) {
        uint8_t *base = wide(sheet + DERIVED_AT, kind, WIDTH, 1);
        uint8_t *end = below(base, kind, 0, A_WILDCARD);
        check_passes("a wide tree against w", base, end, kind == CHOICE ? 1 : WIDTH);
        end = wide(base, kind, WIDTH, 1);
        check_passes("two wide trees", base, end, kind == CHOICE ? 1 : WIDTH);
    }
}
