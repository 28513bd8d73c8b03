/*
 * Tests of marker.h against the archive: each entry, each refusal, every byte
 * of a lent buffer. It is C99 and C++11, so that it tests the header in both.
 * Prints what differs, then one line of counts. Exit status: 0 all as
 * expected, 1 a difference.
 */
#include <stdio.h>
#include <string.h>

#include "test.h"

static unsigned long checks, differences;

void check(const char *what, uint64_t expected, uint64_t got)
{
    checks++;
    if (expected != got) {
        differences++;
        printf("%s: expected %llu, got %llu\n", what, (unsigned long long)expected,
               (unsigned long long)got);
    }
}

/* Records and contents. */

void put_16(uint8_t *at, uint32_t number)
{
    at[0] = (uint8_t)number;
    at[1] = (uint8_t)(number >> 8);
}

void put_32(uint8_t *at, uint32_t number)
{
    put_16(at, number);
    put_16(at + 2, number >> 16);
}

void exchange(uint8_t *at)
{
    uint8_t first = at[0];
    at[0] = at[1];
    at[1] = first;
}

uint8_t *record(uint8_t *at, int kind, int leaf, int count, uint32_t min, int64_t max)
{
    memset(at, 0, MARKER_RECORD);
    at[KIND] = (uint8_t)kind;
    at[LEAF] = (uint8_t)leaf;
    put_16(at + COUNT, (uint32_t)count);
    at[UNBOUNDED] = max == STAR;
    put_32(at + MIN, min);
    put_32(at + MAX, max == STAR ? 0 : (uint32_t)max);
    return at + MARKER_RECORD;
}

uint8_t *element_below(uint8_t *at, int groups)
{
    while (groups-- > 0) {
        at = record(at, CHOICE, 0, 1, 1, 1);
    }
    return record(at, ELEMENT, 0, 0, 1, 1);
}

uint8_t *row(uint8_t *at, int records)
{
    at = record(at, SEQUENCE, 0, records - 1, 1, 1);
    while (--records > 0) {
        at = record(at, ELEMENT, 0, 0, 1, 1);
    }
    return at;
}

size_t contents(uint8_t *sheet, int leaves, size_t derived, size_t base)
{
    size_t total = (size_t)TREES_AT(leaves) + (derived + base) * MARKER_RECORD;
    memset(sheet, 0, CONTENTS_SIZE);
    sheet[LEAVES] = (uint8_t)leaves;
    put_16(sheet + DERIVED_COUNT, (uint32_t)derived);
    put_16(sheet + BASE_COUNT, (uint32_t)base);
    put_16(sheet + TOTAL, (uint32_t)total);
    return total;
}

/* Lent buffers: `out` stands between guards; every byte has a value of its own. */

enum { GUARD = 16, WHOLE = GUARD + ROOM + GUARD };

static uint8_t lent[WHOLE];

static uint8_t before(size_t place)
{
    return (uint8_t)(7 * place + 3);
}

uint8_t *lend(void)
{
    for (size_t place = 0; place < WHOLE; place++) {
        lent[place] = before(place);
    }
    return lent + GUARD;
}

void check_lent(const char *what, const uint8_t *bytes, size_t count)
{
    size_t differing = 0;
    for (size_t place = 0; place < WHOLE; place++) {
        int written = place >= GUARD && place - GUARD < count;
        differing += lent[place] != (written ? bytes[place - GUARD] : before(place));
    }
    check(what, 0, differing);
}

/* The mark. */

/* Document 01's printed sheet. */
static const uint8_t PRINTED[MARKER_LEAST_SHEET] = {
    1, 0, 1, 0, 1, 0, 46, 0,                        /* contents */
    0, 0, 0, 0,                                     /* leaf */
    0, 0,                                           /* tables */
    0, 0, 0, 0, 0, 0, 0, 0, 1, 0, 0, 0, 1, 0, 0, 0, /* derived tree */
    0, 0, 0, 0, 0, 0, 0, 0, 0, 0, 0, 0, 1, 0, 0, 0, /* base tree */
};

enum { A_LEAF = CONTENTS_SIZE, FIRST = A_LEAF + LEAF_SIZE, SECOND = FIRST + 1 };
enum { DERIVED = SECOND + 1, BASE = DERIVED + MARKER_RECORD };

uint32_t mark(const uint8_t *sheet, size_t length)
{
    static uint8_t copy[MARKER_MOST_SHEET + 1];
    memcpy(copy, sheet, length);
    uint32_t answer = marker_mark(copy, length);
    check("the sheet comes back unchanged", 0, (uint64_t)(memcmp(copy, sheet, length) != 0));
    return answer;
}

/* The printed sheet's mark after two changes. */
static uint32_t changed(int place, uint8_t value, int other_place, uint8_t other_value)
{
    uint8_t sheet[sizeof PRINTED];
    memcpy(sheet, PRINTED, sizeof sheet);
    sheet[place] = value;
    sheet[other_place] = other_value;
    return mark(sheet, sizeof sheet);
}

/* The mark of elements below groups: a depth of one more. */
static uint32_t mark_below(int derived_groups, int base_groups)
{
    uint8_t sheet[MARKER_LEAST_SHEET + 2 * MOST_DEPTH * MARKER_RECORD];
    memcpy(sheet, PRINTED, DERIVED);
    element_below(element_below(sheet + DERIVED, derived_groups), base_groups);
    return mark(sheet, contents(sheet, 1, (size_t)derived_groups + 1, (size_t)base_groups + 1));
}

static void test_marks(void)
{
    check("the printed sheet", MARKER_PASSES, mark(PRINTED, sizeof PRINTED));
    check("verdict 1", MARKER_UNDECIDED, changed(FIRST, 1, SECOND, 0));
    check("a(0,1) | a", MARKER_MIN_BELOW, changed(DERIVED + MIN, 0, BASE + MIN, 1));
    check("a(1,2) | a(0,1)", MARKER_MAX_ABOVE, changed(DERIVED + MAX, 2, SECOND, 0));
    check("a(1,*) | a(0,1)", MARKER_MAX_UNBOUNDED,
          changed(DERIVED + UNBOUNDED, 1, DERIVED + MAX, 0));
    check("verdict 140", MARKER_LEAST_SET, changed(FIRST, 140, SECOND, 0));
    check("verdict 152", MARKER_MOST_SET, changed(SECOND, 152, FIRST, 0));
    check("elements at the depth", MARKER_PASSES, mark_below(MOST_DEPTH - 1, MOST_DEPTH - 1));
}

/* Base groups of maximum 0 that hold a. */
static void test_base_may_not_occur(void)
{
    uint8_t sheet[MARKER_LEAST_SHEET + MARKER_RECORD];
    uint8_t *derived = sheet + DERIVED, *base = sheet + BASE;
    memcpy(sheet, PRINTED, DERIVED);
    size_t length = contents(sheet, 1, 1, 2);
    record(derived, ELEMENT, 0, 0, 1, 1);
    record(record(base, SEQUENCE, 0, 1, 0, 0), ELEMENT, 0, 0, 1, 1);
    check("a | S(0,0)[a]", MARKER_SEQUENCE_RANGE, mark(sheet, length));
    sheet[FIRST] = 1;
    check("a | S(0,0)[a], verdict 1", MARKER_SEQUENCE_RANGE, mark(sheet, length));
    sheet[FIRST] = 0;
    base[KIND] = CHOICE;
    check("a | C(0,0)[a]", MARKER_CHOICE_RANGE, mark(sheet, length));
    record(derived, ELEMENT, 0, 0, 0, 0);
    check("a(0,0) | C(0,0)[a]", MARKER_PASSES, mark(sheet, length));
    base[KIND] = SEQUENCE;
    check("a(0,0) | S(0,0)[a]", MARKER_PASSES, mark(sheet, length));
}

static void test_refused_sheets(void)
{
    check("no byte", MARKER_REFUSED + MARKER_REFUSAL_CONTENTS, mark(PRINTED, 0));
    check("a byte less", MARKER_REFUSED + MARKER_REFUSAL_CONTENTS,
          mark(PRINTED, MARKER_LEAST_SHEET - 1));
    check("leaf kind 2", MARKER_REFUSED + MARKER_REFUSAL_LEAF, changed(A_LEAF, 2, SECOND, 0));
    check("verdict 2", MARKER_REFUSED + MARKER_REFUSAL_VERDICT, changed(FIRST, 2, SECOND, 0));
    const int roots[2] = {BASE, DERIVED};
    for (uint32_t tree = 0; tree < 2; tree++) {
        int root = roots[tree];
        uint32_t first = tree == 0 ? MARKER_REFUSAL_BASE_FIELDS : MARKER_REFUSAL_DERIVED_FIELDS;
        check("kind 5", MARKER_REFUSED + first, changed(root, 5, SECOND, 0));
        check("(2,1)", MARKER_REFUSED + first + 1, changed(root + MIN, 2, SECOND, 0));
        check("A(..,2)[]", MARKER_REFUSED + first + 2, changed(root, ALL, root + MAX, 2));
        check("an item missing", MARKER_REFUSED + first + 4,
              changed(root, SEQUENCE, root + COUNT, 1));
    }
    check("base too deep", MARKER_REFUSED + MARKER_REFUSAL_BASE_DEPTH, mark_below(0, MOST_DEPTH));
    check("derived too deep", MARKER_REFUSED + MARKER_REFUSAL_DERIVED_DEPTH,
          mark_below(MOST_DEPTH, 0));
}

/* Single trees. */

void check_total(const char *what, const uint8_t *tree, size_t length, uint64_t min, uint64_t max)
{
    check(what, min, marker_total_min(tree, length));
    check(what, max, marker_total_max(tree, length));
}

static void test_totals(void)
{
    uint8_t tree[2 * MARKER_RECORD];
    record(record(tree, SEQUENCE, 0, 1, 65535, 65535), ELEMENT, 0, 0, 65537, 65537);
    check_total("the greatest numbers", tree, sizeof tree, 4294967295u, 4294967295u);
    record(record(tree, SEQUENCE, 0, 1, 65536, 65536), ELEMENT, 0, 0, 65536, 65536);
    check_total("numbers too large", tree, sizeof tree, MARKER_TOO_LARGE, MARKER_TOO_LARGE);
    record(record(tree, SEQUENCE, 0, 1, 0, 65536), ELEMENT, 0, 0, 65536, 65536);
    check_total("a maximum too large", tree, sizeof tree, 0, MARKER_TOO_LARGE);
    record(record(tree, SEQUENCE, 0, 1, 65536, STAR), ELEMENT, 0, 0, 65536, 65536);
    check_total("a minimum too large", tree, sizeof tree, MARKER_TOO_LARGE, MARKER_UNBOUNDED);
    record(record(tree, SEQUENCE, 0, 1, 2, 3), ELEMENT, 0, 0, 1, STAR);
    check_total("S(2,3)[a(1,*)]", tree, sizeof tree, 2, MARKER_UNBOUNDED);
    record(record(tree, CHOICE, 0, 1, 2, 3), WILDCARD, MOST_LEAVES - 1, 0, 0, 4);
    check_total("C(2,3)[w(0,4)]", tree, sizeof tree, 0, 12);
}

static void test_emptiable(void)
{
    uint8_t tree[2 * MARKER_RECORD];
    record(record(tree, SEQUENCE, 0, 1, 2, 3), ELEMENT, 0, 0, 0, 1);
    check("S(2,3)[a(0,1)]", MARKER_EMPTIABLE, marker_emptiable(tree, sizeof tree));
    record(record(tree, SEQUENCE, 0, 1, 2, 3), ELEMENT, 0, 0, 1, 1);
    check("S(2,3)[a]", MARKER_NOT_EMPTIABLE, marker_emptiable(tree, sizeof tree));
}

void check_refused(const char *what, const uint8_t *tree, size_t length, uint32_t number)
{
    check_total(what, tree, length, MARKER_BEYOND + number, MARKER_BEYOND + number);
    check(what, number, marker_emptiable(tree, length));
    check(what, MARKER_BEYOND + number, marker_tidy(tree, length, lend(), ROOM));
    check_lent(what, NULL, 0);
    check(what, 0, marker_item(tree, length, 0, lend(), ROOM));
    check_lent(what, NULL, 0);
}

static void test_refused_trees(void)
{
    uint8_t tree[(MOST_DEPTH + 1) * MARKER_RECORD];
    record(tree, ELEMENT, MOST_LEAVES, 0, 1, 1);
    check_refused("a leaf number too large", tree, MARKER_RECORD, MARKER_REFUSAL_DERIVED_FIELDS);
    record(tree, ELEMENT, 0, 0, 2, 1);
    check_refused("a(2,1)", tree, MARKER_RECORD, MARKER_REFUSAL_DERIVED_PAIR);
    record(tree, ALL, 0, 0, 0, 2);
    check_refused("A(0,2)[]", tree, MARKER_RECORD, MARKER_REFUSAL_DERIVED_ALL_GROUP);
    size_t length = (size_t)(element_below(tree, MOST_DEPTH) - tree);
    check_refused("too deep", tree, length, MARKER_REFUSAL_DERIVED_DEPTH);
    check_refused("an item missing", tree, MARKER_RECORD, MARKER_REFUSAL_DERIVED_COUNTS);
    check_refused("a broken record", tree, length - 1, MARKER_REFUSAL_DERIVED_COUNTS);
    check_refused("no byte", tree, 0, MARKER_REFUSAL_DERIVED_COUNTS);
    check_refused("a null pointer of length 0", NULL, 0, MARKER_REFUSAL_DERIVED_COUNTS);
}

/* S(2,3)[C[a,b]] becomes C(2,3)[a,b]. */
static void test_tidying(void)
{
    uint8_t tree[4 * MARKER_RECORD], copy[sizeof tree], tidied[3 * MARKER_RECORD];
    uint8_t *items = record(record(tree, SEQUENCE, 0, 1, 2, 3), CHOICE, 0, 2, 1, 1);
    record(record(items, ELEMENT, 0, 0, 1, 1), ELEMENT, 1, 0, 1, 1);
    memcpy(copy, tree, sizeof tree);
    record(tidied, CHOICE, 0, 2, 2, 3);
    memcpy(tidied + MARKER_RECORD, items, 2 * MARKER_RECORD);

    check("tidy, exact", 3, marker_tidy(tree, sizeof tree, lend(), sizeof tree));
    check_lent("tidy, exact: out", tidied, sizeof tidied);
    check("tidy, longer", 3, marker_tidy(tree, sizeof tree, lend(), ROOM));
    check_lent("tidy, longer: out", tidied, sizeof tidied);
    check("tidy, one byte short", MARKER_BEYOND + MARKER_REFUSAL_BUFFER,
          marker_tidy(tree, sizeof tree, lend(), sizeof tree - 1));
    check_lent("tidy, one byte short: out", NULL, 0);
    check("tidy, no buffer", MARKER_BEYOND + MARKER_REFUSAL_BUFFER,
          marker_tidy(tree, sizeof tree, NULL, 0));
    check("tidy: the tree comes back unchanged", 0,
          (uint64_t)(memcmp(copy, tree, sizeof tree) != 0));

    check("tidied again, exact", 3, marker_tidy(tidied, sizeof tidied, lend(), sizeof tidied));
    check_lent("tidied again, exact: out", tidied, sizeof tidied);
    check("tidied again, longer", 3, marker_tidy(tidied, sizeof tidied, lend(), ROOM));
    check_lent("tidied again, longer: out", tidied, sizeof tidied);
    check("tidied again, one byte short", MARKER_BEYOND + MARKER_REFUSAL_BUFFER,
          marker_tidy(tidied, sizeof tidied, lend(), sizeof tidied - 1));
    check_lent("tidied again, one byte short: out", NULL, 0);
}

/* The items of S[a,C[b],w]: one record, two and one. */
static void test_items(void)
{
    const size_t one = MARKER_RECORD, two = 2 * MARKER_RECORD;
    uint8_t tree[5 * MARKER_RECORD];
    uint8_t *choice = record(record(tree, SEQUENCE, 0, 3, 1, 1), ELEMENT, 0, 0, 1, 1);
    uint8_t *last = record(record(choice, CHOICE, 0, 1, 1, 1), ELEMENT, 1, 0, 1, 1);
    record(last, WILDCARD, 2, 0, 0, STAR);

    check("item 0", one, marker_item(tree, sizeof tree, 0, lend(), ROOM));
    check_lent("item 0: out", tree + MARKER_RECORD, one);
    check("item 1, exact", two, marker_item(tree, sizeof tree, 1, lend(), two));
    check_lent("item 1, exact: out", choice, two);
    check("item 1, one byte short", two, marker_item(tree, sizeof tree, 1, lend(), two - 1));
    check_lent("item 1, one byte short: out", NULL, 0);
    check("item 1, length alone", two, marker_item(tree, sizeof tree, 1, NULL, 0));
    check("the last item", one, marker_item(tree, sizeof tree, 2, lend(), ROOM));
    check_lent("the last item: out", last, one);
    check("one past the last", 0, marker_item(tree, sizeof tree, 3, lend(), ROOM));
    check_lent("one past the last: out", NULL, 0);
    check("the largest k", 0, marker_item(tree, sizeof tree, SIZE_MAX, lend(), ROOM));
    check("an item of a leaf", 0, marker_item(last, MARKER_RECORD, 0, lend(), ROOM));
    check_lent("an item of a leaf: out", NULL, 0);
}

static void test_helpers(void)
{
    check("a null sheet", 1, marker_mark_refusal(marker_mark(NULL, 0)));
    check("no refusal of a mark", 0, marker_mark_refusal(MARKER_MOST_SET));
    check("refusal 14", 14, marker_number_refusal(marker_total_max(NULL, 0)));
    check("unbounded is no refusal", 0, marker_number_refusal(MARKER_UNBOUNDED));
    check("too large is no refusal", 0, marker_number_refusal(MARKER_TOO_LARGE));
    check("emptiable is no refusal", 0, marker_emptiable_refusal(MARKER_EMPTIABLE));
    check("refusal 14 of emptiable", 14, marker_emptiable_refusal(marker_emptiable(NULL, 0)));
}

int main(void)
{
    test_marks();
    test_base_may_not_occur();
    test_refused_sheets();
    test_totals();
    test_emptiable();
    test_refused_trees();
    test_tidying();
    test_chains();
    test_items();
    test_layout();
    test_stack();
    test_helpers();
    test_words();
    test_sheet();
    test_faults();
    test_drawn();
    test_types();
    test_filling();
    test_type_tables();
    test_filling_by();
    printf("%lu checks, %lu differences\n", checks, differences);
    return differences != 0;
}
