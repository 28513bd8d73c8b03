/*
 * Tests of what sheet.h finds wrong, which test.c runs with its own: each fault,
 * and that nothing is done after one; what is just within a limit is no fault.
 */
#include <string.h>

#include "sheet.h"
#include "test.h"

static uint8_t bytes[MARKER_MOST_SHEET], copy[sizeof bytes];
static struct marker_builder b;

/* The leaves of `sheet`. */
enum { AN_ELEMENT, A_WILDCARD, LEAVES_OF_SHEET };

/* Starts a sheet with an element and a wildcard. */
static void sheet(void)
{
    marker_build_sheet(&b, bytes, sizeof bytes);
    marker_new_element(&b, 0);
    marker_new_wildcard(&b, MARKER_SKIP);
}

/* Starts its derived tree as well. */
static void derived(void)
{
    sheet();
    marker_derived_tree(&b);
}

static void tree(void)
{
    marker_build_tree(&b, bytes, sizeof bytes);
}

static void chain(size_t levels)
{
    marker_build_chain(&b, bytes, sizeof bytes, levels);
}

static void one(void)
{
    marker_element(&b, AN_ELEMENT, 1, 1);
}

static void opened(int kind, int times)
{
    while (times-- > 0) {
        marker_open(&b, (uint32_t)kind, 1, 1);
    }
}

static void closed(int times)
{
    while (times-- > 0) {
        marker_close(&b);
    }
}

/* The fault is found, stays, and from it on nothing is written or finished. */
static void check_fault(const char *what, enum marker_fault fault)
{
    size_t used = b.used;
    check(what, fault, b.fault);
    memcpy(copy, bytes, sizeof bytes);
    marker_new_element(&b, 70000);
    marker_first_verdict(&b, 0, 0, MARKER_MOST_SET);
    marker_derived_tree(&b);
    marker_base_tree(&b);
    marker_level(&b);
    marker_absent_level(&b);
    marker_open(&b, MARKER_SEQUENCE, 1, 1);
    one();
    marker_copy_tree(&b, copy, sizeof copy);
    marker_close(&b);
    check(what, 0, marker_finish(&b));
    check(what, fault, b.fault);
    check(what, used, b.used);
    check(what, 0, (uint64_t)(memcmp(copy, bytes, sizeof bytes) != 0));
}

/* What is asked for at the end is not there. */
static void check_unfinished(const char *what, enum marker_fault fault)
{
    check(what, MARKER_FAULT_NONE, b.fault);
    check(what, 0, marker_finish(&b));
    check_fault(what, fault);
}

static void check_finished(const char *what, size_t length)
{
    check(what, length, marker_finish(&b));
    check(what, MARKER_FAULT_NONE, b.fault);
}

static void test_rooms(void)
{
    marker_build_sheet(&b, NULL, 0);
    check_fault("no buffer for a sheet", MARKER_FAULT_ROOM);
    marker_build_tree(&b, NULL, 0);
    one();
    check_fault("no buffer for a tree", MARKER_FAULT_ROOM);
    marker_build_chain(&b, NULL, 0, 1);
    check_fault("no buffer for a chain", MARKER_FAULT_ROOM);
    marker_build_chain(&b, bytes, LEVELS_SIZE + COUNT_SIZE, 1);
    marker_absent_level(&b);
    check_finished("a chain without content", LEVELS_SIZE + COUNT_SIZE);
    marker_build_chain(&b, bytes, LEVELS_SIZE + COUNT_SIZE - 1, 1);
    check_fault("a chain, a byte short", MARKER_FAULT_ROOM);
}

static void test_leaves(void)
{
    marker_build_sheet(&b, bytes, sizeof bytes);
    marker_derived_tree(&b);
    check_fault("a tree before the leaves", MARKER_FAULT_NO_LEAVES);
    marker_build_sheet(&b, bytes, sizeof bytes);
    marker_second_verdict(&b, 0, 0, 0);
    check_fault("a verdict before the leaves", MARKER_FAULT_NO_LEAVES);
    marker_build_sheet(&b, bytes, sizeof bytes);
    for (int leaf = 0; leaf < MOST_LEAVES; leaf++) {
        marker_new_element(&b, UINT16_MAX);
    }
    check("the most leaves and the largest name", MARKER_FAULT_NONE, b.fault);
    check("no number for it", 0, marker_new_wildcard(&b, MARKER_LAX));
    check_fault("a leaf more", MARKER_FAULT_LEAVES);
    sheet();
    marker_new_element(&b, UINT16_MAX + 1);
    check_fault("a larger name", MARKER_FAULT_NAME);
    sheet();
    marker_new_wildcard(&b, MARKER_STRICT + 1);
    check_fault("process contents 3", MARKER_FAULT_PROCESS);
}

/* A sheet's calls before their turn, or after it. */
static void test_steps(void)
{
    sheet();
    one();
    check_fault("a record before the derived tree", MARKER_FAULT_STEP);
    sheet();
    marker_base_tree(&b);
    check_fault("the base tree first", MARKER_FAULT_STEP);
    sheet();
    marker_first_verdict(&b, 0, 1, 0);
    marker_new_element(&b, 1);
    check_fault("a leaf after a verdict", MARKER_FAULT_STEP);
    derived();
    one();
    marker_derived_tree(&b);
    check_fault("two derived trees", MARKER_FAULT_STEP);
    derived();
    one();
    marker_base_tree(&b);
    one();
    marker_base_tree(&b);
    check_fault("two base trees", MARKER_FAULT_STEP);
}

/* Calls that are not for what is built. */
static void test_other_calls(void)
{
    sheet();
    marker_level(&b);
    check_fault("a level of a sheet", MARKER_FAULT_STEP);
    tree();
    marker_new_element(&b, 0);
    check_fault("a leaf of a tree alone", MARKER_FAULT_STEP);
    tree();
    marker_second_verdict(&b, 0, 0, 0);
    check_fault("a verdict of a tree alone", MARKER_FAULT_STEP);
    chain(1);
    marker_derived_tree(&b);
    check_fault("the derived tree of a chain", MARKER_FAULT_STEP);
    chain(2);
    one();
    check_fault("a record before the first level", MARKER_FAULT_STEP);
    chain(2);
    marker_absent_level(&b);
    one();
    check_fault("a record of an absent level", MARKER_FAULT_STEP);
}

static void test_verdicts(void)
{
    for (uint32_t verdict = 0; verdict < 300; verdict++) {
        int known = verdict <= 1 || (verdict >= MARKER_LEAST_SET && verdict <= MARKER_MOST_SET);
        sheet();
        marker_first_verdict(&b, 1, 0, verdict);
        check("a verdict", known ? MARKER_FAULT_NONE : MARKER_FAULT_VERDICT, b.fault);
    }
    check_fault("verdict 299", MARKER_FAULT_VERDICT);
    sheet();
    marker_first_verdict(&b, LEAVES_OF_SHEET, 0, 0);
    check_fault("a verdict on no derived leaf", MARKER_FAULT_LEAF);
    sheet();
    marker_second_verdict(&b, 0, LEAVES_OF_SHEET, 0);
    check_fault("a verdict on no base leaf", MARKER_FAULT_LEAF);
}

static void test_records(void)
{
    derived();
    marker_element(&b, LEAVES_OF_SHEET, 1, 1);
    check_fault("an element that is no leaf", MARKER_FAULT_LEAF);
    derived();
    marker_element(&b, A_WILDCARD, 1, 1);
    check_fault("a wildcard as an element", MARKER_FAULT_LEAF_KIND);
    derived();
    marker_wildcard(&b, AN_ELEMENT, 1, 1);
    check_fault("an element as a wildcard", MARKER_FAULT_LEAF_KIND);
    tree();
    marker_wildcard(&b, MOST_LEAVES, 1, 1);
    check_fault("a leaf number too large", MARKER_FAULT_LEAF);
    tree();
    marker_element(&b, 0, 2, 1);
    check_fault("a(2,1)", MARKER_FAULT_PAIR);
    tree();
    marker_element(&b, 0, MARKER_UNBOUNDED, MARKER_UNBOUNDED);
    check_fault("a minimum too large", MARKER_FAULT_PAIR);
    tree();
    marker_element(&b, 0, 0, MARKER_UNBOUNDED + 1);
    check_fault("a maximum too large", MARKER_FAULT_PAIR);
}

static void test_groups(void)
{
    tree();
    marker_open(&b, MARKER_WILDCARD, 1, 1);
    check_fault("a leaf opened", MARKER_FAULT_GROUP);
    tree();
    marker_open(&b, MARKER_ALL + 1, 1, 1);
    check_fault("kind 5 opened", MARKER_FAULT_GROUP);
    tree();
    marker_open(&b, MARKER_ALL, 0, MARKER_UNBOUNDED);
    check_fault("A(0,*)", MARKER_FAULT_ALL_GROUP);
    tree();
    opened(MARKER_ALL, 2);
    check_fault("A[A", MARKER_FAULT_ALL_GROUP);
    tree();
    opened(MARKER_ALL, 1);
    marker_wildcard(&b, 1, 1, 1);
    check_fault("A[w", MARKER_FAULT_ALL_GROUP);
}

static void test_shapes(void)
{
    tree();
    opened(MARKER_CHOICE, MOST_DEPTH);
    closed(MOST_DEPTH);
    check_finished("the deepest tree", MOST_DEPTH * MARKER_RECORD);
    one();
    check_fault("a second root", MARKER_FAULT_ENDED);
    tree();
    opened(MARKER_CHOICE, MOST_DEPTH);
    one();
    check_fault("too deep", MARKER_FAULT_DEPTH);
    tree();
    opened(MARKER_SEQUENCE, 1);
    for (int item = 1; item < MOST_RECORDS; item++) {
        one();
    }
    check("the most records", MARKER_FAULT_NONE, b.fault);
    one();
    check_fault("a record more", MARKER_FAULT_RECORDS);
}

static void test_ends(void)
{
    tree();
    opened(MARKER_SEQUENCE, 2);
    closed(1);
    check_unfinished("a group left open", MARKER_FAULT_OPEN);
    derived();
    opened(MARKER_SEQUENCE, 1);
    marker_base_tree(&b);
    check_fault("a derived group left open", MARKER_FAULT_OPEN);
    tree();
    one();
    closed(1);
    check_fault("closed too often", MARKER_FAULT_CLOSE);
    tree();
    check_unfinished("no record", MARKER_FAULT_EMPTY);
    derived();
    marker_base_tree(&b);
    check_fault("no derived record", MARKER_FAULT_EMPTY);
    derived();
    one();
    check_unfinished("no base tree", MARKER_FAULT_MISSING);
    sheet();
    check_unfinished("no tree at all", MARKER_FAULT_MISSING);
}

static void test_levels(void)
{
    chain(0);
    check_fault("a chain of no level", MARKER_FAULT_LEVELS);
    chain(MARKER_MOST_LEVELS + 1);
    check_fault("a chain of a level more", MARKER_FAULT_LEVELS);
    chain(2);
    marker_level(&b);
    one();
    check_unfinished("a level missing", MARKER_FAULT_MISSING);
    chain(1);
    marker_level(&b);
    one();
    marker_absent_level(&b);
    check_fault("a level more than announced", MARKER_FAULT_LEVELS);
    chain(1);
    marker_level(&b);
    check_unfinished("an empty level", MARKER_FAULT_EMPTY);
    chain(2);
    marker_level(&b);
    opened(MARKER_CHOICE, 1);
    marker_level(&b);
    check_fault("a level left open", MARKER_FAULT_OPEN);
}

/* The most levels, of which the last is there, have the bytes that are written by
 * hand, and are joined. */
static void test_most_levels(void)
{
    static uint8_t out[MARKER_MOST_TREE];
    chain(MARKER_MOST_LEVELS);
    for (int level = 1; level < MARKER_MOST_LEVELS; level++) {
        marker_absent_level(&b);
    }
    marker_level(&b);
    one();
    size_t length = marker_finish(&b);
    const int records[MARKER_MOST_LEVELS] = {0, 0, 0, 0, 0, 0, 0, 0, 0, 0, 0, 0, 0, 0, 0, 0, 1};
    uint8_t *end = record(levels(copy, MARKER_MOST_LEVELS, records), ELEMENT, AN_ELEMENT, 0, 1, 1);
    check("the most levels", (uint64_t)(end - copy), length);
    check("the most levels: bytes", 0, (uint64_t)(memcmp(bytes, copy, length) != 0));
    check("the most levels, joined", 1, marker_effective_particle(bytes, length, out, sizeof out));
}

/* Copies a tree of so many bytes into a new one; S[C[a,w],a] is `copy` at first. */
static void check_copy(const char *what, size_t length, enum marker_fault fault)
{
    tree();
    marker_copy_tree(&b, copy, length);
    check(what, fault == MARKER_FAULT_NONE ? length : 0, marker_finish(&b));
    check(what, fault, b.fault);
}

static void test_copies(void)
{
    const size_t length = 5 * MARKER_RECORD;
    uint8_t *first = record(record(copy, SEQUENCE, 0, 2, 1, 1), CHOICE, 0, 2, 1, 1);
    uint8_t *last = record(record(first, ELEMENT, 0, 0, 1, 1), WILDCARD, 1, 0, 0, STAR);
    record(record(last, ELEMENT, 0, 0, 1, 1), ELEMENT, 0, 0, 1, 1);
    check_copy("a copy", length, MARKER_FAULT_NONE);
    check("a copy: bytes", 0, (uint64_t)(memcmp(bytes, copy, length) != 0));
    check_copy("a copy cut", length - MARKER_RECORD, MARKER_FAULT_COPY);
    check_copy("a copy cut in a record", length - 1, MARKER_FAULT_COPY);
    check_copy("a record more", length + MARKER_RECORD, MARKER_FAULT_COPY);
    tree();
    marker_copy_tree(&b, NULL, 0);
    check_fault("no byte to copy", MARKER_FAULT_COPY);
    derived();
    opened(MARKER_CHOICE, 1);
    marker_copy_tree(&b, copy, length);
    marker_copy_tree(&b, copy + MARKER_RECORD, 3 * MARKER_RECORD);
    closed(1);
    marker_base_tree(&b);
    marker_copy_tree(&b, bytes + TREES_AT(LEAVES_OF_SHEET), 9 * MARKER_RECORD);
    check("copies as items", 1, marker_finish(&b) > 0);
    check("copies as items: mark", 0, marker_mark_refusal(mark(bytes, b.used)));
    first[LEAF] = 1;
    derived();
    marker_copy_tree(&b, copy, length);
    check("a copy's element is a wildcard", MARKER_FAULT_LEAF_KIND, b.fault);
    first[KIND] = ALL + 1;
    check_copy("a copy's kind", length, MARKER_FAULT_GROUP);
    record(first, ELEMENT, 0, 1, 1, 1);
    check_copy("a copy's leaf with an item", length, MARKER_FAULT_COPY);
    record(first, ELEMENT, 0, 0, 1, STAR);
    first[UNBOUNDED] = 2;
    check_copy("a copy's unbounded mark", length, MARKER_FAULT_COPY);
}

void test_faults(void)
{
    test_copies();
    test_rooms();
    test_leaves();
    test_steps();
    test_other_calls();
    test_verdicts();
    test_records();
    test_groups();
    test_shapes();
    test_ends();
    test_levels();
    test_most_levels();
}
