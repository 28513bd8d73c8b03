/*
 * Tests of marker_effective_particle, which test.c runs with its own: chains
 * with and without content, each refusal, every byte of a lent buffer.
 */
#include <string.h>

#include "test.h"

/* Writes a (1,1) element and returns the place after it. */
static uint8_t *element(uint8_t *at, int leaf)
{
    return record(at, ELEMENT, leaf, 0, 1, 1);
}

uint8_t *levels(uint8_t *chain, int count, const int *records)
{
    *chain++ = (uint8_t)count;
    for (int level = 0; level < count; level++, chain += COUNT_SIZE) {
        put_16(chain, (uint32_t)records[level]);
    }
    return chain;
}

/* A chain of so many elements, of the leaves 0, 1, .. */
static size_t elements(uint8_t *chain, int count)
{
    int records[MARKER_MOST_LEVELS + 1];
    for (int level = 0; level < count; level++) {
        records[level] = 1;
    }
    uint8_t *end = levels(chain, count, records);
    for (int level = 0; level < count; level++) {
        end = element(end, level);
    }
    return (size_t)(end - chain);
}

/* The chain is refused with this number whatever the buffer, and nothing is
 * written. */
static void check_chain(const char *what, const uint8_t *chain, size_t length, uint32_t number)
{
    check(what, MARKER_BEYOND + number, marker_effective_particle(chain, length, lend(), ROOM));
    check_lent(what, NULL, 0);
    check(what, number, marker_number_refusal(marker_effective_particle(chain, length, NULL, 0)));
}

/* a + - + b + c(0,1) becomes S[S[a,b],c(0,1)]. */
static void test_joining(void)
{
    static const int counts[4] = {1, 0, 1, 1};
    uint8_t chain[LEVELS_SIZE + 4 * COUNT_SIZE + 3 * MARKER_RECORD], copy[sizeof chain];
    uint8_t joined[5 * MARKER_RECORD];
    uint8_t *trees = levels(chain, 4, counts);
    record(element(element(trees, 0), 1), ELEMENT, 2, 0, 0, 1);
    memcpy(copy, chain, sizeof chain);
    memcpy(record(record(joined, SEQUENCE, 0, 2, 1, 1), SEQUENCE, 0, 2, 1, 1), trees,
           3 * MARKER_RECORD);

    const size_t size = sizeof joined;
    check("join, exact", 5, marker_effective_particle(chain, sizeof chain, lend(), size));
    check_lent("join, exact: out", joined, size);
    check("join, longer", 5, marker_effective_particle(chain, sizeof chain, lend(), ROOM));
    check_lent("join, longer: out", joined, size);
    check("join, one byte short", MARKER_BEYOND + MARKER_REFUSAL_BUFFER,
          marker_effective_particle(chain, sizeof chain, lend(), size - 1));
    check_lent("join, one byte short: out", NULL, 0);
    check("join, no buffer", MARKER_BEYOND + MARKER_REFUSAL_BUFFER,
          marker_effective_particle(chain, sizeof chain, NULL, 0));
    check("join: the chain comes back unchanged", 0,
          (uint64_t)(memcmp(copy, chain, sizeof chain) != 0));
}

/* One tree stands as it is; no tree is no content, whatever the buffer. */
static void test_one_or_none(void)
{
    static const int absent[MARKER_MOST_LEVELS] = {0}, third[3] = {0, 0, 2};
    uint8_t chain[LEVELS_SIZE + COUNT_SIZE * MARKER_MOST_LEVELS + 2 * MARKER_RECORD];
    uint8_t *tree = levels(chain, 3, third);
    uint8_t *item = record(tree, CHOICE, 0, 1, 0, STAR);
    size_t length = (size_t)(element(item, MOST_LEAVES - 1) - chain);
    check("a lone tree", 2, marker_effective_particle(chain, length, lend(), 2 * MARKER_RECORD));
    check_lent("a lone tree: out", tree, 2 * MARKER_RECORD);

    for (int count = 1; count <= MARKER_MOST_LEVELS; count++) {
        length = (size_t)(levels(chain, count, absent) - chain);
        check("no content", MARKER_NO_CONTENT,
              marker_effective_particle(chain, length, lend(), ROOM));
        check_lent("no content: out", NULL, 0);
        check("no content, no buffer", MARKER_NO_CONTENT,
              marker_effective_particle(chain, length, NULL, 0));
    }
}

static void test_refused_chains(void)
{
    static const int none[1] = {0}, one[1] = {1};
    static uint8_t chain[LEVELS_SIZE + (MARKER_MOST_LEVELS + 1) * (COUNT_SIZE + MARKER_RECORD)];
    check_chain("a null chain", NULL, 0, MARKER_REFUSAL_CHAIN);
    check_chain("0 levels", chain, 1, MARKER_REFUSAL_CHAIN);
    size_t length = elements(chain, MARKER_MOST_LEVELS + 1);
    check_chain("a level too many", chain, length, MARKER_REFUSAL_CHAIN);
    levels(chain, 1, none);
    check_chain("counts cut off", chain, 2, MARKER_REFUSAL_CHAIN);
    check_chain("a byte after no tree", chain, 4, MARKER_REFUSAL_CHAIN);
    /* Before the tree's own refusal. */
    length = (size_t)(record(levels(chain, 1, one), ELEMENT, MOST_LEAVES, 0, 1, 1) - chain);
    check_chain("a tree cut off", chain, length - 1, MARKER_REFUSAL_CHAIN);
    check_chain("a byte more", chain, length + 1, MARKER_REFUSAL_CHAIN);
    check_chain("whole", chain, length, MARKER_REFUSAL_DERIVED_FIELDS);
    exchange(chain + LEVELS_SIZE);
    check_chain("a count exchanged", chain, length, MARKER_REFUSAL_CHAIN);
}

static void test_refused_trees_of_chains(void)
{
    static const int two[2] = {1, 1}, many[1] = {MOST_RECORDS + 1};
    static const int deep[1] = {MOST_DEPTH + 1};
    static uint8_t chain[MARKER_MOST_CHAIN];
    uint8_t *second = element(levels(chain, 2, two), 0);
    size_t length = (size_t)(record(second, ELEMENT, 0, 0, 2, 1) - chain);
    check_chain("a(2,1) second", chain, length, MARKER_REFUSAL_DERIVED_PAIR);
    for (int place = 0; place < ZERO_BYTES; place++) {
        element(element(levels(chain, 2, two), 0), 0)[ZEROS + place - MARKER_RECORD] = 1;
        check_chain("a zero byte", chain, length, MARKER_REFUSAL_DERIVED_FIELDS);
    }
    record(levels(chain, 2, two), ALL, 0, 0, 0, 2);
    check_chain("A(0,2)[] first", chain, length, MARKER_REFUSAL_DERIVED_ALL_GROUP);
    record(levels(chain, 2, two), SEQUENCE, 0, 1, 1, 1);
    check_chain("items in the next tree", chain, length, MARKER_REFUSAL_DERIVED_COUNTS);
    length = (size_t)(levels(chain, 1, many) - chain) + MARKER_MOST_TREE + MARKER_RECORD;
    check_chain("a record too many", chain, length, MARKER_REFUSAL_DERIVED_COUNTS);
    length = (size_t)(element_below(levels(chain, 1, deep), MOST_DEPTH) - chain);
    check_chain("too deep", chain, length, MARKER_REFUSAL_DERIVED_DEPTH);

    length = elements(chain, MOST_DEPTH + 1);
    check_chain("joined too deep", chain, length, MARKER_REFUSAL_LIMIT);
    chain[length - MARKER_RECORD] = 5;
    check_chain("kind 5 in it", chain, length, MARKER_REFUSAL_DERIVED_FIELDS);
}

/* Chains at the limits of levels, records and depth. */
static void test_longest_chains(void)
{
    static uint8_t chain[MARKER_MOST_CHAIN], out[MARKER_MOST_TREE];
    int records[MARKER_MOST_LEVELS] = {MOST_RECORDS};
    uint8_t *tree = levels(chain, MARKER_MOST_LEVELS, records);
    size_t length = (size_t)(row(tree, MOST_RECORDS) - chain), size = sizeof out;
    check("the longest chain: its length", MARKER_MOST_CHAIN, length);
    check("the longest chain", MOST_RECORDS, marker_effective_particle(chain, length, out, size));
    check("the longest chain: out", 0, (uint64_t)(memcmp(out, tree, size) != 0));

    length = elements(chain, MOST_DEPTH);
    const uint64_t count = 2 * MOST_DEPTH - 1;
    check("joined to the depth", count, marker_effective_particle(chain, length, out, size));
    check("joined to the depth: its total", MOST_DEPTH,
          marker_total_min(out, count * MARKER_RECORD));

    records[0] = 300;
    records[1] = MOST_RECORDS - 1 - records[0];
    length = (size_t)(row(row(levels(chain, 2, records), records[0]), records[1]) - chain);
    check("joined to the records", MOST_RECORDS,
          marker_effective_particle(chain, length, out, size));
    records[1]++;
    length = (size_t)(row(row(levels(chain, 2, records), records[0]), records[1]) - chain);
    check_chain("joined to a record more", chain, length, MARKER_REFUSAL_LIMIT);
}

void test_chains(void)
{
    test_joining();
    test_one_or_none();
    test_refused_chains();
    test_refused_trees_of_chains();
    test_longest_chains();
}
