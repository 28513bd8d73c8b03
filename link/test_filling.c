/*
 * Tests of marker_fill_types, which test.c runs with its own: every byte of a
 * sheet and around it, what is filled in and what stays, each refusal.
 */
#include <string.h>

#include "test.h"

enum { TYPES = MARKER_BUILT_IN_TYPES, GUARD = 16, GUARDED = 0xa5 };

/* The lent sheet stands between guards. */
static uint8_t lent[GUARD + MARKER_MOST_SHEET + 1 + GUARD];

/* Fills in a copy of the sheet; the types must come back unchanged. */
static uint32_t fill(const uint8_t *sheet, size_t length, const uint8_t *types, size_t count)
{
    uint8_t copy[MOST_LEAVES + 1];
    memset(lent, GUARDED, GUARD);
    memcpy(lent + GUARD, sheet, length);
    memset(lent + GUARD + length, GUARDED, GUARD);
    memcpy(copy, types, count);
    uint32_t answer = marker_fill_types(lent + GUARD, length, types, count);
    check("the types come back unchanged", 0, (uint64_t)(memcmp(copy, types, count) != 0));
    return answer;
}

/* The lent sheet has these bytes, and nothing is written around it. */
static void check_lent_sheet(const char *what, const uint8_t *bytes, size_t length)
{
    unsigned differing = memcmp(lent + GUARD, bytes, length) != 0;
    for (size_t place = 0; place < GUARD; place++) {
        differing += lent[place] != GUARDED || lent[GUARD + length + place] != GUARDED;
    }
    check(what, 0, differing);
}

/* It is filled in so; and filled in again, it stays so. */
static void check_filled(const char *what, const uint8_t *sheet, const uint8_t *filled,
                         size_t length, const uint8_t *types, size_t count)
{
    check(what, MARKER_FILLED, fill(sheet, length, types, count));
    check_lent_sheet(what, filled, length);
    check(what, MARKER_FILLED, marker_fill_types(lent + GUARD, length, types, count));
    check_lent_sheet(what, filled, length);
}

/* It is refused with this number, and no byte is written. */
static void check_not_filled(const char *what, uint32_t number, const uint8_t *sheet,
                             size_t length, const uint8_t *types, size_t count)
{
    uint32_t answer = fill(sheet, length, types, count);
    check(what, MARKER_REFUSED + number, answer);
    check(what, number, marker_mark_refusal(answer));
    check_lent_sheet(what, sheet, length);
}

/* A sheet of three elements, and a wildcard among them. */

enum { A, W, B, C, FOUR };
enum { W_AT = CONTENTS_SIZE + W * LEAF_SIZE, FIRST_AT = CONTENTS_SIZE + FOUR * LEAF_SIZE };
enum { SECOND_AT = FIRST_AT + FOUR * FOUR, DERIVED_AT = TREES_AT(FOUR) };
enum { BASE_AT = DERIVED_AT + MARKER_RECORD };

static uint8_t four[DERIVED_AT + 2 * (MOST_DEPTH + 1) * MARKER_RECORD], filled[sizeof four];

/* A type for each leaf, and one more. */
static const uint8_t GOOD[FOUR + 1] = {MARKER_TYPE_INT, MARKER_NO_TYPE, MARKER_TYPE_INTEGER,
                                       MARKER_TYPE_STRING, MARKER_TYPE_ANY_TYPE};

/* What they make of a second table without a verdict. */
static const uint8_t SECOND[FOUR * FOUR] = {
    0,   1, 0,   148, /* int against int, a wildcard, integer, string */
    1,   1, 1,   1,   /* a wildcard */
    148, 1, 0,   148, /* integer */
    148, 1, 148, 0,   /* string */
};

/* Writes the sheet into `four`, every verdict undecided: a below groups, against b
 * below groups. Its length. */
static size_t undecided(int derived_groups, int base_groups)
{
    memset(four, 0, sizeof four);
    four[W_AT] = WILDCARD;
    memset(four + FIRST_AT, MARKER_UNDECIDED, 2 * FOUR * FOUR);
    uint8_t *base = element_below(four + DERIVED_AT, derived_groups);
    element_below(base, base_groups)[LEAF - MARKER_RECORD] = B;
    return contents(four, FOUR, (size_t)derived_groups + 1, (size_t)base_groups + 1);
}

/* Of both tables, only element pairs of the second are filled in. */
static void test_filled_bytes(void)
{
    size_t length = undecided(0, 0);
    memcpy(filled, four, length);
    memcpy(filled + SECOND_AT, SECOND, sizeof SECOND);
    for (unsigned type = 0; type < 256; type++) {
        const uint8_t types[FOUR] = {GOOD[A], (uint8_t)type, GOOD[B], GOOD[C]};
        check_filled("a wildcard's number is not read", four, filled, length, types, FOUR);
    }
}

/* Every two types as those of a and b. */
static void test_every_pair(void)
{
    size_t length = undecided(0, 0);
    for (unsigned derived = 0; derived < TYPES; derived++) {
        for (unsigned base = 0; base < TYPES; base++) {
            const uint8_t types[FOUR] = {(uint8_t)derived, TYPES, (uint8_t)base,
                                         MARKER_TYPE_ANY_TYPE};
            memcpy(filled, four, length);
            for (int place = 0; place < FOUR * FOUR; place++) {
                int leaf = place / FOUR, other = place % FOUR;
                if (leaf != W && other != W) {
                    filled[SECOND_AT + place] = (uint8_t)by_outline(types[leaf], types[other]);
                }
            }
            check_filled(marker_type_name(derived), four, filled, length, types, FOUR);
        }
    }
}

/* A verdict that is not undecided stays: one among undecided ones, or all. */
static void test_what_stays(void)
{
    for (int verdict = MARKER_LEAST_SET - 1; verdict <= MARKER_MOST_SET; verdict++) {
        uint8_t set = (uint8_t)(verdict < MARKER_LEAST_SET ? 0 : verdict);
        size_t length = undecided(0, 0);
        for (int place = SECOND_AT; place < DERIVED_AT; place++) {
            undecided(0, 0);
            four[place] = set;
            memcpy(filled, four, length);
            memcpy(filled + SECOND_AT, SECOND, sizeof SECOND);
            filled[place] = set;
            check_filled("a verdict that stays", four, filled, length, GOOD, FOUR);
        }
        memset(four + SECOND_AT, set, sizeof SECOND);
        check_filled("a table that stays", four, four, length, GOOD, FOUR);
    }
}

/* The mark of the sheet before and after, with these verdicts on a and b. */
static void check_marks(const char *what, int first, int second, const uint8_t *types,
                        uint32_t before, uint32_t after)
{
    size_t length = BASE_AT + MARKER_RECORD;
    four[FIRST_AT + A * FOUR + B] = (uint8_t)first;
    four[SECOND_AT + A * FOUR + B] = (uint8_t)second;
    check(what, before, mark(four, length));
    check(what, MARKER_FILLED, fill(four, length, types, FOUR));
    check(what, after, mark(lent + GUARD, length));
}

/* An undecided mark follows the types; a definite one stays. */
static void test_marks(void)
{
    static const uint8_t other[FOUR] = {MARKER_TYPE_INTEGER, 0, MARKER_TYPE_INT, 0};
    undecided(0, 0);
    check_marks("int | integer", 0, 1, GOOD, MARKER_UNDECIDED, MARKER_PASSES);
    check_marks("integer | int", 0, 1, other, MARKER_UNDECIDED, MARKER_NOT_DERIVED);
    check_marks("names undecided", 1, 1, GOOD, MARKER_UNDECIDED, MARKER_UNDECIDED);
    check_marks("passes", 0, 0, other, MARKER_PASSES, MARKER_PASSES);
    check_marks("fails by a verdict", 0, MARKER_MOST_SET, GOOD, MARKER_MOST_SET, MARKER_MOST_SET);
    record(four + BASE_AT, ELEMENT, B, 0, 0, 0);
    check_marks("fails by a pair", 0, 1, GOOD, MARKER_MAX_ABOVE, MARKER_MAX_ABOVE);
    record(four + BASE_AT, WILDCARD, W, 0, 1, 1);
    check_marks("a wildcard as base", 0, 0, GOOD, MARKER_UNDECIDED, MARKER_UNDECIDED);
}

/* Refusals. */

/* The sheet as it stands is refused before its types are, right or wrong. */
static void check_sheet(const char *what, uint32_t number, size_t length)
{
    static const uint8_t unknown[FOUR] = {TYPES, TYPES, TYPES, TYPES};
    check_not_filled(what, number, four, length, GOOD, FOUR);
    check_not_filled(what, number, four, length, GOOD, 0);
    check_not_filled(what, number, four, length, unknown, FOUR);
}

/* The sheet with another byte at a place. */
static void check_changed(const char *what, uint32_t number, int place, int value)
{
    size_t length = undecided(0, 0);
    four[place] = (uint8_t)value;
    check_sheet(what, number, length);
}

/* The sheet with another root of the tree at this place. */
static void check_root(const char *what, uint32_t number, int root, int kind, int count,
                       uint32_t min, int64_t max)
{
    size_t length = undecided(0, 0);
    record(four + root, kind, 0, count, min, max);
    check_sheet(what, number, length);
}

static void test_refused_sheets(void)
{
    check_changed("the zero byte", MARKER_REFUSAL_CONTENTS, ZERO, 1);
    check_changed("0 leaves", MARKER_REFUSAL_CONTENTS, LEAVES, 0);
    check_changed("leaf kind 2", MARKER_REFUSAL_LEAF, W_AT, 2);
    check_changed("verdict 2, first table", MARKER_REFUSAL_VERDICT, FIRST_AT, 2);
    check_changed("verdict 255, second table", MARKER_REFUSAL_VERDICT, DERIVED_AT - 1, 255);
    const int roots[2] = {BASE_AT, DERIVED_AT};
    for (int tree = 0; tree < 2; tree++) {
        int root = roots[tree];
        uint32_t first = tree == 0 ? MARKER_REFUSAL_BASE_FIELDS : MARKER_REFUSAL_DERIVED_FIELDS;
        check_root("kind 5", first, root, 5, 0, 1, 1);
        check_root("a(2,1)", first + 1, root, ELEMENT, 0, 2, 1);
        check_root("A(0,2)[]", first + 2, root, ALL, 0, 0, 2);
        size_t deep = tree == 0 ? undecided(0, MOST_DEPTH) : undecided(MOST_DEPTH, 0);
        check_sheet("too deep", first + 3, deep);
        check_root("an item missing", first + 4, root, SEQUENCE, 1, 1, 1);
    }
    size_t length = undecided(0, 0);
    check_sheet("a byte less", MARKER_REFUSAL_CONTENTS, length - 1);
    check_sheet("a byte more", MARKER_REFUSAL_CONTENTS, length + 1);
    check_sheet("no byte", MARKER_REFUSAL_CONTENTS, 0);
    check("null pointers", MARKER_REFUSED + MARKER_REFUSAL_CONTENTS,
          marker_fill_types(NULL, 0, NULL, 0));
}

/* Not a number for each leaf, or an element's that the list does not have, whether
 * or not a verdict is undecided. */
static void test_refused_types(void)
{
    const uint32_t number = MARKER_REFUSAL_TYPE_NUMBER;
    for (int verdict = 0; verdict < 2; verdict++) {
        size_t length = undecided(0, 0);
        memset(four + SECOND_AT, verdict, sizeof SECOND);
        check_not_filled("no types", number, four, length, GOOD, 0);
        check_not_filled("a type less", number, four, length, GOOD, FOUR - 1);
        check_not_filled("a type more", number, four, length, GOOD, FOUR + 1);
        check("a null pointer", MARKER_REFUSED + number,
              marker_fill_types(lent + GUARD, length, NULL, 0));
        check_lent_sheet("a null pointer", four, length);
        for (int leaf = A; leaf < FOUR; leaf++) {
            for (unsigned type = TYPES; type < 256 && leaf != W; type++) {
                uint8_t types[FOUR];
                memcpy(types, GOOD, FOUR);
                types[leaf] = (uint8_t)type;
                check_not_filled("an unknown type", number, four, length, types, FOUR);
            }
        }
    }
}

/* The smallest sheet, of an element and of a wildcard, which needs a byte too. */
static void test_one_leaf(void)
{
    static const uint8_t types[2] = {MARKER_NO_TYPE, MARKER_TYPE_BYTE};
    const uint32_t number = MARKER_REFUSAL_TYPE_NUMBER;
    uint8_t one[MARKER_LEAST_SHEET], after[sizeof one];
    const size_t length = contents(one, 1, 1, 1);
    for (int kind = ELEMENT; kind <= WILDCARD; kind++) {
        memset(one + CONTENTS_SIZE, 0, LEAF_SIZE);
        one[CONTENTS_SIZE] = (uint8_t)kind;
        memset(one + CONTENTS_SIZE + LEAF_SIZE, MARKER_UNDECIDED, 2);
        record(record(one + TREES_AT(1), kind, 0, 0, 1, 1), kind, 0, 0, 1, 1);
        memcpy(after, one, length);
        after[TREES_AT(1) - 1] = kind == WILDCARD;
        check_filled("one leaf", one, after, length, types + 1, 1);
        check_not_filled("one leaf, no type", number, one, length, types, 0);
        check_not_filled("one leaf, two types", number, one, length, types, 2);
    }
    check_filled("a wildcard's type", one, after, length, types, 1);
    one[CONTENTS_SIZE] = one[TREES_AT(1)] = one[TREES_AT(1) + MARKER_RECORD] = ELEMENT;
    check_not_filled("an element's type", number, one, length, types, 1);
}

/* Of the longest sheet, every seventh leaf is a wildcard. */
static int is_wildcard(size_t leaf)
{
    return leaf % 7 == 3;
}

/* As many leaves and records as there may be. */
static void test_longest(void)
{
    static uint8_t most[MARKER_MOST_SHEET + 1], after[sizeof most];
    const size_t n = MOST_LEAVES, second = TREES_AT(n) - n * n;
    const uint32_t number = MARKER_REFUSAL_TYPE_NUMBER;
    uint8_t types[MOST_LEAVES + 1];
    const size_t length = contents(most, MOST_LEAVES, MOST_RECORDS, MOST_RECORDS);
    check("the longest sheet: its length", MARKER_MOST_SHEET, length);
    memset(most + second - n * n, MARKER_UNDECIDED, 2 * n * n);
    row(row(most + TREES_AT(n), MOST_RECORDS), MOST_RECORDS);
    for (size_t leaf = 0; leaf <= n; leaf++) {
        types[leaf] = (uint8_t)(is_wildcard(leaf) ? (size_t)MARKER_NO_TYPE : 11 * leaf % TYPES);
    }
    for (size_t leaf = 0; leaf < n; leaf++) {
        most[CONTENTS_SIZE + leaf * LEAF_SIZE] = (uint8_t)is_wildcard(leaf);
    }
    memcpy(after, most, sizeof most);
    for (size_t place = 0; place < n * n; place++) {
        size_t leaf = place / n, other = place % n;
        if (!is_wildcard(leaf) && !is_wildcard(other)) {
            after[second + place] = (uint8_t)by_outline(types[leaf], types[other]);
        }
    }
    check_filled("the longest sheet", most, after, length, types, n);
    check_not_filled("the longest sheet, a type less", number, most, length, types, n - 1);
    check_not_filled("the longest sheet, a type more", number, most, length, types, n + 1);
    check_not_filled("a byte more", MARKER_REFUSAL_CONTENTS, most, length + 1, types, n);
    types[n - 1] = TYPES;
    check_not_filled("its last type", number, most, length, types, n);
}

void test_filling(void)
{
    test_filled_bytes();
    test_every_pair();
    test_what_stays();
    test_marks();
    test_refused_sheets();
    test_refused_types();
    test_one_leaf();
    test_longest();
}
