/*
 * Tests of tables of types, which test.c runs with its own: what
 * marker_type_derivation_ok_by answers, and which row types.h says is out of order.
 * Verdicts by drawn tables are held to a simple reading of document 02, which
 * test_filling_by.c takes too.
 */
#include <string.h>

#include "test.h"

enum { TYPES = MARKER_BUILT_IN_TYPES, MOST_TYPES = MARKER_MOST_TYPES };
enum { LONGER = 65536 + MOST_TYPES, DRAWN = 600, PAIRS = 1500 };

static const uint32_t OK = MARKER_DERIVATION_OK, NOT_DERIVED = MARKER_NOT_DERIVED;
static const uint32_t NO_TABLE = MARKER_REFUSED + MARKER_REFUSAL_TYPE_TABLE;
static const uint32_t NO_ROW = MARKER_REFUSED + MARKER_REFUSAL_TYPE_NUMBER;

/* The reading. */

int in_order(const uint8_t *parents, size_t rows)
{
    int good = rows >= 1 && rows <= MOST_TYPES;
    for (size_t row = 0; row < rows && good; row++) {
        good = row < 2 ? parents[row] == 0 : parents[row] < row;
    }
    return good;
}

uint32_t by_parents(const uint8_t *parents, uint32_t derived, uint32_t base)
{
    int found = base < 2;
    for (uint32_t type = derived; type != 0; type = parents[type]) {
        found = found || type == base;
    }
    return found ? OK : NOT_DERIVED;
}

/* The row with which a table is no longer in order, if there is one. */
static size_t first_fault(const uint8_t *parents, size_t rows)
{
    for (size_t row = 0; row < rows; row++) {
        if (!in_order(parents, row + 1)) {
            return row;
        }
    }
    return rows == 0 ? 0 : MARKER_NO_ROW;
}

/* What is drawn. */

static uint32_t state = 7;

uint32_t drawn(uint32_t limit)
{
    state = state * 1664525u + 1013904223u;
    return (state >> 8) % limit;
}

/* Every parent is at most so many rows above: 1 makes a chain, many make a bush. */
size_t drawn_table(uint8_t *parents)
{
    size_t rows = 1 + drawn(drawn(3) == 0 ? 8 : MOST_TYPES);
    uint32_t reach = drawn(2) == 0 ? 1 + drawn(3) : (uint32_t)MOST_TYPES;
    parents[0] = 0;
    for (uint32_t row = 1; row < rows; row++) {
        parents[row] = (uint8_t)(row - 1 - drawn(reach < row ? reach : row));
    }
    return rows;
}

/* The answer for two numbers is the reading's. */
static void check_read(const char *what, const uint8_t *parents, size_t rows, uint32_t derived,
                       uint32_t base)
{
    uint32_t expected = !in_order(parents, rows) ? NO_TABLE
        : derived >= rows || base >= rows        ? NO_ROW
                                                 : by_parents(parents, derived, base);
    check(what, expected, marker_type_derivation_ok_by(parents, rows, derived, base));
}

/* The table is refused for this row, whatever the numbers are. */
static void check_fault(const char *what, const uint8_t *parents, size_t rows, size_t fault)
{
    const uint32_t numbers[4] = {0, 1, MOST_TYPES, UINT32_MAX};
    for (size_t k = 0; k < 4; k++) {
        check(what, NO_TABLE, marker_type_derivation_ok_by(parents, rows, 0, numbers[k]));
        check(what, NO_TABLE, marker_type_derivation_ok_by(parents, rows, numbers[k], 0));
    }
    check(what, MARKER_REFUSAL_TYPE_TABLE,
          marker_mark_refusal(marker_type_derivation_ok_by(parents, rows, 1, 1)));
    check(what, fault, marker_type_table_fault(parents, rows));
}

/* The table is not refused, and none of its rows is out of order. */
static void check_table(const char *what, const uint8_t *parents, size_t rows)
{
    check(what, OK, marker_type_derivation_ok_by(parents, rows, (uint32_t)rows - 1, 0));
    check(what, MARKER_NO_ROW, marker_type_table_fault(parents, rows));
}

/* Tables of one, two and three rows. */
static void test_smallest(void)
{
    static const uint8_t parents[3] = {0, 0, 1};
    const uint32_t two[2][2] = {{OK, OK}, {OK, OK}};
    const uint32_t three[3][3] = {{OK, OK, NOT_DERIVED}, {OK, OK, NOT_DERIVED}, {OK, OK, OK}};
    for (uint32_t derived = 0; derived < 4; derived++) {
        for (uint32_t base = 0; base < 4; base++) {
            uint32_t one = derived + base == 0 ? OK : NO_ROW;
            int in_two = derived < 2 && base < 2, in_three = derived < 3 && base < 3;
            check("one row", one, marker_type_derivation_ok_by(parents, 1, derived, base));
            check("two rows", in_two ? two[derived][base] : NO_ROW,
                  marker_type_derivation_ok_by(parents, 2, derived, base));
            check("three rows", in_three ? three[derived][base] : NO_ROW,
                  marker_type_derivation_ok_by(parents, 3, derived, base));
        }
    }
}

/* Rows that are all children of row 0, from none to too many; lengths whose lower
 * byte, or lower two, would be in order. */
static void test_lengths(void)
{
    static const uint8_t flat[LONGER] = {0};
    check_fault("no row", flat, 0, 0);
    check_fault("a null pointer of length 0", NULL, 0, 0);
    for (size_t rows = 1; rows <= MOST_TYPES; rows++) {
        check_table("rows within the limit", flat, rows);
    }
    for (size_t rows = MOST_TYPES + 1; rows < 1024; rows++) {
        check_fault("rows beyond the limit", flat, rows, MOST_TYPES);
    }
    for (size_t rows = 65535; rows <= LONGER; rows++) {
        check_fault("rows far beyond the limit", flat, rows, MOST_TYPES);
    }
}

/* Every byte as the parent of every row, in tables of several lengths: of children of
 * row 0 and of a chain. */
static void test_rows(void)
{
    const size_t lengths[8] = {1, 2, 3, 4, 33, TYPES, MOST_TYPES - 1, MOST_TYPES};
    uint8_t parents[MOST_TYPES];
    for (size_t k = 0; k < 16; k++) {
        const size_t rows = lengths[k / 2];
        for (size_t row = 0; row < rows; row++) {
            parents[row] = (uint8_t)(k % 2 == 0 || row == 0 ? 0 : row - 1);
        }
        for (size_t row = 0; row < rows; row++) {
            const uint8_t own = parents[row];
            for (unsigned parent = 0; parent < 256; parent++) {
                parents[row] = (uint8_t)parent;
                if (parent == 0 || parent < row) {
                    check_table("a parent in order", parents, rows);
                } else {
                    check_fault("a parent out of order", parents, rows, row);
                }
            }
            parents[row] = own;
        }
    }
}

/* Row 1, own parents and later ones by hand; of two faults the first is named. */
static void test_faults_by_hand(void)
{
    static const uint8_t row_0[3] = {1, 0, 0}, row_1[2] = {0, 1}, row_1_later[3] = {0, 2, 0};
    static const uint8_t own[4] = {0, 0, 1, 3}, later[4] = {0, 0, 3, 1}, none[3] = {0, 0, 255};
    static const uint8_t two[5] = {0, 0, 2, 1, 4};
    check_fault("row 0 has parent 1", row_0, 3, 0);
    check_fault("row 1 has parent 1", row_1, 2, 1);
    check_fault("row 1 has parent 2", row_1_later, 3, 1);
    check_fault("row 3 is its own parent", own, 4, 3);
    check_fault("row 2 has a later parent", later, 4, 2);
    check_fault("row 2 has parent 255", none, 3, 2);
    check_fault("rows 2 and 4", two, 5, 2);
    check_table("the rows before row 3", own, 3);
    check_table("the rows before row 2", later, 2);
    check("the words of 18", 0,
          (uint64_t)(strcmp("the examiner's mistake: a table of types of 0 or over 200 rows, or "
                            "with a row whose parent is out of order",
                            marker_refusal_words(MARKER_REFUSAL_TYPE_TABLE)) != 0));
}

/* A chain of as many rows as there may be: every two of them. Then two chains, of the
 * even and of the odd rows, that part at row 1. */
static void test_chains_of_types(void)
{
    uint8_t chain[MOST_TYPES] = {0}, two[MOST_TYPES] = {0};
    for (size_t row = 1; row < MOST_TYPES; row++) {
        chain[row] = (uint8_t)(row - 1);
        two[row] = (uint8_t)(row < 4 ? row / 2 : row - 2);
    }
    for (uint32_t derived = 0; derived < MOST_TYPES; derived++) {
        for (uint32_t base = 0; base < MOST_TYPES; base++) {
            int above = base < 2 || base <= derived, even = (derived + base) % 2 == 0;
            check("a chain", above ? OK : NOT_DERIVED,
                  marker_type_derivation_ok_by(chain, MOST_TYPES, derived, base));
            check("two chains", above && (even || base < 2) ? OK : NOT_DERIVED,
                  marker_type_derivation_ok_by(two, MOST_TYPES, derived, base));
        }
    }
    const uint32_t links[7] = {1, 31, 32, 33, 34, 64, MOST_TYPES - 3};
    for (size_t k = 0; k < 7; k++) {
        const uint32_t last = 2 + links[k];
        check("so many links", OK, marker_type_derivation_ok_by(chain, last + 1, last, 2));
        check("so many links", OK, marker_type_derivation_ok_by(chain, MOST_TYPES, last, 2));
        check("from the other end", NOT_DERIVED,
              marker_type_derivation_ok_by(chain, MOST_TYPES, 2, last));
        check("the row after it", NO_ROW,
              marker_type_derivation_ok_by(chain, last + 1, last + 1, 2));
    }
}

/* The built-in list answers as it does without a table, and as the outline has it. */
static void test_built_in_list(void)
{
    const uint32_t large[5] = {256, 256 + MARKER_TYPE_INTEGER, 65536, UINT32_MAX - 1, UINT32_MAX};
    const uint8_t *list = marker_built_in_parents;
    check("its rows", TYPES, sizeof marker_built_in_parents);
    check_table("the built-in list", list, TYPES);
    for (uint32_t derived = 0; derived < 256; derived++) {
        for (uint32_t base = 0; base < 256; base++) {
            uint32_t verdict = marker_type_derivation_ok_by(list, TYPES, derived, base);
            check("two numbers", marker_type_derivation_ok(derived, base), verdict);
            if (derived < TYPES && base < TYPES) {
                check(marker_type_name(derived), by_outline(derived, base), verdict);
            }
        }
        for (size_t k = 0; k < 5; k++) {
            check("a large base", NO_ROW,
                  marker_type_derivation_ok_by(list, TYPES, derived, large[k]));
            check("a large derived type", NO_ROW,
                  marker_type_derivation_ok_by(list, TYPES, large[k], derived));
        }
    }
}

/* Types of one's own after those of the built-in list. */
static void test_further_types(void)
{
    enum { RATING = TYPES, ELO, ROWS };
    uint8_t parents[ROWS];
    memcpy(parents, marker_built_in_parents, TYPES);
    parents[RATING] = MARKER_TYPE_POSITIVE_INTEGER;
    parents[ELO] = RATING;
    check_table("further types", parents, ROWS);
    for (uint32_t type = 0; type < TYPES; type++) {
        uint32_t below = by_outline(MARKER_TYPE_POSITIVE_INTEGER, type);
        check("elo", below, marker_type_derivation_ok_by(parents, ROWS, ELO, type));
        check("a base below the list", NOT_DERIVED,
              marker_type_derivation_ok_by(parents, ROWS, type, RATING));
    }
    check("elo | rating", OK, marker_type_derivation_ok_by(parents, ROWS, ELO, RATING));
    check("rating | elo", NOT_DERIVED, marker_type_derivation_ok_by(parents, ROWS, RATING, ELO));
}

/* Drawn tables, every third with a drawn byte somewhere or too many rows; the table
 * comes back unchanged. */
static void test_drawn_tables(void)
{
    uint8_t parents[MOST_TYPES + 56], copy[sizeof parents];
    unsigned ok = 0, not_derived = 0, refused = 0;
    for (int k = 0; k < DRAWN; k++) {
        memset(parents, 0, sizeof parents);
        size_t rows = drawn_table(parents);
        if (k % 3 == 0) {
            parents[drawn((uint32_t)rows)] = (uint8_t)drawn(256);
            rows = drawn(8) == 0 ? MOST_TYPES + drawn(57) : rows;
        }
        memcpy(copy, parents, sizeof copy);
        check("the first fault", first_fault(parents, rows),
              marker_type_table_fault(parents, rows));
        for (int pair = 0; pair < PAIRS; pair++) {
            uint32_t derived = drawn((uint32_t)rows + 1), base = drawn(derived + 2);
            check_read("a drawn table", parents, rows, derived, base);
            uint32_t answer = marker_type_derivation_ok_by(parents, rows, derived, base);
            ok += answer == OK;
            not_derived += answer == NOT_DERIVED;
            refused += marker_mark_refusal(answer) != 0;
        }
        check("the table comes back", 0, (uint64_t)(memcmp(copy, parents, sizeof copy) != 0));
    }
    unsigned few = DRAWN * PAIRS / 10;
    check("many of each answer", 1, (uint64_t)(ok > few && not_derived > few && refused > few));
}

void test_type_tables(void)
{
    test_smallest();
    test_lengths();
    test_rows();
    test_faults_by_hand();
    test_chains_of_types();
    test_built_in_list();
    test_further_types();
    test_drawn_tables();
}
