/*
 * Tests of marker_fill_types_by, which test.c runs with its own: every byte of a
 * sheet and around it, by a reading of document 02 that takes test_type_tables.c's
 * and the library's mark for the sheet's own refusals; each refusal, and their order.
 */
#include <string.h>

#include "test.h"

enum { TYPES = MARKER_BUILT_IN_TYPES, MOST_TYPES = MARKER_MOST_TYPES };
enum { GUARD = 16, GUARDED = 0xa5, DRAWN = 2000, LONGER = 65536 + 8 };

static const uint32_t NO_TABLE = MARKER_REFUSED + MARKER_REFUSAL_TYPE_TABLE;
static const uint32_t NO_ROW = MARKER_REFUSED + MARKER_REFUSAL_TYPE_NUMBER;

/* What a call takes. */
struct filling {
    const uint8_t *sheet, *types, *parents;
    size_t length, count, rows;
};

/* The lent sheet stands between guards. */
static uint8_t lent[GUARD + MARKER_MOST_SHEET + 1 + GUARD];

static int is_element(const uint8_t *sheet, size_t leaf)
{
    return sheet[CONTENTS_SIZE + leaf * LEAF_SIZE] == ELEMENT;
}

/* The answer, and what becomes of the sheet. */
static uint32_t reading(const struct filling *f, uint8_t *after)
{
    const size_t n = f->length == 0 ? 0 : f->sheet[LEAVES], second = TREES_AT(n) - n * n;
    memcpy(after, f->sheet, f->length);
    if (!in_order(f->parents, f->rows)) {
        return NO_TABLE;
    }
    uint32_t mark = marker_mark(f->sheet, f->length);
    if (marker_mark_refusal(mark) != 0) {
        return mark;
    }
    for (size_t leaf = 0; leaf < n; leaf++) {
        if (f->count != n || (is_element(f->sheet, leaf) && f->types[leaf] >= f->rows)) {
            return NO_ROW;
        }
    }
    for (size_t place = 0; place < n * n; place++) {
        size_t leaf = place / n, other = place % n;
        if (after[second + place] == MARKER_UNDECIDED && is_element(f->sheet, leaf)
            && is_element(f->sheet, other)) {
            after[second + place] =
                (uint8_t)by_parents(f->parents, f->types[leaf], f->types[other]);
        }
    }
    return MARKER_FILLED;
}

/* The lent sheet has these bytes, and nothing is written around it. */
static void check_lent_sheet(const char *what, const uint8_t *bytes, size_t length)
{
    unsigned differing = memcmp(lent + GUARD, bytes, length) != 0;
    for (size_t place = 0; place < GUARD; place++) {
        differing += lent[place] != GUARDED || lent[GUARD + length + place] != GUARDED;
    }
    check(what, 0, differing);
}

/* It is answered and written as the reading says; done again on the same bytes, the
 * answer and the bytes are the same. Types and parents come back unchanged. */
static uint32_t check_read(const char *what, const struct filling *f)
{
    static uint8_t after[MARKER_MOST_SHEET + 1];
    static uint8_t types[MOST_LEAVES + 1], parents[LONGER];
    const uint32_t expected = reading(f, after);
    memset(lent, GUARDED, sizeof lent);
    memcpy(lent + GUARD, f->sheet, f->length);
    memcpy(types, f->types, f->count);
    memcpy(parents, f->parents, f->rows);
    for (int time = 0; time < 2; time++) {
        uint32_t answer = marker_fill_types_by(lent + GUARD, f->length, f->types, f->count,
                                               f->parents, f->rows);
        check(what, expected, answer);
        check_lent_sheet(what, after, f->length);
    }
    int same = memcmp(types, f->types, f->count) == 0 && memcmp(parents, f->parents, f->rows) == 0;
    check("types and parents come back unchanged", 1, (uint64_t)same);
    return expected;
}

/* It is refused with this number, and no byte is written. */
static void check_refused_with(const char *what, uint32_t number, const struct filling *f)
{
    check(what, MARKER_REFUSED + number, check_read(what, f));
    check_lent_sheet(what, f->sheet, f->length);
}

/* The club's types, from row 0: any, any simple, title, master, grandmaster, rating. */
enum { TITLE = 2, MASTER, GRANDMASTER, RATING, CLUB_ROWS };
static const uint8_t PARENTS[CLUB_ROWS] = {0, 0, 1, TITLE, MASTER, 1};

/* Tables of types that are none: by a row, and by their number of rows. */
static const uint8_t SPOILED[5][CLUB_ROWS] = {
    {1, 0, 1, 2, 3, 1},   /* row 0 */
    {0, 1, 1, 2, 3, 1},   /* row 1 */
    {0, 0, 2, 2, 3, 1},   /* row 2 is its own parent */
    {0, 0, 1, 4, 3, 1},   /* row 3 has a later one */
    {0, 0, 1, 2, 3, 255}, /* the last row */
};
static const uint8_t FLAT[LONGER] = {0};
static const size_t LENGTHS[5] = {0, MOST_TYPES + 1, 255, 256 + CLUB_ROWS, 65536 + CLUB_ROWS};

/* Every verdict undecided, and as many elements as there are leaves; trees of a leaf
 * below groups, derived and base. Its length. */
static size_t undecided(uint8_t *sheet, size_t n, int derived_groups, int base_groups)
{
    memset(sheet, 0, TREES_AT(n));
    memset(sheet + TREES_AT(n) - 2 * n * n, MARKER_UNDECIDED, 2 * n * n);
    element_below(element_below(sheet + TREES_AT(n), derived_groups), base_groups);
    return contents(sheet, (int)n, (size_t)derived_groups + 1, (size_t)base_groups + 1);
}

/* Makes a leaf a wildcard, in the trees of two records too. */
static void make_wildcard(uint8_t *sheet, size_t leaf)
{
    uint8_t *derived = sheet + TREES_AT((size_t)sheet[LEAVES]);
    sheet[CONTENTS_SIZE + leaf * LEAF_SIZE] = WILDCARD;
    if (leaf == 0) {
        derived[KIND] = derived[MARKER_RECORD + KIND] = WILDCARD;
    }
}

enum { THREE = 3, ROOM_FOR_THREE = TREES_AT(THREE) + 2 * (MOST_DEPTH + 1) * MARKER_RECORD };

/* Every two rows of the club's types, with a wildcard beside them whose type is any
 * byte; with verdicts that stay, and marks. */
static void test_club_types(void)
{
    uint8_t sheet[ROOM_FOR_THREE] = {0}, types[THREE] = {0, 0, 0};
    struct filling f = {sheet, types, PARENTS, undecided(sheet, THREE, 0, 0), THREE, CLUB_ROWS};
    make_wildcard(sheet, 2);
    for (unsigned k = 0; k < CLUB_ROWS * CLUB_ROWS * 256; k++) {
        types[0] = (uint8_t)(k % CLUB_ROWS);
        types[1] = (uint8_t)(k / CLUB_ROWS % CLUB_ROWS);
        types[2] = (uint8_t)(k / CLUB_ROWS / CLUB_ROWS);
        check("the club's types", MARKER_FILLED, check_read("the club's types", &f));
    }
    uint8_t *first = sheet + TREES_AT(THREE) - 2 * THREE * THREE, *base = sheet + f.length;
    base[LEAF - MARKER_RECORD] = 1;
    types[0] = GRANDMASTER;
    types[1] = TITLE;
    first[1] = MARKER_PASSES;
    check("before", MARKER_UNDECIDED, mark(sheet, f.length));
    check_read("grandmaster | title", &f);
    check("grandmaster | title", MARKER_PASSES, mark(lent + GUARD, f.length));
    types[1] = RATING;
    check_read("grandmaster | rating", &f);
    check("grandmaster | rating", MARKER_NOT_DERIVED, mark(lent + GUARD, f.length));
    for (int set = MARKER_LEAST_SET - 1; set <= MARKER_MOST_SET; set++) {
        for (int place = 0; place < THREE * THREE; place++) {
            undecided(sheet, THREE, 0, 0);
            make_wildcard(sheet, 2);
            first[THREE * THREE + place] = (uint8_t)(set < MARKER_LEAST_SET ? 0 : set);
            check("a verdict that stays", MARKER_FILLED, check_read("a verdict that stays", &f));
        }
    }
}

/* The least and the most rows: each byte beside the last of them, whether or not a
 * verdict is undecided. */
static void test_numbers_of_rows(void)
{
    const size_t lengths[6] = {1, 2, 3, 33, MOST_TYPES - 1, MOST_TYPES};
    uint8_t sheet[ROOM_FOR_THREE] = {0}, types[THREE] = {0, 0, 0}, chain[MOST_TYPES] = {0};
    struct filling f = {sheet, types, chain, undecided(sheet, THREE, 0, 0), THREE, 0};
    for (size_t row = 1; row < MOST_TYPES; row++) {
        chain[row] = (uint8_t)(row - 1);
    }
    for (size_t k = 0; k < 12; k++) {
        f.rows = lengths[k / 2];
        memset(sheet + TREES_AT(THREE) - THREE * THREE, (int)k % 2, THREE * THREE);
        for (unsigned type = 0; type < 256; type++) {
            const uint32_t expected = type < f.rows ? MARKER_FILLED : NO_ROW;
            types[0] = types[2] = (uint8_t)(f.rows - 1);
            types[1] = (uint8_t)type;
            check("each row", expected, check_read("each row", &f));
            types[0] = types[1];
            check("each row", expected, check_read("each row", &f));
        }
    }
}

/* Writes a sheet of three elements that is refused with this number. Its length. */
static size_t spoiled_sheet(uint8_t *sheet, uint32_t number)
{
    int deep_base = number == MARKER_REFUSAL_BASE_DEPTH ? MOST_DEPTH : 0;
    int deep_derived = number == MARKER_REFUSAL_DERIVED_DEPTH ? MOST_DEPTH : 0;
    size_t length = undecided(sheet, THREE, deep_derived, deep_base);
    int in_base = number < MARKER_REFUSAL_DERIVED_FIELDS;
    uint8_t *root = sheet + TREES_AT(THREE) + (in_base ? MARKER_RECORD : 0);
    if (number == MARKER_REFUSAL_CONTENTS) {
        sheet[ZERO] = 1;
    } else if (number == MARKER_REFUSAL_LEAF) {
        sheet[CONTENTS_SIZE] = 2;
    } else if (number == MARKER_REFUSAL_VERDICT) {
        sheet[TREES_AT(THREE) - 1] = 2;
    } else {
        const uint32_t least = in_base ? MARKER_REFUSAL_BASE_FIELDS : MARKER_REFUSAL_DERIVED_FIELDS;
        const uint32_t fault = number - least;
        if (fault == 0) {
            root[KIND] = 5;
        } else if (fault == 1) {
            record(root, ELEMENT, 0, 0, 2, 1);
        } else if (fault == 2) {
            record(root, ALL, 0, 0, 0, 2);
        } else if (fault == 4) {
            record(root, SEQUENCE, 0, 1, 1, 1);
        }
    }
    return length;
}

/* With this sheet every table of types that is none is refused first, whether types
 * are right, wrong or too few; then the sheet, whose answer this is; then the types. */
static void check_order(const uint8_t *sheet, size_t length, uint32_t answer)
{
    static const uint8_t good[THREE] = {TITLE, MASTER, RATING};
    static const uint8_t bad[THREE] = {TITLE, CLUB_ROWS, 255};
    for (size_t k = 0; k < 3; k++) {
        struct filling f = {sheet, k == 1 ? bad : good, PARENTS, length, THREE, CLUB_ROWS};
        f.count = k == 2 ? THREE - 1 : THREE;
        check("the sheet, then its types", answer == MARKER_FILLED && k > 0 ? NO_ROW : answer,
              check_read("the sheet, then its types", &f));
        for (size_t fault = 0; fault < 10; fault++) {
            f.parents = fault < 5 ? SPOILED[fault] : FLAT;
            f.rows = fault < 5 ? (size_t)CLUB_ROWS : LENGTHS[fault - 5];
            check_refused_with("the table of types first", MARKER_REFUSAL_TYPE_TABLE, &f);
        }
    }
}

/* 18 before the sheet's own refusals, these before 17. */
static void test_order(void)
{
    uint8_t sheet[ROOM_FOR_THREE] = {0};
    check_order(sheet, undecided(sheet, THREE, 0, 0), MARKER_FILLED);
    for (uint32_t number = 1; number <= MARKER_REFUSAL_DERIVED_COUNTS; number++) {
        if (number != MARKER_REFUSAL_BUFFER) {
            check_order(sheet, spoiled_sheet(sheet, number), MARKER_REFUSED + number);
        }
    }
}

/* Slices without bytes, a sheet that is too short or too long, bytes that types and
 * parents share. */
static void test_slices(void)
{
    static const uint8_t types[THREE] = {TITLE, MASTER, RATING};
    uint8_t sheet[ROOM_FOR_THREE] = {0};
    struct filling f = {sheet, types, PARENTS, undecided(sheet, THREE, 0, 0), THREE, CLUB_ROWS};
    check("nothing at all", NO_TABLE, marker_fill_types_by(NULL, 0, NULL, 0, NULL, 0));
    check("no sheet, no types", MARKER_REFUSED + MARKER_REFUSAL_CONTENTS,
          marker_fill_types_by(NULL, 0, NULL, 0, PARENTS, CLUB_ROWS));
    check_read("a sheet in order", &f);
    memcpy(lent + GUARD, sheet, f.length);
    check("no table of types", NO_TABLE,
          marker_fill_types_by(lent + GUARD, f.length, types, THREE, NULL, 0));
    check_lent_sheet("no table of types", sheet, f.length);
    check("no types", NO_ROW,
          marker_fill_types_by(lent + GUARD, f.length, NULL, 0, PARENTS, CLUB_ROWS));
    check_lent_sheet("no types", sheet, f.length);
    f.types = PARENTS;
    check("shared bytes", MARKER_FILLED, check_read("shared bytes", &f));
    f.count = THREE + 1;
    check("a type more", NO_ROW, check_read("a type more", &f));
    f.count = THREE;
    for (size_t length = 0; length < f.length; length++) {
        struct filling shorter = f;
        shorter.length = length;
        check_refused_with("a shorter sheet", MARKER_REFUSAL_CONTENTS, &shorter);
    }
    f.length++;
    check_refused_with("a byte more", MARKER_REFUSAL_CONTENTS, &f);
}

/* The built-in list fills in as marker_fill_types does: every two types, with numbers
 * that the list does not have. */
static void test_built_in_list(void)
{
    uint8_t sheet[ROOM_FOR_THREE] = {0}, copy[ROOM_FOR_THREE], types[THREE] = {0, 0, 0};
    const size_t length = undecided(sheet, THREE, 0, 0);
    struct filling f = {sheet, types, marker_built_in_parents, length, THREE, TYPES};
    for (unsigned k = 0; k < (TYPES + 1) * (TYPES + 1); k++) {
        types[0] = (uint8_t)(k % (TYPES + 1));
        types[1] = (uint8_t)(k / (TYPES + 1));
        types[2] = (uint8_t)drawn(TYPES);
        memcpy(copy, sheet, length);
        check("as the built-in list", marker_fill_types(copy, length, types, THREE),
              check_read("the built-in list", &f));
        check_lent_sheet("as the built-in list", copy, length);
    }
}

/* A drawn sheet of so many leaves: kinds, and verdicts of the second table, of which
 * some are undecided; now and then with another byte somewhere. Its length. */
static size_t drawn_sheet(uint8_t *sheet, size_t n)
{
    size_t length = undecided(sheet, n, 0, 0);
    for (size_t leaf = 0; leaf < n; leaf++) {
        if (drawn(4) == 0) {
            make_wildcard(sheet, leaf);
        }
    }
    for (size_t place = TREES_AT(n) - n * n; place < TREES_AT(n); place++) {
        const uint32_t set = drawn(20), reasons = MARKER_MOST_SET - MARKER_LEAST_SET + 1;
        sheet[place] = (uint8_t)(set < reasons ? MARKER_LEAST_SET + set : set > reasons);
    }
    if (drawn(8) == 0) {
        sheet[drawn((uint32_t)length)] ^= (uint8_t)(1 + drawn(255));
    }
    return length;
}

/* Drawn tables, sheets and types, some of each out of order. */
static void test_drawn_fillings(void)
{
    static uint8_t sheet[TREES_AT(MOST_LEAVES) + 2 * MARKER_RECORD];
    uint8_t parents[MOST_TYPES + 1], types[MOST_LEAVES + 1];
    unsigned filled = 0, refused = 0;
    for (int k = 0; k < DRAWN; k++) {
        const size_t n = 1 + drawn(k % 50 == 0 ? MOST_LEAVES : 6);
        struct filling f = {sheet, types, parents, drawn_sheet(sheet, n), n, drawn_table(parents)};
        if (drawn(8) == 0) {
            parents[drawn((uint32_t)f.rows)] = (uint8_t)drawn(256);
        }
        for (size_t leaf = 0; leaf <= n; leaf++) {
            types[leaf] = (uint8_t)drawn(drawn(40) == 0 ? 256 : (uint32_t)f.rows);
        }
        f.count = drawn(20) == 0 ? n + 1 - drawn(3) : n;
        int done = check_read("a drawn filling", &f) == MARKER_FILLED;
        filled += (unsigned)done;
        refused += (unsigned)!done;
    }
    check("many are filled and many refused", 1,
          (uint64_t)(filled > DRAWN / 4 && refused > DRAWN / 8));
}

/* As many leaves, records and rows as there may be: a chain, and every seventh leaf a
 * wildcard. */
static void test_longest(void)
{
    static uint8_t most[MARKER_MOST_SHEET + 1];
    const size_t n = MOST_LEAVES;
    uint8_t types[MOST_LEAVES], chain[MOST_TYPES] = {0};
    undecided(most, n, 0, 0);
    struct filling f = {most, types, chain, contents(most, MOST_LEAVES, MOST_RECORDS, MOST_RECORDS),
                        n, MOST_TYPES};
    check("the longest sheet: its length", MARKER_MOST_SHEET, f.length);
    row(row(most + TREES_AT(n), MOST_RECORDS), MOST_RECORDS);
    for (size_t at = 1; at < MOST_TYPES; at++) {
        chain[at] = (uint8_t)(at - 1);
    }
    for (size_t leaf = 0; leaf < n; leaf++) {
        int wildcard = leaf % 7 == 3;
        most[CONTENTS_SIZE + leaf * LEAF_SIZE] = (uint8_t)(wildcard ? WILDCARD : ELEMENT);
        types[leaf] = (uint8_t)(wildcard ? 255 : 199 - 11 * leaf % 199);
    }
    check("the longest sheet", MARKER_FILLED, check_read("the longest sheet", &f));
    types[n - 1] = MOST_TYPES;
    check_refused_with("its last type", MARKER_REFUSAL_TYPE_NUMBER, &f);
    chain[MOST_TYPES - 1] = MOST_TYPES - 1;
    check_refused_with("its last row", MARKER_REFUSAL_TYPE_TABLE, &f);
}

void test_filling_by(void)
{
    test_club_types();
    test_numbers_of_rows();
    test_order();
    test_slices();
    test_built_in_list();
    test_drawn_fillings();
    test_longest();
}
