/*
 * Tests of the layout, which test.c runs with its own: each zero byte, counts of
 * 16 bits and their bytes exchanged, trees of as many records as there may be
 * and of one more, the longest sheet.
 */
#include <string.h>

#include "test.h"

/* Room for the longest sheet and a byte more. */
static uint8_t sheet[MARKER_MOST_SHEET + 1];

/* Writes a sheet of so many leaves, all of its verdicts ok, whose trees are rows
 * of so many records; its length. */
static size_t rows(int leaves, int derived, int base)
{
    memset(sheet, 0, sizeof sheet);
    row(row(sheet + TREES_AT(leaves), derived), base);
    return contents(sheet, leaves, (size_t)derived, (size_t)base);
}

static void check_mark(const char *what, uint32_t expected, size_t length)
{
    check(what, expected, mark(sheet, length));
}

/* The sheet is refused with this number. */
static void check_sheet(const char *what, uint32_t number, size_t length)
{
    check_mark(what, MARKER_REFUSED + number, length);
}

/* Of S[a] | S[a]: those of the contents, of each record, of the derived tree alone. */
static void test_zero_bytes(void)
{
    const size_t length = rows(1, 2, 2), two = 2 * MARKER_RECORD;
    uint8_t *derived = sheet + TREES_AT(1), *base = derived + two;
    check_mark("zero bytes", MARKER_PASSES, length);
    for (int value = 1; value < 256; value++) {
        sheet[ZERO] = (uint8_t)value;
        check_sheet("the contents' zero byte", MARKER_REFUSAL_CONTENTS, length);
    }
    sheet[ZERO] = 0;
    for (int value = 1; value < 256; value += 127) {
        for (int place = 0; place < ZERO_BYTES * 2; place++) {
            int at = place / ZERO_BYTES * MARKER_RECORD + ZEROS + place % ZERO_BYTES;
            base[at] = (uint8_t)value;
            check_sheet("a zero byte of the base", MARKER_REFUSAL_BASE_FIELDS, length);
            base[at] = 0;
            derived[at] = (uint8_t)value;
            check_sheet("a derived zero byte", MARKER_REFUSAL_DERIVED_FIELDS, length);
            check_refused("a zero byte alone", derived, two, MARKER_REFUSAL_DERIVED_FIELDS);
            derived[at] = 0;
        }
    }
    check_mark("zero bytes again", MARKER_PASSES, length);
}

/* Item counts above 255, and counts whose bytes are exchanged. */
static void test_item_counts(void)
{
    static uint8_t tree[700 * MARKER_RECORD];
    const int counts[4] = {255, 256, 258, 699};
    for (int k = 0; k < 4; k++) {
        uint64_t items = (uint64_t)counts[k];
        size_t length = (size_t)(row(tree, counts[k] + 1) - tree);
        check_total("a wide tree", tree, length, items, items);
        check_mark("wide trees", MARKER_PASSES, rows(1, counts[k] + 1, counts[k] + 1));
        exchange(tree + COUNT);
        check_refused("a wide tree, exchanged", tree, length, MARKER_REFUSAL_DERIVED_COUNTS);
    }
    record(tree, SEQUENCE, 0, 256, 1, 1);
    check_refused("256 items missing", tree, MARKER_RECORD, MARKER_REFUSAL_DERIVED_COUNTS);
    record(tree, ELEMENT, 0, 256, 1, 1);
    check_refused("a leaf of 256 items", tree, MARKER_RECORD, MARKER_REFUSAL_DERIVED_FIELDS);
    row(tree, 2);
    exchange(tree + COUNT);
    check_refused("one item, exchanged", tree, 2 * MARKER_RECORD, MARKER_REFUSAL_DERIVED_COUNTS);
}

/* The contents' counts and total, out of their range or exchanged. */
static void test_contents(void)
{
    size_t length = rows(1, 2, 3);
    check_mark("S[a] | S[a,a]", MARKER_REQUIRED_MISSING, length);
    /* The total is as before, but the base tree starts a record later. */
    put_16(sheet + DERIVED_COUNT, 3);
    put_16(sheet + BASE_COUNT, 2);
    check_sheet("D and B exchanged", MARKER_REFUSAL_BASE_COUNTS, length);
    const int fields[3] = {DERIVED_COUNT, BASE_COUNT, TOTAL};
    for (int k = 0; k < 3; k++) {
        length = rows(1, 2, 3);
        exchange(sheet + fields[k]);
        check_sheet("a field's bytes exchanged", MARKER_REFUSAL_CONTENTS, length);
        sheet[fields[k]] = sheet[fields[k] + 1] = 0;
        check_sheet("the number 0", MARKER_REFUSAL_CONTENTS, length);
        sheet[fields[k]] = sheet[fields[k] + 1] = 255;
        check_sheet("the largest number", MARKER_REFUSAL_CONTENTS, length);
    }
    length = rows(1, 2, 3);
    check_sheet("a byte more", MARKER_REFUSAL_CONTENTS, length + 1);
    put_16(sheet + TOTAL, (uint32_t)length + 1);
    check_sheet("a byte more, in the total too", MARKER_REFUSAL_CONTENTS, length + 1);
}

/* As many records as there may be, and one more. */
static void test_records(void)
{
    static uint8_t tree[MARKER_MOST_TREE + MARKER_RECORD];
    const int most = MOST_RECORDS, more = MOST_RECORDS + 1;
    check_mark("the most records", MARKER_PASSES, rows(1, most, most));
    check_sheet("a derived record more", MARKER_REFUSAL_CONTENTS, rows(1, more, 1));
    check_sheet("a base record more", MARKER_REFUSAL_CONTENTS, rows(1, 1, more));
    row(tree, more);
    check_refused("a record more", tree, sizeof tree, MARKER_REFUSAL_DERIVED_COUNTS);
    row(tree, most);
    check_refused("a broken record more", tree, sizeof tree - 1, MARKER_REFUSAL_DERIVED_COUNTS);
}

/* The longest tree, alone and as both trees of the longest sheet. */
static void test_longest(void)
{
    static uint8_t out[MARKER_MOST_TREE];
    const size_t length = rows(MOST_LEAVES, MOST_RECORDS, MOST_RECORDS);
    const uint8_t *tree = sheet + TREES_AT(MOST_LEAVES);
    const uint64_t items = MOST_RECORDS - 1;
    check("the longest sheet: its length", MARKER_MOST_SHEET, length);
    check_mark("the longest sheet", MARKER_PASSES, length);
    check_sheet("the longest sheet, a byte more", MARKER_REFUSAL_CONTENTS, length + 1);
    check_sheet("the longest sheet, a byte less", MARKER_REFUSAL_CONTENTS, length - 1);
    check_total("the longest tree", tree, MARKER_MOST_TREE, items, items);
    check("the longest tree", MARKER_NOT_EMPTIABLE, marker_emptiable(tree, MARKER_MOST_TREE));
    check("tidy, the longest tree", MOST_RECORDS,
          marker_tidy(tree, MARKER_MOST_TREE, out, sizeof out));
    check("tidy, the longest tree: out", 0, (uint64_t)(memcmp(out, tree, sizeof out) != 0));
    check("its last item", MARKER_RECORD,
          marker_item(tree, MARKER_MOST_TREE, items - 1, out, sizeof out));
    check("one past its last item", 0,
          marker_item(tree, MARKER_MOST_TREE, items, out, sizeof out));
}

void test_layout(void)
{
    test_zero_bytes();
    test_item_counts();
    test_contents();
    test_records();
    test_longest();
}
