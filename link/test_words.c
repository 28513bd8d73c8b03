/*
 * Tests of words.h and of a fault's words, which test.c runs with its own: words
 * for each number that is a reason, a refusal or a fault, and for others; for a row
 * of a table of types. link/check-names holds the words of reasons and refusals to
 * docs/KEY.md.
 */
#include <string.h>

#include "sheet.h"
#include "test.h"

static void check_words(const char *expected, const char *words)
{
    check(expected, 0, (uint64_t)(strcmp(expected, words) != 0));
}

/* A number has words of its own exactly where it is one of the list. */
static void test_reasons(void)
{
    const char *none = marker_reason_words(0), *set = marker_reason_words(MARKER_LEAST_SET);
    check_words("no reason of docs/KEY.md", none);
    check_words("a reason that the paper sets", set);
    for (uint32_t number = 0; number < 256; number++) {
        const char *words = marker_reason_words(number);
        int listed = number >= MARKER_ELEMENT_WILDCARD_RANGE && number <= MARKER_BASE_MAY_NOT_OCCUR;
        int by_paper = number >= MARKER_LEAST_SET && number <= MARKER_MOST_SET;
        check("a reason of the list", (uint64_t)listed,
              (uint64_t)(strcmp(words, none) != 0 && strcmp(words, set) != 0));
        check("a reason that the paper sets", (uint64_t)by_paper,
              (uint64_t)(strcmp(words, set) == 0));
    }
    check_words(none, marker_reason_words(UINT32_MAX));
    check_words("element, element: the minimum is below the base's",
                marker_reason_words(MARKER_MIN_BELOW));
}

static void test_refusals(void)
{
    const char *none = marker_refusal_words(0);
    check_words("no refusal of docs/KEY.md", none);
    for (uint32_t number = 1; number <= MARKER_REFUSAL_TYPE_TABLE; number++) {
        check("a refusal's words", 1, (uint64_t)(strcmp(marker_refusal_words(number), none) != 0));
    }
    check_words(none, marker_refusal_words(MARKER_REFUSAL_TYPE_TABLE + 1));
    check_words(none, marker_refusal_words(UINT32_MAX));
    uint32_t refusal = marker_mark_refusal(marker_mark(NULL, 0));
    check_words("the caller's mistake: sheet under 8 bytes, a contents field out of its range, or "
                "total field or actual length unlike the formula",
                marker_refusal_words(refusal));
}

static void test_rows(void)
{
    check_words("nothing is wrong", marker_type_row_words(MARKER_NO_ROW));
    check_words("it is missing, or not its own parent", marker_type_row_words(0));
    check_words("its parent is not row 0", marker_type_row_words(1));
    for (size_t row = 2; row < MARKER_MOST_TYPES; row++) {
        check_words("its parent is not an earlier row", marker_type_row_words(row));
    }
    check_words("a table of types has at most 200 rows", marker_type_row_words(MARKER_MOST_TYPES));
}

void test_words(void)
{
    test_reasons();
    test_refusals();
    test_rows();
    check_words("nothing is wrong", marker_fault_words(MARKER_FAULT_NONE));
    check_words("the buffer is too short", marker_fault_words(MARKER_FAULT_ROOM));
    check_words("the bytes to copy are no tree", marker_fault_words(MARKER_FAULT_COPY));
}
