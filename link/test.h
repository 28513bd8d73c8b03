/* What the files of the tests in C share. */
#ifndef TEST_H
#define TEST_H

#include "marker.h"

enum { ELEMENT, WILDCARD, SEQUENCE, CHOICE, ALL };

static const int64_t STAR = -1; /* a maximum: unbounded */

/* The layout (docs/LAYOUT.md), for what the tests write without builder.h. Where
 * the fields of a record and of the contents stand: */
enum { KIND = 0, LEAF = 1, COUNT = 2, UNBOUNDED = 4, ZEROS = 5, MIN = 8, MAX = 12 };
enum { LEAVES = 0, ZERO = 1, DERIVED_COUNT = 2, BASE_COUNT = 4, TOTAL = 6 };
enum { CONTENTS_SIZE = 8, LEAF_SIZE = 4, ZERO_BYTES = MIN - ZEROS };
/* Bytes of a chain's number of levels and of a level's record count. */
enum { LEVELS_SIZE = 1, COUNT_SIZE = 2 };
enum {
    MOST_LEAVES = MARKER_MOST_LEAVES,
    MOST_RECORDS = MARKER_MOST_RECORDS,
    MOST_DEPTH = MARKER_MOST_DEPTH
};

/* Where a sheet's derived tree starts. */
#define TREES_AT(leaves) (CONTENTS_SIZE + LEAF_SIZE * (leaves) + 2 * (leaves) * (leaves))

/* Counts a check, and prints what differs. */
void check(const char *what, uint64_t expected, uint64_t got);

/* Writes a number of 16 bits, or of 32. */
void put_16(uint8_t *at, uint32_t number);
void put_32(uint8_t *at, uint32_t number);

/* Exchanges two bytes that stand side by side. */
void exchange(uint8_t *at);

/* Writes a record and returns the place after it. */
uint8_t *record(uint8_t *at, int kind, int leaf, int count, uint32_t min, int64_t max);

/* Writes an element below so many (1,1) groups and returns the place after it. */
uint8_t *element_below(uint8_t *at, int groups);

/* Writes S[a,a,..] of so many records and returns the place after it. */
uint8_t *row(uint8_t *at, int records);

/* Writes the contents of a sheet of so many leaves and records; its length. */
size_t contents(uint8_t *sheet, int leaves, size_t derived, size_t base);

/* Writes the number of levels and their record counts, and returns where the
 * trees start. */
uint8_t *levels(uint8_t *chain, int count, const int *records);

/* The mark of a copy, which must come back unchanged. */
uint32_t mark(const uint8_t *sheet, size_t length);

/* Every entry for a tree refuses it with this number, and writes nothing. */
void check_refused(const char *what, const uint8_t *tree, size_t length, uint32_t number);

/* Both numbers of a tree's total range. */
void check_total(const char *what, const uint8_t *tree, size_t length, uint64_t min, uint64_t max);

/* A buffer of ROOM bytes; those in and around it have values of their own. */
enum { ROOM = 6 * MARKER_RECORD };
uint8_t *lend(void);

/* So many bytes stand at its start, and every other byte is as before. */
void check_lent(const char *what, const uint8_t *bytes, size_t count);

/* The verdict for two types, by the outline of test_types.c. */
uint32_t by_outline(uint32_t derived, uint32_t base);

/* What test_type_tables.c reads in document 02: whether these rows are a table of
 * types, and if so, the verdict for two of them. */
int in_order(const uint8_t *parents, size_t rows);
uint32_t by_parents(const uint8_t *parents, uint32_t derived, uint32_t base);

/* A drawn number below this one; the rows of a drawn table of types, which has room
 * for MARKER_MOST_TYPES. */
uint32_t drawn(uint32_t limit);
size_t drawn_table(uint8_t *parents);

/* The tests of the other files. */
void test_chains(void);
void test_layout(void);
void test_stack(void);
void test_words(void);
void test_sheet(void);
void test_faults(void);
void test_drawn(void);
void test_types(void);
void test_filling(void);
void test_type_tables(void);
void test_filling_by(void);

#endif
