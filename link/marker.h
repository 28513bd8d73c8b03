/*
 * marker.h: mark exam sheets in process, from C99 or C++11. Link with
 * libexports.a, which link/build writes to target/staticlib. The archive is for
 * Linux on x86-64-v2. link/README.md has an example. words.h, which this header
 * includes, has the numbers of reasons and refusals and their words, and types.h
 * those of types, their names and parents; sheet.h writes a sheet, a tree or a
 * chain into a buffer.
 *
 * What a function promises is what its contract in crates/exports/src/lib.rt
 * promises, over the numbers of crates/exports/specs/Numbers.antt. The
 * contracts ask nothing of the bytes: every byte string is an input, and a bad
 * one is refused by number. 'Document 01' is the specification of sheets,
 * trees, marks and refusals, as document 02 changes it; document 02 is also
 * that of chains and of type verdicts. docs/KEY.md lists their rules.
 *
 * A SLICE is a pointer and, right after it, a length in bytes. The proofs
 * suppose of each slice what its type says, and the caller must see to it:
 *
 * - The pointer leads to that many bytes in one piece, each of which has been
 *   given a value, and they stay there until the call returns. At a `uint8_t *`
 *   they can be written.
 * - The length is below 2^63.
 * - Where the length is 0 nothing is read or written, and the pointer may be
 *   null or dangling.
 * - Any address will do: bytes have no alignment.
 * - `out` shares no byte with `tree` or `chain`, and the `sheet` of
 *   marker_fill_types and marker_fill_types_by none with `types` or `parents`.
 * - Until the call returns, nothing else (a thread, a signal handler) writes
 *   the bytes of a slice, or reads those at a `uint8_t *`.
 *
 * A call that breaks one of these has no promise at all, as in C. In return the
 * bytes of a `const uint8_t *` come back unchanged, no byte outside the slices
 * is read or written, and every call ends.
 *
 * THREADS. The library has no variable that outlives a call, so calls in
 * several threads do not meet, except in bytes that they are lent. This rests
 * on the language, which has no global variables; the proofs know no threads.
 *
 * STACK AND TIME. There is no heap. No contract bounds the stack: functions
 * call themselves, as deep as a tree is, and a stack that is too small ends the
 * process. A call takes less than MARKER_MOST_STACK bytes, which are 57344, by the
 * frames in the archive (link/stack) and an argument on how deep calls nest
 * (README, 'Memory and time'); tests with deep trees run on a stack of that size
 * and a page more. No contract bounds the time either. It grows as the product of
 * the two trees' records; the longest marking that we know takes some 30
 * milliseconds (samples/longest.sheet, with 991 and 1000 records;
 * docs/BENCHMARK.md).
 *
 * LAYOUT. Numbers are little-endian and without sign. A sheet has n leaves and
 * trees of D and B records; a chain has L levels. docs/LAYOUT.md says more.
 *
 *   sheet                       at byte            bytes
 *   contents                    0                  8
 *   leaves, from number 0       8                  4n
 *   first table                 8+4n               n*n
 *   second table                8+4n+n*n           n*n
 *   derived tree                8+4n+2n*n          16D
 *   base tree                   8+4n+2n*n+16D      16B
 *
 *   contents                    at byte  bytes     values
 *   leaf count n                0        1         1 to 64
 *   a zero byte                 1        1         0
 *   derived record count D      2        2         1 to 1000
 *   base record count B         4        2         1 to 1000
 *   length of the sheet         6        2         46 to 40456
 *
 *   leaf                        at byte  bytes     values
 *   kind                        0        1         0 element, 1 wildcard
 *   process contents            1        1         0 skip, 1 lax, 2 strict; element: 0
 *   local name number           2        2         any; wildcard: 0
 *
 *   table                       at byte  bytes     values
 *   derived leaf d, base leaf b d*n+b    1         0 ok, 1 undecided, 140 to 152 a reason
 *
 *   record                      at byte  bytes     values
 *   kind                        0        1         0 element, 1 wildcard, 2 sequence,
 *                                                  3 choice, 4 all
 *   leaf number                 1        1         below n, a leaf of this kind; alone:
 *                                                  0 to 63; group: 0
 *   item count                  2        2         group: its items; leaf: 0
 *   unbounded mark              4        1         0, or 1 for an unbounded maximum
 *   zero bytes                  5        3         0 each
 *   minimum                     8        4         at most a bounded maximum
 *   maximum                     12       4         unbounded: 0; all-group: 1
 *
 *   chain                       at byte  bytes     values
 *   number of levels L          0        1         1 to 17
 *   record count of each level  1        2L        0 absent, 1 to 1000
 *   trees that are present      1+2L     16 for each record
 *
 *   types                       at byte  bytes     values
 *   the type of leaf number l   l        1         a number of types.h, or a row of the
 *                                                  table of types; wildcard: any
 *
 *   table of types              at byte  bytes     values
 *   the row of row t's parent   t        1         rows 0 and 1: 0; later: below t
 *
 * A tree is its records in preorder, a group before its items: 1 to 1000 of
 * them, the root at depth 1, depth at most 12. An all-group's items are elements.
 */
#ifndef MARKER_H
#define MARKER_H

#include <stddef.h>
#include <stdint.h>

#include "types.h"
#include "words.h"

#ifdef __cplusplus
extern "C" {
#endif

/* Lengths in bytes (docs/LAYOUT.md). */
#define MARKER_RECORD 16         /* one record of a tree */
#define MARKER_MOST_TREE 16000   /* the longest tree, of 1000 records */
#define MARKER_LEAST_SHEET 46    /* the shortest sheet */
#define MARKER_MOST_SHEET 40456  /* the longest sheet */
#define MARKER_MOST_CHAIN 16035  /* the longest chain that is joined */

/* Numbers, at most. */
#define MARKER_MOST_LEAVES 64    /* the leaves of a sheet */
#define MARKER_MOST_RECORDS 1000 /* the records of a tree */
#define MARKER_MOST_DEPTH 12     /* the depth of a tree, whose root is at depth 1 */
#define MARKER_MOST_LEVELS 17    /* the levels of a chain */
/* And of types.h: MARKER_MOST_TYPES, 200, the rows of a table of types. */

#define MARKER_MOST_STACK 57344  /* bytes of stack that a call takes, at most; not proved */

/* What marker_mark answers besides a reason. */
#define MARKER_PASSES UINT32_C(0)
#define MARKER_UNDECIDED UINT32_C(1)
#define MARKER_REFUSED UINT32_C(1000)  /* added to a refusal's number */

/* What marker_type_derivation_ok and marker_type_derivation_ok_by answer besides a
 * refusal: a verdict. */
#define MARKER_DERIVATION_OK UINT32_C(0)
#define MARKER_NOT_DERIVED UINT32_C(148)  /* a reason that the paper sets */

/* What marker_fill_types and marker_fill_types_by answer besides a refusal. */
#define MARKER_FILLED UINT32_C(0)

/* What marker_emptiable answers besides a refusal. */
#define MARKER_NOT_EMPTIABLE UINT32_C(0)
#define MARKER_EMPTIABLE UINT32_C(1)

/* What marker_effective_particle answers where no level is present. */
#define MARKER_NO_CONTENT UINT64_C(0)

/* 2^32, which no exact minimum, bounded maximum or record count reaches. */
#define MARKER_BEYOND UINT64_C(4294967296)  /* added to a refusal's number */
#define MARKER_UNBOUNDED MARKER_BEYOND      /* an unbounded maximum */

/* 2^33, which MARKER_BEYOND + N does not reach either: a total minimum, or a
 * bounded total maximum, above 4294967295. */
#define MARKER_TOO_LARGE UINT64_C(8589934592)

/*
 * The mark of a sheet.
 *
 * Returns MARKER_PASSES, MARKER_UNDECIDED, the reason's number where the sheet
 * fails, or MARKER_REFUSED + N where it is refused with N: 1, 3 or 4, 5 to 9
 * for the base tree, 10 to 14 for the derived tree. The mark is the one that
 * document 01's rules give, the refusal the first in document 01's order.
 */
uint32_t marker_mark(const uint8_t *sheet, size_t sheet_len);

/*
 * The least number of the total range of a tree, as handed in.
 *
 * Returns the minimum where it is at most 4294967295, and MARKER_TOO_LARGE
 * where it is above that. Or MARKER_BEYOND + N where the tree is refused with
 * N, 10 to 14. No two of these are the same number.
 */
uint64_t marker_total_min(const uint8_t *tree, size_t tree_len);

/*
 * The greatest number of the total range of a tree, as handed in.
 *
 * Returns the maximum where it is at most 4294967295, MARKER_TOO_LARGE where it
 * is bounded and above that, and MARKER_UNBOUNDED where it is unbounded. Or
 * MARKER_BEYOND + N where the tree is refused with N, 10 to 14, the same N as
 * marker_total_min's. No two of these are the same number.
 *
 * Both are exact: sums and products are formed without limit, zero times
 * unbounded being 0, and only the result is held against 4294967295.
 */
uint64_t marker_total_max(const uint8_t *tree, size_t tree_len);

/*
 * Whether a tree, as handed in, is emptiable.
 *
 * Returns MARKER_EMPTIABLE or MARKER_NOT_EMPTIABLE, or N itself where the tree
 * is refused with N, 10 to 14.
 */
uint32_t marker_emptiable(const uint8_t *tree, size_t tree_len);

/*
 * Tidies a tree into `out`.
 *
 * Returns the tidied tree's record count n. Its MARKER_RECORD * n bytes, at
 * most tree_len, stand at the start of `out`, and every later byte of `out`
 * keeps its value. They are accepted as a tree alone, and tidied again they are
 * the same bytes; MARKER_RECORD * n is tree_len exactly where the tree was tidy.
 *
 * Or returns MARKER_BEYOND + N where it is refused with N, and every byte of
 * `out` keeps its value: 10 to 14 for the tree, then 2 where out_len is below
 * tree_len, even if the tidied tree would fit. From out_len = tree_len on there
 * is no refusal 2.
 */
uint64_t marker_tidy(const uint8_t *tree, size_t tree_len, uint8_t *out, size_t out_len);

/*
 * Joins a chain of trees that extend one another, root type first, into `out`.
 *
 * A chain is one byte of levels, 1 to MARKER_MOST_LEVELS, then a 16-bit record
 * count for each level, the lower byte first, 0 where its tree is absent, then
 * the records of the trees that are present, one tree after another. Present
 * and present gives a (1,1) sequence of the two, inherited first; one present
 * gives that one. Each further level extends what comes of all before it.
 *
 * Returns the joined tree's record count n. Its MARKER_RECORD * n bytes stand
 * at the start of `out`, and every later byte of `out` keeps its value. Or
 * returns MARKER_NO_CONTENT where no level is present; then `out` may have any
 * length, and every byte of it keeps its value.
 *
 * Or returns MARKER_BEYOND + N where it is refused with N, and every byte of
 * `out` keeps its value: 15 for the chain, then 10 to 14 for the first tree
 * that is refused alone, then 16 for a joined tree over the limits, then 2
 * where out_len is below the joined tree's length. From out_len =
 * MARKER_MOST_TREE on there is no refusal 2.
 */
uint64_t marker_effective_particle(const uint8_t *chain, size_t chain_len, uint8_t *out,
                                   size_t out_len);

/*
 * Copies the k-th item of a tree's root, from 0, to `out`.
 *
 * Returns the item's length in bytes, or 0 where the tree is refused or k is
 * not below the root's item count; the two are not told apart. The item is its
 * whole run of records in the tree as handed in. Where its length is at most
 * out_len, its bytes stand at the start of `out` and every later byte of `out`
 * keeps its value. Otherwise every byte of `out` keeps its value, so that
 * out_len = 0 asks for the length alone.
 */
size_t marker_item(const uint8_t *tree, size_t tree_len, size_t k, uint8_t *out, size_t out_len);

/*
 * The verdict for two types of the built-in list, whose numbers are in types.h.
 *
 * Returns MARKER_DERIVATION_OK where `base` is MARKER_TYPE_ANY_TYPE or
 * MARKER_TYPE_ANY_SIMPLE_TYPE, or the derived type or one of its ancestors, and
 * MARKER_NOT_DERIVED where it is none of these. Or MARKER_REFUSED + 17 where the
 * list does not have one of the two numbers.
 */
uint32_t marker_type_derivation_ok(uint32_t derived, uint32_t base);

/*
 * Fills in the second table of a sheet from the types of its elements.
 *
 * `types` has a type number for each leaf, from leaf number 0 on. A wildcard's
 * is not read: it may be any byte.
 *
 * Returns MARKER_FILLED. Each byte of the second table that was 1, undecided,
 * and whose row and column are both elements now has the verdict that
 * marker_type_derivation_ok answers for the row's type as derived and the
 * column's as base. Every other byte of `sheet` keeps its value. A filling done
 * twice is the filling done once.
 *
 * Or returns MARKER_REFUSED + N where it is refused with N, and every byte of
 * `sheet` keeps its value: 1, 3 to 14 for the sheet, as in marker_mark, then 17
 * where types_len is not the sheet's leaf count, or the list does not have an
 * element's number, whether or not a verdict needs it.
 */
uint32_t marker_fill_types(uint8_t *sheet, size_t sheet_len, const uint8_t *types,
                           size_t types_len);

/*
 * The verdict for two types of a table of types, by their rows.
 *
 * `parents` has a byte for each row, from row 0 on: the row of its parent. Row 0 is
 * its own parent and stands for anyType; row 1 has parent 0 and stands for
 * anySimpleType; every later row's parent is an earlier row. A table of one row has
 * no anySimpleType.
 *
 * Returns MARKER_DERIVATION_OK where `base` is 0 or 1, or the derived type or one of
 * its ancestors, however far up, and MARKER_NOT_DERIVED where it is none of these.
 * With marker_built_in_parents of types.h it answers as marker_type_derivation_ok.
 *
 * Or MARKER_REFUSED + N where it is refused with N: 18 where parents_len is 0 or
 * above MARKER_MOST_TYPES, or a row's parent is not as said, then 17 where the table
 * does not have one of the two rows. marker_type_table_fault of types.h tells which
 * row 18 is for.
 */
uint32_t marker_type_derivation_ok_by(const uint8_t *parents, size_t parents_len,
                                      uint32_t derived, uint32_t base);

/*
 * Fills in the second table of a sheet from the types of its elements, by a table of
 * types.
 *
 * `types` has a type number for each leaf, from leaf number 0 on: its row in the
 * table of types, which `parents` has as in marker_type_derivation_ok_by. A
 * wildcard's is not read: it may be any byte.
 *
 * Returns MARKER_FILLED. Each byte of the second table that was 1, undecided, and
 * whose row and column are both elements now has the verdict that
 * marker_type_derivation_ok_by answers for the row's type as derived and the
 * column's as base. Every other byte of `sheet` keeps its value. A filling done
 * twice is the filling done once.
 *
 * Or returns MARKER_REFUSED + N where it is refused with N, and every byte of
 * `sheet` keeps its value: 18 for the table of types, then 1, 3 to 14 for the sheet,
 * as in marker_mark, then 17 where types_len is not the sheet's leaf count, or the
 * table of types does not have an element's number, whether or not a verdict needs
 * it.
 */
uint32_t marker_fill_types_by(uint8_t *sheet, size_t sheet_len, const uint8_t *types,
                              size_t types_len, const uint8_t *parents, size_t parents_len);

/* The refusal's number in what marker_mark, marker_type_derivation_ok,
 * marker_fill_types, marker_type_derivation_ok_by or marker_fill_types_by returned; 0
 * where there is none. */
static inline uint32_t marker_mark_refusal(uint32_t mark)
{
    return mark > MARKER_REFUSED ? mark - MARKER_REFUSED : 0;
}

/* The same for marker_total_min, marker_total_max, marker_tidy and
 * marker_effective_particle. */
static inline uint32_t marker_number_refusal(uint64_t number)
{
    return number > MARKER_BEYOND && number < MARKER_TOO_LARGE
        ? (uint32_t)(number - MARKER_BEYOND)
        : 0;
}

/* The same for marker_emptiable. */
static inline uint32_t marker_emptiable_refusal(uint32_t answer)
{
    return answer > MARKER_EMPTIABLE ? answer : 0;
}

#ifdef __cplusplus
}
#endif

#endif
