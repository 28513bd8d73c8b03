/*
 * sheet.h: write a sheet, a tree or a chain into a buffer, from C99 or C++11.
 * Header only, without heap. Each is built by calls in this order:
 *
 *   a sheet   marker_build_sheet; marker_new_element or marker_new_wildcard for
 *             each leaf; marker_derived_tree and a tree; marker_base_tree and a
 *             tree; marker_finish. Verdicts are set after the leaves, at any time.
 *   a tree    marker_build_tree; a tree; marker_finish
 *   a chain   marker_build_chain; for each level, root type first, marker_level
 *             and a tree, or marker_absent_level; marker_finish
 *
 * 'A tree' is marker_element, or marker_wildcard, or marker_open, the items, and
 * marker_close; or marker_copy_tree, for a tree that is there already. Item
 * counts, record counts and lengths are counted here.
 *
 * marker_finish gives the length in bytes. Or it gives 0, and the builder's
 * `fault` is the first that was found. After a fault every call does nothing, so
 * a caller may look at the end only. Whatever the calls, no byte outside the
 * buffer is written, and what is finished has document 01's layout and limits: a
 * sheet or a tree is not refused, a chain by 16 at most (its joined tree is over
 * the limits). This is tested (test_sheet.c, test_faults.c, test_drawn.c), not proved.
 *
 * Of the caller is asked: a buffer with so many bytes that can be written and
 * stay there, and that nothing else writes it until the end. A buffer of
 * MARKER_MOST_SHEET bytes has room for every sheet, one of MARKER_MOST_TREE for
 * every tree, one of MARKER_MOST_CHAIN for every chain that is joined.
 */
#ifndef MARKER_SHEET_H
#define MARKER_SHEET_H

#include "builder.h"

#ifdef __cplusplus
extern "C" {
#endif

/* The words of a fault; they last as long as the program. */
static inline const char *marker_fault_words(enum marker_fault fault)
{
    switch (fault) {
    MARKER_FAULTS(MARKER_WORDED)
    }
    return "no fault of link/sheet.h";
}

/* Starts a sheet. */
static inline void marker_build_sheet(struct marker_builder *b, uint8_t *bytes, size_t room)
{
    marker_builder_start(b, MARKER_A_SHEET, bytes, room);
    marker_builder_take(b, MARKER_CONTENTS_SIZE);
}

/* Starts a tree alone, as marker_total_min, marker_tidy and others take it. Its
 * leaf numbers are below MARKER_MOST_LEAVES. */
static inline void marker_build_tree(struct marker_builder *b, uint8_t *bytes, size_t room)
{
    marker_builder_start(b, MARKER_A_TREE, bytes, room);
    marker_builder_begin(b, 1);
}

/* Starts a chain of so many levels, as marker_effective_particle takes it. */
static inline void marker_build_chain(struct marker_builder *b, uint8_t *bytes, size_t room,
                                      size_t levels)
{
    marker_builder_start(b, MARKER_A_CHAIN, bytes, room);
    int fits = levels > 0 && levels <= MARKER_MOST_LEVELS;
    if (marker_builder_ask(b, fits, MARKER_FAULT_LEVELS)
        && marker_builder_take(b, MARKER_LEVELS_SIZE + MARKER_COUNT_SIZE * levels) != NULL) {
        b->levels = levels;
        bytes[0] = (uint8_t)levels;
    }
}

/* Adds an element to a sheet's leaves; its leaf number, from 0. */
static inline uint32_t marker_new_element(struct marker_builder *b, uint32_t local_name_number)
{
    return marker_builder_leaf(b, MARKER_ELEMENT, MARKER_SKIP, local_name_number);
}

/* Adds a wildcard, MARKER_SKIP, MARKER_LAX or MARKER_STRICT; its leaf number. */
static inline uint32_t marker_new_wildcard(struct marker_builder *b, uint32_t process_contents)
{
    return marker_builder_leaf(b, MARKER_WILDCARD, process_contents, 0);
}

/* Sets what the first table says of a derived and a base leaf: MARKER_VERDICT_OK,
 * MARKER_VERDICT_UNDECIDED, or a reason from MARKER_LEAST_SET to MARKER_MOST_SET.
 * Unless set, equal leaves are ok and others have MARKER_LEAST_SET. From the
 * first verdict on there are no new leaves. */
static inline void marker_first_verdict(struct marker_builder *b, uint32_t derived, uint32_t base,
                                        uint32_t verdict)
{
    marker_builder_verdict(b, 0, derived, base, verdict);
}

/* Likewise in the second table. */
static inline void marker_second_verdict(struct marker_builder *b, uint32_t derived, uint32_t base,
                                         uint32_t verdict)
{
    marker_builder_verdict(b, 1, derived, base, verdict);
}

/* Begins a sheet's derived tree. */
static inline void marker_derived_tree(struct marker_builder *b)
{
    if (marker_builder_ask(b, b->trees == 0, MARKER_FAULT_STEP) && marker_builder_tables(b)) {
        marker_builder_begin(b, 1);
    }
}

/* Begins a sheet's base tree. */
static inline void marker_base_tree(struct marker_builder *b)
{
    int turn = b->what == MARKER_A_SHEET && b->trees == 1;
    if (marker_builder_ask(b, turn, MARKER_FAULT_STEP) && marker_builder_whole(b)) {
        b->derived = b->records;
        marker_builder_begin(b, 1);
    }
}

/* Begins the tree of a chain's next level. */
static inline void marker_level(struct marker_builder *b)
{
    marker_builder_level(b, 1);
}

/* Goes over a level that has no tree. */
static inline void marker_absent_level(struct marker_builder *b)
{
    marker_builder_level(b, 0);
}

/* Adds an element to the tree. The maximum is a number, or MARKER_UNBOUNDED. */
static inline void marker_element(struct marker_builder *b, uint32_t leaf, uint64_t min,
                                  uint64_t max)
{
    if (marker_builder_names(b, MARKER_ELEMENT, leaf)) {
        marker_builder_record(b, MARKER_ELEMENT, leaf, min, max);
    }
}

/* Adds a wildcard to the tree. */
static inline void marker_wildcard(struct marker_builder *b, uint32_t leaf, uint64_t min,
                                   uint64_t max)
{
    if (marker_builder_names(b, MARKER_WILDCARD, leaf)) {
        marker_builder_record(b, MARKER_WILDCARD, leaf, min, max);
    }
}

/* Adds a group, MARKER_SEQUENCE, MARKER_CHOICE or MARKER_ALL. What is added next
 * are its items, until it is closed. */
static inline void marker_open(struct marker_builder *b, uint32_t kind, uint64_t min, uint64_t max)
{
    int group = kind >= MARKER_SEQUENCE && kind <= MARKER_ALL;
    if (marker_builder_ask(b, group, MARKER_FAULT_GROUP)) {
        uint8_t *at = marker_builder_record(b, kind, 0, min, max);
        if (at != NULL) {
            b->open[b->depth++] = (size_t)(at - b->bytes);
        }
    }
}

/* Ends the group that was opened last and is not yet closed. */
static inline void marker_close(struct marker_builder *b)
{
    if (marker_builder_ask(b, b->depth > 0, MARKER_FAULT_CLOSE)) {
        b->depth--;
    }
}

/* Adds a whole tree, as marker_effective_particle or marker_tidy writes it, or
 * marker_item copies it. The bytes may be a tree that this builder has ended, but
 * not those of its buffer that are still to be written. */
static inline void marker_copy_tree(struct marker_builder *b, const uint8_t *tree, size_t length)
{
    const size_t start = b->used, outer = b->depth;
    uint32_t awaited[MARKER_MOST_DEPTH + 1]; /* items that each open group still has */
    size_t end = 0;
    do {
        if (!marker_builder_ask(b, length - end >= MARKER_RECORD, MARKER_FAULT_COPY)) {
            return;
        }
        const uint8_t *at = tree + end;
        uint64_t min = marker_builder_32(at + MARKER_AT_MIN);
        uint64_t max = marker_builder_32(at + MARKER_AT_MAX);
        max = at[MARKER_AT_UNBOUNDED] == 0 ? max : MARKER_UNBOUNDED;
        end += MARKER_RECORD;
        if (at[MARKER_AT_KIND] <= MARKER_WILDCARD) {
            marker_builder_names(b, at[MARKER_AT_KIND], at[MARKER_AT_LEAF]);
            marker_builder_record(b, at[MARKER_AT_KIND], at[MARKER_AT_LEAF], min, max);
        } else {
            awaited[b->depth] = marker_builder_16(at + MARKER_AT_COUNT) + 1;
            marker_open(b, at[MARKER_AT_KIND], min, max);
        }
        while (b->fault == MARKER_FAULT_NONE && b->depth > outer && --awaited[b->depth - 1] == 0) {
            marker_close(b);
        }
    } while (b->fault == MARKER_FAULT_NONE && b->depth > outer);
    /* A field that has another value than a record's is written otherwise here. */
    int same = b->fault == MARKER_FAULT_NONE && end == length
        && memcmp(b->bytes + start, tree, length) == 0;
    marker_builder_ask(b, same, MARKER_FAULT_COPY);
}

/* Ends what is built; its length in bytes, or 0 where there is a fault. Verdicts
 * may still be set after it, in the same bytes. */
static inline size_t marker_finish(struct marker_builder *b)
{
    const size_t trees = b->what == MARKER_A_SHEET ? 2 : b->what == MARKER_A_TREE ? 1 : b->levels;
    int whole = b->what == MARKER_A_CHAIN ? marker_builder_level_whole(b)
        : b->trees == 0 || marker_builder_whole(b);
    if (!whole || !marker_builder_ask(b, b->trees == trees, MARKER_FAULT_MISSING)) {
        return 0;
    }
    if (b->what == MARKER_A_SHEET) {
        b->bytes[MARKER_AT_LEAVES] = (uint8_t)b->leaves;
        marker_builder_put_16(b->bytes + MARKER_AT_DERIVED, b->derived);
        marker_builder_put_16(b->bytes + MARKER_AT_BASE, b->records);
        marker_builder_put_16(b->bytes + MARKER_AT_TOTAL, (uint32_t)b->used);
    }
    return b->used;
}

#ifdef __cplusplus
}
#endif

#endif
