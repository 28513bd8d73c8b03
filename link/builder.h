/*
 * builder.h: what sheet.h is made of, for C99 and C++11: a builder's state, its
 * faults, and the steps that the functions of sheet.h share. Callers include
 * sheet.h, look at `fault`, and leave the rest of this file to it.
 *
 * Every write goes to bytes that marker_builder_take has found in the buffer.
 */
#ifndef MARKER_BUILDER_H
#define MARKER_BUILDER_H

#include <string.h>

#include "marker.h"

#ifdef __cplusplus
extern "C" {
#endif

/* A record's kind; the first two are a leaf's too. */
enum marker_kind {
    MARKER_ELEMENT = 0,
    MARKER_WILDCARD = 1,
    MARKER_SEQUENCE = 2,
    MARKER_CHOICE = 3,
    MARKER_ALL = 4
};

/* A wildcard's process contents. */
enum marker_process { MARKER_SKIP = 0, MARKER_LAX = 1, MARKER_STRICT = 2 };

/* A verdict, besides the reasons MARKER_LEAST_SET to MARKER_MOST_SET. */
enum marker_verdict { MARKER_VERDICT_OK = 0, MARKER_VERDICT_UNDECIDED = 1 };

/* What a builder finds wrong: EACH(number, name, words). */
#define MARKER_FAULTS(EACH) \
    EACH(0, MARKER_FAULT_NONE, "nothing is wrong") \
    EACH(1, MARKER_FAULT_ROOM, "the buffer is too short") \
    EACH(2, MARKER_FAULT_STEP, "a call out of turn, or one that is not for what is built") \
    EACH(3, MARKER_FAULT_NO_LEAVES, "a sheet without leaves") \
    EACH(4, MARKER_FAULT_LEAVES, "a sheet of over 64 leaves") \
    EACH(5, MARKER_FAULT_NAME, "a local name number above 65535") \
    EACH(6, MARKER_FAULT_PROCESS, "process contents that are not skip, lax or strict") \
    EACH(7, MARKER_FAULT_LEAF, "a leaf number that no leaf has") \
    EACH(8, MARKER_FAULT_LEAF_KIND, "an element named as a wildcard, or a wildcard as an element") \
    EACH(9, MARKER_FAULT_VERDICT, "a verdict that is not 0, 1 or 140 to 152") \
    EACH(10, MARKER_FAULT_GROUP, "a group that is no sequence, choice or all-group") \
    EACH(11, MARKER_FAULT_PAIR, "a minimum above the maximum, or a number above 4294967295") \
    EACH(12, MARKER_FAULT_ALL_GROUP, "an all-group's maximum isn't 1, or its item is no element") \
    EACH(13, MARKER_FAULT_DEPTH, "the depth is above 12") \
    EACH(14, MARKER_FAULT_RECORDS, "a tree of over 1000 records") \
    EACH(15, MARKER_FAULT_ENDED, "a record after the tree's end") \
    EACH(16, MARKER_FAULT_EMPTY, "a tree without records") \
    EACH(17, MARKER_FAULT_OPEN, "a group that is not closed") \
    EACH(18, MARKER_FAULT_CLOSE, "a group is closed and none is open") \
    EACH(19, MARKER_FAULT_LEVELS, "a chain of 0 or over 17 levels, or of more than announced") \
    EACH(20, MARKER_FAULT_MISSING, "a tree or a level is missing") \
    EACH(21, MARKER_FAULT_COPY, "the bytes to copy are no tree")

enum marker_fault { MARKER_FAULTS(MARKER_NUMBERED) };

/* Where the fields of contents, leaf and record stand, and sizes (docs/LAYOUT.md). */
enum { MARKER_AT_LEAVES = 0, MARKER_AT_DERIVED = 2, MARKER_AT_BASE = 4, MARKER_AT_TOTAL = 6 };
enum { MARKER_AT_LEAF_KIND = 0, MARKER_AT_PROCESS = 1, MARKER_AT_NAME = 2 };
enum { MARKER_AT_KIND = 0, MARKER_AT_LEAF = 1, MARKER_AT_COUNT = 2, MARKER_AT_UNBOUNDED = 4 };
enum { MARKER_AT_MIN = 8, MARKER_AT_MAX = 12 };
enum { MARKER_CONTENTS_SIZE = 8, MARKER_LEAF_SIZE = 4 };
enum { MARKER_LEVELS_SIZE = 1, MARKER_COUNT_SIZE = 2 };

enum marker_what { MARKER_A_SHEET, MARKER_A_TREE, MARKER_A_CHAIN };

struct marker_builder {
    enum marker_fault fault; /* the first that was found */
    enum marker_what what;
    uint8_t *bytes;   /* the caller's buffer */
    size_t room;      /* its length */
    size_t used;      /* how many of its bytes are taken */
    size_t leaves;    /* leaf numbers are below it */
    size_t tables;    /* where a sheet's tables stand; 0 while leaves can be added */
    size_t levels;    /* how many levels a chain is to have */
    size_t trees;     /* how many trees, or levels, have been begun */
    int in_tree;      /* whether the last of them takes records */
    uint32_t derived; /* records of a sheet's derived tree */
    uint32_t records; /* records of the last tree */
    size_t depth;     /* how many of its groups are open */
    size_t open[MARKER_MOST_DEPTH]; /* where their records stand */
};

/* Notes a fault where something does not hold; whether all has been well. */
static inline int marker_builder_ask(struct marker_builder *b, int holds, enum marker_fault fault)
{
    if (b->fault == MARKER_FAULT_NONE && !holds) {
        b->fault = fault;
    }
    return b->fault == MARKER_FAULT_NONE;
}

static inline void marker_builder_put_16(uint8_t *at, uint32_t number)
{
    at[0] = (uint8_t)number;
    at[1] = (uint8_t)(number >> 8);
}

static inline void marker_builder_put_32(uint8_t *at, uint32_t number)
{
    marker_builder_put_16(at, number);
    marker_builder_put_16(at + 2, number >> 16);
}

static inline uint32_t marker_builder_16(const uint8_t *at)
{
    return at[0] | (uint32_t)at[1] << 8;
}

static inline uint32_t marker_builder_32(const uint8_t *at)
{
    return marker_builder_16(at) | marker_builder_16(at + 2) << 16;
}

/* The next so many bytes of the buffer, made 0; null where it has fewer. */
static inline uint8_t *marker_builder_take(struct marker_builder *b, size_t count)
{
    if (!marker_builder_ask(b, count <= b->room - b->used, MARKER_FAULT_ROOM)) {
        return NULL;
    }
    uint8_t *at = b->bytes + b->used;
    memset(at, 0, count);
    b->used += count;
    return at;
}

static inline void marker_builder_start(struct marker_builder *b, enum marker_what what,
                                        uint8_t *bytes, size_t room)
{
    memset(b, 0, sizeof *b);
    b->what = what;
    b->bytes = bytes;
    b->room = room;
    /* A tree alone, or of a chain, does not know its sheet's leaves. */
    b->leaves = what == MARKER_A_SHEET ? 0 : MARKER_MOST_LEAVES;
}

/* Adds a leaf; its number, or 0 where there is a fault. */
static inline uint32_t marker_builder_leaf(struct marker_builder *b, enum marker_kind kind,
                                           uint32_t process, uint32_t name)
{
    int turn = b->what == MARKER_A_SHEET && b->tables == 0;
    if (!(marker_builder_ask(b, turn, MARKER_FAULT_STEP)
          && marker_builder_ask(b, b->leaves < MARKER_MOST_LEAVES, MARKER_FAULT_LEAVES)
          && marker_builder_ask(b, process <= MARKER_STRICT, MARKER_FAULT_PROCESS)
          && marker_builder_ask(b, name <= UINT16_MAX, MARKER_FAULT_NAME))) {
        return 0;
    }
    uint8_t *at = marker_builder_take(b, MARKER_LEAF_SIZE);
    if (at == NULL) {
        return 0;
    }
    at[MARKER_AT_LEAF_KIND] = (uint8_t)kind;
    at[MARKER_AT_PROCESS] = (uint8_t)process;
    marker_builder_put_16(at + MARKER_AT_NAME, name);
    return (uint32_t)b->leaves++;
}

/* Lays out both tables where they are not yet there, after which no leaf is
 * added: equal leaves are ok, others have the first reason that a paper sets.
 * Whether all has been well. */
static inline int marker_builder_tables(struct marker_builder *b)
{
    const size_t n = b->leaves, size = n * n;
    if (!marker_builder_ask(b, b->what == MARKER_A_SHEET, MARKER_FAULT_STEP) || b->tables != 0) {
        return b->fault == MARKER_FAULT_NONE;
    }
    if (!marker_builder_ask(b, n > 0, MARKER_FAULT_NO_LEAVES)) {
        return 0;
    }
    uint8_t *at = marker_builder_take(b, 2 * size);
    if (at == NULL) {
        return 0;
    }
    b->tables = b->used - 2 * size;
    for (size_t place = 0; place < 2 * size; place++) {
        /* In a table of n columns equal leaves are n + 1 places apart. */
        int equal = place % size % (n + 1) == 0;
        at[place] = (uint8_t)(equal ? (int)MARKER_VERDICT_OK : (int)MARKER_LEAST_SET);
    }
    return 1;
}

/* Sets a verdict in the first table, number 0, or in the second, number 1. */
static inline void marker_builder_verdict(struct marker_builder *b, size_t table, uint32_t derived,
                                          uint32_t base, uint32_t verdict)
{
    const size_t n = b->leaves;
    int known = verdict <= MARKER_VERDICT_UNDECIDED
        || (verdict >= MARKER_LEAST_SET && verdict <= MARKER_MOST_SET);
    if (marker_builder_tables(b)
        && marker_builder_ask(b, derived < n && base < n, MARKER_FAULT_LEAF)
        && marker_builder_ask(b, known, MARKER_FAULT_VERDICT)) {
        b->bytes[b->tables + table * n * n + derived * n + base] = (uint8_t)verdict;
    }
}

/* Begins a tree, or a level, which may be absent. */
static inline void marker_builder_begin(struct marker_builder *b, int present)
{
    b->trees++;
    b->in_tree = present;
    b->records = 0;
}

/* Whether the last tree is whole. */
static inline int marker_builder_whole(struct marker_builder *b)
{
    return marker_builder_ask(b, b->depth == 0, MARKER_FAULT_OPEN)
        && marker_builder_ask(b, b->records > 0, MARKER_FAULT_EMPTY);
}

/* Whether the last level is whole, or none has been begun; writes its count. */
static inline int marker_builder_level_whole(struct marker_builder *b)
{
    if (b->in_tree && marker_builder_whole(b)) {
        size_t counts = MARKER_COUNT_SIZE * (b->trees - 1);
        marker_builder_put_16(b->bytes + MARKER_LEVELS_SIZE + counts, b->records);
    }
    return b->fault == MARKER_FAULT_NONE;
}

/* Begins the next level of a chain. */
static inline void marker_builder_level(struct marker_builder *b, int present)
{
    if (marker_builder_ask(b, b->what == MARKER_A_CHAIN, MARKER_FAULT_STEP)
        && marker_builder_level_whole(b)
        && marker_builder_ask(b, b->trees < b->levels, MARKER_FAULT_LEVELS)) {
        marker_builder_begin(b, present);
    }
}

/* Whether a record of this kind may stand at this place. */
static inline int marker_builder_place(struct marker_builder *b, uint32_t kind)
{
    int in_all = b->depth > 0 && b->bytes[b->open[b->depth - 1] + MARKER_AT_KIND] == MARKER_ALL;
    return marker_builder_ask(b, b->in_tree, MARKER_FAULT_STEP)
        && marker_builder_ask(b, b->depth > 0 || b->records == 0, MARKER_FAULT_ENDED)
        && marker_builder_ask(b, !in_all || kind == MARKER_ELEMENT, MARKER_FAULT_ALL_GROUP)
        && marker_builder_ask(b, b->depth < MARKER_MOST_DEPTH, MARKER_FAULT_DEPTH)
        && marker_builder_ask(b, b->records < MARKER_MOST_RECORDS, MARKER_FAULT_RECORDS);
}

/* Whether a leaf number is there and of this kind. */
static inline int marker_builder_names(struct marker_builder *b, uint32_t kind, uint32_t leaf)
{
    if (!marker_builder_ask(b, leaf < b->leaves, MARKER_FAULT_LEAF)) {
        return 0;
    }
    size_t at = MARKER_CONTENTS_SIZE + MARKER_LEAF_SIZE * (size_t)leaf + MARKER_AT_LEAF_KIND;
    int fits = b->what != MARKER_A_SHEET || b->bytes[at] == kind;
    return marker_builder_ask(b, fits, MARKER_FAULT_LEAF_KIND);
}

/* Writes a record, and counts it in the group that is open; its place, or null. */
static inline uint8_t *marker_builder_record(struct marker_builder *b, uint32_t kind, uint32_t leaf,
                                             uint64_t min, uint64_t max)
{
    int ordered = min <= UINT32_MAX && min <= max && max <= MARKER_UNBOUNDED;
    int all_once = kind != MARKER_ALL || max == 1;
    if (!(marker_builder_place(b, kind)
          && marker_builder_ask(b, ordered, MARKER_FAULT_PAIR)
          && marker_builder_ask(b, all_once, MARKER_FAULT_ALL_GROUP))) {
        return NULL;
    }
    uint8_t *at = marker_builder_take(b, MARKER_RECORD);
    if (at == NULL) {
        return NULL;
    }
    at[MARKER_AT_KIND] = (uint8_t)kind;
    at[MARKER_AT_LEAF] = (uint8_t)leaf;
    at[MARKER_AT_UNBOUNDED] = max == MARKER_UNBOUNDED;
    marker_builder_put_32(at + MARKER_AT_MIN, (uint32_t)min);
    marker_builder_put_32(at + MARKER_AT_MAX, max == MARKER_UNBOUNDED ? 0 : (uint32_t)max);
    b->records++;
    if (b->depth > 0) {
        uint8_t *count = b->bytes + b->open[b->depth - 1] + MARKER_AT_COUNT;
        marker_builder_put_16(count, marker_builder_16(count) + 1);
    }
    return at;
}

#ifdef __cplusplus
}
#endif

#endif
