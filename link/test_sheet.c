/*
 * Tests of sheet.h, which test.c runs with its own: the papers of samples/ and
 * some at the limits are built, and have the bytes that tools/paper writes and
 * their mark; in a buffer that is exactly long enough, and in shorter ones.
 *
 * PAPERS   the directory with what tools/paper writes, as link/run makes it;
 *          without it only the bytes of the samples that are bytes are compared
 */
#include <stdio.h>
#include <stdlib.h>
#include <string.h>

#include "sheet.h"
#include "test.h"

enum { A, B, C, D, E, F, G, H, I, J };
enum { GUARD = 16 };

static uint8_t whole[MARKER_MOST_SHEET + GUARD], expected[MARKER_MOST_SHEET + 1];

/* A new leaf has its place as leaf number; after a fault, 0. */
static uint32_t at_place(const struct marker_builder *b, uint32_t place, uint32_t number)
{
    check("a leaf number", b->fault == MARKER_FAULT_NONE ? place : 0, number);
    return number;
}

/* Adds so many elements, each with its place as local name number. */
static void elements(struct marker_builder *b, uint32_t count)
{
    for (uint32_t place = 0; place < count; place++) {
        uint32_t number = marker_new_element(b, place);
        at_place(b, place, number);
    }
}

/* Adds a wildcard, which is to be the leaf at this place. */
static uint32_t wildcard(struct marker_builder *b, uint32_t place, uint32_t process)
{
    uint32_t number = marker_new_wildcard(b, process);
    return at_place(b, place, number);
}

/* Adds (1,1) elements of the leaves from the first to the last. */
static void each(struct marker_builder *b, uint32_t first, uint32_t last)
{
    for (uint32_t leaf = first; leaf <= last; leaf++) {
        marker_element(b, leaf, 1, 1);
    }
}

/* A (1,1) group of such. */
static void group(struct marker_builder *b, uint32_t kind, uint32_t first, uint32_t last)
{
    marker_open(b, kind, 1, 1);
    each(b, first, last);
    marker_close(b);
}

/* a | a(0,1) */
static void smallest(struct marker_builder *b)
{
    elements(b, 1);
    marker_derived_tree(b);
    marker_element(b, A, 1, 1);
    marker_base_tree(b);
    marker_element(b, A, 0, 1);
}

/* S[a,b(1,4),c] | S[a(0,1),C(1,*)[b,d],c(0,1),w(0,*)] */
static void entry(struct marker_builder *b)
{
    elements(b, 4);
    uint32_t w = wildcard(b, 4, MARKER_SKIP);
    marker_derived_tree(b);
    marker_open(b, MARKER_SEQUENCE, 1, 1);
    marker_element(b, A, 1, 1);
    marker_element(b, B, 1, 4);
    marker_element(b, C, 1, 1);
    marker_close(b);
    marker_base_tree(b);
    marker_open(b, MARKER_SEQUENCE, 1, 1);
    marker_element(b, A, 0, 1);
    marker_open(b, MARKER_CHOICE, 1, MARKER_UNBOUNDED);
    marker_element(b, B, 1, 1);
    marker_element(b, D, 1, 1);
    marker_close(b);
    marker_element(b, C, 0, 1);
    marker_wildcard(b, w, 0, MARKER_UNBOUNDED);
    marker_close(b);
}

/* S(1,9)[a,b(1,4)] | S(1,7)[a,b(1,*),w(0,1)] */
static void rounds(struct marker_builder *b)
{
    elements(b, 2);
    uint32_t w = wildcard(b, 2, MARKER_SKIP);
    marker_derived_tree(b);
    marker_open(b, MARKER_SEQUENCE, 1, 9);
    marker_element(b, A, 1, 1);
    marker_element(b, B, 1, 4);
    marker_close(b);
    marker_base_tree(b);
    marker_open(b, MARKER_SEQUENCE, 1, 7);
    marker_element(b, A, 1, 1);
    marker_element(b, B, 1, MARKER_UNBOUNDED);
    marker_wildcard(b, w, 0, 1);
    marker_close(b);
}

/* S[a,b,c] | A[a,b,d,e(0,1)], c and d of the name 2; c | d : first ok, second
 * undecided, of which one is set between the trees and one at the end. */
static void results(struct marker_builder *b)
{
    elements(b, 3);
    marker_new_element(b, C);
    marker_new_element(b, E);
    marker_derived_tree(b);
    group(b, MARKER_SEQUENCE, A, C);
    marker_first_verdict(b, C, D, MARKER_VERDICT_OK);
    marker_base_tree(b);
    marker_open(b, MARKER_ALL, 1, 1);
    each(b, A, B);
    each(b, D, D);
    marker_element(b, E, 0, 1);
    marker_close(b);
    marker_second_verdict(b, C, D, MARKER_VERDICT_UNDECIDED);
}

/* a | S(0,0)[a] */
static void never(struct marker_builder *b)
{
    elements(b, 1);
    marker_derived_tree(b);
    marker_element(b, A, 1, 1);
    marker_base_tree(b);
    marker_open(b, MARKER_SEQUENCE, 0, 0);
    marker_element(b, A, 1, 1);
    marker_close(b);
}

/* S[a,b,c,d,e,f(0,1)] | S[a,b,c] + - + S[d(0,1),e,f(0,*)] */
static void report(struct marker_builder *b)
{
    static uint8_t chain[MARKER_MOST_CHAIN], joined[MARKER_MOST_TREE];
    struct marker_builder levels;
    marker_build_chain(&levels, chain, sizeof chain, 3);
    marker_level(&levels);
    group(&levels, MARKER_SEQUENCE, A, C);
    marker_absent_level(&levels);
    marker_level(&levels);
    marker_open(&levels, MARKER_SEQUENCE, 1, 1);
    marker_element(&levels, D, 0, 1);
    marker_element(&levels, E, 1, 1);
    marker_element(&levels, F, 0, MARKER_UNBOUNDED);
    marker_close(&levels);
    uint64_t records = marker_effective_particle(chain, marker_finish(&levels), joined,
                                                 sizeof joined);
    check("the joined records of the report", 9, records);

    elements(b, 6);
    marker_derived_tree(b);
    marker_open(b, MARKER_SEQUENCE, 1, 1);
    each(b, A, E);
    marker_element(b, F, 0, 1);
    marker_close(b);
    marker_base_tree(b);
    marker_copy_tree(b, joined, (size_t)records * MARKER_RECORD);
}

/* Ten rounds of eight boards each, as samples/season.paper has them; what may be
 * left out in the base tree has the minimum 0 there. */
static void season_tree(struct marker_builder *b, uint64_t least, uint32_t w)
{
    marker_open(b, MARKER_SEQUENCE, 1, 1);
    marker_element(b, A, 1, 1);
    for (int round = 0; round < 10; round++) {
        marker_open(b, MARKER_SEQUENCE, 1, 1);
        marker_element(b, B, 1, 1);
        marker_element(b, C, least, 1);
        for (int board = 0; board < 8; board++) {
            marker_open(b, MARKER_SEQUENCE, 1, 1);
            each(b, D, E);
            group(b, MARKER_CHOICE, F, H);
            marker_element(b, I, least, 1);
            marker_close(b);
        }
        marker_element(b, J, 1, 1);
        if (least == 0) {
            marker_wildcard(b, w, 0, MARKER_UNBOUNDED);
        }
        marker_close(b);
    }
    marker_close(b);
}

static void season(struct marker_builder *b)
{
    elements(b, 10);
    uint32_t w = wildcard(b, 10, MARKER_SKIP);
    marker_derived_tree(b);
    season_tree(b, 1, w);
    marker_base_tree(b);
    season_tree(b, 0, w);
}

/* link/run has it as a paper: each kind, process contents, verdict and end of a
 * range, and a leaf that stands in no tree. */
static void every(struct marker_builder *b)
{
    elements(b, 2);
    marker_new_element(b, 65535);
    marker_new_element(b, 258);
    uint32_t w = wildcard(b, 4, MARKER_STRICT), w1 = wildcard(b, 5, MARKER_LAX);
    uint32_t w2 = wildcard(b, 6, MARKER_SKIP);
    marker_first_verdict(b, A, B, MARKER_LEAST_SET);
    marker_first_verdict(b, B, A, MARKER_MOST_SET);
    marker_second_verdict(b, B, A, MARKER_VERDICT_OK);
    marker_second_verdict(b, w, w1, MARKER_VERDICT_UNDECIDED);
    marker_second_verdict(b, w2, A, 147);
    marker_derived_tree(b);
    marker_open(b, MARKER_CHOICE, 0, MARKER_UNBOUNDED);
    marker_open(b, MARKER_SEQUENCE, 0, 4294967295u);
    marker_element(b, A, 4294967295u, MARKER_UNBOUNDED);
    marker_wildcard(b, w, 65536, 16777216);
    marker_close(b);
    marker_open(b, MARKER_ALL, 0, 1);
    marker_element(b, C, 0, 0);
    marker_close(b);
    marker_open(b, MARKER_CHOICE, 1, 1);
    marker_close(b);
    marker_close(b);
    marker_base_tree(b);
    marker_wildcard(b, w1, 0, 256);
}

/* Every byte of the array has a value of its own. */
static uint8_t before(size_t place)
{
    return (uint8_t)(7 * place + 3);
}

/* Builds a paper in so many bytes and finishes it; no byte beyond is written. */
static size_t built(struct marker_builder *b, void (*build)(struct marker_builder *), size_t room)
{
    size_t differing = 0;
    for (size_t place = 0; place < sizeof whole; place++) {
        whole[place] = before(place);
    }
    marker_build_sheet(b, whole, room);
    build(b);
    size_t length = marker_finish(b);
    for (size_t place = room; place < sizeof whole; place++) {
        differing += whole[place] != before(place);
    }
    check("the bytes beyond the buffer", 0, differing);
    return length;
}

/* In a buffer of its length a paper has the same bytes, in a shorter one it has
 * none. Long papers are tried in some 300 of the shorter ones. */
static void check_rooms(const char *what, void (*build)(struct marker_builder *), size_t length)
{
    struct marker_builder b;
    memcpy(expected, whole, length);
    check(what, length, built(&b, build, length));
    check(what, 0, (uint64_t)(memcmp(whole, expected, length) != 0));
    for (size_t less = 1; less <= length; less += 1 + length / 300) {
        check(what, 0, built(&b, build, length - less));
        check(what, MARKER_FAULT_ROOM, b.fault);
    }
}

/* The first bytes of `whole` are those of a file of a directory. */
static void check_file(const char *directory, const char *name, size_t length)
{
    char path[256];
    snprintf(path, sizeof path, "%s/%s", directory, name);
    FILE *file = fopen(path, "rb");
    size_t read = file ? fread(expected, 1, sizeof expected, file) : 0;
    if (file) {
        fclose(file);
    }
    check(path, read, length);
    check(path, 0, (uint64_t)(memcmp(whole, expected, length) != 0));
}

static void check_paper(const char *name, void (*build)(struct marker_builder *), uint32_t mark_of)
{
    struct marker_builder b;
    const char *papers = getenv("PAPERS");
    size_t length = built(&b, build, MARKER_MOST_SHEET);
    char file[64];
    snprintf(file, sizeof file, "%s.sheet", name);
    check(name, MARKER_FAULT_NONE, b.fault);
    if (build == smallest) {
        check_file("samples", file, length);
    } else if (papers != NULL) {
        check_file(papers, file, length);
    }
    check(name, mark_of, mark(whole, length));
    check_rooms(name, build, length);
}

/* As many leaves and records as there may be. */
static void longest(struct marker_builder *b)
{
    elements(b, MOST_LEAVES);
    for (int tree = 0; tree < 2; tree++) {
        if (tree == 0) {
            marker_derived_tree(b);
        } else {
            marker_base_tree(b);
        }
        marker_open(b, MARKER_SEQUENCE, 1, 1);
        for (uint32_t item = 1; item < MOST_RECORDS; item++) {
            marker_element(b, item % MOST_LEAVES, 1, 1);
        }
        marker_close(b);
    }
}

/* The trees of samples/ that are bytes: S[a,C(0,*)[b,c]] and S(65536,65536)[a(65536,65536)]. */
static void test_trees(void)
{
    struct marker_builder b;
    marker_build_tree(&b, whole, sizeof whole);
    marker_open(&b, MARKER_SEQUENCE, 1, 1);
    marker_element(&b, A, 1, 1);
    marker_open(&b, MARKER_CHOICE, 0, MARKER_UNBOUNDED);
    each(&b, B, C);
    marker_close(&b);
    marker_close(&b);
    check_file("samples", "entry.tree", marker_finish(&b));
    check_total("entry.tree", whole, b.used, 1, MARKER_UNBOUNDED);
    marker_build_tree(&b, whole, sizeof whole);
    marker_open(&b, MARKER_SEQUENCE, 65536, 65536);
    marker_element(&b, A, 65536, 65536);
    marker_close(&b);
    check_file("samples", "total-too-large.tree", marker_finish(&b));
    check_total("total-too-large.tree", whole, b.used, MARKER_TOO_LARGE, MARKER_TOO_LARGE);
}

/* Verdicts that are set after a sheet is finished count. */
static void test_verdicts_later(void)
{
    struct marker_builder b;
    size_t length = built(&b, results, MARKER_MOST_SHEET);
    marker_second_verdict(&b, C, D, MARKER_VERDICT_OK);
    check("results, settled", MARKER_PASSES, mark(whole, length));
    marker_second_verdict(&b, C, D, 148);
    check("results, settled otherwise", 148, mark(whole, length));
    check("results, finished again", length, marker_finish(&b));
}

void test_sheet(void)
{
    check_paper("smallest", smallest, MARKER_PASSES);
    check_paper("entry", entry, MARKER_PASSES);
    check_paper("rounds", rounds, MARKER_SEQUENCE_RANGE);
    check_paper("results", results, MARKER_UNDECIDED);
    check_paper("never", never, MARKER_SEQUENCE_RANGE);
    check_paper("report", report, MARKER_PASSES);
    check_paper("season", season, MARKER_PASSES);
    check_paper("every", every, MARKER_TOTAL_RANGE);
    struct marker_builder b;
    check("the longest sheet", MARKER_MOST_SHEET, built(&b, longest, MARKER_MOST_SHEET));
    check("the longest sheet", MARKER_PASSES, mark(whole, b.used));
    check("a byte less", 0, built(&b, longest, MARKER_MOST_SHEET - 1));
    test_trees();
    test_verdicts_later();
}
