/*
 * words.h: the numbers of reasons and refusals, their names, and their words.
 * marker.h includes it. Number, name and words of each stand here once in C;
 * link/check-names holds them to the crates and to docs/KEY.md, 'The numbers'.
 */
#ifndef MARKER_WORDS_H
#define MARKER_WORDS_H

#include <stdint.h>

#ifdef __cplusplus
extern "C" {
#endif

/* Why a sheet fails: EACH(number, name, words) for each reason. */
#define MARKER_REASONS(EACH) \
    EACH(101, MARKER_ELEMENT_WILDCARD_RANGE, \
         "element, wildcard: the range isn't within the base's") \
    EACH(102, MARKER_WILDCARD_ELEMENT, \
         "wildcard, element: a wildcard can't restrict an element") \
    EACH(103, MARKER_WILDCARD_RANGE, \
         "wildcard, wildcard: the range isn't within the base's") \
    EACH(104, MARKER_WEAKER_PROCESS_CONTENTS, "wildcard, wildcard: weaker process contents") \
    EACH(105, MARKER_SEQUENCE_RANGE, \
         "sequence, sequence: the range isn't within the base's") \
    EACH(106, MARKER_CHOICE_RANGE, "choice, choice: the range isn't within the base's") \
    EACH(107, MARKER_ALL_RANGE, "all, all: the range isn't within the base's") \
    EACH(108, MARKER_NOT_IN_ALL, \
         "an item against an all-group: no untaken base element has its local name number") \
    EACH(109, MARKER_MISSING_FROM_ALL, \
         "against an all-group: a base element of minimum above 0 is left untaken") \
    EACH(110, MARKER_SEQUENCE_REQUIRED, \
         "element, sequence: the base minimum is above 1 (second reading, which no mark " \
         "shows)") \
    EACH(111, MARKER_NO_ALTERNATIVE, \
         "element, choice: no alternative passes (second reading, which no mark shows)") \
    EACH(112, MARKER_CHOICE_REQUIRED, \
         "element, choice: the base minimum is above 1 (second reading, which no mark " \
         "shows)") \
    EACH(113, MARKER_TOTAL_RANGE, \
         "group, wildcard: the total range isn't within the base's") \
    EACH(114, MARKER_WILDCARD_GROUP, "wildcard, group: a wildcard can't restrict a group") \
    EACH(115, MARKER_GROUP_KIND, \
         "all against sequence or choice, or choice against sequence or all") \
    EACH(116, MARKER_SEQUENCE_TOTAL, \
         "sequence, choice: the pair times the item count isn't within the base pair") \
    EACH(117, MARKER_MEMBER_ALTERNATIVE, \
         "sequence, choice: a member restricts none of the alternatives") \
    EACH(118, MARKER_SEQUENCE_ALL_RANGE, "sequence, all: the range isn't within the base's") \
    EACH(119, MARKER_MEMBER_NOT_ELEMENT, "sequence, all: an item that isn't an element") \
    EACH(120, MARKER_NOT_ALLOWED, \
         "ordered walk: a derived item is left and the base items are used up") \
    EACH(121, MARKER_REQUIRED_MISSING, \
         "ordered walk: a base item is left over that isn't emptiable") \
    EACH(122, MARKER_MIN_BELOW, "element, element: the minimum is below the base's") \
    EACH(123, MARKER_MAX_UNBOUNDED, \
         "element, element: the maximum is unbounded, the base's isn't") \
    EACH(124, MARKER_MAX_ABOVE, "element, element: the maximum is above the base's") \
    EACH(125, MARKER_BASE_MAY_NOT_OCCUR, \
         "element, sequence or choice: the base maximum is 0 (second reading, which no " \
         "mark shows)")

/* Why a sheet, a tree, a chain, types or a table of types are refused: EACH(number,
 * name, words). A tree alone, or of a chain, is refused as a derived tree is. */
#define MARKER_REFUSALS(EACH) \
    EACH(1, MARKER_REFUSAL_CONTENTS, \
         "the caller's mistake: sheet under 8 bytes, a contents field out of its range, or " \
         "total field or actual length unlike the formula") \
    EACH(2, MARKER_REFUSAL_BUFFER, \
         "the caller's mistake: buffer shorter than the tree handed in, or than the joined " \
         "tree, which no sheet shows") \
    EACH(3, MARKER_REFUSAL_LEAF, \
         "the examiner's mistake: the fields of a leaf are out of order") \
    EACH(4, MARKER_REFUSAL_VERDICT, \
         "the examiner's mistake: a verdict that is not 0, 1 or 140 to 152") \
    EACH(5, MARKER_REFUSAL_BASE_FIELDS, \
         "the examiner's mistake: base tree, the fields of a record are out of order") \
    EACH(6, MARKER_REFUSAL_BASE_PAIR, \
         "the examiner's mistake: base tree, the minimum is above a bounded maximum") \
    EACH(7, MARKER_REFUSAL_BASE_ALL_GROUP, \
         "the examiner's mistake: base tree, an all-group's maximum isn't 1, or an all's " \
         "item is no element") \
    EACH(8, MARKER_REFUSAL_BASE_DEPTH, \
         "the examiner's mistake: base tree, the depth is above 12") \
    EACH(9, MARKER_REFUSAL_BASE_COUNTS, \
         "the examiner's mistake: base tree, the item counts need fewer or more records") \
    EACH(10, MARKER_REFUSAL_DERIVED_FIELDS, \
         "the candidate's mistake in a derived tree, or one in a tree alone or in a " \
         "chain's level: the fields of a record are out of order") \
    EACH(11, MARKER_REFUSAL_DERIVED_PAIR, \
         "the candidate's mistake in a derived tree, or one in a tree alone or in a " \
         "chain's level: the minimum is above a bounded maximum") \
    EACH(12, MARKER_REFUSAL_DERIVED_ALL_GROUP, \
         "the candidate's mistake in a derived tree, or one in a tree alone or in a " \
         "chain's level: an all-group's maximum isn't 1, or an all's item is no element") \
    EACH(13, MARKER_REFUSAL_DERIVED_DEPTH, \
         "the candidate's mistake in a derived tree, or one in a tree alone or in a " \
         "chain's level: the depth is above 12") \
    EACH(14, MARKER_REFUSAL_DERIVED_COUNTS, \
         "the candidate's mistake in a derived tree, or one in a tree alone or in a " \
         "chain's level: the item counts need fewer or more records") \
    EACH(15, MARKER_REFUSAL_CHAIN, \
         "the caller's mistake: chain of 0 or over 17 levels, or of a length unlike its " \
         "counts") \
    EACH(16, MARKER_REFUSAL_LIMIT, \
         "the examiner's mistake: joined tree over 1000 records or depth 12") \
    EACH(17, MARKER_REFUSAL_TYPE_NUMBER, \
         "the examiner's mistake: a type number that the list or the table of types does " \
         "not have, or not one for each leaf") \
    EACH(18, MARKER_REFUSAL_TYPE_TABLE, \
         "the examiner's mistake: a table of types of 0 or over 200 rows, or with a row " \
         "whose parent is out of order")

/* What the lists are used with: an enum's line, and a switch's. */
#define MARKER_NUMBERED(number, name, words) name = number,
#define MARKER_WORDED(number, name, words) case number: return words;

/* The paper sets 140 to 152. */
enum marker_reason {
    MARKER_REASONS(MARKER_NUMBERED)
    MARKER_LEAST_SET = 140,
    MARKER_MOST_SET = 152
};

enum marker_refusal {
    MARKER_REFUSALS(MARKER_NUMBERED)
};

/* The words of a reason, as marker_mark returns it where a sheet fails. Any
 * other number is said to be none. The words last as long as the program. */
static inline const char *marker_reason_words(uint32_t reason)
{
    switch (reason) {
    MARKER_REASONS(MARKER_WORDED)
    default:
        return reason >= MARKER_LEAST_SET && reason <= MARKER_MOST_SET
            ? "a reason that the paper sets"
            : "no reason of docs/KEY.md";
    }
}

/* The words of a refusal's number, as marker_mark_refusal and its like give it;
 * likewise. */
static inline const char *marker_refusal_words(uint32_t refusal)
{
    switch (refusal) {
    MARKER_REFUSALS(MARKER_WORDED)
    default:
        return "no refusal of docs/KEY.md";
    }
}

#ifdef __cplusplus
}
#endif

#endif
