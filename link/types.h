/*
 * types.h: the built-in types, their numbers, names and parents, and which row of a
 * table of types is out of order. marker.h includes it. Number, name and parent of
 * each type stand here once in C; link/check-names holds them to crates/types and to
 * docs/KEY.md, 'Type verdicts'.
 */
#ifndef MARKER_TYPES_H
#define MARKER_TYPES_H

#include <stddef.h>
#include <stdint.h>

#include "words.h"

#ifdef __cplusplus
extern "C" {
#endif

/* What an element can have as its type: EACH(number, constant, name). */
#define MARKER_TYPES(EACH) \
    EACH(0, MARKER_TYPE_ANY_TYPE, "anyType") \
    EACH(1, MARKER_TYPE_ANY_SIMPLE_TYPE, "anySimpleType") \
    EACH(2, MARKER_TYPE_STRING, "string") \
    EACH(3, MARKER_TYPE_BOOLEAN, "boolean") \
    EACH(4, MARKER_TYPE_DECIMAL, "decimal") \
    EACH(5, MARKER_TYPE_FLOAT, "float") \
    EACH(6, MARKER_TYPE_DOUBLE, "double") \
    EACH(7, MARKER_TYPE_DURATION, "duration") \
    EACH(8, MARKER_TYPE_DATE_TIME, "dateTime") \
    EACH(9, MARKER_TYPE_TIME, "time") \
    EACH(10, MARKER_TYPE_DATE, "date") \
    EACH(11, MARKER_TYPE_G_YEAR_MONTH, "gYearMonth") \
    EACH(12, MARKER_TYPE_G_YEAR, "gYear") \
    EACH(13, MARKER_TYPE_G_MONTH_DAY, "gMonthDay") \
    EACH(14, MARKER_TYPE_G_DAY, "gDay") \
    EACH(15, MARKER_TYPE_G_MONTH, "gMonth") \
    EACH(16, MARKER_TYPE_HEX_BINARY, "hexBinary") \
    EACH(17, MARKER_TYPE_BASE64_BINARY, "base64Binary") \
    EACH(18, MARKER_TYPE_ANY_URI, "anyURI") \
    EACH(19, MARKER_TYPE_QNAME, "QName") \
    EACH(20, MARKER_TYPE_NOTATION, "NOTATION") \
    EACH(21, MARKER_TYPE_NMTOKENS, "NMTOKENS") \
    EACH(22, MARKER_TYPE_IDREFS, "IDREFS") \
    EACH(23, MARKER_TYPE_ENTITIES, "ENTITIES") \
    EACH(24, MARKER_TYPE_ANY_ATOMIC_TYPE, "anyAtomicType") \
    EACH(25, MARKER_TYPE_NORMALIZED_STRING, "normalizedString") \
    EACH(26, MARKER_TYPE_TOKEN, "token") \
    EACH(27, MARKER_TYPE_LANGUAGE, "language") \
    EACH(28, MARKER_TYPE_NMTOKEN, "NMTOKEN") \
    EACH(29, MARKER_TYPE_NAME, "Name") \
    EACH(30, MARKER_TYPE_NCNAME, "NCName") \
    EACH(31, MARKER_TYPE_ID, "ID") \
    EACH(32, MARKER_TYPE_IDREF, "IDREF") \
    EACH(33, MARKER_TYPE_ENTITY, "ENTITY") \
    EACH(34, MARKER_TYPE_INTEGER, "integer") \
    EACH(35, MARKER_TYPE_NON_POSITIVE_INTEGER, "nonPositiveInteger") \
    EACH(36, MARKER_TYPE_NON_NEGATIVE_INTEGER, "nonNegativeInteger") \
    EACH(37, MARKER_TYPE_LONG, "long") \
    EACH(38, MARKER_TYPE_NEGATIVE_INTEGER, "negativeInteger") \
    EACH(39, MARKER_TYPE_INT, "int") \
    EACH(40, MARKER_TYPE_SHORT, "short") \
    EACH(41, MARKER_TYPE_BYTE, "byte") \
    EACH(42, MARKER_TYPE_UNSIGNED_LONG, "unsignedLong") \
    EACH(43, MARKER_TYPE_POSITIVE_INTEGER, "positiveInteger") \
    EACH(44, MARKER_TYPE_UNSIGNED_INT, "unsignedInt") \
    EACH(45, MARKER_TYPE_UNSIGNED_SHORT, "unsignedShort") \
    EACH(46, MARKER_TYPE_UNSIGNED_BYTE, "unsignedByte") \
    EACH(47, MARKER_TYPE_DATE_TIME_STAMP, "dateTimeStamp") \
    EACH(48, MARKER_TYPE_DAY_TIME_DURATION, "dayTimeDuration") \
    EACH(49, MARKER_TYPE_YEAR_MONTH_DURATION, "yearMonthDuration")

enum marker_type {
    MARKER_TYPES(MARKER_NUMBERED)
    MARKER_BUILT_IN_TYPES, /* how many they are: one more than the last number */
    MARKER_NO_TYPE = 255   /* a byte that is no type's number: refused with 17 */
};

#define MARKER_MOST_TYPES 200  /* the rows of a table of types, at most */

/* The built-in list as a table of types: the parent of each type, in the order of
 * their numbers. With it marker_type_derivation_ok_by and marker_fill_types_by answer
 * as the functions without a table do. A table with further types may start with it. */
static const uint8_t marker_built_in_parents[MARKER_BUILT_IN_TYPES] = {
    0,  0,  1,  1,  1,  1,  1,  1,  1,  1,  /* anyType to time */
    1,  1,  1,  1,  1,  1,  1,  1,  1,  1,  /* date to QName */
    1,  1,  1,  1,  1,  2,  25, 26, 26, 26, /* NOTATION to Name */
    29, 30, 30, 30, 4,  34, 34, 34, 35, 37, /* NCName to int */
    39, 40, 36, 36, 42, 44, 45, 8,  7,  7,  /* short to yearMonthDuration */
};

/* The name of a type. Any other number is said to be none. The name lasts as
 * long as the program. */
static inline const char *marker_type_name(uint32_t type)
{
    switch (type) {
    MARKER_TYPES(MARKER_WORDED)
    default:
        return "no type of docs/KEY.md";
    }
}

/* The number of the type with this name, capital and small letters as in the
 * list; MARKER_NO_TYPE where none has it. */
static inline uint8_t marker_type_number(const char *name)
{
    for (uint8_t type = 0; type < MARKER_BUILT_IN_TYPES; type++) {
        const char *own = marker_type_name(type);
        size_t at = 0;
        while (own[at] != '\0' && own[at] == name[at]) {
            at++;
        }
        if (own[at] == name[at]) {
            return type;
        }
    }
    return MARKER_NO_TYPE;
}

/* What marker_type_table_fault returns where no row is out of order. */
#define MARKER_NO_ROW SIZE_MAX

/* The first row of a table of types that is out of order, for whoever has to mend
 * it: row 0 where it is missing or not its own parent, a later row whose parent is
 * not an earlier one, or row MARKER_MOST_TYPES, which is one too many. Or
 * MARKER_NO_ROW, exactly where there is no refusal 18. It is tested
 * (test_type_tables.c), not proved; of `parents` is asked what marker.h asks of a
 * slice. */
static inline size_t marker_type_table_fault(const uint8_t *parents, size_t parents_len)
{
    if (parents_len == 0 || parents[0] != 0) {
        return 0;
    }
    for (size_t row = 1; row < parents_len; row++) {
        if (row == MARKER_MOST_TYPES || parents[row] >= row) {
            return row;
        }
    }
    return MARKER_NO_ROW;
}

/* What is wrong with the row that marker_type_table_fault returned, to stand after
 * its number. The words last as long as the program. */
static inline const char *marker_type_row_words(size_t row)
{
    if (row == MARKER_NO_ROW) {
        return "nothing is wrong";
    }
    if (row >= MARKER_MOST_TYPES) {
        return "a table of types has at most 200 rows";
    }
    return row == 0 ? "it is missing, or not its own parent"
        : row == 1  ? "its parent is not row 0"
                    : "its parent is not an earlier row";
}

#ifdef __cplusplus
}
#endif

#endif
