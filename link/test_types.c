/*
 * Tests of types.h and of marker_type_derivation_ok, which test.c runs with its
 * own: each name, the verdict for every two types, and numbers that the list does
 * not have.
 */
#include <string.h>

#include "test.h"

enum { TYPES = MARKER_BUILT_IN_TYPES };

/* Each type below the one that it is derived from, a step further in. */
static const char *const OUTLINE[TYPES] = {
    "anyType",
    " anySimpleType",
    "  string",
    "   normalizedString",
    "    token",
    "     language",
    "     NMTOKEN",
    "     Name",
    "      NCName",
    "       ID",
    "       IDREF",
    "       ENTITY",
    "  boolean",
    "  decimal",
    "   integer",
    "    nonPositiveInteger",
    "     negativeInteger",
    "    nonNegativeInteger",
    "     unsignedLong",
    "      unsignedInt",
    "       unsignedShort",
    "        unsignedByte",
    "     positiveInteger",
    "    long",
    "     int",
    "      short",
    "       byte",
    "  float",
    "  double",
    "  duration",
    "   dayTimeDuration",
    "   yearMonthDuration",
    "  dateTime",
    "   dateTimeStamp",
    "  time",
    "  date",
    "  gYearMonth",
    "  gYear",
    "  gMonthDay",
    "  gDay",
    "  gMonth",
    "  hexBinary",
    "  base64Binary",
    "  anyURI",
    "  QName",
    "  NOTATION",
    "  NMTOKENS",
    "  IDREFS",
    "  ENTITIES",
    "  anyAtomicType",
};

static size_t places[TYPES]; /* where each type stands in the outline */

/* How far in a line of the outline is. */
static size_t steps(size_t place)
{
    return strspn(OUTLINE[place], " ");
}

/* Each line of the outline is a type, and each type is one line. */
static void test_names(void)
{
    unsigned lines[TYPES] = {0};
    for (size_t place = 0; place < TYPES; place++) {
        const char *name = OUTLINE[place] + steps(place);
        uint8_t type = marker_type_number(name);
        check(name, 1, (uint64_t)(type < TYPES));
        if (type < TYPES) {
            check(name, 0, (uint64_t)(strcmp(name, marker_type_name(type)) != 0));
            places[type] = place;
            lines[type]++;
        }
    }
    for (size_t type = 0; type < TYPES; type++) {
        check("the lines of a type", 1, lines[type]);
    }
    check("the number of integer", 34, marker_type_number("integer"));
    check("the constant of integer", 34, MARKER_TYPE_INTEGER);
    check("the last number", TYPES - 1, MARKER_TYPE_YEAR_MONTH_DURATION);
}

static void test_no_names(void)
{
    const char *none = marker_type_name(TYPES);
    const char *const names[7] = {"", "in", "integers", "Integer", "integer ", " integer", none};
    for (size_t k = 0; k < 7; k++) {
        check(names[k], MARKER_NO_TYPE, marker_type_number(names[k]));
    }
    const uint32_t numbers[4] = {TYPES, MARKER_NO_TYPE, 256, UINT32_MAX};
    for (size_t k = 0; k < 4; k++) {
        const char *name = marker_type_name(numbers[k]);
        check(name, 0, (uint64_t)(strcmp("no type of docs/KEY.md", name) != 0));
    }
}

/* What is derived from a type follows it in the outline, all of it further in. */
uint32_t by_outline(uint32_t derived, uint32_t base)
{
    size_t place = places[base];
    if (base == MARKER_TYPE_ANY_SIMPLE_TYPE) {
        return MARKER_DERIVATION_OK;
    }
    while (place + 1 < TYPES && steps(place + 1) > steps(places[base])) {
        place++;
    }
    int below = places[base] <= places[derived] && places[derived] <= place;
    return below ? MARKER_DERIVATION_OK : MARKER_NOT_DERIVED;
}

static void test_verdicts(void)
{
    unsigned ok = 0;
    for (uint32_t derived = 0; derived < TYPES; derived++) {
        for (uint32_t base = 0; base < TYPES; base++) {
            uint32_t verdict = marker_type_derivation_ok(derived, base);
            check(marker_type_name(derived), by_outline(derived, base), verdict);
            check("a verdict is no refusal", 0, marker_mark_refusal(verdict));
            ok += verdict == MARKER_DERIVATION_OK;
        }
    }
    /* Of each type itself and its ancestors; and of anyType with anySimpleType as base. */
    unsigned ancestors = 1;
    for (size_t place = 0; place < TYPES; place++) {
        ancestors += 1 + (unsigned)steps(place);
    }
    check("how many are ok", ancestors, ok);
    check("the longest chain", MARKER_DERIVATION_OK,
          marker_type_derivation_ok(MARKER_TYPE_UNSIGNED_BYTE, MARKER_TYPE_DECIMAL));
    check("a parent against its child", MARKER_NOT_DERIVED,
          marker_type_derivation_ok(MARKER_TYPE_INTEGER, MARKER_TYPE_INT));
}

/* Numbers that the list does not have, beside each that it has and each other. */
static void test_unknown_numbers(void)
{
    const uint32_t unknown[8] = {TYPES, TYPES + 1, 255, 256, 256 + MARKER_TYPE_INTEGER, 65536,
                                 UINT32_MAX - 1, UINT32_MAX};
    const uint32_t refused = MARKER_REFUSED + MARKER_REFUSAL_TYPE_NUMBER;
    for (size_t k = 0; k < 8; k++) {
        for (uint32_t type = 0; type < TYPES; type++) {
            check("an unknown derived type", refused, marker_type_derivation_ok(unknown[k], type));
            check("an unknown base type", refused, marker_type_derivation_ok(type, unknown[k]));
        }
        for (size_t other = 0; other < 8; other++) {
            check("unknown types", MARKER_REFUSAL_TYPE_NUMBER,
                  marker_mark_refusal(marker_type_derivation_ok(unknown[k], unknown[other])));
        }
    }
}

void test_types(void)
{
    test_names();
    test_no_names();
    test_verdicts();
    test_unknown_numbers();
}
