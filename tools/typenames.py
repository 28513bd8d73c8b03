"""Tables of types: the built-in types of XML Schema (document 02 §6; docs/KEY.md,
V1), and the form in which a paper has others in their place (document 02 §7; V5)."""

# Each name with its parent's number, in the order of the numbers.
BUILTIN_TYPES = (
    ("anyType", 0),
    ("anySimpleType", 0),
    ("string", 1),
    ("boolean", 1),
    ("decimal", 1),
    ("float", 1),
    ("double", 1),
    ("duration", 1),
    ("dateTime", 1),
    ("time", 1),
    ("date", 1),
    ("gYearMonth", 1),
    ("gYear", 1),
    ("gMonthDay", 1),
    ("gDay", 1),
    ("gMonth", 1),
    ("hexBinary", 1),
    ("base64Binary", 1),
    ("anyURI", 1),
    ("QName", 1),
    ("NOTATION", 1),
    ("NMTOKENS", 1),
    ("IDREFS", 1),
    ("ENTITIES", 1),
    ("anyAtomicType", 1),
    ("normalizedString", 2),
    ("token", 25),
    ("language", 26),
    ("NMTOKEN", 26),
    ("Name", 26),
    ("NCName", 29),
    ("ID", 30),
    ("IDREF", 30),
    ("ENTITY", 30),
    ("integer", 4),
    ("nonPositiveInteger", 34),
    ("nonNegativeInteger", 34),
    ("long", 34),
    ("negativeInteger", 35),
    ("int", 37),
    ("short", 39),
    ("byte", 40),
    ("unsignedLong", 36),
    ("positiveInteger", 36),
    ("unsignedInt", 42),
    ("unsignedShort", 44),
    ("unsignedByte", 45),
    ("dateTimeStamp", 8),
    ("dayTimeDuration", 7),
    ("yearMonthDuration", 7),
)

# Two numbers that the rules name: every table has them, by these names.
ANY_TYPE, ANY_SIMPLE_TYPE = 0, 1
GIVEN = BUILTIN_TYPES[:2]
# So many rows a table has at most.
MOST_TYPES = 200


class TypeTable:
    """Types by their numbers, the rows: `anyType` is row 0 and its own parent,
    `anySimpleType` is row 1, and every later row's parent is an earlier row."""

    def __init__(self, rows, declared=False):
        self.names = [name for name, _ in rows]
        self.parents = [parent for _, parent in rows]
        self.numbers = {name: number for number, name in enumerate(self.names)}
        # Whether a paper declares it; otherwise it is the built-in list.
        self.declared = declared

    @property
    def most(self):
        """The greatest number."""
        return len(self.names) - 1

    @property
    def rules(self):
        """The rules of docs/KEY.md for a verdict by it."""
        return ("V2", "V6") if self.declared else ("V2",)

    def chain(self, number):
        """A type and those above it, up to anyType."""
        found = [number]
        while found[-1] != ANY_TYPE:
            found.append(self.parents[found[-1]])
        return found


BUILTIN = TypeTable(BUILTIN_TYPES)
