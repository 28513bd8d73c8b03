"""What `tools/paper --help` says of papers."""

DESCRIPTION = (
    "Marks papers in document 01's notation and says why each has its mark, turns a paper into "
    "an exam sheet and back, and answers questions about trees alone."
)

# tools/README.md has these too; a test compares them.
USES = {
    "mark": "papers as text get their marks in words",
    "why": "papers as text get their marks and every judgement behind them",
    "write": "a paper as text becomes a sheet",
    "read": "a sheet becomes a paper as text, with its mark in words",
    "join": "a chain of trees, alone or as a paper's base, becomes one tree",
    "total": "a tree or chain, or both trees of a paper, get total range and emptiness",
    "emptiable": "likewise, whether it may be empty",
    "tidy": "likewise, the tidied tree, or each step to it",
    "item": "likewise, the K-th item of the root, from 0",
    "types": "the rows of a paper's table of types, or of one in bytes",
}

# tools/README.md has these lines too; a test compares them.
GRAMMAR = """\
paper : NAME                 the paper's name, any text without #, if it has one
DERIVED | BASE               the two trees, before all else
leaves : LEAVES              every leaf, in the order of the leaf numbers
LEAVES : name NUMBER         elements: the local name number, up to 65535
LEAVES : type TYPE           elements: a type, built in or of the paper's own
LEAVES : PROCESS             wildcards: process contents skip, lax or strict
LEAVES | LEAVES : VERDICTS   each of these as derived, each of those as base
NAMES < PARENT               rows of the paper's own table of types

DERIVED, BASE   trees: a leaf; or S, C or A with its items, as S[a,C[b,w]] or
                S[]; after a letter a pair may stand, as a(0,1) or S(2,*)[a]
BASE            may be a chain: up to 17 levels that extend one another, root
                type first, each a tree or - for none, as S[a,b] + - + c
a pair          minimum and maximum, up to 4294967295 or * for unbounded;
                no pair means (1,1)
a leaf          a letter, or a letter and a number from 1: w, w1, w2 ... are
                wildcards, all other small letters elements
LEAVES          one leaf, or several with commas
TYPE            a name, as integer, or its number, 0 to 49 (docs/KEY.md, V1);
                where lines declare rows, the name or number of one of these
NAMES           one name of a type, or several with commas, each the next row
                from 2 on: letters, digits, _, - and ., a letter first
PARENT          anyType or anySimpleType, rows 0 and 1, or an earlier row
VERDICTS        a verdict for both tables; or first and a verdict; or second
                and a verdict; or first VERDICT, second VERDICT
a verdict       ok (or 0), undecided (or 1), or a reason from 140 to 152
"""

EPILOG = f"""\
A paper has one statement to a line; a tree goes on in the next line while a
bracket is open, after | or +, and where the next line begins with one of these.
# starts a comment, and blanks may stand between letters, numbers and signs.

{GRAMMAR}
Where nothing else is said, equal leaves are ok and others 140 in both tables,
an element's name number is its place among the leaves (from 0), process
contents are skip, and the leaves are those of the trees as they turn up. Of two
elements that have types, the types decide in the second table: ok, or 148 where
the derived one's is not derived from the base's; so they do where a line says
undecided. As soon as a line declares a row, the paper's own table of types is
in the place of the built-in list; its rows are read before all other lines.

`mark` and `why` take files, folders of files *.paper, and several papers in a
file, parted by a blank line or by lines `paper : NAME`. `join`, `total`,
`emptiable`, `tidy` and `item` take a paper without DERIVED | too. A number
above 4294967295 is 'too large', and only what has no bound is 'unbounded'.

The answers are those of the proved programs marker, join, describe, tidy, item,
fill and fill_by, which `tools/build` makes; MARKER, JOIN, DESCRIBE, TIDY, ITEM,
FILL and FILL_BY name others.

Exit status: 0 fine; 1 wrong notation, a refused sheet or table of types, or a
program that disagrees; 2 bad usage, a file that can't be read or written, or no
answer since a program is missing.
"""
