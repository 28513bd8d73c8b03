"""Hints for mistakes in a paper that are easily made."""

from typenames import BUILTIN

A_LEAF = "a leaf (a letter such as a, w or a1)"
END = "the end of the line"

PAIR_FIRST = "a group's pair stands before its items, as in S(0,1)[a,b]"
SEVERAL = (
    "this looks like trees again: papers in one file are parted by a blank line or by a line "
    "'paper : NAME', and `mark` and `why` take several"
)
LONG_NAME = (
    "a leaf is one letter from a to z, or one and a number, as a, b or a1; commas part leaves, and "
    "a comment can say what each stands for, as '# a white  b black'"
)
ONE_TREE = (
    "a paper has two trees, DERIVED | BASE; `join`, `total`, `emptiable`, `tidy` and `item` take "
    "one alone"
)
TREES_FIRST = "the two trees stand before all else but the paper's name"
NAMING = "a line that names a paper is written 'paper : NAME', without capitals"
VERDICT = "a verdict stands after ':', as in b | c : ok"
SMALL_LEAVES = "S, C and A are groups, with their items in brackets; leaves are small letters"
CAPITAL_GROUPS = "groups are capital letters: S (sequence), C (choice), A (all)"
HOW_OFTEN = "how often is said by a pair of minimum and maximum, as in a(0,1), a(1,*) or a(2,2)"
GROUP_WORDS = {"sequence": "S", "seq": "S", "choice": "C", "all": "A"}
VERDICT_WORDS = ("ok", "undecided", "first", "second")
COMMAS = "commas part items, as in S[a,b]"
TYPE_PREFIXES = ("xs", "xsd")
NO_PREFIX = "a type's name stands without a prefix, as in a : type integer"
OWN_TYPE = (
    "only the types that XML Schema has built in stand here, unless lines such as "
    "rating < anySimpleType declare others; or a line sets the verdict, as a | b : second ok"
)
ROW_LINE = (
    "a line with < declares rows of the paper's own table of types: their names and one parent, "
    "as in GM, IM < title"
)
# What a sign in place of another stands for, most likely.
INSTEAD = {";": COMMAS, "*": HOW_OFTEN, "?": HOW_OFTEN}


def hint_at(token, before, wanted):
    """What to write where this token stands after that one and something else
    was wanted; None where nothing can be guessed."""
    after = before.text if before else ""
    if token.text == "(" and after == "]":
        return PAIR_FIRST
    if token.text == "[" and after in ("s", "c", "a"):
        return CAPITAL_GROUPS
    if "'['" in wanted and after in ("S", "C", "A"):
        return SMALL_LEAVES
    if wanted == ["'*'", "a number"] or (wanted == ["','"] and token.text == ")"):
        return HOW_OFTEN
    if "']'" in wanted and "','" in wanted and token.text.isalnum():
        return COMMAS
    if wanted[-1] in ("'|'", END):
        return hint_after_trees(token, wanted)
    return hint_for_leaf(token) if A_LEAF in wanted else INSTEAD.get(token.text)


def hint_after_trees(token, wanted):
    """Where a tree has ended, or a statement."""
    in_trees = "'+'" in wanted or wanted[-1] == "'|'"
    if not token.text:
        return ONE_TREE
    if token.text in VERDICT_WORDS and in_trees:
        return VERDICT
    return TREES_FIRST if token.text == ":" and in_trees else INSTEAD.get(token.text)


def hint_for_leaf(token):
    """Where a leaf is wanted."""
    word = token.text
    if word.lower() == "paper":
        return NAMING
    if word.lower() in GROUP_WORDS:
        return f"groups are S (sequence), C (choice) and A (all), here {GROUP_WORDS[word.lower()]}"
    if not word[:1].isalpha():
        return None
    if len(word) == 1 and word.isascii():
        return SMALL_LEAVES
    return None if word[1:].isdigit() else LONG_NAME


def hint_for_type(token, table):
    """Where a type of this table is wanted."""
    word = token.text
    if word.lower() in TYPE_PREFIXES:
        return NO_PREFIX
    if not word[:1].isalpha():
        return None
    return hint_for_name(word, table.names, table.declared)


def hint_for_name(word, names, declared=True):
    """Where a word is none of the names of a table that a paper declares, or of the
    built-in list."""
    near = next((name for name in names if name.lower() == word.lower()), None)
    if near:
        return f"capitals and small letters count in a type's name, here {near}"
    if not declared:
        return OWN_TYPE
    line = f"a line declares it, as {word} < anySimpleType"
    if word not in BUILTIN.numbers:
        return line
    return f"the paper's own table of types is in the place of the built-in list: {line}"


def type_first(token, table):
    """Where a type's name stands, and the word type is wanted."""
    # `Name` is more likely `name` with a capital.
    if token.text not in table.numbers or token.text == "Name":
        return None
    return f"a type stands after the word type, as in a : type {token.text}"


def type_missing(name, table):
    """Where an element has no type, and needs one."""
    some = table.names[-1] if table.declared else "decimal"
    return (f"give it one, as {name} : type {some}, or {name} : type anyType where the schema has "
            "none for it")
