//! Trees with their words of up to 4 names written down by hand from document 01's
//! 'What a tree allows', to hold the second reading (second/words.rs) to them.
//! The shorter words come first, then those of lower names, a wildcard's highest.

/// The tree, and its words.
pub const KNOWN: [(&str, &str); 37] = [
    ("a", "a"),
    ("w1", "w1"),
    ("a(0,0)", "the empty word"),
    ("a(0,1)", "the empty word, a"),
    ("a(0,*)", "the empty word, a, a a, a a a, a a a a"),
    ("a(3,*)", "a a a, a a a a"),
    ("a(4,4)", "a a a a"),
    ("a(5,*)", "none"),
    ("a(4294967295,4294967295)", "none"),
    ("S[]", "the empty word"),
    ("S(1000,1000)[]", "the empty word"),
    ("S[a,b]", "a b"),
    ("S[a,w]", "a w"),
    ("S(2,2)[a,b]", "a b a b"),
    ("S(3,3)[a,b]", "none"),
    ("S(0,2)[b,a]", "the empty word, b a, b a b a"),
    ("S(2,2)[a(0,1)]", "the empty word, a, a a"),
    ("S(2,3)[a(2,*)]", "a a a a"),
    ("S(4294967295,*)[a(0,1)]", "the empty word, a, a a, a a a, a a a a"),
    // Of an empty choice there is no round, but there may be none.
    ("C[]", "none"),
    ("C(0,1)[]", "the empty word"),
    ("S[a,C[]]", "none"),
    ("S[a,C(0,1)[]]", "a"),
    ("S(0,1)[a,C[]]", "the empty word"),
    ("C[w,a]", "a, w"),
    ("C[a,C[]]", "a"),
    ("C[a,b(0,0)]", "the empty word, a"),
    ("C(2,2)[a,b]", "a a, a b, b a, b b"),
    ("C(0,*)[S[a,b]]", "the empty word, a b, a b a b"),
    ("C(1,2)[S[a,b],c]", "c, a b, c c, a b c, c a b, a b a b"),
    // An all-group's items in any order, each unbroken.
    ("A[]", "the empty word"),
    ("A[a,b]", "a b, b a"),
    ("A[a,b,c(0,1)]", "a b, b a, a b c, a c b, b a c, b c a, c a b, c b a"),
    ("A[a(2,2),b]", "a a b, b a a"),
    ("A[a(1,2),a]", "a a, a a a"),
    ("A(0,1)[a,b(0,0)]", "the empty word, a"),
    ("S(2,2)[A[a,b]]", "a b a b, a b b a, b a a b, b a b a"),
];
