//! Pointers and the tokens of arrays.

use super::Row;

/// Pointers.
#[rustfmt::skip]
pub const ROWS: &[Row] = &[
    // Malformed.
    ("no-slash", r#"{"a":1}"#, r#"[{"op":"remove","path":"a"}]"#, "refused 10 text 0 op 1 place 0 pointer 0"),
    ("blank-first", r#"{"a":1}"#, r#"[{"op":"remove","path":" /a"}]"#, "refused 10 text 0 op 1 place 0 pointer 0"),
    ("fragment", r#"{"a":1}"#, r##"[{"op":"remove","path":"#/a"}]"##, "refused 10 text 0 op 1 place 0 pointer 0"),
    ("tilde-alone", r#"{"~":1}"#, r#"[{"op":"remove","path":"~"}]"#, "refused 10 text 0 op 1 place 0 pointer 0"),
    ("tilde-without-slash", r#"{"~":1}"#, r#"[{"op":"remove","path":"~0"}]"#, "refused 10 text 0 op 1 place 0 pointer 0"),
    ("tilde-last", r#"{"~":1}"#, r#"[{"op":"remove","path":"/~"}]"#, "refused 10 text 0 op 1 place 0 pointer 0"),
    ("tilde-ends-token", r#"{"a~":{"b":1}}"#, r#"[{"op":"remove","path":"/a~/b"}]"#, "refused 10 text 0 op 1 place 0 pointer 0"),
    ("tilde-two", r#"{"~2":1}"#, r#"[{"op":"remove","path":"/~2"}]"#, "refused 10 text 0 op 1 place 0 pointer 0"),
    ("tilde-letter", r#"{"~a":1}"#, r#"[{"op":"remove","path":"/~a"}]"#, "refused 10 text 0 op 1 place 0 pointer 0"),
    ("tilde-tilde", r#"{"~":1}"#, r#"[{"op":"remove","path":"/~~0"}]"#, "refused 10 text 0 op 1 place 0 pointer 0"),
    ("tilde-after-good", r#"{"~":1}"#, r#"[{"op":"remove","path":"/~0~"}]"#, "refused 10 text 0 op 1 place 0 pointer 0"),
    ("tilde-beyond-ascii", r#"{"~":1}"#, r#"[{"op":"remove","path":"/~é"}]"#, "refused 10 text 0 op 1 place 0 pointer 0"),
    ("tilde-deep-in-what-is-missing", r#"{"a":1}"#, r#"[{"op":"remove","path":"/x/y/~"}]"#, "refused 10 text 0 op 1 place 0 pointer 0"),
    ("tilde-by-number", r#"{"a":1}"#, r#"[{"op":"remove","path":"/a\u007e"}]"#, "refused 10 text 0 op 1 place 0 pointer 0"),

    // Empty tokens.
    ("empty-token", r#"{"":1,"a":2}"#, r#"[{"op":"remove","path":"/"}]"#, r#"{"a":2}"#),
    ("two-empty-tokens", r#"{"":{"":1}}"#, r#"[{"op":"remove","path":"//"}]"#, r#"{"":{}}"#),
    ("empty-token-last", r#"{"a":{"":1}}"#, r#"[{"op":"remove","path":"/a/"}]"#, r#"{"a":{}}"#),
    ("empty-token-first", r#"{"":{"a":1}}"#, r#"[{"op":"remove","path":"//a"}]"#, r#"{"":{}}"#),
    ("empty-token-added", "{}", r#"[{"op":"add","path":"/","value":1}]"#, r#"{"":1}"#),
    ("root-is-no-empty-token", r#"{"":1}"#, r#"[{"op":"test","path":"","value":{"":1}}]"#, r#"{"":1}"#),

    // Escapes of a pointer.
    ("tilde-0", r#"{"~":1,"~0":2}"#, r#"[{"op":"remove","path":"/~0"}]"#, r#"{"~0":2}"#),
    ("tilde-1", r#"{"/":1,"~1":2}"#, r#"[{"op":"remove","path":"/~1"}]"#, r#"{"~1":2}"#),
    ("tilde-01", r#"{"/":1,"~1":2}"#, r#"[{"op":"remove","path":"/~01"}]"#, r#"{"/":1}"#),
    ("tilde-00", r#"{"~":1,"~0":2}"#, r#"[{"op":"remove","path":"/~00"}]"#, r#"{"~":1}"#),
    ("tilde-10", r#"{"/0":1,"/":2}"#, r#"[{"op":"remove","path":"/~10"}]"#, r#"{"/":2}"#),
    ("tilde-11", r#"{"/1":1,"/":2}"#, r#"[{"op":"remove","path":"/~11"}]"#, r#"{"/":2}"#),
    ("tilde-0-tilde-1", r#"{"~/":1,"/~":2}"#, r#"[{"op":"remove","path":"/~0~1"}]"#, r#"{"/~":2}"#),
    ("tilde-001", r#"{"~01":1,"~1":2}"#, r#"[{"op":"remove","path":"/~001"}]"#, r#"{"~1":2}"#),
    ("added-name-unescaped", "{}", r#"[{"op":"add","path":"/m~0n~1o","value":1}]"#, r#"{"m~n/o":1}"#),

    // Escapes of JSON come first.
    ("slash-by-number", r#"{"a":{"b":1}}"#, r#"[{"op":"remove","path":"\u002fa\u002Fb"}]"#, r#"{"a":{}}"#),
    ("slash-escaped", r#"{"a":{"b":1}}"#, r#"[{"op":"remove","path":"\/a\/b"}]"#, r#"{"a":{}}"#),
    ("tilde-by-number-then-1", r#"{"a/b":1}"#, r#"[{"op":"remove","path":"/a\u007e1b"}]"#, "{}"),
    ("all-by-number", r#"{"~":1}"#, r#"[{"op":"remove","path":"\u002f\u007e\u0030"}]"#, "{}"),
    ("name-by-number-in-path", r#"{"a":1}"#, r#"[{"op":"remove","path":"/\u0061"}]"#, "{}"),
    ("name-by-number-in-document", r#"{"\u0061":1}"#, r#"[{"op":"remove","path":"/a"}]"#, "{}"),
    ("name-by-number-replaced", r#"{"\u0061":1}"#, r#"[{"op":"add","path":"/a","value":2}]"#, r#"{"a":2}"#),
    ("name-with-pair", r#"{"😀":1}"#, r#"[{"op":"remove","path":"/\ud83d\ude00"}]"#, "{}"),
    ("name-with-control", r#"{"\u0001\n":1}"#, r#"[{"op":"remove","path":"/\u0001\u000A"}]"#, "{}"),
    ("name-with-quote", r#"{"\"\\":1}"#, r#"[{"op":"remove","path":"/\u0022\\"}]"#, "{}"),
    ("name-with-blank", r#"{" a ":1}"#, r#"[{"op":"remove","path":"/ a "}]"#, "{}"),
    ("name-not-normalized", r#"{"é":1}"#, r#"[{"op":"remove","path":"/e\u0301"}]"#, "refused 11 text 0 op 1 place 0 pointer 1"),
    ("name-by-case", r#"{"a":1}"#, r#"[{"op":"remove","path":"/A"}]"#, "refused 11 text 0 op 1 place 0 pointer 1"),
    ("percent-is-plain", r#"{"a":1}"#, r#"[{"op":"remove","path":"/%61"}]"#, "refused 11 text 0 op 1 place 0 pointer 1"),
    ("name-prefix", r#"{"ab":1}"#, r#"[{"op":"remove","path":"/a"}]"#, "refused 11 text 0 op 1 place 0 pointer 1"),

    // Prefixes are of tokens.
    ("prefix", r#"{"a":{"b":1}}"#, r#"[{"op":"move","from":"/a","path":"/a/b/c"}]"#, "refused 14 text 0 op 1 place 0 pointer 0"),
    ("prefix-of-text-only", r#"{"a":1}"#, r#"[{"op":"move","from":"/a","path":"/ab"}]"#, r#"{"ab":1}"#),
    ("prefix-escaped-slash-is-no-token", r#"{"a":1}"#, r#"[{"op":"move","from":"/a","path":"/a~1b"}]"#, r#"{"a/b":1}"#),
    ("prefix-of-escaped", r#"{"a/b":{}}"#, r#"[{"op":"move","from":"/a~1b","path":"/a~1b/c"}]"#, "refused 14 text 0 op 1 place 0 pointer 0"),
    ("prefix-spelled-otherwise", r#"{"a":{}}"#, r#"[{"op":"move","from":"/\u0061","path":"/a/b"}]"#, "refused 14 text 0 op 1 place 0 pointer 0"),
    ("prefix-of-root", r#"{"a":{}}"#, r#"[{"op":"move","from":"","path":"/a"}]"#, "refused 14 text 0 op 1 place 0 pointer 0"),
    ("prefix-of-root-empty-token", r#"{"":{}}"#, r#"[{"op":"move","from":"","path":"/"}]"#, "refused 14 text 0 op 1 place 0 pointer 0"),
    ("prefix-empty-tokens", r#"{"":{}}"#, r#"[{"op":"move","from":"/","path":"//"}]"#, "refused 14 text 0 op 1 place 0 pointer 0"),
    ("prefix-the-other-way", r#"{"a":{"b":{"c":1}}}"#, r#"[{"op":"move","from":"/a/b/c","path":"/a/b"}]"#, r#"{"a":{"b":1}}"#),
    ("prefix-in-array", "[[1]]", r#"[{"op":"move","from":"/0","path":"/0/0"}]"#, "refused 14 text 0 op 1 place 0 pointer 0"),
    ("prefix-not-by-index-value", "[[1],[2]]", r#"[{"op":"move","from":"/0","path":"/00/0"}]"#, "refused 12 text 0 op 1 place 0 pointer 1"),
];

/// Tokens of arrays.
#[rustfmt::skip]
pub const INDEX_ROWS: &[Row] = &[
    ("0", "[10,11,12]", r#"[{"op":"replace","path":"/0","value":0}]"#, "[0,11,12]"),
    ("2", "[10,11,12]", r#"[{"op":"replace","path":"/2","value":0}]"#, "[10,11,0]"),
    ("3", "[10,11,12]", r#"[{"op":"replace","path":"/3","value":0}]"#, "refused 11 text 0 op 1 place 0 pointer 1"),
    ("10", "[0,1,2,3,4,5,6,7,8,9,10]", r#"[{"op":"remove","path":"/10"}]"#, "[0,1,2,3,4,5,6,7,8,9]"),
    ("by-number", "[10,11,12]", r#"[{"op":"remove","path":"/\u0031"}]"#, "[10,12]"),

    // What is no index.
    ("00", "[10,11,12]", r#"[{"op":"remove","path":"/00"}]"#, "refused 12 text 0 op 1 place 0 pointer 1"),
    ("01", "[10,11,12]", r#"[{"op":"remove","path":"/01"}]"#, "refused 12 text 0 op 1 place 0 pointer 1"),
    ("plus-1", "[10,11,12]", r#"[{"op":"remove","path":"/+1"}]"#, "refused 12 text 0 op 1 place 0 pointer 1"),
    ("minus-1", "[10,11,12]", r#"[{"op":"remove","path":"/-1"}]"#, "refused 12 text 0 op 1 place 0 pointer 1"),
    ("minus-0", "[10,11,12]", r#"[{"op":"remove","path":"/-0"}]"#, "refused 12 text 0 op 1 place 0 pointer 1"),
    ("dash-dash", "[10,11,12]", r#"[{"op":"remove","path":"/--"}]"#, "refused 12 text 0 op 1 place 0 pointer 1"),
    ("empty", "[10,11,12]", r#"[{"op":"remove","path":"/"}]"#, "refused 12 text 0 op 1 place 0 pointer 1"),
    ("letter", "[10,11,12]", r#"[{"op":"remove","path":"/a"}]"#, "refused 12 text 0 op 1 place 0 pointer 1"),
    ("letter-after", "[10,11,12]", r#"[{"op":"remove","path":"/1a"}]"#, "refused 12 text 0 op 1 place 0 pointer 1"),
    ("blank-before", "[10,11,12]", r#"[{"op":"remove","path":"/ 1"}]"#, "refused 12 text 0 op 1 place 0 pointer 1"),
    ("blank-after", "[10,11,12]", r#"[{"op":"remove","path":"/1 "}]"#, "refused 12 text 0 op 1 place 0 pointer 1"),
    ("point", "[10,11,12]", r#"[{"op":"remove","path":"/1.0"}]"#, "refused 12 text 0 op 1 place 0 pointer 1"),
    ("exponent", "[10,11,12]", r#"[{"op":"remove","path":"/1e0"}]"#, "refused 12 text 0 op 1 place 0 pointer 1"),
    ("hex", "[10,11,12]", r#"[{"op":"remove","path":"/0x1"}]"#, "refused 12 text 0 op 1 place 0 pointer 1"),
    ("arabic-digit", "[10,11,12]", r#"[{"op":"remove","path":"/١"}]"#, "refused 12 text 0 op 1 place 0 pointer 1"),
    ("fullwidth-digit", "[10,11,12]", r#"[{"op":"remove","path":"/１"}]"#, "refused 12 text 0 op 1 place 0 pointer 1"),
    ("nul-after", "[10,11,12]", r#"[{"op":"remove","path":"/1\u0000"}]"#, "refused 12 text 0 op 1 place 0 pointer 1"),
    ("tilde-0", "[10,11,12]", r#"[{"op":"remove","path":"/~0"}]"#, "refused 12 text 0 op 1 place 0 pointer 1"),
    ("no-index-in-empty", "[]", r#"[{"op":"remove","path":"/x"}]"#, "refused 12 text 0 op 1 place 0 pointer 1"),

    // However long.
    ("2-to-8-plus-1", "[10,11,12]", r#"[{"op":"remove","path":"/257"}]"#, "refused 11 text 0 op 1 place 0 pointer 1"),
    ("2-to-16", "[10,11,12]", r#"[{"op":"remove","path":"/65536"}]"#, "refused 11 text 0 op 1 place 0 pointer 1"),
    ("2-to-32", "[10,11,12]", r#"[{"op":"remove","path":"/4294967296"}]"#, "refused 11 text 0 op 1 place 0 pointer 1"),
    ("2-to-64", "[10,11,12]", r#"[{"op":"remove","path":"/18446744073709551616"}]"#, "refused 11 text 0 op 1 place 0 pointer 1"),
    ("2-to-64-less-1", "[10,11,12]", r#"[{"op":"add","path":"/18446744073709551615","value":0}]"#, "refused 11 text 0 op 1 place 0 pointer 1"),
    ("2-to-64-plus-1", "[10,11,12]", r#"[{"op":"add","path":"/18446744073709551617","value":0}]"#, "refused 11 text 0 op 1 place 0 pointer 1"),
    ("20-digits", "[10,11,12]", r#"[{"op":"remove","path":"/10000000000000000000"}]"#, "refused 11 text 0 op 1 place 0 pointer 1"),
    ("30-digits", "[10,11,12]", r#"[{"op":"remove","path":"/100000000000000000000000000000"}]"#, "refused 11 text 0 op 1 place 0 pointer 1"),
    ("2-to-128", "[10,11,12]", r#"[{"op":"test","path":"/340282366920938463463374607431768211456","value":0}]"#, "refused 11 text 0 op 1 place 0 pointer 1"),
    ("20-digits-padded", "[10,11,12]", r#"[{"op":"remove","path":"/00000000000000000001"}]"#, "refused 12 text 0 op 1 place 0 pointer 1"),
    ("30-digits-then-letter", "[10,11,12]", r#"[{"op":"remove","path":"/10000000000000000000000000000x"}]"#, "refused 12 text 0 op 1 place 0 pointer 1"),
    ("20-zeros", "[10,11,12]", r#"[{"op":"remove","path":"/00000000000000000000"}]"#, "refused 12 text 0 op 1 place 0 pointer 1"),

    // The dash.
    ("dash-remove", "[10,11,12]", r#"[{"op":"remove","path":"/-"}]"#, "refused 11 text 0 op 1 place 0 pointer 1"),
    ("dash-replace", "[10,11,12]", r#"[{"op":"replace","path":"/-","value":1}]"#, "refused 11 text 0 op 1 place 0 pointer 1"),
    ("dash-test", "[10,11,12]", r#"[{"op":"test","path":"/-","value":12}]"#, "refused 11 text 0 op 1 place 0 pointer 1"),
    ("dash-move-from", "[10,11,12]", r#"[{"op":"move","from":"/-","path":"/0"}]"#, "refused 11 text 0 op 1 place 0 pointer 2"),
    ("dash-copy-from", "[10,11,12]", r#"[{"op":"copy","from":"/-","path":"/0"}]"#, "refused 11 text 0 op 1 place 0 pointer 2"),
    ("dash-move-to", "[10,11,12]", r#"[{"op":"move","from":"/0","path":"/-"}]"#, "[11,12,10]"),
    ("dash-copy-to", "[10,11,12]", r#"[{"op":"copy","from":"/0","path":"/-"}]"#, "[10,11,12,10]"),
    ("dash-through", "[[1]]", r#"[{"op":"add","path":"/-/0","value":1}]"#, "refused 11 text 0 op 1 place 0 pointer 1"),
    ("dash-in-empty", "[]", r#"[{"op":"add","path":"/-","value":1}]"#, "[1]"),

    // Adding.
    ("add-0-in-empty", "[]", r#"[{"op":"add","path":"/0","value":1}]"#, "[1]"),
    ("add-1-in-empty", "[]", r#"[{"op":"add","path":"/1","value":1}]"#, "refused 11 text 0 op 1 place 0 pointer 1"),
    ("add-first", "[1,2]", r#"[{"op":"add","path":"/0","value":0}]"#, "[0,1,2]"),
    ("add-01", "[1,2]", r#"[{"op":"add","path":"/01","value":0}]"#, "refused 12 text 0 op 1 place 0 pointer 1"),
    ("add-letter", "[1,2]", r#"[{"op":"add","path":"/x","value":0}]"#, "refused 12 text 0 op 1 place 0 pointer 1"),
    ("add-empty", "[1,2]", r#"[{"op":"add","path":"/","value":0}]"#, "refused 12 text 0 op 1 place 0 pointer 1"),

    // On the way, on scalars and on objects.
    ("no-index-on-the-way", "[[1]]", r#"[{"op":"remove","path":"/x/0"}]"#, "refused 12 text 0 op 1 place 0 pointer 1"),
    ("no-index-deeper", "[[1]]", r#"[{"op":"remove","path":"/0/x"}]"#, "refused 12 text 0 op 1 place 1 pointer 1"),
    ("missing-before-no-index", "[[1]]", r#"[{"op":"remove","path":"/1/x"}]"#, "refused 11 text 0 op 1 place 0 pointer 1"),
    ("scalar", "[1]", r#"[{"op":"remove","path":"/0/0"}]"#, "refused 11 text 0 op 1 place 1 pointer 1"),
    ("scalar-any-token", "[1]", r#"[{"op":"remove","path":"/0/01"}]"#, "refused 11 text 0 op 1 place 1 pointer 1"),
    ("scalar-dash", "[\"abc\"]", r#"[{"op":"add","path":"/0/-","value":1}]"#, "refused 11 text 0 op 1 place 1 pointer 1"),
    ("object-names", r#"{"0":1,"-":2,"01":3}"#, r#"[{"op":"remove","path":"/01"},{"op":"remove","path":"/-"}]"#, r#"{"0":1}"#),
    ("object-dash-added", "{}", r#"[{"op":"add","path":"/-","value":1}]"#, r#"{"-":1}"#),
    ("object-01-missing", r#"{"1":1}"#, r#"[{"op":"remove","path":"/01"}]"#, "refused 11 text 0 op 1 place 0 pointer 1"),
];
