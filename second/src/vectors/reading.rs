//! Reading: structure, literals, blanks and repeated names.

use super::Row;

/// Documents, with an empty patch.
#[rustfmt::skip]
pub const ROWS: &[Row] = &[
    // Blanks, and what is none.
    ("blanks", " \t\n\r[ \t\n\r1 \t\n\r, \t\n\r{ \t\n\r\"a\" \t\n\r: \t\n\r2 \t\n\r} \t\n\r] \t\n\r", "[]", r#"[1,{"a":2}]"#),
    ("blanks-in-empty", "[[ ],{\n}]", "[]", "[[],{}]"),
    ("only-blanks", " \n", "[]", "refused 3 text 1 op 0 place 2 pointer 0"),
    ("vertical-tab", "\u{0B}1", "[]", "refused 3 text 1 op 0 place 0 pointer 0"),
    ("form-feed", "[1,\u{0C}2]", "[]", "refused 3 text 1 op 0 place 3 pointer 0"),
    ("no-break-space", "\u{A0}1", "[]", "refused 3 text 1 op 0 place 0 pointer 0"),
    ("nul", "1\0", "[]", "refused 3 text 1 op 0 place 1 pointer 0"),
    ("comment", "1/**/", "[]", "refused 3 text 1 op 0 place 1 pointer 0"),

    // The byte order mark.
    ("mark-first", "\u{FEFF}1", "[]", "refused 3 text 1 op 0 place 0 pointer 0"),
    ("mark-after-blank", " \u{FEFF}1", "[]", "refused 3 text 1 op 0 place 1 pointer 0"),
    ("mark-last", "1\u{FEFF}", "[]", "refused 3 text 1 op 0 place 1 pointer 0"),
    ("mark-in-string", "\"\u{FEFF}\"", "[]", "\"\u{FEFF}\""),

    // Literals.
    ("null", "null", "[]", "null"),
    ("true", "true", "[]", "true"),
    ("false", "false", "[]", "false"),
    ("null-cut", "nul", "[]", "refused 3 text 1 op 0 place 3 pointer 0"),
    ("null-upper", "nulL", "[]", "refused 3 text 1 op 0 place 3 pointer 0"),
    ("null-longer", "nullx", "[]", "refused 3 text 1 op 0 place 4 pointer 0"),
    ("null-capital", "Null", "[]", "refused 3 text 1 op 0 place 0 pointer 0"),
    ("true-broken", "tru e", "[]", "refused 3 text 1 op 0 place 3 pointer 0"),
    ("true-two", "truetrue", "[]", "refused 3 text 1 op 0 place 4 pointer 0"),
    ("false-wrong", "falsy", "[]", "refused 3 text 1 op 0 place 4 pointer 0"),
    ("nan", "NaN", "[]", "refused 3 text 1 op 0 place 0 pointer 0"),
    ("nan-small", "nan", "[]", "refused 3 text 1 op 0 place 1 pointer 0"),
    ("undefined", "undefined", "[]", "refused 3 text 1 op 0 place 0 pointer 0"),

    // Arrays.
    ("array-empty", "[]", "[]", "[]"),
    ("array-nested", "[[],[[]],[1,[2]]]", "[]", "[[],[[]],[1,[2]]]"),
    ("array-open", "[", "[]", "refused 3 text 1 op 0 place 1 pointer 0"),
    ("array-cut-after-value", "[1", "[]", "refused 3 text 1 op 0 place 2 pointer 0"),
    ("array-cut-after-comma", "[1,", "[]", "refused 3 text 1 op 0 place 3 pointer 0"),
    ("array-cut-after-blank", "[1, ", "[]", "refused 3 text 1 op 0 place 4 pointer 0"),
    ("array-comma-first", "[,1]", "[]", "refused 3 text 1 op 0 place 1 pointer 0"),
    ("array-two-commas", "[1,,2]", "[]", "refused 3 text 1 op 0 place 3 pointer 0"),
    ("array-comma-blank-last", "[1, ]", "[]", "refused 3 text 1 op 0 place 4 pointer 0"),
    ("array-no-comma", "[1 2]", "[]", "refused 3 text 1 op 0 place 3 pointer 0"),
    ("array-colon", "[1:2]", "[]", "refused 3 text 1 op 0 place 2 pointer 0"),
    ("array-wrong-end", "[1}", "[]", "refused 3 text 1 op 0 place 2 pointer 0"),
    ("array-wrong-end-empty", "[}", "[]", "refused 3 text 1 op 0 place 1 pointer 0"),
    ("array-end-alone", "]", "[]", "refused 3 text 1 op 0 place 0 pointer 0"),
    ("array-end-twice", "[]]", "[]", "refused 3 text 1 op 0 place 2 pointer 0"),

    // Objects.
    ("object-empty", "{}", "[]", "{}"),
    ("object-nested", r#"{"a":{"b":{}},"c":[{"d":1}]}"#, "[]", r#"{"a":{"b":{}},"c":[{"d":1}]}"#),
    ("object-open", "{", "[]", "refused 3 text 1 op 0 place 1 pointer 0"),
    ("object-cut-after-name", r#"{"a""#, "[]", "refused 3 text 1 op 0 place 4 pointer 0"),
    ("object-cut-after-colon", r#"{"a":"#, "[]", "refused 3 text 1 op 0 place 5 pointer 0"),
    ("object-cut-after-value", r#"{"a":1"#, "[]", "refused 3 text 1 op 0 place 6 pointer 0"),
    ("object-cut-after-comma", r#"{"a":1,"#, "[]", "refused 3 text 1 op 0 place 7 pointer 0"),
    ("object-comma-last", r#"{"a":1,}"#, "[]", "refused 3 text 1 op 0 place 7 pointer 0"),
    ("object-comma-first", r#"{,"a":1}"#, "[]", "refused 3 text 1 op 0 place 1 pointer 0"),
    ("object-two-commas", r#"{"a":1,,"b":2}"#, "[]", "refused 3 text 1 op 0 place 7 pointer 0"),
    ("object-no-comma", r#"{"a":1 "b":2}"#, "[]", "refused 3 text 1 op 0 place 7 pointer 0"),
    ("object-no-colon", r#"{"a" 1}"#, "[]", "refused 3 text 1 op 0 place 5 pointer 0"),
    ("object-comma-for-colon", r#"{"a",1}"#, "[]", "refused 3 text 1 op 0 place 4 pointer 0"),
    ("object-two-colons", r#"{"a"::1}"#, "[]", "refused 3 text 1 op 0 place 5 pointer 0"),
    ("object-no-value", r#"{"a":}"#, "[]", "refused 3 text 1 op 0 place 5 pointer 0"),
    ("object-bare-name", "{a:1}", "[]", "refused 3 text 1 op 0 place 1 pointer 0"),
    ("object-number-name", "{1:2}", "[]", "refused 3 text 1 op 0 place 1 pointer 0"),
    ("object-null-name", "{null:2}", "[]", "refused 3 text 1 op 0 place 1 pointer 0"),
    ("object-array-name", "{[]:2}", "[]", "refused 3 text 1 op 0 place 1 pointer 0"),
    ("object-single-quotes", "{'a':1}", "[]", "refused 3 text 1 op 0 place 1 pointer 0"),
    ("object-wrong-end", r#"{"a":1]"#, "[]", "refused 3 text 1 op 0 place 6 pointer 0"),
    ("object-end-alone", "}", "[]", "refused 3 text 1 op 0 place 0 pointer 0"),

    // More than one value.
    ("two-numbers", "1 2", "[]", "refused 3 text 1 op 0 place 2 pointer 0"),
    ("two-strings", r#""a" "b""#, "[]", "refused 3 text 1 op 0 place 4 pointer 0"),
    ("two-objects", "{}{}", "[]", "refused 3 text 1 op 0 place 2 pointer 0"),
    ("comma-after", "1,", "[]", "refused 3 text 1 op 0 place 1 pointer 0"),

    // Repeated names.
    ("repeat-escaped", r#"{"a":1,"\u0061":2}"#, "[]", "refused 4 text 1 op 0 place 14 pointer 0"),
    ("repeat-escaped-first", r#"{"\u0061":1,"a":2}"#, "[]", "refused 4 text 1 op 0 place 14 pointer 0"),
    ("repeat-empty", r#"{"":0,"":1}"#, "[]", "refused 4 text 1 op 0 place 7 pointer 0"),
    ("repeat-slash", r#"{"a/b":1,"a\/b":2}"#, "[]", "refused 4 text 1 op 0 place 14 pointer 0"),
    ("repeat-pair", r#"{"\ud83d\ude00":1,"😀":2}"#, "[]", "refused 4 text 1 op 0 place 23 pointer 0"),
    ("repeat-not-neighbours", r#"{"a":1,"b":2,"a":3}"#, "[]", "refused 4 text 1 op 0 place 15 pointer 0"),
    ("repeat-cut-after", r#"{"a":1,"a""#, "[]", "refused 4 text 1 op 0 place 9 pointer 0"),
    ("repeat-bad-after", r#"{"a":1,"a"x"#, "[]", "refused 4 text 1 op 0 place 9 pointer 0"),
    ("repeat-bad-value", r#"{"a":1,"a":x}"#, "[]", "refused 4 text 1 op 0 place 9 pointer 0"),
    ("repeat-cut-before-quote", r#"{"a":1,"a"#, "[]", "refused 3 text 1 op 0 place 9 pointer 0"),
    ("repeat-bad-before", r#"{"a":01,"a":2}"#, "[]", "refused 3 text 1 op 0 place 6 pointer 0"),
    ("repeat-inner-first", r#"{"a":{"b":1,"b":2},"a":3}"#, "[]", "refused 4 text 1 op 0 place 14 pointer 0"),
    ("repeat-inner-after", r#"{"a":1,"c":{"b":1},"a":{"b":1,"b":2}}"#, "[]", "refused 4 text 1 op 0 place 21 pointer 0"),
    ("repeat-of-three", r#"{"a":1,"a":2,"a":3}"#, "[]", "refused 4 text 1 op 0 place 9 pointer 0"),
    ("repeat-in-array", r#"[{"a":1},{"a":1,"a":2}]"#, "[]", "refused 4 text 1 op 0 place 18 pointer 0"),
    ("same-name-inside", r#"{"a":{"a":1}}"#, "[]", r#"{"a":{"a":1}}"#),
    ("same-name-beside", r#"[{"a":1},{"a":2}]"#, "[]", r#"[{"a":1},{"a":2}]"#),
    ("names-by-case", r#"{"a":1,"A":2}"#, "[]", r#"{"a":1,"A":2}"#),
    ("names-not-normalized", r#"{"é":1,"e\u0301":2}"#, "[]", "{\"é\":1,\"e\u{301}\":2}"),
    ("names-and-nul", r#"{"a":1,"a\u0000":2}"#, "[]", r#"{"a":1,"a\u0000":2}"#),
];

/// Patches that the reader refuses, and the order of the two texts.
#[rustfmt::skip]
pub const PATCH_ROWS: &[Row] = &[
    ("empty", "1", "", "refused 3 text 2 op 0 place 0 pointer 0"),
    ("open", "1", "[", "refused 3 text 2 op 0 place 1 pointer 0"),
    ("cut", "1", "[1,", "refused 3 text 2 op 0 place 3 pointer 0"),
    ("comma-last", "1", r#"[{"op":"add",}]"#, "refused 3 text 2 op 0 place 13 pointer 0"),
    ("mark", "1", "\u{FEFF}[]", "refused 3 text 2 op 0 place 0 pointer 0"),
    ("blanks", "1", " [ ] ", "1"),
    ("two", "1", "[][]", "refused 3 text 2 op 0 place 2 pointer 0"),
    ("repeated-member", "1", r#"[{"op":"test","op":"test"}]"#, "refused 4 text 2 op 0 place 17 pointer 0"),
    ("repeated-in-value", "1", r#"[{"op":"test","path":"","value":{"x":1,"x":2}}]"#, "refused 4 text 2 op 0 place 41 pointer 0"),
    ("repeated-in-ignored", "1", r#"[{"zz":{"x":1,"x":2}}]"#, "refused 4 text 2 op 0 place 16 pointer 0"),
    ("number", "1", "[1e10000]", "refused 7 text 2 op 0 place 7 pointer 0"),
    ("bad-string-in-ignored", "1", r#"[{"op":"remove","path":"","zz":"\ud800"}]"#, "refused 3 text 2 op 0 place 38 pointer 0"),
    ("reading-before-shape", "1", "[0,0,01]", "refused 3 text 2 op 0 place 6 pointer 0"),
    ("document-first", "[", "[", "refused 3 text 1 op 0 place 1 pointer 0"),
    ("document-whole-first", "[1e10000]", "", "refused 7 text 1 op 0 place 7 pointer 0"),
    ("document-before-shape", "tru", "{}", "refused 3 text 1 op 0 place 3 pointer 0"),
];
