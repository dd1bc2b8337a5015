//! Equality, by way of the `test` operation.

use super::{refused_op, vector, Row, Vector};

/// Document, tested value, and whether they are equal. Each is tried both ways.
#[rustfmt::skip]
const PAIRS: &[(&str, &str, &str, bool)] = &[
    // Numbers.
    ("point-zero", "1", "1.0", true),
    ("exponent", "100", "1e2", true),
    ("exponent-spellings", "1e2", "1E+002", true),
    ("4400", "4400", "4.4e3", true),
    ("fraction-zeros", "1.10", "1.1", true),
    ("down-to-one", "10e-1", "1", true),
    ("up-to-one", "0.001e3", "1", true),
    ("thousandths", "1000e-3", "1e0", true),
    ("hundredths", "123e-2", "1.23", true),
    ("small", "0.0012", "12e-4", true),
    ("inner-zeros", "1001", "1.001e3", true),
    ("inner-zeros-other", "1001", "101", false),
    ("negative", "-1.50", "-15e-1", true),
    ("sign", "1", "-1", false),
    ("ten-times", "10", "1", false),
    ("tenth-of", "0.1", "0.01", false),
    ("last-digit", "1234567", "1234568", false),
    ("zero-point-zero", "0", "0.000", true),
    ("zero-exponents", "0e9999", "0.0e-9999", true),
    ("zero-minus-zero", "0", "-0", true),
    ("zero-minus-zero-forms", "0.0e1", "-0.00", true),
    ("minus-zero-forms", "-0", "-0.0e7", true),
    ("zero-and-tiny", "0", "1e-9999", false),
    ("minus-zero-and-minus-tiny", "-0", "-1e-9999", false),
    ("greatest-exponents", "1e9999", "10e9998", true),
    ("greatest-exponents-differ", "1e9999", "1e9998", false),
    ("beyond-greatest-exponent", "100e9999", "1000e9998", true),
    ("least-exponents", "1e-9999", "0.1e-9998", true),
    ("below-least-exponent", "0.01e-9999", "0.001e-9998", true),
    ("far-apart", "1e9999", "1e-9999", false),
    ("long-integers", "9007199254740993", "9007199254740992", false),
    ("float-neighbours", "0.1", "0.1000000000000000055511151231257827", false),
    ("float-rounding", "1e23", "99999999999999991611392", false),
    ("float-infinity", "1e309", "1e310", false),
    ("float-zero", "1e-400", "2e-400", false),
    ("wrapping-32", "4294967297", "1", false),
    ("wrapping-64", "18446744073709551617", "1", false),

    // Strings.
    ("letters", r#""a""#, r#""\u0061""#, true),
    ("slashes", r#""/""#, r#""\/""#, true),
    ("newlines", r#""\n""#, r#""\u000A""#, true),
    ("pairs", r#""😀""#, r#""\ud83d\ude00""#, true),
    ("case", r#""a""#, r#""A""#, false),
    ("normal-forms", r#""é""#, r#""e\u0301""#, false),
    ("longer", r#""ab""#, r#""abc""#, false),
    ("nul", r#""a""#, r#""a\u0000""#, false),
    ("blank", r#""a""#, r#""a ""#, false),
    ("backslash", r#""\\u0061""#, r#""a""#, false),
    ("empty", r#""""#, r#""""#, true),

    // Literals, and one type against another.
    ("null", "null", "null", true),
    ("true", "true", "true", true),
    ("true-false", "true", "false", false),
    ("null-false", "null", "false", false),
    ("null-string", "null", r#""null""#, false),
    ("null-zero", "null", "0", false),
    ("false-zero", "false", "0", false),
    ("true-one", "true", "1", false),
    ("number-string", "10", r#""10""#, false),
    ("empty-string-null", r#""""#, "null", false),
    ("empty-array-object", "[]", "{}", false),
    ("empty-array-null", "[]", "null", false),
    ("one-in-array", "1", "[1]", false),
    ("array-as-object", "[1]", r#"{"0":1}"#, false),

    // Arrays.
    ("arrays", "[1,[2,\"x\"],null]", "[1.0,[2e0,\"\\u0078\"],null]", true),
    ("array-order", "[1,2]", "[2,1]", false),
    ("array-shorter", "[1,2]", "[1]", false),
    ("array-empty", "[]", "[ ]", true),
    ("array-nesting", "[[]]", "[]", false),
    ("array-inner", "[[1],[2]]", "[[1],[3]]", false),

    // Objects.
    ("object-order", r#"{"a":1,"b":2}"#, r#"{"b":2,"a":1}"#, true),
    ("object-order-deep", r#"{"x":{"a":[1],"b":2},"y":3}"#, r#"{"y":3,"x":{"b":2,"a":[1]}}"#, true),
    ("object-order-swapped", r#"{"a":1,"b":2}"#, r#"{"b":1,"a":2}"#, false),
    ("object-more", r#"{"a":1}"#, r#"{"a":1,"b":2}"#, false),
    ("object-other-name", r#"{"a":1}"#, r#"{"b":1}"#, false),
    ("object-other-value", r#"{"a":1}"#, r#"{"a":2}"#, false),
    ("object-null-is-a-value", r#"{"a":null}"#, r#"{"b":null}"#, false),
    ("object-null-is-not-missing", r#"{"a":null}"#, "{}", false),
    ("object-names-escaped", r#"{"a":1}"#, r#"{"\u0061":1}"#, true),
    ("object-empty-name", r#"{"":1}"#, r#"{"":1.0}"#, true),
    ("object-empty", "{}", "{ }", true),
];

/// Zeros: each equals each, and nothing else does.
const ZEROS: &[&str] = &["0", "-0", "0.0", "-0e5", "0E-9999"];

/// What no zero equals: other numbers, however small, and values of other types.
#[rustfmt::skip]
const NO_ZEROS: &[(&str, &str)] = &[
    ("tiny", "1e-9999"), ("minus-tiny", "-1e-9999"), ("minus-one", "-1"), ("null", "null"),
    ("false", "false"), ("string", r#""0""#), ("minus-string", r#""-0""#), ("array", "[]"),
    ("object", "{}"), ("in-array", "[0]"),
];

/// Equality below the root.
#[rustfmt::skip]
pub const ROWS: &[Row] = &[
    ("member", r#"{"a":[{"b":1e1}]}"#, r#"[{"op":"test","path":"/a/0/b","value":10}]"#, r#"{"a":[{"b":1e1}]}"#),
    ("member-differs", r#"{"a":[{"b":1e1}]}"#, r#"[{"op":"test","path":"/a/0","value":{"b":1}}]"#, "refused 15 text 0 op 1 place 0 pointer 0"),
    ("after-move", r#"{"a":1,"b":2}"#, r#"[{"op":"move","from":"/a","path":"/a"},{"op":"test","path":"","value":{"a":1,"b":2}}]"#, r#"{"b":2,"a":1}"#),
    ("copied-with-original", r#"{"a":[-0,"\u0000"]}"#, r#"[{"op":"copy","from":"/a","path":"/b"},{"op":"test","path":"/b","value":[-0.0,"\u0000"]}]"#, r#"{"a":[-0,"\u0000"],"b":[-0,"\u0000"]}"#),
];

/// The pairs, both ways, zeros, and numbers of the greatest length.
pub fn vectors() -> Vec<Vector> {
    let mut vectors = Vec::new();
    for (name, left, right, equal) in PAIRS {
        vectors.push(tested(name, "", left, right, *equal));
        vectors.push(tested(name, "-turned", right, left, *equal));
    }
    vectors.extend(zeros());

    // Long numbers: equal by a shift of the point, different in the last digit.
    let digits = "1234567890".repeat(12);
    let shifted = format!("1.{}e119", &digits[1..]);
    vectors.push(tested("long-tenfold", "", &format!("{digits}e1"), &format!("{digits}0"), true));
    vectors.push(tested("long-shifted", "", &digits, &shifted, true));
    vectors.push(tested("long-not-shifted", "", &digits, &format!("{digits}0"), false));
    let last_one = format!("{digits}12345671");
    let last_two = format!("{digits}12345672");
    vectors.push(tested("long-same", "", &last_one, &last_one, true));
    vectors.push(tested("long-last-digit", "", &last_one, &last_two, false));
    vectors
}

/// Each zero against each, at the root, 30 levels deep in arrays and in objects,
/// and among others; and each against what is none.
fn zeros() -> Vec<Vector> {
    let deep = |open: &str, zero: &str, close: &str| {
        format!("{}{zero}{}", open.repeat(30), close.repeat(30))
    };
    let mut vectors = Vec::new();
    for left in ZEROS {
        for right in ZEROS {
            let way = format!("-{left}-and-{right}");
            let mut pair = |name: &str, left: String, right: String| {
                vectors.push(tested(name, &way, &left, &right, true));
            };
            pair("zeros", left.to_string(), right.to_string());
            pair("zeros-in-arrays", deep("[", left, "]"), deep("[", right, "]"));
            pair("zeros-in-objects", deep(r#"{"a":"#, left, "}"), deep(r#"{"a":"#, right, "}"));
            pair(
                "zeros-among-others",
                format!(r#"{{"a":[1,{left}],"b":{left}}}"#),
                format!(r#"{{"b":{right},"a":[1.0,{right}]}}"#),
            );
        }
        for (name, right) in NO_ZEROS {
            let way = format!("-{left}-and-{name}");
            vectors.push(tested("no-zero", &way, left, right, false));
            vectors.push(tested("no-zero-turned", &way, right, left, false));
            let [left, right] = [left, right].map(|zero| format!(r#"{{"a":[{zero}]}}"#));
            vectors.push(tested("no-zero-inside", &way, &left, &right, false));
        }
    }
    vectors
}

/// A test of the root.
fn tested(name: &str, way: &str, document: &str, value: &str, equal: bool) -> Vector {
    let patch = format!(r#"[{{"op":"test","path":"","value":{value}}}]"#);
    let expected = if equal { compact(document) } else { refused_op(15, 1) };
    vector(format!("equality-{name}{way}"), document, patch, expected)
}

/// How a document of the table is written: only its escapes and its blanks
/// between brackets are not in the written form already.
fn compact(document: &str) -> String {
    document
        .replace("[ ]", "[]")
        .replace("{ }", "{}")
        .replace("\\u0061", "a")
        .replace("\\u0078", "x")
        .replace("\\u000A", "\\n")
        .replace("\\ud83d\\ude00", "😀")
        .replace("\\/", "/")
}
