//! The committed cases of two texts to compare, each with the line it must give.
//!
//! The lines come from the papers, written by hand or made by a small rule that
//! stands beside them. None is taken from the program; a test checks that the
//! program gives them.

use super::cases::Case;

/// A case and the line it must give.
#[derive(Clone, Debug)]
pub struct Vector {
    /// The case.
    pub case: Case,
    /// The line, without the newline.
    pub expected: Vec<u8>,
}

/// Name, the two texts and the line they must give.
type Row = (&'static str, &'static str, &'static str, &'static str);

/// All committed cases.
pub fn all() -> Vec<Vector> {
    let tables = [("names", NAMES), ("values", VALUES), ("shape", SHAPE), ("refused", REFUSED)];
    let mut all: Vec<Vector> = tables
        .iter()
        .flat_map(|(table, rows)| {
            rows.iter().map(move |&(name, first, second, expected)| {
                vector(format!("{table}-{name}"), first, second, expected)
            })
        })
        .collect();
    all.extend(orders());
    all.extend(deep());
    all.extend(limits());
    // What the work area holds before differs from case to case.
    for (at, vector) in all.iter_mut().enumerate() {
        vector.case.rubbish = (at as u16).wrapping_mul(12_345);
    }
    all
}

/// One case.
fn vector(
    name: impl Into<String>,
    first: impl Into<Vec<u8>>,
    second: impl Into<Vec<u8>>,
    expected: impl Into<Vec<u8>>,
) -> Vector {
    let case = Case { name: name.into(), rubbish: 0, first: first.into(), second: second.into() };
    Vector { case, expected: expected.into() }
}

/// The line of a refusal in a text.
fn refused(number: u32, text: u32, place: usize) -> String {
    format!("refused {number} text {text} op 0 place {place} pointer 0")
}

/// How many names are compared.
const NAMES: &[Row] = &[
    ("none", "{}", "{}", "equal 0"),
    ("one", r#"{"a":1}"#, r#"{"a":1}"#, "equal 1"),
    ("one-other", r#"{"a":1}"#, r#"{"b":1}"#, "different 1"),
    ("in-step", r#"{"a":1,"b":2,"c":3}"#, r#"{"a":1,"b":2,"c":3}"#, "equal 6"),
    ("reversed", r#"{"a":1,"b":2,"c":3}"#, r#"{"c":3,"b":2,"a":1}"#, "equal 6"),
    ("turned", r#"{"a":1,"b":2,"c":3}"#, r#"{"c":3,"a":1,"b":2}"#, "equal 6"),
    ("first-name-nowhere", r#"{"x":1,"b":2,"c":3}"#, r#"{"a":1,"b":2,"c":3}"#, "different 3"),
    ("second-name-nowhere", r#"{"a":1,"x":2,"c":3}"#, r#"{"a":1,"b":2,"c":3}"#, "different 4"),
    ("last-name-nowhere", r#"{"a":1,"b":2,"x":3}"#, r#"{"a":1,"b":2,"c":3}"#, "different 6"),
    ("first-value", r#"{"a":9,"b":2,"c":3}"#, r#"{"c":3,"b":2,"a":1}"#, "different 3"),
    ("middle-value", r#"{"a":1,"b":9,"c":3}"#, r#"{"c":3,"b":2,"a":1}"#, "different 5"),
    ("last-value", r#"{"a":1,"b":2,"c":9}"#, r#"{"c":3,"b":2,"a":1}"#, "different 6"),
    ("fewer", r#"{"a":1}"#, r#"{"a":1,"b":2}"#, "different 0"),
    ("more", r#"{"a":1,"b":2}"#, r#"{"a":1}"#, "different 0"),
    ("some-and-none", "{}", r#"{"a":1}"#, "different 0"),
    ("same-counts-other-names", r#"{"a":1,"b":2}"#, r#"{"c":1,"d":2}"#, "different 2"),
    ("target-leads", r#"{"a":1,"b":9}"#, r#"{"b":2,"a":1}"#, "different 3"),
    ("target-leads-the-other-way", r#"{"b":2,"a":1}"#, r#"{"a":1,"b":9}"#, "different 2"),
    ("escaped", r#"{"a":1,"\u0062":2}"#, r#"{"\u0061":1,"b":2}"#, "equal 3"),
    ("empty-name", r#"{"":1,"a":2}"#, r#"{"a":2,"":1}"#, "equal 3"),
    ("prefixes", r#"{"a":1,"ab":2,"abc":3}"#, r#"{"abc":3,"ab":2,"a":1}"#, "equal 6"),
    // the pairs below have the same hash in many tables
    (
        "long-names",
        r#"{"aaaaaaaaaaaaaaaaaaaaaaaaaaaaaaaaB":1,"aaaaaaaaaaaaaaaaaaaaaaaaaaaaaaaaC":2}"#,
        r#"{"aaaaaaaaaaaaaaaaaaaaaaaaaaaaaaaaC":2,"aaaaaaaaaaaaaaaaaaaaaaaaaaaaaaaaB":1}"#,
        "equal 3",
    ),
];

/// Equal values, and others.
const VALUES: &[Row] = &[
    ("null", "null", " null ", "equal 0"),
    ("kinds", "null", "false", "different 0"),
    ("number-and-string", "10", "\"10\"", "different 0"),
    ("number", "4400", "4.4e3", "equal 0"),
    ("long-integers", "9007199254740993", "9007199254740992", "different 0"),
    ("zeros", "-0", "0.0e5", "equal 0"),
    ("strings", "\"\\u0041\"", "\"A\"", "equal 0"),
    ("array-and-object", "[]", "{}", "different 0"),
    ("object-and-array", "{}", "[]", "different 0"),
    ("object-and-scalar", r#"{"a":1}"#, "1", "different 0"),
    ("number-in-a-member", r#"{"a":1.0}"#, r#"{"a":10e-1}"#, "equal 1"),
    ("kind-in-a-member", r#"{"a":[]}"#, r#"{"a":{}}"#, "different 1"),
];

/// Values in values.
const SHAPE: &[Row] = &[
    ("inner-then-outer", r#"{"a":{"x":1,"y":2},"b":3}"#, r#"{"a":{"y":2,"x":1},"b":3}"#, "equal 6"),
    (
        "inner-differs",
        r#"{"a":{"x":1,"y":2},"b":3}"#,
        r#"{"a":{"y":2,"x":9},"b":3}"#,
        "different 3",
    ),
    ("inner-counts", r#"{"a":{"x":1},"b":3}"#, r#"{"b":3,"a":{"x":1,"y":2}}"#, "different 2"),
    ("inner-name", r#"{"a":{"x":1},"b":3}"#, r#"{"b":3,"a":{"y":1}}"#, "different 3"),
    ("outer-after-inner", r#"{"a":{"x":1},"b":3}"#, r#"{"b":4,"a":{"x":1}}"#, "different 4"),
    ("array-order", "[1,2]", "[2,1]", "different 0"),
    ("array-lengths", "[1,2]", "[1,2,3]", "different 0"),
    ("array-lengths-less", "[1,2,3]", "[1,2]", "different 0"),
    ("objects-in-an-array", r#"[{"a":1},{"b":2,"c":3}]"#, r#"[{"a":1},{"c":3,"b":2}]"#, "equal 4"),
    ("array-stops", r#"[{"a":1},{"b":2},{"c":3}]"#, r#"[{"a":1},{"b":9},{"c":3}]"#, "different 2"),
    ("arrays-in-an-array", "[[],[[]],[[],[]]]", "[[],[[]],[[],[]]]", "equal 0"),
    ("empty-containers", r#"{"a":{},"b":[]}"#, r#"{"b":[],"a":{}}"#, "equal 3"),
    ("lengths-before-values", r#"[{"a":1},2]"#, r#"[{"a":9}]"#, "different 0"),
    ("same-inner-names", r#"{"a":{"a":{"a":1}}}"#, r#"{"a":{"a":{"a":1}}}"#, "equal 3"),
];

/// Refusals of a text: the first text is looked at first.
const REFUSED: &[Row] = &[
    ("first-empty", "", "", "refused 3 text 1 op 0 place 0 pointer 0"),
    ("second-empty", "1", "", "refused 3 text 2 op 0 place 0 pointer 0"),
    ("first-cut", "[1", "[", "refused 3 text 1 op 0 place 2 pointer 0"),
    ("second-comma", "[1]", "[1,]", "refused 3 text 2 op 0 place 3 pointer 0"),
    ("both", r#"{"a":1,"a":2}"#, "[", "refused 4 text 1 op 0 place 9 pointer 0"),
    ("second-name", "1", r#"{"a":1,"\u0061":2}"#, "refused 4 text 2 op 0 place 14 pointer 0"),
    ("first-exponent", "1e10000", "1", "refused 7 text 1 op 0 place 6 pointer 0"),
    ("second-exponent", "1", "1e-10000", "refused 7 text 2 op 0 place 7 pointer 0"),
    ("bom", "1", "\u{feff}1", "refused 3 text 2 op 0 place 0 pointer 0"),
];

/// An object with these members, each with its number as a value.
fn object(names: impl IntoIterator<Item = usize>) -> String {
    let members: Vec<String> = names.into_iter().map(|k| format!("\"n{k}\":{k}")).collect();
    format!("{{{}}}", members.join(","))
}

/// The orders that cost most and least, for objects of some lengths. Equal objects
/// of n members cost 1 + 2 + .. + n in every order.
fn orders() -> Vec<Vector> {
    let mut all = Vec::new();
    for n in [2_usize, 63, 64, 65, 255, 256, 1_000] {
        let sum = n * (n + 1) / 2;
        let ahead = object(0..n);
        let back = object((0..n).rev());
        let odd = object((0..n).step_by(2).chain((1..n).step_by(2)));
        for (name, other) in [("in-step", &ahead), ("reversed", &back), ("odd", &odd)] {
            all.push(vector(
                format!("order-{name}-{n}"),
                &ahead[..],
                &other[..],
                format!("equal {sum}"),
            ));
        }
        // all names but the last are found, in reverse; that one is nowhere
        let others = object((1..=n).rev());
        let found: usize = (1..n).map(|k| n + 1 - k).sum();
        all.push(vector(
            format!("order-last-nowhere-{n}"),
            object((1..n).chain([0])),
            others,
            format!("different {}", found + n),
        ));
        // the first name is nowhere
        all.push(vector(
            format!("order-first-nowhere-{n}"),
            &ahead[..],
            object(1..=n),
            format!("different {n}"),
        ));
    }
    all
}

/// Containers nested in one another: a name for each level.
fn deep() -> Vec<Vector> {
    let objects =
        |levels: usize, inner: &str| "{\"a\":".repeat(levels) + inner + &"}".repeat(levels);
    let arrays = |levels: usize| "[".repeat(levels) + &"]".repeat(levels);
    vec![
        vector("deep-objects", objects(32, "1"), objects(32, "1.0"), "equal 32"),
        vector("deep-objects-differ", objects(32, "1"), objects(32, "2"), "different 32"),
        vector("deep-objects-too-deep", objects(33, "1"), objects(33, "1"), refused(5, 1, 160)),
        vector("deep-arrays", arrays(32), arrays(32), "equal 0"),
        vector("deep-arrays-differ", arrays(32), arrays(31), "different 0"),
        vector("deep-second-too-deep", arrays(32), arrays(33), refused(5, 2, 32)),
        vector("deep-first-too-deep", arrays(33), arrays(33), refused(5, 1, 32)),
    ]
}

/// Both sides of each limit.
fn limits() -> Vec<Vector> {
    let zeros = |count: usize| format!("[{}]", vec!["0"; count].join(","));
    let padded = |length: usize| " ".repeat(length - 1) + "1";
    let digits = |count: usize| "1".repeat(count);
    vec![
        vector("limit-nodes", zeros(2_047), zeros(2_047), "equal 0"),
        vector("limit-nodes-first", zeros(2_048), "1", refused(6, 1, 4_095)),
        vector("limit-nodes-second", "1", zeros(2_048), refused(6, 2, 4_095)),
        vector("limit-bytes", padded(32_768), padded(32_768), "equal 0"),
        vector("limit-bytes-first", padded(32_769), padded(32_769), refused(2, 1, 0)),
        vector("limit-bytes-second", "", padded(32_769), refused(2, 2, 0)),
        vector("limit-digits", digits(128), digits(128), "equal 0"),
        vector("limit-digits-first", digits(129), "1", refused(7, 1, 128)),
        vector("limit-digits-second", "1", digits(129), refused(7, 2, 128)),
        // as many members as a text may have: the most that equal objects cost
        vector("limit-members", short(0..2_047), short((0..2_047).rev()), "equal 2096128"),
    ]
}

/// An object with as many members as may be, in few bytes.
fn short(names: impl Iterator<Item = usize>) -> String {
    let members: Vec<String> = names.map(|k| format!("\"{k}\":0")).collect();
    format!("{{{}}}", members.join(","))
}
