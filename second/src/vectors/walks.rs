//! How far a pointer got: SPECIFICATION 6.1, T-01.

use super::{refused_pointer, vector, Row, Vector};

/// A way in which a token fails.
struct Way {
    name: &'static str,
    /// What the token is tried on.
    value: &'static str,
    token: &'static str,
    number: u32,
    /// Whether it fails as the last token of an add, too: that may name a new
    /// member, and `-` is then the end of the array.
    also_added: bool,
}

const WAYS: &[Way] = &[
    Way { name: "scalar", value: "5", token: "x", number: 11, also_added: true },
    Way { name: "missing", value: r#"{"b":0}"#, token: "x", number: 11, also_added: false },
    Way { name: "dash", value: "[0,1,2]", token: "-", number: 11, also_added: false },
    Way { name: "beyond", value: "[0,1,2]", token: "4", number: 11, also_added: true },
    Way {
        name: "twenty-digits",
        value: "[0,1,2]",
        token: "18446744073709551617",
        number: 11,
        also_added: true,
    },
    Way { name: "no-index", value: "[0,1,2]", token: "01", number: 12, also_added: true },
];

/// Which of three tokens fails; so many are walked before it.
const PLACES: &[&str] = &["first", "middle", "last"];

const PATH: u32 = 1;
const FROM: u32 = 2;

/// Each way at each of three tokens, for each operation and pointer.
pub fn vectors() -> Vec<Vector> {
    let mut vectors = Vec::new();
    for way in WAYS {
        for (place, position) in PLACES.iter().enumerate() {
            let name = format!("{}-{position}", way.name);
            vectors.extend(paths(way, place, &name));
            vectors.extend(froms(way, place, &name));
        }
    }
    vectors
}

/// `path` fails, of each operation for which it can.
fn paths(way: &Way, place: usize, name: &str) -> Vec<Vector> {
    let path = pointer(way, place);
    // On a scalar root nothing can be moved: only the root is there.
    let moved = match (place, way.name) {
        (0, "scalar") => None,
        (0, "missing") => Some("/b"),
        (0, _) => Some("/0"),
        _ => Some("/s"),
    };
    let copied = moved.unwrap_or("");
    let mut operations = vec![
        ("remove", format!(r#"[{{"op":"remove","path":"{path}"}}]"#)),
        ("replace", format!(r#"[{{"op":"replace","path":"{path}","value":9}}]"#)),
        ("test", format!(r#"[{{"op":"test","path":"{path}","value":9}}]"#)),
    ];
    if place < 2 || way.also_added {
        operations.push(("add", format!(r#"[{{"op":"add","path":"{path}","value":9}}]"#)));
        operations
            .push(("copy", format!(r#"[{{"op":"copy","from":"{copied}","path":"{path}"}}]"#)));
        operations.extend(moved.map(|moved| {
            ("move", format!(r#"[{{"op":"move","from":"{moved}","path":"{path}"}}]"#))
        }));
    }
    let line = refused_pointer(way.number, 1, place, PATH);
    operations
        .into_iter()
        .map(|(op, patch)| {
            vector(format!("walk-{op}-path-{name}"), document(way, place), patch, line.clone())
        })
        .collect()
}

/// `from` fails; the path of the move fails too, but later.
fn froms(way: &Way, place: usize, name: &str) -> Vec<Vector> {
    let from = pointer(way, place);
    let line = refused_pointer(way.number, 1, place, FROM);
    [("move", "/q/q"), ("copy", "")]
        .into_iter()
        .map(|(op, path)| {
            let patch = format!(r#"[{{"op":"{op}","from":"{from}","path":"{path}"}}]"#);
            vector(format!("walk-{op}-from-{name}"), document(way, place), patch, line.clone())
        })
        .collect()
}

/// A document with the value so many tokens below its root.
fn document(way: &Way, place: usize) -> String {
    let value = way.value;
    match place {
        0 => value.to_string(),
        1 => format!(r#"{{"a":{value},"s":0}}"#),
        _ => format!(r#"{{"a":[0,{value}],"s":0}}"#),
    }
}

/// A pointer of three tokens, the one at that place being the one that fails.
fn pointer(way: &Way, place: usize) -> String {
    let token = way.token;
    match place {
        0 => format!("/{token}/y/0"),
        1 => format!("/a/{token}/0"),
        _ => format!("/a/1/{token}"),
    }
}

/// Cases that no rule makes.
#[rustfmt::skip]
pub const ROWS: &[Row] = &[
    // One token, and several operations.
    ("only-token", r#"{"a":1}"#, r#"[{"op":"test","path":"/b","value":1}]"#, "refused 11 text 0 op 1 place 0 pointer 1"),
    ("second-operation", r#"{"a":[1,3]}"#, r#"[{"op":"test","path":"/a/0","value":1},{"op":"add","path":"/a/3","value":2}]"#, "refused 11 text 0 op 2 place 1 pointer 1"),
    ("in-what-was-added", r#"{"a":[1,3]}"#, r#"[{"op":"add","path":"/a/-","value":{"b":{}}},{"op":"remove","path":"/a/2/b/c"}]"#, "refused 11 text 0 op 2 place 3 pointer 1"),
    ("in-what-was-removed", r#"{"a":{"b":{"c":1}}}"#, r#"[{"op":"remove","path":"/a/b"},{"op":"copy","from":"/a/b/c","path":"/d"}]"#, "refused 11 text 0 op 2 place 1 pointer 2"),

    // The dash.
    ("dash-removed", r#"{"a":[1,3]}"#, r#"[{"op":"remove","path":"/a/-"}]"#, "refused 11 text 0 op 1 place 1 pointer 1"),
    ("dash-passed", r#"{"a":[1,3]}"#, r#"[{"op":"add","path":"/a/-/0","value":2}]"#, "refused 11 text 0 op 1 place 1 pointer 1"),

    // How tokens are counted: unescaped, empty ones too.
    ("empty-tokens", r#"{"":{"":{}}}"#, r#"[{"op":"remove","path":"///"}]"#, "refused 11 text 0 op 1 place 2 pointer 1"),
    ("escaped-slash", r#"{"a/b":{"c":1}}"#, r#"[{"op":"remove","path":"/a~1b/d"}]"#, "refused 11 text 0 op 1 place 1 pointer 1"),
    ("slash-by-number", r#"{"a":{"c":1}}"#, r#"[{"op":"remove","path":"\u002fa\u002Fd"}]"#, "refused 11 text 0 op 1 place 1 pointer 1"),
    ("names-of-digits", r#"{"a":{"0":{"-":[]}}}"#, r#"[{"op":"test","path":"/a/0/-/01","value":1}]"#, "refused 12 text 0 op 1 place 3 pointer 1"),

    // Both pointers: `from` is walked first.
    ("both-missing", r#"{"a":1}"#, r#"[{"op":"move","from":"/x","path":"/y/z"}]"#, "refused 11 text 0 op 1 place 0 pointer 2"),
    ("both-missing-from-farther", r#"{"a":{"b":1}}"#, r#"[{"op":"move","from":"/a/x","path":"/c/d"}]"#, "refused 11 text 0 op 1 place 1 pointer 2"),
    ("both-missing-path-farther", r#"{"a":{"b":1}}"#, r#"[{"op":"copy","from":"/x","path":"/a/b/c"}]"#, "refused 11 text 0 op 1 place 0 pointer 2"),
    ("both-no-index", "[[1]]", r#"[{"op":"copy","from":"/0/x","path":"/y"}]"#, "refused 12 text 0 op 1 place 1 pointer 2"),
    ("from-no-index-path-missing", r#"{"a":[1]}"#, r#"[{"op":"move","from":"/a/x","path":"/b/c"}]"#, "refused 12 text 0 op 1 place 1 pointer 2"),
    ("from-missing-path-no-index", "[[1]]", r#"[{"op":"move","from":"/0/1","path":"/y"}]"#, "refused 11 text 0 op 1 place 1 pointer 2"),

    // The path of a move fails only in what is left.
    ("left-at-length", "[[1,2]]", r#"[{"op":"move","from":"/0/0","path":"/0/2"}]"#, "refused 11 text 0 op 1 place 1 pointer 1"),
    ("left-shifted-away", r#"{"a":[0,[1]]}"#, r#"[{"op":"move","from":"/a/0","path":"/a/1/0"}]"#, "refused 11 text 0 op 1 place 1 pointer 1"),
    ("left-on-a-scalar", r#"{"a":[0,[1],2]}"#, r#"[{"op":"move","from":"/a/0","path":"/a/1/0"}]"#, "refused 11 text 0 op 1 place 2 pointer 1"),
    ("left-without-the-member", r#"{"a":[0,{"b":{}},{}]}"#, r#"[{"op":"move","from":"/a/0","path":"/a/1/b/c"}]"#, "refused 11 text 0 op 1 place 2 pointer 1"),
    ("left-no-index", r#"{"a":[0,{"b":1},[2]]}"#, r#"[{"op":"move","from":"/a/0","path":"/a/1/b"}]"#, "refused 12 text 0 op 1 place 2 pointer 1"),
    ("left-emptied", r#"{"a":[[0]]}"#, r#"[{"op":"move","from":"/a/0/0","path":"/a/0/1"}]"#, "refused 11 text 0 op 1 place 2 pointer 1"),
    // And only in what was there before.
    ("left-found", "[0,1,[2]]", r#"[{"op":"move","from":"/0","path":"/1/0"}]"#, "[1,[0,2]]"),
    ("copied-not-left", "[0,1,[2]]", r#"[{"op":"copy","from":"/0","path":"/1/0"}]"#, "refused 11 text 0 op 1 place 1 pointer 1"),

    // Every other number tells of no pointer, wherever its own one leads.
    ("none-malformed", r#"{"a":{"b":1}}"#, r#"[{"op":"remove","path":"/a/b/~"}]"#, "refused 10 text 0 op 1 place 0 pointer 0"),
    ("none-root", r#"{"a":1}"#, r#"[{"op":"remove","path":"/a"},{"op":"remove","path":""}]"#, "refused 13 text 0 op 2 place 0 pointer 0"),
    ("none-into-child", r#"{"a":{"b":1}}"#, r#"[{"op":"move","from":"/a/b","path":"/a/b/c"}]"#, "refused 14 text 0 op 1 place 0 pointer 0"),
    ("none-different", r#"{"a":{"b":1}}"#, r#"[{"op":"test","path":"/a/b","value":2}]"#, "refused 15 text 0 op 1 place 0 pointer 0"),
];

/// The longest ways.
pub fn long() -> Vec<Vector> {
    let deepest = "[".repeat(32) + "1" + &"]".repeat(32);
    let remove = |path: &str| format!(r#"[{{"op":"remove","path":"{path}"}}]"#);
    let copy = |from: &str| format!(r#"[{{"op":"copy","from":"{from}","path":""}}]"#);
    let (all, more) = ("/0".repeat(33), "/0".repeat(1_000));
    vec![
        vector("walk-32-deep", deepest.clone(), remove(&all), refused_pointer(11, 1, 32, PATH)),
        vector("walk-32-deep-from", deepest.clone(), copy(&all), refused_pointer(11, 1, 32, FROM)),
        vector("walk-1000-tokens", deepest, remove(&more), refused_pointer(11, 1, 32, PATH)),
        vector("walk-1000-tokens-none", "{}", copy(&more), refused_pointer(11, 1, 0, FROM)),
    ]
}
