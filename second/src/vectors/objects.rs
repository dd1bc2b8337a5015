//! Objects of many members: a name repeated among them, and tests in another order.

use super::{reads, refused, refused_op, vector, Vector};

/// Names as people write them; names that are long and alike at both ends.
const STYLES: &[(&str, &str, &str)] = &[("short", "m", ""), ("alike", "alike-", "-too")];

pub fn vectors() -> Vec<Vector> {
    STYLES.iter().flat_map(|(style, before, after)| styled(style, before, after)).collect()
}

fn styled(style: &str, before: &str, after: &str) -> Vec<Vector> {
    let member = |i: usize| format!("\"{before}{i}{after}\":{i}");
    let many: Vec<String> = (0..80).map(member).collect();
    let mut turned = many.clone();
    turned.reverse();
    let mut vectors = repeated(style, before, after, &many);

    // what is tested, and whether it is equal
    let mut renamed = turned.clone();
    renamed[39] = format!("\"{before}{after}\":40");
    let mut changed = turned.clone();
    changed[39] = format!("\"{before}40{after}\":0");
    let tests: [(&str, Vec<String>, bool); 5] = [
        ("in-step", many.clone(), true),
        ("turned", turned.clone(), true),
        ("renamed", renamed, false),
        ("changed", changed, false),
        ("fewer", turned[1..].to_vec(), false),
    ];
    for (name, members, equal) in tests {
        let document = object(&many);
        let expected = if equal { document.clone() } else { refused_op(15, 1) };
        let patch = format!("[{}]", test("", &object(&members)));
        vectors.push(vector(format!("objects-{style}-{name}"), document, patch, expected));
    }

    // a name that stands only one level further down is not the object's
    let nested = |below: &str, beside: &str, members: &[String]| {
        let last = format!("\"deep\":{{\"{below}\":1}},\"{beside}\":1");
        object(&[members, &[last]].concat())
    };
    let patch = format!("[{}]", test("", &nested("one", "other", &turned)));
    let document = nested("other", "one", &many);
    vectors.push(vector(format!("objects-{style}-nested"), document, patch, refused_op(15, 1)));

    // after a move, and twice
    let moved = r#"{"op":"move","from":"/a","path":"/b"}"#;
    let both = test("/b", &object(&turned));
    let patch = format!("[{both},{moved},{both},{}]", test("/b", &object(&many)));
    let document = format!("{{\"a\":{},\"b\":{}}}", object(&many), object(&many));
    let expected = format!("{{\"b\":{}}}", object(&many));
    vectors.push(vector(format!("objects-{style}-moved"), document, patch, expected));
    vectors
}

/// The last name is that of an earlier member, in its own spelling and in another.
fn repeated(style: &str, before: &str, after: &str, many: &[String]) -> Vec<Vector> {
    let mut vectors = Vec::new();
    for (at, name) in [(0, "first"), (43, "middle"), (79, "last")] {
        for (spelling, beginning) in [("", before.to_string()), ("-escaped", escaped(before))] {
            let last = format!("\"{beginning}{at}{after}\":0");
            let document = object(&[many, &[last]].concat());
            let place = document.len() - "\":0}".len();
            let title = format!("objects-{style}-repeated-{name}{spelling}");
            vectors.push(reads(title, document, refused(4, place)));
        }
    }
    vectors
}

/// The first character as an escape.
fn escaped(text: &str) -> String {
    format!("\\u{:04x}{}", u32::from(text.as_bytes()[0]), &text[1..])
}

fn object(members: &[String]) -> String {
    format!("{{{}}}", members.join(","))
}

fn test(path: &str, value: &str) -> String {
    format!(r#"{{"op":"test","path":"{path}","value":{value}}}"#)
}
