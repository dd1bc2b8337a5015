//! Names in pointers: escaped as a pointer, then as a string.

use super::{gives, Row, Vector};

/// Names by hand.
#[rustfmt::skip]
pub const ROWS: &[Row] = &[
    ("slash", [r#"{"a/b":1}"#, r#"[{"op":"replace","path":"/a~1b","value":2}]"#],
        [r#"{"a/b":2}"#, r#"[{"op":"replace","path":"/a~1b","value":1}]"#, r#"{"a/b":1}"#]),
    ("tilde", [r#"{"a~b":1}"#, r#"[{"op":"remove","path":"/a~0b"}]"#],
        ["{}", r#"[{"op":"add","path":"/a~0b","value":1}]"#, r#"{"a~b":1}"#]),
    ("tilde-one", [r#"{"~1":1,"/":2}"#, r#"[{"op":"move","from":"/~01","path":"/~1"}]"#],
        [r#"{"/":1}"#, r#"[{"op":"replace","path":"/~1","value":2},{"op":"add","path":"/~01","value":1}]"#, r#"{"/":2,"~1":1}"#]),
    ("empty", [r#"{"":{"":1}}"#, r#"[{"op":"remove","path":"//"}]"#],
        [r#"{"":{}}"#, r#"[{"op":"add","path":"//","value":1}]"#, r#"{"":{"":1}}"#]),
    ("quote", [r#"{"a\"b":1}"#, r#"[{"op":"remove","path":"/a\"b"}]"#],
        ["{}", r#"[{"op":"add","path":"/a\"b","value":1}]"#, r#"{"a\"b":1}"#]),
    ("backslash", [r#"{"a\\b":1}"#, r#"[{"op":"remove","path":"/a\\b"}]"#],
        ["{}", r#"[{"op":"add","path":"/a\\b","value":1}]"#, r#"{"a\\b":1}"#]),
    ("control", [r#"{"\u0000\b\u001f":1}"#, r#"[{"op":"replace","path":"/\u0000\u0008\u001F","value":2}]"#],
        [r#"{"\u0000\b\u001f":2}"#, r#"[{"op":"replace","path":"/\u0000\b\u001f","value":1}]"#, r#"{"\u0000\b\u001f":1}"#]),
    ("control-new", ["{}", r#"[{"op":"add","path":"/\n\t","value":2}]"#],
        [r#"{"\n\t":2}"#, r#"[{"op":"remove","path":"/\n\t"}]"#, "{}"]),
    ("escaped-pointer", [r#"{"a~/":1}"#, r#"[{"op":"remove","path":"\u002fa\u007e\u0030~\u0031"}]"#],
        ["{}", r#"[{"op":"add","path":"/a~0~1","value":1}]"#, r#"{"a~/":1}"#]),
    ("escaped-solidus", [r#"{"a\/b":"\/"}"#, r#"[{"op":"remove","path":"\/a~1b"}]"#],
        ["{}", r#"[{"op":"add","path":"/a~1b","value":"/"}]"#, r#"{"a/b":"/"}"#]),
    ("two-bytes", ["{\"\\u00e9\":1}", "[{\"op\":\"remove\",\"path\":\"/é\"}]"],
        ["{}", r#"[{"op":"add","path":"/é","value":1}]"#, r#"{"é":1}"#]),
    ("beyond-the-plane", ["{\"\u{1F600}\":1}", r#"[{"op":"remove","path":"/\ud83d\ude00"}]"#],
        ["{}", "[{\"op\":\"add\",\"path\":\"/\u{1F600}\",\"value\":1}]", "{\"\u{1F600}\":1}"]),
    ("beyond-the-plane-new", ["{}", r#"[{"op":"add","path":"/\uDBFF\uDFFF~0","value":1}]"#],
        ["{\"\u{10FFFF}~\":1}", "[{\"op\":\"remove\",\"path\":\"/\u{10FFFF}~0\"}]", "{}"]),
    ("delete", ["{\"\u{7f}\":1}", "[{\"op\":\"remove\",\"path\":\"/\u{7f}\"}]"],
        ["{}", "[{\"op\":\"add\",\"path\":\"/\u{7f}\",\"value\":1}]", "{\"\u{7f}\":1}"]),
    // Numbers and `-` for names in objects, where they mean themselves.
    ("number", [r#"{"1":1,"01":2}"#, r#"[{"op":"remove","path":"/01"}]"#],
        [r#"{"1":1}"#, r#"[{"op":"add","path":"/01","value":2}]"#, r#"{"1":1,"01":2}"#]),
    ("number-new", [r#"{"0":1}"#, r#"[{"op":"add","path":"/1","value":2}]"#],
        [r#"{"0":1,"1":2}"#, r#"[{"op":"remove","path":"/1"}]"#, r#"{"0":1}"#]),
    ("number-over", [r#"{"0":[5]}"#, r#"[{"op":"add","path":"/0","value":2}]"#],
        [r#"{"0":2}"#, r#"[{"op":"replace","path":"/0","value":[5]}]"#, r#"{"0":[5]}"#]),
    ("long-number", [r#"{"18446744073709551616":1}"#, r#"[{"op":"remove","path":"/18446744073709551616"}]"#],
        ["{}", r#"[{"op":"add","path":"/18446744073709551616","value":1}]"#, r#"{"18446744073709551616":1}"#]),
    ("dash", [r#"{"-":1.50}"#, r#"[{"op":"add","path":"/-","value":2}]"#],
        [r#"{"-":2}"#, r#"[{"op":"replace","path":"/-","value":1.50}]"#, r#"{"-":1.50}"#]),
    ("dash-moved", [r#"{"-":1}"#, r#"[{"op":"move","from":"/-","path":"/--"}]"#],
        [r#"{"--":1}"#, r#"[{"op":"remove","path":"/--"},{"op":"add","path":"/-","value":1}]"#, r#"{"-":1}"#]),
    ("of-operations", [r#"{"op":1,"path":2,"value":3}"#, r#"[{"op":"remove","path":"/path"}]"#],
        [r#"{"op":1,"value":3}"#, r#"[{"op":"add","path":"/path","value":2}]"#, r#"{"op":1,"value":3,"path":2}"#]),
    // Members that the patch has beside those that are used do not come back.
    ("other-members", [r#"{"a":1}"#, r#"[{"x":0,"value":2,"path":"/a","from":"/b","op":"replace"}]"#],
        [r#"{"a":2}"#, r#"[{"op":"replace","path":"/a","value":1}]"#, r#"{"a":1}"#]),
];

/// Every ASCII character as a name, removed; how it is escaped is known from the
/// two standards.
pub fn vectors() -> Vec<Vector> {
    (0..128u8)
        .map(|byte| {
            let string = match byte {
                b'"' | b'\\' => format!("\\{}", char::from(byte)),
                8 => "\\b".to_string(),
                9 => "\\t".to_string(),
                10 => "\\n".to_string(),
                12 => "\\f".to_string(),
                13 => "\\r".to_string(),
                0..=31 => format!("\\u{byte:04x}"),
                _ => char::from(byte).to_string(),
            };
            let token = match byte {
                b'~' => "~0",
                b'/' => "~1",
                _ => &string,
            };
            gives(
                format!("name-{byte:02x}"),
                format!("{{\"\\u{byte:04X}\":[{byte}]}}"),
                format!(r#"[{{"op":"remove","path":"/{token}"}}]"#),
                "{}",
                format!(r#"[{{"op":"add","path":"/{token}","value":[{byte}]}}]"#),
                format!("{{\"{string}\":[{byte}]}}"),
            )
        })
        .collect()
}
