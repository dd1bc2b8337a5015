//! The committed list of names, and the files that it names.

use std::fs;
use std::io;
use std::path::Path;

/// A patch that has each operation, another number of times: 1 to 6.
fn six() -> Vec<u8> {
    let kinds = [
        r#"{"op":"add","path":"/a","value":1}"#,
        r#"{"op":"remove","path":"/a"}"#,
        r#"{"op":"replace","path":"/a","value":[]}"#,
        r#"{"op":"move","from":"/a","path":"/b"}"#,
        r#"{"op":"copy","from":"/a","path":"/a/b"}"#,
        r#"{"op":"test","path":"","value":null}"#,
    ];
    let some = (1..).zip(kinds).flat_map(|(n, kind)| vec![kind; n]);
    format!("[{}]", some.collect::<Vec<_>>().join(",\n")).into_bytes()
}

/// So many removes.
fn removes(count: usize) -> Vec<u8> {
    format!("[{}]", vec![r#"{"op":"remove","path":""}"#; count].join(",")).into_bytes()
}

/// An empty patch of so many bytes.
fn blank(length: usize) -> Vec<u8> {
    let mut text = vec![b' '; length];
    text[..2].copy_from_slice(b"[]");
    text
}

/// The files, by their names in the folder.
fn files() -> Vec<(&'static str, Vec<u8>)> {
    let nodes = |count| format!("[{}]", vec!["0"; count].join(",")).into_bytes();
    vec![
        ("six.json", six()),
        ("none.json", b"[]".to_vec()),
        ("longest.json", blank(32_768)),
        ("refused-2.json", blank(32_769)),
        ("refused-3.json", b"[{\"op\":\"add\"".to_vec()),
        ("refused-4.json", br#"[{"op":"remove","op":"add","path":""}]"#.to_vec()),
        ("refused-5.json", "[".repeat(33).into_bytes()),
        ("refused-6.json", nodes(2_048)),
        ("refused-7.json", b"[1e10000]".to_vec()),
        ("refused-8.json", br#"[{"op":"add","path":"/a","value":1},{"op":"ad"}]"#.to_vec()),
        ("refused-8-top.json", br#"{"op":"add","path":"/a","value":1}"#.to_vec()),
        ("most.json", removes(256)),
        ("refused-9.json", removes(257)),
        ("refused-10.json", br#"[{"op":"remove","path":"a"}]"#.to_vec()),
        ("refused-14.json", br#"[{"op":"move","from":"/a","path":"/a/b"}]"#.to_vec()),
        ("empty.json", Vec::new()),
        ("folder/inside.json", br#"[{"op":"test","path":"","value":0}]"#.to_vec()),
    ]
}

/// A name of so many bytes for `six.json`.
fn long(length: usize) -> String {
    let (name, dots) = ("six.json", length - "six.json".len());
    format!("{}{}{name}", "/".repeat(dots % 2), "./".repeat(dots / 2)).replacen("/./", ".//", 1)
}

/// The list: every file, then what is no file, the last line without its line feed.
fn list() -> Vec<u8> {
    let mut lines: Vec<Vec<u8>> = vec![Vec::new()];
    lines.extend(files().iter().map(|(name, _)| name.as_bytes().to_vec()));
    lines.push(Vec::new());
    lines.extend([4_095, 4_096, 4_097, 5_000, 70_000].map(|length| long(length).into_bytes()));
    for name in ["six.json\0", "\0", "six.json\r", "\r", " six.json", "missing.json", "folder", "."]
    {
        lines.push(name.as_bytes().to_vec());
    }
    // A name twice is two files.
    lines.push(b"folder/inside.json".to_vec());
    lines.join(&b'\n')
}

/// Writes the files to a folder, and gives the list.
pub fn write(folder: &Path) -> io::Result<Vec<u8>> {
    fs::create_dir_all(folder.join("folder"))?;
    for (name, bytes) in files() {
        fs::write(folder.join(name), bytes)?;
    }
    Ok(list())
}

#[cfg(test)]
mod tests {
    use super::*;

    #[test]
    fn long_names_are_as_long() {
        for length in [4_094, 4_095, 4_096, 4_097] {
            assert_eq!(long(length).len(), length);
            assert!(!long(length).starts_with('/'), "{}", long(length));
        }
    }
}
