//! The patch tool on files.

use crate::tool::output;
use std::ffi::OsString;
use std::path::PathBuf;
use std::{env, fs, process};

/// A folder of its own for one test, removed at the end.
struct Folder(PathBuf);

impl Folder {
    fn new(name: &str) -> Self {
        let path = env::temp_dir().join(format!("second-test-{}-{name}", process::id()));
        fs::create_dir_all(&path).expect("a temporary folder");
        Folder(path)
    }

    fn file(&self, name: &str, text: &[u8]) -> OsString {
        let path = self.0.join(name);
        fs::write(&path, text).expect("a temporary file");
        path.into_os_string()
    }
}

impl Drop for Folder {
    fn drop(&mut self) {
        let _ = fs::remove_dir_all(&self.0);
    }
}

#[test]
fn it_prints_one_line() {
    let folder = Folder::new("line");
    let document = folder.file("document", br#"{"mAh":3000,"cut":[4.2,3.0]}"#);
    let good = folder.file(
        "good",
        br#"[{"op":"test","path":"/mAh","value":3e3},{"op":"add","path":"/cut/-","value":2.8}]"#,
    );
    let bad = folder.file("bad", br#"[{"op":"test","path":"/mAh","value":3001}]"#);
    assert_eq!(output(&[document.clone(), good]), b"{\"mAh\":3000,\"cut\":[4.2,3.0,2.8]}\n");
    assert_eq!(output(&[document, bad]), b"refused 15 text 0 op 1 place 0 pointer 0\n");
}

#[test]
fn it_sees_that_a_file_is_too_long() {
    let folder = Folder::new("long");
    let document = folder.file("document", &b" ".repeat(1_000_000));
    let patch = folder.file("patch", b"[]");
    assert_eq!(output(&[document, patch]), b"refused 2 text 1 op 0 place 0 pointer 0\n");
}

#[test]
fn it_tells_what_is_unreadable() {
    let folder = Folder::new("unreadable");
    let document = folder.file("document", b"1");
    let patch = folder.file("patch", b"[]");
    let missing = folder.0.join("missing").into_os_string();
    let directory = folder.0.clone().into_os_string();
    let (d, p) = (document, patch);
    for arguments in [
        vec![],
        vec![d.clone()],
        vec![d.clone(), p.clone(), p.clone()],
        vec![d.clone(), missing.clone()],
        vec![missing, p.clone()],
        vec![d.clone(), OsString::new()],
        vec![OsString::new(), p.clone()],
        vec![d.clone(), directory.clone()],
        vec![directory, p.clone()],
    ] {
        assert_eq!(output(&arguments), b"unreadable\n", "{arguments:?}");
    }
    assert_eq!(output(&[d, p]), b"1\n");
}
