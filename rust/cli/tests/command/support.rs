//! Folders, files and runs of the command.

use std::ffi::{OsStr, OsString};
use std::fs;
use std::io::Write;
use std::os::unix::fs::MetadataExt;
use std::path::{Path, PathBuf};
use std::process::{Command, Stdio};
use std::sync::atomic::{AtomicUsize, Ordering};

pub const COMMAND: &str = env!("CARGO_BIN_EXE_json-patch");
/// A file of the repository's root.
pub const ROOT: &str = concat!(env!("CARGO_MANIFEST_DIR"), "/../..");

pub const PACK: &str = "{\"mAh\":3000,\"cut\":[4.2,3.0]}\n";
pub const FIX: &str =
    r#"[{"op":"test","path":"/mAh","value":3e3},{"op":"add","path":"/cut/-","value":2.8}]"#;
pub const FIXED: &str = "{\"mAh\":3000,\"cut\":[4.2,3.0,2.8]}\n";
/// A patch that is refused with 15.
pub const OTHER: &str = r#"[{"op":"test","path":"/mAh","value":3001}]"#;

/// A folder of its own for a test, which goes with it.
pub struct Folder(pub PathBuf);

impl Folder {
    pub fn new() -> Self {
        static COUNT: AtomicUsize = AtomicUsize::new(0);
        let count = COUNT.fetch_add(1, Ordering::Relaxed);
        let name = format!("json-patch-test-{}-{count}", std::process::id());
        let path = std::env::temp_dir().join(name);
        fs::create_dir(&path).expect("a folder");
        Folder(path)
    }

    /// With `pack.json`, `fix.json` and `other.json`.
    pub fn with_files() -> Self {
        let folder = Folder::new();
        folder.write("pack.json", PACK);
        folder.write("fix.json", FIX);
        folder.write("other.json", OTHER);
        folder
    }

    pub fn path(&self, name: impl AsRef<OsStr>) -> PathBuf {
        self.0.join(name.as_ref())
    }

    pub fn write(&self, name: impl AsRef<OsStr>, bytes: impl AsRef<[u8]>) {
        fs::write(self.path(name), bytes).expect("a file written");
    }

    pub fn read(&self, name: impl AsRef<OsStr>) -> String {
        String::from_utf8(fs::read(self.path(name)).expect("a file read")).expect("UTF-8")
    }

    /// The names in it, sorted.
    pub fn names(&self) -> Vec<String> {
        let entries = fs::read_dir(&self.0).expect("a folder");
        let mut names: Vec<String> = entries
            .map(|entry| entry.expect("an entry").file_name().to_string_lossy().into_owned())
            .collect();
        names.sort();
        names
    }

    /// The command, to be run here.
    pub fn command<S: AsRef<OsStr>>(&self, words: impl IntoIterator<Item = S>) -> Command {
        let mut command = Command::new(COMMAND);
        command.args(words).current_dir(&self.0).env_remove("NO_COLOR").stdin(Stdio::null());
        command
    }

    /// Runs the command here.
    pub fn run<S: AsRef<OsStr>>(&self, words: impl IntoIterator<Item = S>) -> Ran {
        Ran::of(&mut self.command(words))
    }

    /// The same with something on standard input.
    pub fn run_with(&self, input: &str, words: &[&str]) -> Ran {
        let mut command = self.command(words);
        command.stdin(Stdio::piped()).stdout(Stdio::piped()).stderr(Stdio::piped());
        let mut child = command.spawn().expect("the command started");
        child.stdin.take().expect("its input").write_all(input.as_bytes()).expect("input");
        Ran::from(child.wait_with_output().expect("the command ended"))
    }
}

impl Drop for Folder {
    fn drop(&mut self) {
        let _ = fs::remove_dir_all(&self.0);
    }
}

/// How a run ended: its exit status, or less than 0 for a signal.
#[derive(Debug, PartialEq, Eq)]
pub struct Ran {
    pub status: i32,
    pub output: String,
    pub error: String,
}

impl Ran {
    pub fn of(command: &mut Command) -> Self {
        Ran::from(command.output().expect("the command ran"))
    }

    /// Done, and printed this.
    #[track_caller]
    pub fn done(&self, output: &str) {
        assert_eq!((self.status, &self.output[..], &self.error[..]), (0, output, ""));
    }

    /// Refused, and said this.
    #[track_caller]
    pub fn refused(&self, words: &str) {
        assert_eq!((self.status, &self.output[..], &self.error[..]), (1, "", words));
    }

    /// In trouble, and said this.
    #[track_caller]
    pub fn trouble(&self, words: &str) {
        assert_eq!((self.status, &self.output[..], &self.error[..]), (2, "", words));
    }
}

impl From<std::process::Output> for Ran {
    fn from(output: std::process::Output) -> Self {
        Ran {
            status: output.status.code().unwrap_or(-1),
            output: String::from_utf8(output.stdout).expect("UTF-8"),
            error: String::from_utf8(output.stderr).expect("UTF-8"),
        }
    }
}

/// Whether the tests run as root, from whom no file is hidden.
pub fn is_root() -> bool {
    fs::metadata("/proc/self").expect("/proc").uid() == 0
}

/// A program of the system, where it is there.
pub fn program(name: &str) -> Option<PathBuf> {
    let path = std::env::var_os("PATH").unwrap_or_default();
    std::env::split_paths(&path).map(|folder| folder.join(name)).find(|path| path.is_file())
}

/// Says on standard error what could not be tried, and why. Past the test
/// harness, which would keep it to itself.
pub fn left_out(what: &str, why: &str) {
    let _ = writeln!(std::io::stderr(), "left out: {what}: {why}");
}

pub fn words(text: &str) -> Vec<OsString> {
    text.split(' ').map(OsString::from).collect()
}

pub fn file_of_root(name: &str) -> String {
    let path = Path::new(ROOT).join(name);
    fs::read_to_string(&path).unwrap_or_else(|error| panic!("{}: {error}", path.display()))
}

/// A committed text, and what the second program expects of both calls on it.
pub struct Case {
    pub name: String,
    pub text: Vec<u8>,
    pub written: Vec<u8>,
    pub read: Vec<u8>,
}

/// The committed texts of a crate whose program puts each to two calls: `case NAME
/// ROOM LENGTH` and the text; in the output `NAME written: ANSWER` and `NAME read:
/// ANSWER`.
pub fn committed(folder: &str) -> Vec<Case> {
    let folder = Path::new(ROOT).join(folder);
    let file = fs::read(folder.join("data/cases")).expect("the cases");
    let answers = fs::read(folder.join("stdout")).expect("the answers");
    let (mut rest, mut cases) = (&file[..], Vec::new());
    while !rest.is_empty() {
        let end = rest.iter().position(|&byte| byte == b'\n').expect("a line");
        let title = std::str::from_utf8(&rest[..end]).expect("text");
        let words: Vec<&str> = title.split(' ').collect();
        let ["case", name, _, length] = words[..] else { panic!("{title}") };
        let length: usize = length.parse().expect("a number");
        cases.push((name.to_string(), rest[end + 1..][..length].to_vec()));
        rest = &rest[end + length + 2..];
    }
    // Each answer stands between its title, at the beginning of a line, and the next.
    let answers = [&b"\n"[..], &answers].concat();
    let (mut rest, mut parts) = (&answers[..], Vec::new());
    for (name, _) in &cases {
        for title in [format!("\n{name} written: "), format!("\n{name} read: ")] {
            let at = rest.windows(title.len()).position(|window| window == title.as_bytes());
            let at = at.unwrap_or_else(|| panic!("no answer for {name}"));
            parts.push(rest[..at].to_vec());
            rest = &rest[at + title.len()..];
        }
    }
    parts.push(rest.strip_suffix(b"\n").expect("a line's end").to_vec());
    let pairs = parts[1..].chunks(2).map(|pair| (pair[0].clone(), pair[1].clone()));
    let whole = cases.into_iter().zip(pairs);
    whole.map(|((name, text), (written, read))| Case { name, text, written, read }).collect()
}
