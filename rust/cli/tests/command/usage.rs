//! Help, version, manual and completions.

use crate::support::{file_of_root, left_out, program, words, Folder, Ran, COMMAND};
use std::process::Command;

const COMMANDS: [&str; 12] = [
    "apply",
    "check",
    "undo",
    "merge",
    "origins",
    "inspect",
    "equal",
    "link",
    "pointer",
    "hex",
    "unhex",
    "completion",
];

/// The help of a subcommand.
fn help(name: &str) -> String {
    let folder = Folder::new();
    let ran = folder.run([name, "--help"]);
    ran.done(&ran.output);
    ran.output
}

/// The options that a help lists, in all their forms.
fn options(help: &str) -> Vec<String> {
    let section = help.split("Options:\n").nth(1).expect("options").split("\n\n").next();
    section
        .expect("options")
        .lines()
        .flat_map(|line| line.split_whitespace().take_while(|word| word.starts_with('-')))
        .map(|word| word.trim_end_matches(',').to_string())
        .collect()
}

#[test]
fn every_command_has_help_with_an_example() {
    let folder = Folder::new();
    let overview = folder.run(["--help"]);
    overview.done(&overview.output);
    assert_eq!(folder.run(["-h"]), overview);
    assert_eq!(folder.run(["help"]), overview);
    for name in COMMANDS {
        assert!(overview.output.contains(&format!("\n  {name} ")), "{name}");
        let text = help(name);
        assert!(text.starts_with(&format!("Usage: json-patch {name} ")), "{text}");
        assert!(text.contains("\nExample:\n  $ "), "{text}");
        for form in [&["help", name][..], &[name, "-h"], &[name, "nothing", "--help", "--frob"]] {
            folder.run(form).done(&text);
        }
        assert!(text.lines().all(|line| line.len() <= 80), "{text}");
    }
    assert!(overview.output.contains("\nExample:\n"));
}

/// Runs what the examples show, and compares what they print.
#[test]
fn examples_do_what_they_show() {
    let folder = Folder::new();
    for name in COMMANDS.into_iter().filter(|&name| name != "completion") {
        let text = help(name);
        let example = text.split("Example:\n").nth(1).expect("an example").replace("\n  ", "\n");
        let steps = example.trim_start().trim_end_matches('\n').split("$ ").skip(1);
        let mut ran = 0;
        for step in steps {
            let (line, output) = step.split_once('\n').unwrap_or((step, ""));
            let output = format!("{}\n", output.trim_end_matches('\n'));
            match line.split_once(' ').expect("a command") {
                ("cat", file) => folder.write(file, output),
                ("json-patch", rest) => {
                    folder.run(words(&rest.replace('\'', ""))).done(&output);
                    ran += 1;
                }
                other => panic!("{other:?}"),
            }
        }
        assert_eq!(ran, 1);
    }
}

#[test]
fn the_version_is_that_of_the_package() {
    let folder = Folder::new();
    let expected = concat!("json-patch ", env!("CARGO_PKG_VERSION"), "\n");
    folder.run(["--version"]).done(expected);
    folder.run(["-V"]).done(expected);
    let header = file_of_root("include/json_patch.h");
    let version = concat!("#define JSON_PATCH_VERSION \"", env!("CARGO_PKG_VERSION"), "\"");
    assert!(header.contains(version));
    let title = concat!("Version ", env!("CARGO_PKG_VERSION"));
    assert!(file_of_root("README.md").contains(title), "README.md");
    let latest = file_of_root("CHANGELOG.md");
    let latest = latest.lines().find(|line| line.starts_with("## [")).expect("a version");
    let version = concat!("## [", env!("CARGO_PKG_VERSION"), "]");
    assert!(latest.starts_with(version), "{latest}");
}

#[test]
fn the_manual_has_every_command_and_every_option() {
    let manual = file_of_root("man/json-patch.1").replace("\\-", "-");
    for name in COMMANDS {
        assert!(manual.contains(&format!("json-patch {name}")), "{name}");
        for option in options(&help(name)) {
            assert!(manual.contains(&option), "{name} {option}");
        }
    }
    for option in ["-h", "--help", "-V", "--version", "NO_COLOR"] {
        assert!(manual.contains(option), "{option}");
    }
}

fn completion(shell: &str) -> String {
    let folder = Folder::new();
    let ran = folder.run(["completion", shell]);
    ran.done(&ran.output);
    ran.output
}

#[test]
fn completions_have_every_command_and_every_option() {
    for shell in ["bash", "zsh", "fish"] {
        let text = completion(shell);
        for name in COMMANDS {
            assert!(text.contains(name), "{shell} {name}");
            for option in options(&help(name)) {
                let form = match (shell, option.strip_prefix("--")) {
                    ("fish", Some(long)) => format!(" -l {long} "),
                    ("fish", None) => format!(" -s {} ", &option[1..]),
                    _ => option.clone(),
                };
                assert!(text.contains(&form), "{shell} {name} {option}");
            }
        }
    }
}

/// What bash offers behind these words.
fn offered(folder: &Folder, line: &[&str]) -> Vec<String> {
    let script = r#"
        . <("$0" completion bash)
        COMP_WORDS=("$@") COMP_CWORD=$(($# - 1))
        _json_patch
        ((${#COMPREPLY[@]} == 0)) || printf '%s\n' "${COMPREPLY[@]}""#;
    let mut command = Command::new("bash");
    command.args(["--norc", "-c", script, COMMAND, "json-patch"]).args(line).current_dir(&folder.0);
    let ran = Ran::of(&mut command);
    assert_eq!((ran.status, &ran.error[..]), (0, ""));
    ran.output.lines().map(String::from).collect()
}

#[test]
fn bash_completes() {
    if program("bash").is_none() {
        return left_out("completions for bash", "no bash");
    }
    let folder = Folder::with_files();
    folder.write("two words.json", "");
    assert_eq!(offered(&folder, &["a"]), ["apply"]);
    assert_eq!(offered(&folder, &["c"]), ["check", "completion"]);
    assert_eq!(offered(&folder, &["equal", "--c"]), ["--count"]);
    assert_eq!(offered(&folder, &["o"]), ["origins"]);
    assert_eq!(offered(&folder, &["origins", "--c"]), ["--changed"]);
    assert_eq!(offered(&folder, &["origins", "--m"]), ["--merge"]);
    assert_eq!(offered(&folder, &["origins", "pack.json", "f"]), ["fix.json"]);
    assert_eq!(offered(&folder, &["apply", "--o"]), ["--output"]);
    assert_eq!(offered(&folder, &["apply", "--in"]), ["--in-place"]);
    assert_eq!(offered(&folder, &["check", "--o"]), [""; 0]);
    assert_eq!(offered(&folder, &["apply", "p"]), ["pack.json"]);
    assert_eq!(offered(&folder, &["apply", "pack.json", "f"]), ["fix.json"]);
    assert_eq!(offered(&folder, &["apply", "t"]), ["two words.json"]);
    assert_eq!(offered(&folder, &["apply", "-o", "p"]), ["pack.json"]);
    assert_eq!(offered(&folder, &["completion", "b"]), ["bash"]);
    assert_eq!(offered(&folder, &["help", "ch"]), ["check"]);
    assert_eq!(offered(&folder, &["help", "p"]), ["pointer"]);
    assert_eq!(offered(&folder, &["hex", "p"]), ["pack.json"]);
    assert_eq!(offered(&folder, &["unhex", "--output", "p"]), ["pack.json"]);
    // A pointer is no file.
    assert_eq!(offered(&folder, &["link", "p"]), [""; 0]);
    assert_eq!(offered(&folder, &["pointer", "--q"]), ["--quiet"]);
}

#[test]
fn other_shells_can_read_their_completions() {
    for shell in ["zsh", "fish"] {
        if program(shell).is_none() {
            left_out(&format!("completions for {shell}"), "no such shell here");
            continue;
        }
        let folder = Folder::new();
        folder.write("completions", completion(shell));
        let mut command = Command::new(shell);
        command.args(["-n", "completions"]).current_dir(&folder.0);
        Ran::of(&mut command).done("");
    }
}
