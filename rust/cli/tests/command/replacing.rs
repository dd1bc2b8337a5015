//! Files that are replaced: whole or not at all, whatever comes between.

use crate::support::{is_root, left_out, program, Folder, Ran, COMMAND, FIXED, PACK};
use std::fs::{self, Permissions};
use std::os::unix::fs::{chown, symlink, MetadataExt, PermissionsExt};
use std::path::{Path, PathBuf};
use std::process::Command;

const IN_PLACE: [&str; 4] = ["apply", "-i", "pack.json", "fix.json"];
const NAMES: [&str; 3] = ["fix.json", "other.json", "pack.json"];

#[test]
fn permissions_stay() {
    let folder = Folder::with_files();
    for mode in [0o600, 0o644, 0o664, 0o755, 0o640] {
        folder.write("pack.json", PACK);
        fs::set_permissions(folder.path("pack.json"), Permissions::from_mode(mode)).expect("mode");
        folder.run(IN_PLACE).done("");
        let new = fs::metadata(folder.path("pack.json")).expect("the result");
        assert_eq!((new.mode() & 0o7777, folder.read("pack.json")), (mode, FIXED.into()));
        folder.write("out.json", "old");
        fs::set_permissions(folder.path("out.json"), Permissions::from_mode(mode)).expect("mode");
        folder.write("pack.json", PACK);
        folder.run(["apply", "-o", "out.json", "pack.json", "fix.json"]).done("");
        let new = fs::metadata(folder.path("out.json")).expect("the result");
        assert_eq!((new.mode() & 0o7777, folder.read("out.json")), (mode, FIXED.into()));
    }
}

#[test]
fn a_new_file_has_the_permissions_of_a_new_file() {
    let folder = Folder::with_files();
    folder.write("plain", "");
    folder.run(["apply", "-o", "out.json", "pack.json", "fix.json"]).done("");
    let mode = |name: &str| fs::metadata(folder.path(name)).expect("a file").mode() & 0o7777;
    assert_eq!(mode("out.json"), mode("plain"));
}

#[test]
fn the_owner_stays() {
    if !is_root() {
        return left_out("an owner kept", "only root can give files away");
    }
    let folder = Folder::with_files();
    chown(folder.path("pack.json"), Some(65_534), Some(12_345)).expect("chown");
    folder.run(IN_PLACE).done("");
    let new = fs::metadata(folder.path("pack.json")).expect("the result");
    assert_eq!((new.uid(), new.gid()), (65_534, 12_345));
}

#[test]
fn a_symbolic_link_is_followed() {
    let folder = Folder::with_files();
    fs::create_dir(folder.path("deep")).expect("a folder");
    fs::rename(folder.path("pack.json"), folder.path("deep/real.json")).expect("moved");
    symlink("deep/middle.json", folder.path("pack.json")).expect("a link");
    symlink("real.json", folder.path("deep/middle.json")).expect("a link");
    folder.run(IN_PLACE).done("");
    assert_eq!(folder.read("deep/real.json"), FIXED);
    let is_link = |name: &str| folder.path(name).symlink_metadata().expect("a link").is_symlink();
    assert!(is_link("pack.json") && is_link("deep/middle.json") && !is_link("deep/real.json"));
    assert_eq!(folder.names(), ["deep", "fix.json", "other.json", "pack.json"]);

    // A link to what is not there yet: made there.
    symlink("deep/new.json", folder.path("out.json")).expect("a link");
    folder.run(["apply", "-o", "out.json", "pack.json", "fix.json"]);
    assert!(is_link("out.json") && folder.path("deep/new.json").is_file());

    // Links in a circle.
    symlink("b", folder.path("a")).expect("a link");
    symlink("a", folder.path("b")).expect("a link");
    folder
        .run(["apply", "-o", "a", "pack.json", "fix.json"])
        .trouble("json-patch: a: Too many levels of symbolic links\n");
}

#[test]
fn a_name_may_be_as_long_as_names_are() {
    let folder = Folder::with_files();
    let name = "n".repeat(255);
    fs::rename(folder.path("pack.json"), folder.path(&name)).expect("moved");
    folder.run(["apply", "-i", &name, "fix.json"]).done("");
    assert_eq!(folder.read(&name), FIXED);
}

#[test]
fn the_document_may_be_the_output_or_the_patch() {
    let folder = Folder::with_files();
    folder.run(["apply", "-o", "pack.json", "pack.json", "fix.json"]).done("");
    assert_eq!(folder.read("pack.json"), FIXED);
    folder.write("list.json", r#"[{"op":"remove","path":"/0/op"}]"#);
    folder.run(["apply", "-i", "list.json", "list.json"]).done("");
    assert_eq!(folder.read("list.json"), "[{\"path\":\"/0/op\"}]\n");
}

/// The library that ends the command at a step.
pub fn interrupter(folder: &Folder) -> Option<PathBuf> {
    let source = Path::new(env!("CARGO_MANIFEST_DIR")).join("tests/command/interrupt.c");
    let library = folder.path("interrupt.so");
    let mut compiler = Command::new("cc");
    compiler.args(["-shared", "-fPIC", "-O1", "-Wall", "-Wextra", "-o"]).arg(&library);
    let made = compiler.arg(source).arg("-ldl").output().ok()?;
    assert!(made.status.success(), "{}", String::from_utf8_lossy(&made.stderr));
    Some(library)
}

/// A run with that library, in a folder of its own, and the folder.
fn interrupted(library: &Path, variables: &[(&str, &str)]) -> (Folder, Ran) {
    let folder = Folder::with_files();
    let mut command = folder.command(IN_PLACE);
    command.env("LD_PRELOAD", library).envs(variables.iter().copied());
    let ran = Ran::of(&mut command);
    (folder, ran)
}

#[test]
fn a_killed_run_leaves_the_old_file_or_the_new_one() {
    let folder = Folder::new();
    let Some(library) = interrupter(&folder) else {
        return left_out("killed runs", "no C compiler 'cc'");
    };
    let steps = [
        ("before:write", PACK),
        ("after:write", PACK),
        ("before:fchmod", PACK),
        ("after:fchmod", PACK),
        ("before:fsync", PACK),
        ("after:fsync", PACK),
        ("before:linkat", PACK),
        ("after:linkat", PACK),
        ("before:rename", PACK),
        ("after:rename", FIXED),
        // The folder is synced as well as the file.
        ("second:fsync", FIXED),
    ];
    for (step, left) in steps {
        let (folder, ran) = interrupted(&library, &[("INTERRUPT", step)]);
        assert_eq!((ran.status, &ran.output[..], &ran.error[..]), (-1, "", ""), "{step}");
        assert_eq!(folder.read("pack.json"), left, "{step}");
        // Only between the two calls that name the new file is it there, whole.
        let mut names = folder.names();
        if let "after:linkat" | "before:rename" = step {
            let scratch = names.remove(0);
            assert!(scratch.starts_with(".json-patch-"), "{scratch}");
            assert_eq!(folder.read(&scratch), FIXED, "{step}");
        }
        assert_eq!(names, NAMES, "{step}");
        folder.run(IN_PLACE);
        assert!(folder.read("pack.json").starts_with("{\"mAh\":3000,\"cut\":[4.2,3.0,2.8"));
    }
}

#[test]
fn a_killed_run_without_nameless_files_does_too() {
    let folder = Folder::new();
    let Some(library) = interrupter(&folder) else {
        return left_out("killed runs", "no C compiler 'cc'");
    };
    let (folder, ran) = interrupted(&library, &[("NAMELESS", "no")]);
    ran.done("");
    assert_eq!(
        (folder.read("pack.json"), folder.names()),
        (FIXED.into(), NAMES.map(Into::into).into())
    );
    let steps = ["before:write", "after:write", "before:fsync", "after:fsync", "before:rename"];
    for step in steps {
        let (folder, ran) = interrupted(&library, &[("NAMELESS", "no"), ("INTERRUPT", step)]);
        assert_eq!(ran.status, -1, "{step}");
        assert_eq!(folder.read("pack.json"), PACK, "{step}");
        assert_eq!(folder.names()[1..], NAMES, "{step}");
        let mode = fs::metadata(folder.path(&folder.names()[0])).expect("the new file").mode();
        let expected = if step.ends_with("write") { 0o600 } else { 0o644 };
        assert_eq!(mode & 0o7777, expected, "no one may read it who may not read the old one");
    }
    let (folder, _) = interrupted(&library, &[("NAMELESS", "no"), ("INTERRUPT", "after:rename")]);
    assert_eq!(
        (folder.read("pack.json"), folder.names()),
        (FIXED.into(), NAMES.map(Into::into).into())
    );
}

#[test]
fn a_step_that_fails_leaves_the_old_file_and_nothing_else() {
    let folder = Folder::new();
    let Some(library) = interrupter(&folder) else {
        return left_out("steps that fail", "no C compiler 'cc'");
    };
    for nameless in ["yes", "no"] {
        for step in ["fchmod", "fsync", "linkat", "rename"] {
            if (nameless, step) == ("no", "linkat") {
                continue;
            }
            let (folder, ran) = interrupted(&library, &[("NAMELESS", nameless), ("FAIL", step)]);
            ran.trouble("json-patch: pack.json: No space left on device\n");
            assert_eq!(folder.read("pack.json"), PACK, "{step}");
            assert_eq!(folder.names(), NAMES, "{step}");
        }
    }
}

/// What happens on a filesystem of 16 KiB that is full: said line by line.
const FULL: &str = r#"
mount -t tmpfs -o size=16k,mode=755 none "$1" || exit 77
cd "$1" || exit 77
cp "$2/pack.json" "$2/fix.json" . || exit 77
cat /dev/zero >filler 2>/dev/null
"$3" apply -i pack.json fix.json 2>&1
echo "status $?"
"$3" apply -o new.json pack.json fix.json 2>&1
echo "status $?"
"$3" apply pack.json fix.json >out.json
echo "status $?"
rm -f out.json
cat pack.json
ls -A
rm filler
"$3" apply -i pack.json fix.json
echo "status $?"
cat pack.json
ls -A
"#;

#[test]
fn a_full_filesystem_leaves_the_old_file_and_nothing_else() {
    let (folder, mount) = (Folder::with_files(), Folder::new());
    let Some(unshare) = program("unshare") else {
        return left_out("a full filesystem", "no program 'unshare'");
    };
    // A place of its own for mounting, so that nothing is left behind.
    let mut command = Command::new(unshare);
    if !is_root() {
        command.args(["--user", "--map-root-user"]);
    }
    command.args(["--mount", "sh", "-c", FULL, "sh"]).arg(&mount.0).arg(&folder.0).arg(COMMAND);
    let ran = Ran::of(&mut command);
    if ran.status != 0 && !ran.output.contains("status") {
        return left_out("a full filesystem", &format!("mounting one failed: {}", ran.error));
    }
    let full = "No space left on device";
    let expected = format!(
        "json-patch: pack.json: {full}\nstatus 2\njson-patch: new.json: {full}\nstatus 2\n\
         status 2\n{PACK}filler\nfix.json\npack.json\nstatus 0\n{FIXED}fix.json\npack.json\n"
    );
    assert_eq!(ran.output, expected);
    assert_eq!(ran.error, format!("json-patch: standard output: {full}\n"));
}
