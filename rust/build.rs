//! Finds the static libraries: in target/staticlib of the repository, where
//! `tools/staticlib.sh NAME` puts that of crate NAME, or in the folder that
//! JSON_PATCH_LIB names.

use std::path::PathBuf;
use std::{env, process};

fn main() {
    println!("cargo:rerun-if-env-changed=JSON_PATCH_LIB");
    let folder = match env::var_os("JSON_PATCH_LIB") {
        Some(folder) => PathBuf::from(folder),
        None => PathBuf::from(env::var_os("CARGO_MANIFEST_DIR").unwrap_or_default())
            .join("../target/staticlib"),
    };
    println!("cargo:rustc-link-search=native={}", folder.display());
    let calls = ["json_patch", "region_call", "undo", "merge"];
    let listing = ["listing", "region_listing", "merge_listing", "undo_listing"];
    for name in calls.into_iter().chain(listing).chain(["fragment", "hex", "inspect", "compare"]) {
        let library = folder.join(format!("lib{name}.a"));
        println!("cargo:rerun-if-changed={}", library.display());
        if !library.is_file() {
            eprintln!("no {}: run 'tools/staticlib.sh {name}' first", library.display());
            process::exit(1);
        }
        println!("cargo:rustc-link-lib=static={name}");
    }
}
