//! Tells cargo where the proved static library lies, or the caller how to make it.

use std::env;
use std::path::PathBuf;
use std::process::exit;

fn main() {
    println!("cargo::rerun-if-env-changed=LANE_LIBRARY");
    let (folder, from) = match env::var_os("LANE_LIBRARY") {
        Some(folder) => (PathBuf::from(folder), "LANE_LIBRARY names this folder"),
        None => (
            PathBuf::from(env!("CARGO_MANIFEST_DIR")).join("../../crates/deque/out"),
            "run `make library`, or let LANE_LIBRARY name the folder that has it",
        ),
    };
    if folder.is_relative() {
        refuse(&format!(
            "LANE_LIBRARY is `{}`: give it as an absolute path; cargo does not tell a build where it was called from",
            folder.display()
        ));
    }
    // As it is built, and as it is installed.
    for name in ["deque", "lane"] {
        let library = folder.join(format!("lib{name}.a"));
        println!("cargo::rerun-if-changed={}", library.display());
        if library.is_file() {
            println!("cargo::rustc-link-search=native={}", folder.display());
            println!("cargo::rustc-link-lib=static={name}");
            return;
        }
    }
    refuse(&format!(
        "neither libdeque.a nor liblane.a is in `{}`: {from}",
        folder.display()
    ));
}

fn refuse(reason: &str) -> ! {
    eprintln!("the proved library is not found: {reason}");
    exit(1);
}
