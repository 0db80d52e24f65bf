//! Links target/staticlib/libpagunlit.a of the tree that the package stands in, which `tools/archive pagunlit` writes, and
//! tells the program the archive's sha256 checksum, so that a run can say which library it tested.

use std::process::Command;

fn main() {
    // Read when the script runs, not when it is compiled: a compiled script may have been copied along with its tree.
    let package = std::env::var("CARGO_MANIFEST_DIR").expect("cargo names the package's folder");
    let folder = format!("{package}/../../target/staticlib");
    let archive = format!("{folder}/libpagunlit.a");
    println!("cargo:rustc-link-search=native={folder}");
    println!("cargo:rustc-link-lib=static=pagunlit");
    println!("cargo:rustc-env=ARCHIVE_SHA256={}", checksum(&archive));
    println!("cargo:rerun-if-changed={archive}");
    // tests/outside/run has the archive's path and checksum in it: another tree or another archive runs the script again.
    println!("cargo:rerun-if-env-changed=PAGUNLIT_ARCHIVE");
}

fn checksum(archive: &str) -> String {
    let output = Command::new("sha256sum").arg(archive).output();
    let output = output.expect("sha256sum starts");
    assert!(output.status.success(), "{archive} cannot be read");
    let text = String::from_utf8(output.stdout).expect("sha256sum prints text");
    let sum = text.split(' ').next().expect("a checksum comes first");
    // A name with a backslash or a newline in it has a backslash before its checksum.
    sum.trim_start_matches('\\').to_string()
}
