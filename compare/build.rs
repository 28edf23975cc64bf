//! Links the proved library, which `rt lib` makes in `crates/bridge`, and the C code that the kit has for it.

use std::env;
use std::path::{Path, PathBuf};
use std::process::Command;

/// The kit's folder: `rt doc` prints the path of a page that lies in it.
fn kit() -> PathBuf {
    let answer = Command::new("rt")
        .arg("doc")
        .output()
        .expect("the command `rt` is not on the path");
    assert!(answer.status.success(), "`rt doc` failed");
    let page = String::from_utf8(answer.stdout).expect("`rt doc` printed no text");
    Path::new(page.trim())
        .ancestors()
        .nth(1)
        .expect("`rt doc` printed no path of a page")
        .to_path_buf()
}

/// Links the library `name` of a folder, anew whenever it has changed.
fn link(folder: &Path, name: &str) {
    let file = folder.join(format!("lib{name}.a"));
    assert!(file.is_file(), "there is no {}", file.display());
    println!("cargo::rerun-if-changed={}", file.display());
    println!("cargo::rustc-link-search=native={}", folder.display());
    println!("cargo::rustc-link-lib=static={name}");
}

fn main() {
    let here =
        PathBuf::from(env::var_os("CARGO_MANIFEST_DIR").expect("cargo names the package's folder"));
    link(&here.join("../crates/bridge/out"), "bridge");
    link(&kit().join("c"), "os_c");
    link(&kit().join("c"), "libc_c");
}
