//! Links the static library `export`, which `tools/library` writes.

use std::env;
use std::path::{Path, PathBuf};

use crate::{stop, variable};

const VARIABLE: &str = "SPOREKETTLE_LIBRARY";
const FILE: &str = "libexport.a";

pub fn link() {
    println!("cargo:rerun-if-env-changed={VARIABLE}");
    let library = library();
    // A file that is not there counts as changed, so the next build looks for it again.
    println!("cargo:rerun-if-changed={}", library.display());
    let target =
        ["ARCH", "OS", "POINTER_WIDTH"].map(|of| variable(&format!("CARGO_CFG_TARGET_{of}")));
    if target != ["x86_64", "linux", "64"] {
        stop("the static library is for Linux on x86-64: build with `--target x86_64-unknown-linux-gnu`");
    }
    if !library.is_file() {
        stop(&format!(
            "there is no file {}: run `tools/library` in the repository, or set {VARIABLE} to the path of {FILE}",
            library.display()
        ));
    }
    if library.file_name() != Some(FILE.as_ref()) {
        stop(&format!(
            "{VARIABLE} is {}: the linker finds the library only under the name {FILE}",
            library.display()
        ));
    }
    let folder = library.parent().unwrap_or_else(|| Path::new("."));
    println!("cargo:rustc-link-search=native={}", folder.display());
    println!("cargo:rustc-link-lib=static=export");
}

/// Where the library should be. A relative path in the variable counts from this crate's folder.
fn library() -> PathBuf {
    let here = PathBuf::from(variable("CARGO_MANIFEST_DIR"));
    match env::var_os(VARIABLE) {
        Some(path) => here.join(path),
        None => here.join("../crates/export/out").join(FILE),
    }
}
