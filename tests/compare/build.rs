//! Links the proved archive and the plain C version.

use std::path::{Path, PathBuf};
use std::process::Command;

fn main() {
    let here = PathBuf::from(std::env::var("CARGO_MANIFEST_DIR").unwrap());
    let out = PathBuf::from(std::env::var("OUT_DIR").unwrap());
    let tests = here.join("..");
    let archive = tests.join("../build/lib/libhoneyplank.a");
    for used in [&archive, &tests.join("reference/c")] {
        println!("cargo:rerun-if-changed={}", used.display());
    }
    println!("cargo:rustc-link-search=native={}", out.display());
    println!("cargo:rustc-link-lib=static=honeyplank");
    std::fs::copy(&archive, out.join("libhoneyplank.a")).unwrap_or_else(|e| panic!("{archive:?}: {e}"));
    plain(&tests.join("reference/c"), &out);
}

/// The plain C versions, as a library.
fn plain(sources: &Path, out: &Path) {
    let archive = out.join("libplain.a");
    let _ = std::fs::remove_file(&archive);
    for name in ["baseline", "file"] {
        let (source, object) = (sources.join(format!("{name}.c")), out.join(format!("plain_{name}.o")));
        run(Command::new("gcc").args(["-std=c99", "-O3", "-c"]).arg(source).arg("-o").arg(&object));
        run(Command::new("ar").arg("rcs").arg(&archive).arg(&object));
    }
    println!("cargo:rustc-link-lib=static=plain");
}

fn run(command: &mut Command) {
    let status = command.status().unwrap_or_else(|e| panic!("{command:?}: {e}"));
    assert!(status.success(), "{command:?}");
}
