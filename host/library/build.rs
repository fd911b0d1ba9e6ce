//! Links libcheukdane.a from the folder CHEUKDANE_LIB, or else from the project's target/host. In a folder that has
//! libcheukdane.so instead, that is linked, and looked for again when a test runs: so another may stand there then.

use std::env;
use std::path::{Path, PathBuf};

fn main() {
    println!("cargo:rerun-if-env-changed=CHEUKDANE_LIB");
    let folder = folder();
    let shared = folder.join("libcheukdane.so").exists();
    let (kind, file) =
        if shared { ("dylib", "libcheukdane.so") } else { ("static", "libcheukdane.a") };
    println!("cargo:rerun-if-changed={}", folder.join(file).display());
    println!("cargo:rustc-link-search=native={}", folder.display());
    println!("cargo:rustc-link-lib={kind}=cheukdane");
}

fn folder() -> PathBuf {
    let package = env::var_os("CARGO_MANIFEST_DIR").expect("cargo names the package's folder");
    let from_package = match env::var_os("CHEUKDANE_LIB") {
        Some(folder) => PathBuf::from(folder),
        None => PathBuf::from("../../target/host"),
    };
    Path::new(&package).join(from_package)
}
