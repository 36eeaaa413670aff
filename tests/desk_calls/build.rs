//! Tells the linker where the static library of the desk is: in the folder that
//! DESK_LIBRARY names, or else in target/staticlib of this repository.

use std::env;
use std::path::{Path, PathBuf};

const FILE: &str = "libdesk_c.a";

fn main() {
    let folder = folder();
    let file = folder.join(FILE);
    println!("cargo:rerun-if-env-changed=DESK_LIBRARY");
    println!("cargo:rerun-if-changed=build.rs");
    println!("cargo:rerun-if-changed={}", file.display());
    assert!(
        file.is_file(),
        "no {FILE} in {}: make it by `./staticlib desk_c`",
        folder.display()
    );
    println!("cargo:rustc-link-search=native={}", folder.display());
}

fn folder() -> PathBuf {
    match env::var_os("DESK_LIBRARY") {
        Some(folder) => PathBuf::from(folder),
        None => {
            let manifest = env::var_os("CARGO_MANIFEST_DIR").expect("cargo sets it");
            Path::new(&manifest).join("../../target/staticlib")
        }
    }
}
