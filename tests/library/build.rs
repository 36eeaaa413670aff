//! Tells the linker where the static library of plans is: in the folder that
//! PLANS_LIBRARY names, or else in target/staticlib of this repository.

use std::env;
use std::path::{Path, PathBuf};

const FILE: &str = "libplans_c.a";

fn main() {
    let folder = folder();
    let file = folder.join(FILE);
    println!("cargo:rerun-if-env-changed=PLANS_LIBRARY");
    println!("cargo:rerun-if-changed=build.rs");
    println!("cargo:rerun-if-changed={}", file.display());
    assert!(
        file.is_file(),
        "no {FILE} in {}: make it by `./staticlib plans_c`",
        folder.display()
    );
    println!("cargo:rustc-link-search=native={}", folder.display());
}

fn folder() -> PathBuf {
    match env::var_os("PLANS_LIBRARY") {
        Some(folder) => PathBuf::from(folder),
        None => {
            let manifest = env::var_os("CARGO_MANIFEST_DIR").expect("cargo sets it");
            Path::new(&manifest).join("../../target/staticlib")
        }
    }
}
