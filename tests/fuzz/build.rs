//! Tells the linker of libFuzzer's runtime, which has the `main` of every
//! harness, and where the object of the desk program is: FUZZ_PROGRAM names it.

use std::env;

const HARNESSES: [&str; 4] = ["program", "plans", "desk", "feed"];

fn main() {
    println!("cargo:rerun-if-changed=build.rs");
    println!("cargo:rerun-if-env-changed=FUZZ_PROGRAM");
    for harness in HARNESSES {
        println!("cargo:rustc-link-arg-bin={harness}=-fsanitize=fuzzer");
    }
    if let Some(program) = env::var_os("FUZZ_PROGRAM") {
        let program = program.into_string().expect("a path of letters");
        println!("cargo:rerun-if-changed={program}");
        println!("cargo:rustc-link-arg-bin=program={program}");
    }
}
