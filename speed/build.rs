//! Compiles the plain C part, and links it. The wrapper in rust/ links the proved gateway.

use std::env;
use std::process::Command;

fn main() {
    let here = env::var("CARGO_MANIFEST_DIR").unwrap();
    let out = env::var("OUT_DIR").unwrap();
    let (source, object) = (format!("{here}/src/plain.c"), format!("{out}/plain_c.o"));
    run("gcc", &["-std=c11", "-O3", "-Wall", "-Wextra", "-c", &source, "-o", &object]);
    run("ar", &["crs", &format!("{out}/libplain_c.a"), &object]);

    println!("cargo:rerun-if-changed={source}");
    println!("cargo:rustc-link-search=native={out}");
    println!("cargo:rustc-link-lib=static=plain_c");
}

fn run(program: &str, words: &[&str]) {
    let status = Command::new(program).args(words).status();
    assert!(status.is_ok_and(|status| status.success()), "{program} {words:?} failed");
}
