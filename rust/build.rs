//! Links the archives that `tools/archives` writes, in the folder that SPRITGROMMET_LIB names, or else in target/staticlib.
use std::env;
use std::path::Path;

fn main() {
    println!("cargo:rerun-if-env-changed=SPRITGROMMET_LIB");
    let own = env::var("CARGO_MANIFEST_DIR").expect("cargo names the folder");
    let usual = Path::new(&own).join("../target/staticlib").display().to_string();
    let folder = env::var("SPRITGROMMET_LIB").unwrap_or(usual);
    println!("cargo:rustc-link-search=native={folder}");
    for archive in ["embed", "embed_why"] {
        println!("cargo:rerun-if-changed={folder}/lib{archive}.a");
        println!("cargo:rustc-link-lib=static={archive}");
    }
}
