//! Links the proved library, which `scripts/bindings` makes, and says in one line where it isn't there.
use std::env;
use std::path::PathBuf;

fn main() {
    println!("cargo::rerun-if-env-changed=P3_FIELD_LIB");
    let beside = || format!("{}/../lib", env::var("CARGO_MANIFEST_DIR").unwrap_or_default());
    let folder = PathBuf::from(env::var("P3_FIELD_LIB").unwrap_or_else(|_| beside()));
    let archive = folder.join("libp3_c.a");
    println!("cargo::rerun-if-changed={}", archive.display());
    if let (Ok(folder), true) = (folder.canonicalize(), archive.exists()) {
        println!("cargo::rustc-link-search=native={}", folder.display());
        println!("cargo::rustc-link-lib=static=p3_c");
    } else {
        let missing = "the proved library libp3_c.a is missing: run scripts/bindings, or name its folder in P3_FIELD_LIB";
        println!("cargo::error={missing} (looked in {})", folder.display());
    }
}
