//! Links the library that `rt lib` builds, and what it calls of the C library. Without one, as for the
//! tests, the calls of the library lead nowhere, and its column stays empty.
use std::{env, fs};

/// Lets the linker have an address for each name of a call, at which nothing is.
fn link_nothing() {
    let calls = fs::read_to_string("src/calls.rs").expect("the calls of the library");
    let words = calls.split(|c: char| !c.is_alphanumeric() && c != '_');
    for name in words.filter(|word| word.starts_with("p3_speed_")) {
        println!("cargo:rustc-link-arg-bins=-Wl,--defsym={name}=0");
    }
}

fn main() {
    println!("cargo:rustc-check-cfg=cfg(library)");
    println!("cargo:rerun-if-env-changed=P3_SPEED_OUT");
    println!("cargo:rerun-if-env-changed=RATTLE_C");
    println!("cargo:rerun-if-changed=src/calls.rs");
    let Ok(library) = env::var("P3_SPEED_OUT") else {
        return link_nothing();
    };
    let kit = env::var("RATTLE_C").expect("run bench/run");
    println!("cargo:rustc-cfg=library");
    println!("cargo:rustc-link-search=native={library}");
    println!("cargo:rustc-link-search=native={kit}");
    println!("cargo:rustc-link-lib=static=p3_speed");
    println!("cargo:rustc-link-lib=static=libc_c");
    println!("cargo:rerun-if-changed={library}/libp3_speed.a");
}
