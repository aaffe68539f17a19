//! Links the static archive that `rt lib` in crates/exports wrote, and the plain C code, which `cc` compiles: cargo links with it too.

use std::env::var;
use std::path::Path;
use std::process::Command;

fn main() {
    let here = Path::new(env!("CARGO_MANIFEST_DIR"));
    let archives = here.join("../crates/exports/out");
    println!("cargo:rustc-link-search=native={}", archives.display());
    println!("cargo:rustc-link-lib=static=exports");
    println!("cargo:rerun-if-changed={}", archives.join("libexports.a").display());

    let source = here.join("src/plain.c");
    let object = Path::new(&var("OUT_DIR").expect("cargo says where")).join("plain.o");
    let compiled = Command::new("cc").args(["-O3", "-c", "-o"]).arg(&object).arg(&source).status();
    assert!(compiled.expect("cc runs").success(), "cc compiles {}", source.display());
    println!("cargo:rustc-link-arg={}", object.display());
    println!("cargo:rerun-if-changed={}", source.display());
}
