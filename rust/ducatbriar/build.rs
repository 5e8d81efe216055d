//! Links libducatbriar.a, which portable/proved makes.
use std::env;
use std::path::{Path, PathBuf};

fn main() {
    println!("cargo::rerun-if-env-changed=DUCATBRIAR_LIB");
    let archive = env::var_os("DUCATBRIAR_LIB").map_or_else(
        || Path::new(&env::var_os("CARGO_MANIFEST_DIR").unwrap()).join("../../target/staticlib/libducatbriar.a"),
        PathBuf::from,
    );
    println!("cargo::rerun-if-changed={}", archive.display());
    if archive.file_name() != Some("libducatbriar.a".as_ref()) || !archive.is_file() {
        println!("cargo::error=no libducatbriar.a at {}", archive.display());
        println!(
            "cargo::error=run `portable/proved` at the repository's root, or set DUCATBRIAR_LIB to the archive's path (where the processor is no x86-64, to one that `portable/archive PATH` makes)"
        );
        return;
    }
    println!("cargo::rustc-link-search=native={}", archive.parent().unwrap().display());
    println!("cargo::rustc-link-lib=static=ducatbriar");
}
