//! Finds kermit's source and names its files to the compiler, byte for byte as they are.
//!
//! The source is looked for at KERMIT_SRC, else at `../shared/docs/src` beside the repository. Where it is not there the crate is an empty shell:
//! the cfg `kermit` stays off, and those that build on this crate learn the same from DEP_KERMIT_PRESENT.
use std::path::{Path, PathBuf};
use std::{env, fs};

/// kermit's modules, as the files say `crate::..` and `super::..` to each other. `{src}` is kermit's source, `{out}` this crate's OUT_DIR.
const MODULES: &str = r#"
extern crate self as arrow;
extern crate self as csv;
extern crate self as kermit_iters;
extern crate self as parquet;
extern crate self as serde_json;
use stand_ins::{files::*, *};

#[path = "{src}/kermit-iters/src/trie.rs"]
mod trie;
#[path = "{src}/kermit-ds/src/cardinality.rs"]
mod cardinality;
#[path = "{src}/kermit-ds/src/heap_size.rs"]
mod heap_size;
#[path = "{src}/kermit-ds/src/seek.rs"]
mod seek;
#[path = "{out}/relation.rs"]
mod relation;
mod column_trie {
    #[allow(unused_imports)]
    #[path = "{src}/kermit-ds/src/ds/column_trie/column_trie_iter.rs"]
    pub(crate) mod column_trie_iter;
    #[path = "{src}/kermit-ds/src/ds/column_trie/implementation.rs"]
    pub(crate) mod implementation;
    pub(crate) use crate::stand_ins::build_mode;
}
mod sorted {
    #[path = "{src}/kermit-algos/src/sorted/leapfrog_join.rs"]
    pub(crate) mod leapfrog_join;
    #[path = "{src}/kermit-algos/src/sorted/leapfrog_triejoin.rs"]
    pub(crate) mod leapfrog_triejoin;
}
"#;

fn source() -> PathBuf {
    println!("cargo::rerun-if-env-changed=KERMIT_SRC");
    env::var_os("KERMIT_SRC")
        .map_or_else(|| Path::new(&env::var_os("CARGO_MANIFEST_DIR").unwrap()).join("../../../shared/docs/src"), PathBuf::from)
}

fn main() {
    println!("cargo::rustc-check-cfg=cfg(kermit)");
    let source = source();
    let relation = source.join("kermit-ds/src/relation.rs");
    // A path that is not there is looked at again at every build, so the source is noticed when it comes.
    println!("cargo::rerun-if-changed={}", relation.display());
    let Ok(text) = fs::read_to_string(&relation) else {
        return;
    };
    let out = PathBuf::from(env::var_os("OUT_DIR").unwrap());
    // relation.rs is cut off behind a doc comment, which needs an item to stand on.
    fs::write(out.join("relation.rs"), text + "struct CutOff;\n").unwrap();
    let source = source.canonicalize().unwrap();
    let modules = MODULES.replace("{src}", source.to_str().unwrap()).replace("{out}", out.to_str().unwrap());
    fs::write(out.join("kermit.rs"), modules).unwrap();
    println!("cargo::rustc-cfg=kermit");
    println!("cargo::metadata=present=1");
}
