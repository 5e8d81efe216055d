//! Passes on whether the oracle found kermit's source.
fn main() {
    println!("cargo::rustc-check-cfg=cfg(kermit)");
    if std::env::var_os("DEP_KERMIT_PRESENT").is_some() {
        println!("cargo::rustc-cfg=kermit");
    }
}
