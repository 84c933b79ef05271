//! The build script of differential and bench: sets `oracle_present` where the oracle was assembled.

fn main() {
    println!("cargo::rustc-check-cfg=cfg(oracle_present)");
    println!("cargo::rerun-if-changed=../oracle_present.rs");
    if std::env::var("DEP_TPT_REPLICATE_PRESENT").as_deref() == Ok("1") {
        println!("cargo::rustc-cfg=oracle_present");
    }
}
