//! Links libguineacrumb.a: from the folder that GUINEACRUMB_LIB_DIR names, or from crates/guineacrumb/out of this
//! repository, where `rt lib --cpu x86-64` writes it.
use std::env;

fn main() {
    let own = env::var("CARGO_MANIFEST_DIR").expect("cargo sets it");
    let folder = env::var("GUINEACRUMB_LIB_DIR").unwrap_or(format!("{own}/../../crates/guineacrumb/out"));
    println!("cargo::rerun-if-env-changed=GUINEACRUMB_LIB_DIR");
    println!("cargo::rerun-if-changed={folder}/libguineacrumb.a");
    println!("cargo::rustc-link-search=native={folder}");
    println!("cargo::rustc-link-lib=static=guineacrumb");
}
