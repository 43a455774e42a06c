//! Links libsgt.a: of the folder that SGT_LIB_DIR names, else of bindings/out. A library that has changed is linked anew.
use std::{env, path::PathBuf};

fn main() {
    let out = || PathBuf::from(env::var_os("CARGO_MANIFEST_DIR").expect("cargo sets it")).join("../../out");
    let folder = env::var_os("SGT_LIB_DIR").map_or_else(out, PathBuf::from);
    println!("cargo:rustc-link-search=native={}", folder.display());
    println!("cargo:rustc-link-lib=static=sgt");
    println!("cargo:rerun-if-changed={}", folder.join("libsgt.a").display());
    println!("cargo:rerun-if-env-changed=SGT_LIB_DIR");
}
