//! Links libkinolavust.a of the folder that KINOLAVUST_LIB_DIR names, or of bindings/out.
use std::env;

fn main() {
    println!("cargo:rerun-if-env-changed=KINOLAVUST_LIB_DIR");
    let folder = env::var("KINOLAVUST_LIB_DIR")
        .unwrap_or_else(|_| format!("{}/../../out", env!("CARGO_MANIFEST_DIR")));
    println!("cargo:rerun-if-changed={folder}/libkinolavust.a");
    println!("cargo:rustc-link-search=native={folder}");
    println!("cargo:rustc-link-lib=static=kinolavust");
}
