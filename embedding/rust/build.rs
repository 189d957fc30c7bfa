//! Links the archives that embedding/build.py gathered, in the folder that GEZMULDA names, or in embedding/out.
use std::env;

fn main() {
    let beside = format!("{}/../out", env::var("CARGO_MANIFEST_DIR").unwrap());
    let folder = env::var("GEZMULDA").unwrap_or(beside);
    println!("cargo:rerun-if-env-changed=GEZMULDA");
    println!("cargo:rerun-if-changed={folder}/libgezmulda_c.a");
    println!("cargo:rustc-link-search=native={folder}");
    println!("cargo:rustc-link-lib=static=gezmulda_c");
    println!("cargo:rustc-link-lib=static=gezmulda_memory");
}
