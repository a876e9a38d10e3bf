//! With the feature `terbagyl`: where our static library lies. TERBAGYL_LIB names another folder than the repository's target/staticlib.

use std::path::PathBuf;
use std::{env, process};

fn main() {
    println!("cargo:rerun-if-env-changed=TERBAGYL_LIB");
    println!("cargo:rerun-if-changed=build.rs");
    if env::var_os("CARGO_FEATURE_TERBAGYL").is_none() {
        return;
    }
    let here = PathBuf::from(env::var_os("CARGO_MANIFEST_DIR").unwrap());
    let folder = env::var_os("TERBAGYL_LIB").map_or_else(|| here.join("../../target/staticlib"), PathBuf::from);
    let library = folder.join("libentity_manifest.a");
    println!("cargo:rerun-if-changed={}", library.display());
    if !library.is_file() {
        let why = format!("our library is missing: no file {}; `tools/staticlib` makes it", library.display());
        println!("cargo:warning=oracle: {why}");
        eprintln!("oracle: {why}");
        process::exit(1);
    }
    println!("cargo:rustc-link-search=native={}", folder.canonicalize().unwrap().display());
    println!("cargo:rustc-link-lib=static=entity_manifest");
}
