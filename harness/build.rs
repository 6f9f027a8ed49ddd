//! Links `libengine.a` from the folder in ENGINE_DIR, by default
//! `../target/staticlib`.

use std::env;
use std::path::PathBuf;

fn main() {
    let package = PathBuf::from(env::var("CARGO_MANIFEST_DIR").expect("set by cargo"));
    let named = env::var("ENGINE_DIR").unwrap_or_else(|_| "../target/staticlib".into());
    let folder = package.join(named);
    let archive = folder.join("libengine.a");
    println!("cargo:rerun-if-env-changed=ENGINE_DIR");
    println!("cargo:rerun-if-changed={}", archive.display());
    assert!(
        archive.exists(),
        "no {}: build the engine first, or set ENGINE_DIR",
        archive.display()
    );
    println!("cargo:rustc-link-search=native={}", folder.display());
    println!("cargo:rustc-link-lib=static=engine");
}
