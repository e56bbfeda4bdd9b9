//! Links libhonigzange.a from HONIGZANGE_LIB_DIR, or else from the repository's target/staticlib.

use std::env;
use std::path::PathBuf;

fn main() {
    println!("cargo:rerun-if-env-changed=HONIGZANGE_LIB_DIR");
    let manifest = PathBuf::from(
        env::var_os("CARGO_MANIFEST_DIR").expect("cargo names the manifest's directory"),
    );
    let named = env::var_os("HONIGZANGE_LIB_DIR").filter(|dir| !dir.is_empty());
    let dir =
        manifest.join(named.map_or_else(|| PathBuf::from("../../target/staticlib"), PathBuf::from));
    let library = dir.join("libhonigzange.a");
    println!("cargo:rerun-if-changed={}", library.display());
    if !library.is_file() {
        panic!(
            "{} is missing: run `make` at the root of the repository, \
             or set HONIGZANGE_LIB_DIR to the directory that holds libhonigzange.a",
            library.display()
        );
    }
    println!("cargo:rustc-link-search=native={}", dir.display());
    println!("cargo:rustc-link-lib=static=honigzange");
}
