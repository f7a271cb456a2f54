//! Links the proved library, from the folder that KUVTELEG_LIB names or from the checkout's release.
use std::env::var_os;
use std::path::PathBuf;

fn main() {
    println!("cargo:rerun-if-env-changed=KUVTELEG_LIB");
    let top = PathBuf::from(var_os("CARGO_MANIFEST_DIR").expect("cargo names the folder of the package"));
    let named = var_os("KUVTELEG_LIB").filter(|it| !it.is_empty());
    let folder = named.map_or_else(|| top.join("../../../release/x86_64-linux"), PathBuf::from);
    let library = folder.join("libkuvteleg.a");
    assert!(library.is_file(), "no library at {}: build it, or let KUVTELEG_LIB name its folder", library.display());
    println!("cargo:rerun-if-changed={}", library.display());
    println!("cargo:rustc-link-search=native={}", folder.display());
    println!("cargo:rustc-link-lib=static=kuvteleg");
}
