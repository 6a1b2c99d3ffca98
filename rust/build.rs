//! Links libcapi.a, which `bash build.sh capi` writes. HUWEKAPO_LIB_DIR names its folder, from the repository's root where it
//! is relative; else it is target/staticlib there.

use std::path::PathBuf;

fn main() {
    println!("cargo:rerun-if-env-changed=HUWEKAPO_LIB_DIR");
    let crate_folder = std::env::var_os("CARGO_MANIFEST_DIR").expect("set by cargo");
    let root = PathBuf::from(crate_folder).join("..");
    let named = std::env::var_os("HUWEKAPO_LIB_DIR").filter(|folder| !folder.is_empty());
    // An absolute folder stands for itself.
    let folder = root.join(named.unwrap_or("target/staticlib".into()));
    let library = folder.join("libcapi.a");
    println!("cargo:rerun-if-changed={}", library.display());
    if !library.is_file() {
        eprintln!(
            "{} is missing. In the root of the repository run `bash build.sh capi`, which proves the library and writes it \
             to target/staticlib; or name the folder of libcapi.a in HUWEKAPO_LIB_DIR.",
            library.display()
        );
        std::process::exit(1);
    }
    println!("cargo:rustc-link-search=native={}", folder.display());
    println!("cargo:rustc-link-lib=static=capi");
}
