//! Tells cargo where libcodremif.a lies: in CODREMIF_LIB_DIR, or where `tools/library` writes it.

use std::path::{Path, PathBuf};

fn main() {
    println!("cargo:rerun-if-env-changed=CODREMIF_LIB_DIR");
    let folder = library_folder();
    let library = folder.join("libcodremif.a");
    println!("cargo:rerun-if-changed={}", library.display());
    if !library.exists() {
        panic!(
            "{} is missing: run `tools/library` in the top folder of the repository, or set CODREMIF_LIB_DIR",
            library.display()
        );
    }
    println!("cargo:rustc-link-search=native={}", folder.display());
    println!("cargo:rustc-link-lib=static=codremif");
}

fn library_folder() -> PathBuf {
    match std::env::var_os("CODREMIF_LIB_DIR") {
        Some(folder) => PathBuf::from(folder),
        None => Path::new(env!("CARGO_MANIFEST_DIR")).join("../../target/staticlib"),
    }
}
