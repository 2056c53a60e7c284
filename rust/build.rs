//! Links libslots.a: from the folder in SLOTS_LIB, else from the repository's target/staticlib, where `tools/library` writes it.
use std::path::PathBuf;

fn main() {
    println!("cargo:rerun-if-env-changed=SLOTS_LIB");
    let folder = match std::env::var_os("SLOTS_LIB") {
        Some(folder) => PathBuf::from(folder),
        None => PathBuf::from(env!("CARGO_MANIFEST_DIR")).join("../target/staticlib"),
    };
    let library = folder.join("libslots.a");
    if !library.is_file() {
        panic!("no {}: run `tools/library`, or set SLOTS_LIB to the folder of libslots.a", library.display());
    }
    println!("cargo:rustc-link-search=native={}", folder.display());
    println!("cargo:rustc-link-lib=static=slots");
    println!("cargo:rerun-if-changed={}", library.display());
}
