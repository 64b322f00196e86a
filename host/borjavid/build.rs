//! Links the proved step, which `host/prove exported` writes to target/staticlib of the repository. BORJAVID_LIB names
//! another folder that has libexported.a. Only linking needs it: `cargo check` and `cargo doc` do without.

use std::path::PathBuf;

fn main() {
    println!("cargo:rerun-if-env-changed=BORJAVID_LIB");
    let folder = match std::env::var_os("BORJAVID_LIB") {
        Some(folder) => PathBuf::from(folder),
        None => PathBuf::from(env!("CARGO_MANIFEST_DIR")).join("../../target/staticlib"),
    };
    let library = folder.join("libexported.a");
    println!("cargo:rerun-if-changed={}", library.display());
    if !library.exists() {
        println!(
            "cargo:warning=there is no {}: nothing can be linked until `host/prove exported` has made it",
            library.display()
        );
    }
    println!("cargo:rustc-link-search=native={}", folder.display());
    println!("cargo:rustc-link-lib=static=exported");
}
