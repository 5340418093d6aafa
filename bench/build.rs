//! Links the proved library, `target/staticlib/libota.a` of the repository.

use std::{env, path::PathBuf};

fn main() {
    let package = PathBuf::from(env::var("CARGO_MANIFEST_DIR").unwrap());
    let library = package.join("../target/staticlib/libota.a");
    println!("cargo:rustc-link-arg-bins={}", library.display());
    println!("cargo:rerun-if-changed={}", library.display());
}
