//! Links the proved core's library, from where `.ci/library` puts it.

use std::path::Path;

fn main() {
    let library = Path::new(env!("CARGO_MANIFEST_DIR")).join("../target/staticlib/libwindow.a");
    println!("cargo::rerun-if-changed={}", library.display());
    println!("cargo::rustc-link-arg-bins={}", library.display());
}
