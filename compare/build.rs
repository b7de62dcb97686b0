//! Links the proved library, compiled for this machine by `tools/rattle-native compared target/native`.

use std::path::Path;

fn main() {
    let folder = Path::new(env!("CARGO_MANIFEST_DIR")).join("../target/native");
    let library = folder.join("libcompared_native.a");
    println!("cargo:rerun-if-changed={}", library.display());
    assert!(
        library.exists(),
        "no {}: run `tools/rattle-native compared target/native` first",
        library.display()
    );
    println!("cargo:rustc-link-search=native={}", folder.display());
    println!("cargo:rustc-link-lib=static=compared_native");
}
