//! Links libkmac.a from KMAC_LIB_DIR, or from where `rt lib` in crates/kmac writes it.

use std::env;
use std::path::PathBuf;

fn main() {
    let manifest = PathBuf::from(env::var("CARGO_MANIFEST_DIR").expect("cargo sets it"));
    let folder = match env::var("KMAC_LIB_DIR") {
        Ok(folder) => PathBuf::from(folder),
        Err(_) => manifest.join("../../crates/kmac/out"),
    };
    let library = folder.join("libkmac.a");
    println!("cargo:rerun-if-env-changed=KMAC_LIB_DIR");
    println!("cargo:rerun-if-changed={}", library.display());
    assert!(
        library.is_file(),
        "{} is not there: run `(cd crates/kmac && rt lib)`, or set KMAC_LIB_DIR",
        library.display()
    );
    println!("cargo:rustc-link-search=native={}", folder.display());
    println!("cargo:rustc-link-lib=static=kmac");
}
