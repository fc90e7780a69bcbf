//! Links the archives that `./build testbench firmware` puts into target/staticlib.
use std::path::Path;

fn main() {
    let folder = Path::new(env!("CARGO_MANIFEST_DIR")).join("../../target/staticlib");
    for library in ["testbench", "firmware"] {
        let archive = folder.join(format!("lib{library}.a"));
        assert!(
            archive.exists(),
            "{} is missing: `./build {library}` writes it, and ./test runs that",
            archive.display()
        );
        println!("cargo:rerun-if-changed={}", archive.display());
        println!("cargo:rustc-link-lib=static={library}");
    }
    println!("cargo:rustc-link-search=native={}", folder.display());
}
