//! Links the archives of the proved functions.
use std::env;
use std::path::PathBuf;

const ARCHIVES: &[&str] = &[
    "c_leaves",
    "c_shapes",
    "c_copies",
    "c_panels",
    "c_blocks",
    "tiglostrema",
];

fn main() {
    let package =
        PathBuf::from(env::var_os("CARGO_MANIFEST_DIR").expect("cargo sets CARGO_MANIFEST_DIR"));
    let folder = package.join("../../target/staticlib");
    println!("cargo::rerun-if-changed=build.rs");
    println!("cargo::rustc-link-search=native={}", folder.display());
    for name in ARCHIVES {
        let archive = folder.join(format!("lib{name}.a"));
        println!("cargo::rerun-if-changed={}", archive.display());
        assert!(
            archive.is_file(),
            "there is no {}: make it by `tools/archive {name}` at the repository's root",
            archive.display()
        );
        println!("cargo::rustc-link-lib=static={name}");
    }
}
