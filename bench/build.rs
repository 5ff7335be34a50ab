//! Links pixman where pkg-config finds it; without it its column is left out.
use std::process::Command;

fn main() {
    println!("cargo::rerun-if-changed=build.rs");
    println!("cargo::rustc-check-cfg=cfg(pixman)");
    let found = Command::new("pkg-config")
        .args(["--libs", "pixman-1"])
        .output();
    let Some(found) = found.ok().filter(|found| found.status.success()) else {
        return;
    };
    println!("cargo::rustc-cfg=pixman");
    for word in String::from_utf8_lossy(&found.stdout).split_whitespace() {
        println!("cargo::rustc-link-arg={word}");
    }
}
