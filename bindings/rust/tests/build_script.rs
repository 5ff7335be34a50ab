//! Which systems and which archives the build script takes.
#[allow(dead_code)] // the script's own main is for cargo
#[path = "../build.rs"]
mod build_script;

use build_script::{fits, named, served, version};
use std::ffi::{OsStr, OsString};
use std::fs;
use std::os::unix::ffi::OsStringExt;
use std::path::{Path, PathBuf};
use std::process::Command;

/// An empty folder of that name for a test.
fn folder(name: &str) -> PathBuf {
    let folder = Path::new(env!("CARGO_TARGET_TMPDIR")).join(name);
    let _ = fs::remove_dir_all(&folder);
    fs::create_dir_all(&folder).expect("a folder");
    folder
}

/// An archive with nothing but these functions.
fn archive(folder: &Path, functions: &str) {
    let source = folder.join("archive.rs");
    fs::write(&source, functions).expect("written");
    let made = Command::new("rustc")
        .args(["--crate-type=staticlib", "--crate-name=tiglostrema", "-o"])
        .arg(folder.join("libtiglostrema.a"))
        .arg(&source)
        .status();
    assert!(made.expect("rustc").success());
}

fn asked(folder: &Path) -> Result<u32, String> {
    version(folder, OsStr::new("rustc"), folder)
}

#[test]
fn it_serves_x86_64_linux() {
    assert_eq!(served("linux", "x86_64", "64"), Ok(()));
}

#[test]
fn every_other_system_is_refused_in_words() {
    let others = [
        ("windows", "x86_64", "64"),
        ("macos", "x86_64", "64"),
        ("freebsd", "x86_64", "64"),
        ("none", "x86_64", "64"),
        ("linux", "aarch64", "64"),
        ("linux", "x86", "32"),
        ("linux", "x86_64", "32"),
        ("", "", ""),
    ];
    for (system, machine, bits) in others {
        let words = format!(
            "libtiglostrema.a is made for Linux on x86-64 with 64-bit pointers,\n\
             and this build is for {system} on {machine} with {bits}-bit pointers."
        );
        assert_eq!(served(system, machine, bits), Err(words));
    }
}

#[test]
fn a_named_folder_is_taken_if_it_has_an_archive() {
    let there = folder("named with a space");
    fs::write(there.join("libtiglostrema.a"), "").expect("written");
    assert_eq!(named(there.as_os_str()), Ok(there));
}

#[test]
fn any_other_folder_is_refused_in_words() {
    let (empty, file) = (folder("empty"), folder("no_folder").join("file"));
    fs::write(&file, "").expect("written");
    let none = "and there is no such folder.";
    let cases = [
        (
            "target/staticlib".into(),
            "and it has to be a whole path, which begins with /.",
        ),
        (
            "/a\nb".into(),
            "and Cargo takes no path with a line break or with bytes that are not UTF-8.",
        ),
        (
            OsString::from_vec(b"/a\xFFb".to_vec()),
            "and Cargo takes no path with a line break or with bytes that are not UTF-8.",
        ),
        (empty.join("deeper").into(), none),
        (file.into(), none),
        (empty.into(), "and there is no libtiglostrema.a in it."),
    ];
    for (value, why) in cases {
        let shown = Path::new(&value).display().to_string();
        let words = format!("TIGLOSTREMA_LIB_DIR is {shown}, {why}");
        assert_eq!(named(&value), Err(words));
    }
    let words =
        "TIGLOSTREMA_LIB_DIR is empty. Unset it, or name the folder that has libtiglostrema.a.";
    assert_eq!(named(OsStr::new("")), Err(words.to_owned()));
}

#[test]
fn an_archive_is_asked_for_its_version() {
    let other = folder("other version");
    archive(
        &other,
        "#[no_mangle] pub extern \"C\" fn tiglostrema_version() -> u32 { 0x010203 }",
    );
    assert_eq!(asked(&other), Ok(0x010203));
}

#[test]
fn an_archive_without_a_version_is_refused_in_words() {
    let older = folder("older");
    archive(
        &older,
        "#[no_mangle] pub extern \"C\" fn tiglostrema_play() {}",
    );
    let nothing = folder("nothing");
    fs::write(nothing.join("libtiglostrema.a"), "no archive").expect("written");
    for folder in [older, nothing] {
        let why = asked(&folder).expect_err("no version");
        let archive = folder.join("libtiglostrema.a");
        let words = format!("{} could not be asked for its version", archive.display());
        assert!(why.starts_with(&words), "{why}");
    }
}

#[test]
fn major_and_minor_are_the_crate_s() {
    assert_eq!(fits(0x000300, "0.3.0"), Ok(()));
    assert_eq!(fits(0x000307, "0.3.0"), Ok(()));
    assert_eq!(fits(0x010A02, "1.10.0"), Ok(()));
    for (number, version) in [
        (0x000200, "0.2.0"),
        (0x000400, "0.4.0"),
        (0x010300, "1.3.0"),
        (0x001E00, "0.30.0"),
    ] {
        let words = format!("version {version}, and this crate is for 0.3.0.");
        assert_eq!(fits(number, "0.3.0"), Err(words));
    }
}
