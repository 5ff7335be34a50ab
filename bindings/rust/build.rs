//! Finds the archive of the proved functions, `libtiglostrema.a`, or makes it, and asks it for its
//! version. It serves x86-64 Linux, and says so elsewhere.
use std::env;
use std::ffi::OsStr;
use std::fs;
use std::io::ErrorKind;
use std::path::{Path, PathBuf};
use std::process::Command;

const ARCHIVE: &str = "libtiglostrema.a";
const FOLDER: &str = "TIGLOSTREMA_LIB_DIR";

/// Prints the number of the archive that it is linked with.
const ASK: &str = r#"
extern "C" { fn tiglostrema_version() -> u32; }
fn main() { print!("{}", unsafe { tiglostrema_version() }); }
"#;

fn main() {
    println!("cargo::rerun-if-changed=build.rs");
    println!("cargo::rerun-if-env-changed={FOLDER}");
    match tested() {
        Ok(folder) => {
            println!("cargo::rerun-if-changed={}", folder.join(ARCHIVE).display());
            println!("cargo::rustc-link-search=native={}", folder.display());
            println!("cargo::rustc-link-lib=static=tiglostrema");
        }
        Err(why) => {
            eprintln!("\n{why}\n");
            std::process::exit(1);
        }
    }
}

/// The folder that holds the archive, which is of the crate's version.
fn tested() -> Result<PathBuf, String> {
    let target = |what: &str| env::var(format!("CARGO_CFG_TARGET_{what}")).unwrap_or_default();
    served(&target("OS"), &target("ARCH"), &target("POINTER_WIDTH"))?;
    let folder = folder()?;
    // A host of another sort cannot run the archive; there the first test of the crate tells.
    if env::var("HOST").is_ok_and(|host| host.starts_with("x86_64-") && host.contains("-linux-")) {
        let rustc = env::var_os("RUSTC").expect("cargo sets RUSTC");
        let out = env::var_os("OUT_DIR").expect("cargo sets OUT_DIR");
        let number = version(&folder, &rustc, Path::new(&out))?;
        fits(number, env!("CARGO_PKG_VERSION")).map_err(|why| {
            let archive = folder.join(ARCHIVE);
            format!("{} is {why}", archive.display())
        })?;
    }
    Ok(folder)
}

/// Whether a system is served. The archive is an ELF object of 64-bit x86 code that is called as on
/// Linux; nothing else has been linked with it.
pub fn served(system: &str, machine: &str, pointer_bits: &str) -> Result<(), String> {
    if (system, machine, pointer_bits) == ("linux", "x86_64", "64") {
        return Ok(());
    }
    Err(format!(
        "{ARCHIVE} is made for Linux on x86-64 with 64-bit pointers,\n\
         and this build is for {system} on {machine} with {pointer_bits}-bit pointers."
    ))
}

/// The folder that holds the archive: the one that the user names, or the repository's own.
fn folder() -> Result<PathBuf, String> {
    if let Some(value) = env::var_os(FOLDER) {
        return named(&value);
    }
    let root = repository();
    let folder = root.join("target/staticlib");
    if !folder.join(ARCHIVE).is_file() {
        make(&root)?;
    }
    Ok(folder)
}

/// The folder that the user names. Its path has to be whole: this script is run in the crate's
/// folder and the linker in the program's, and the user may be in a third.
pub fn named(value: &OsStr) -> Result<PathBuf, String> {
    let folder = PathBuf::from(value);
    let why = if value.is_empty() {
        return Err(format!(
            "{FOLDER} is empty. Unset it, or name the folder that has {ARCHIVE}."
        ));
    } else if !folder.is_absolute() {
        "and it has to be a whole path, which begins with /."
    } else if value.to_str().map_or(true, |path| path.contains('\n')) {
        "and Cargo takes no path with a line break or with bytes that are not UTF-8."
    } else if !folder.is_dir() {
        "and there is no such folder."
    } else if !folder.join(ARCHIVE).is_file() {
        "and there is no libtiglostrema.a in it."
    } else {
        return Ok(folder);
    };
    Err(format!("{FOLDER} is {}, {why}", folder.display()))
}

/// The archive's number of its version, asked by a small program that is linked with it. Without
/// this an archive of another time would be linked unseen, and called by functions that it may not
/// have in that form.
pub fn version(folder: &Path, rustc: &OsStr, out: &Path) -> Result<u32, String> {
    let (source, program) = (out.join("ask.rs"), out.join("ask"));
    fs::write(&source, ASK).map_err(|e| format!("{}: {e}", source.display()))?;
    let mut search = std::ffi::OsString::from("native=");
    search.push(folder);
    let linked = Command::new(rustc)
        .args(["--edition=2021", "-lstatic=tiglostrema", "-L"])
        .args([&search, OsStr::new("-o"), program.as_os_str()])
        .arg(&source)
        .output()
        .map_err(|e| format!("rustc could not be started: {e}."))?;
    if !linked.status.success() {
        return Err(format!(
            "{} could not be asked for its version: it is older than this crate,\n\
             or no archive of this library, or the linker failed by itself.\n{}",
            folder.join(ARCHIVE).display(),
            String::from_utf8_lossy(&linked.stderr)
        ));
    }
    let printed = Command::new(&program).output().map(|out| out.stdout);
    let printed = printed.map_err(|e| format!("{} could not be run: {e}.", program.display()))?;
    let number = String::from_utf8_lossy(&printed).parse();
    number.map_err(|_| format!("{} did not print a number.", program.display()))
}

/// That an archive of this number serves the crate: major and minor are the same. A patch changes no
/// function.
pub fn fits(number: u32, own: &str) -> Result<(), String> {
    let [_, major, minor, patch] = number.to_be_bytes();
    if own.starts_with(&format!("{major}.{minor}.")) {
        return Ok(());
    }
    Err(format!(
        "version {major}.{minor}.{patch}, and this crate is for {own}."
    ))
}

fn repository() -> PathBuf {
    let package = env::var_os("CARGO_MANIFEST_DIR").expect("cargo sets CARGO_MANIFEST_DIR");
    let root = Path::new(&package).join("../..");
    root.canonicalize().unwrap_or(root)
}

/// Proves the library and writes its archive. It takes some minutes the first time.
fn make(root: &Path) -> Result<(), String> {
    let missing = format!(
        "There is no {}. Make it by `tools/archive tiglostrema` at the repository's root,\n\
         or set {FOLDER} to a folder that has {ARCHIVE}.",
        root.join("target/staticlib").join(ARCHIVE).display()
    );
    // The toolchain is looked for first: a missing one is said in other words than a proof that fails.
    let run = Command::new("rt")
        .arg("version")
        .output()
        .and_then(|_| {
            Command::new(root.join("tools/archive"))
                .arg("tiglostrema")
                .current_dir(root)
                .output()
        });
    match run {
        Ok(out)
            if out.status.success() && root.join("target/staticlib").join(ARCHIVE).is_file() =>
        {
            Ok(())
        }
        Ok(out) => Err(format!(
            "{missing}\n`tools/archive tiglostrema` was tried here and did not make it:\n{}{}",
            String::from_utf8_lossy(&out.stdout),
            String::from_utf8_lossy(&out.stderr)
        )),
        Err(e) if e.kind() == ErrorKind::NotFound => Err(format!(
            "{missing}\n(`rt` is not installed here, so the build cannot make it.)"
        )),
        Err(e) => Err(format!("{missing}\n(`rt` could not be started: {e}.)")),
    }
}
