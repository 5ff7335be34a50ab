//! Takes the files of kash-ui that are compared, makes the few edits without which they would not
//! compile outside their own crate, and leaves them in OUT_DIR. Nothing of kash-ui is kept here.
use std::path::{Path, PathBuf};
use std::{env, fs};

/// Where kash-ui's modules stand below the folder KASH_SRC.
const MODULES_DIR: &str = "kash-ui/crates/kash-ui/src";

/// KASH_SRC where it is not set.
const DEFAULT_SRC: &str = "../shared/docs/src";

/// The modules that are built. A module that names another needs it in this list.
const MODULES: &[&str] = &[
    "mathf", "color", "geom", "gfx", "comp", "glass", "theme", "registry",
];

/// A module of which only a part is built: from the line that has `from` on, to the line `to` that
/// follows it.
struct Part {
    module: &'static str,
    from: &'static str,
    to: &'static str,
}

/// The enum of the security domains, from a module that needs half of kash-ui.
const PARTS: &[Part] = &[Part {
    module: "registry",
    from: "pub enum SecurityColorTag {",
    to: "}",
}];

/// An edit: in this module each `from` becomes `to`. It is an error where there is none.
struct Edit {
    module: &'static str,
    from: &'static str,
    to: &'static str,
}

const fn edit(module: &'static str, from: &'static str, to: &'static str) -> Edit {
    Edit { module, from, to }
}

const EDITS: &[Edit] = &[
    // libm's functions by those of std, which round the same way where the comparison looks
    edit("mathf", "libm::sqrtf(x)", "x.sqrt()"),
    edit("mathf", "libm::floorf(x)", "x.floor()"),
    edit("mathf", "libm::ceilf(x)", "x.ceil()"),
    edit("mathf", "libm::roundf(x)", "x.round()"),
    edit("mathf", "libm::powf(x, y)", "x.powf(y)"),
    edit("mathf", "libm::expf(x)", "x.exp()"),
    edit("mathf", "libm::sinf(x)", "x.sin()"),
    edit("mathf", "libm::cosf(x)", "x.cos()"),
    edit("mathf", "libm::tanf(x)", "x.tan()"),
    edit("mathf", "libm::atanf(x)", "x.atan()"),
    edit("mathf", "libm::asinf(x)", "x.asin()"),
    edit("mathf", "libm::atan2f(y, x)", "y.atan2(x)"),
    // private in kash-ui, and compared by itself
    edit("comp", "fn dim_pix(", "pub fn dim_pix("),
    edit("glass", "fn box_h(", "pub fn box_h("),
    edit("glass", "fn box_v(", "pub fn box_v("),
    edit("glass", "fn displacement_lut(", "pub fn displacement_lut("),
    // the table of a panel is given, not worked out where it is painted
    edit(
        "glass",
        "displacement_lut(bezel, st.refraction, &mut lut)",
        "lut = crate::given_table()",
    ),
    // what is cut out of its module loses the line above it
    edit(
        "registry",
        "pub enum SecurityColorTag",
        "#[derive(Clone, Copy)]\npub enum SecurityColorTag",
    ),
];

fn main() {
    println!("cargo::rerun-if-env-changed=KASH_SRC");
    println!("cargo::rerun-if-changed=build.rs");
    let out = PathBuf::from(env::var_os("OUT_DIR").expect("cargo sets OUT_DIR"));
    let sources = sources();
    let mut root = String::new();
    for module in MODULES {
        let text = edited(&sources, module);
        let file = out.join(format!("{module}.rs"));
        fs::write(&file, text).unwrap_or_else(|e| panic!("cannot write {}: {e}", file.display()));
        root += &format!(
            "#[path = {:?}]\npub mod {module};\n",
            file.display().to_string()
        );
    }
    for e in EDITS {
        assert!(
            MODULES.contains(&e.module),
            "an edit names the module {}, which is not built",
            e.module
        );
    }
    fs::write(out.join("modules.rs"), root).expect("OUT_DIR can be written");
}

/// The folder of kash-ui's modules. KASH_SRC is taken from the repository's root.
fn sources() -> PathBuf {
    let package =
        PathBuf::from(env::var_os("CARGO_MANIFEST_DIR").expect("cargo sets CARGO_MANIFEST_DIR"));
    let given = env::var_os("KASH_SRC").unwrap_or_else(|| DEFAULT_SRC.into());
    let dir = package.join("../..").join(given).join(MODULES_DIR);
    assert!(
        dir.is_dir(),
        "no kash-ui at {}: set KASH_SRC to the folder that holds {MODULES_DIR}",
        dir.display()
    );
    dir
}

/// The text of one module after its edits.
fn edited(dir: &Path, module: &str) -> String {
    let file = dir.join(format!("{module}.rs"));
    println!("cargo::rerun-if-changed={}", file.display());
    let whole =
        fs::read_to_string(&file).unwrap_or_else(|e| panic!("cannot read {}: {e}", file.display()));
    let mut text = match PARTS.iter().find(|p| p.module == module) {
        Some(part) => cut(&whole, part),
        None => whole,
    };
    for e in EDITS.iter().filter(|e| e.module == module) {
        assert!(
            text.contains(e.from),
            "{}: `{}` is not there to be edited",
            file.display(),
            e.from
        );
        text = text.replace(e.from, e.to);
    }
    text
}

/// The lines of a part.
fn cut(text: &str, part: &Part) -> String {
    let mut lines = text.lines().skip_while(|line| *line != part.from);
    let mut kept = Vec::new();
    loop {
        let line = lines
            .next()
            .unwrap_or_else(|| panic!("{}: no part `{}`", part.module, part.from));
        kept.push(line);
        if line == part.to {
            return kept.join("\n");
        }
    }
}
