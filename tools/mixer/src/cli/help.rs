//! The help of the whole command, and help as wide as the terminal.
use super::terminal;
use super::wrap::wrap;
use crate::commands;

/// A help's text for the terminal; as it is stored where there is none.
pub fn fitted(help: &str) -> String {
    match terminal::columns() {
        Some(columns) => wrap(help, columns),
        None => help.to_owned(),
    }
}

/// The help of the whole command.
pub fn all() -> String {
    let mut out = String::from(
        "mixer makes, lists, checks, forecasts and renders rundowns, the lists of layers of a picture\n\
         mixer, and shows which pixels a private source can reach.\n\n\
         Usage: mixer COMMAND ...\n\nCommands:\n",
    );
    for command in &commands::ALL {
        out.push_str(&format!("  {:8}  {}\n", command.name, command.summary));
    }
    out.push_str(
        "\n  mixer COMMAND --help   says more about a command\n  \
         mixer --version        prints the version\n\n\
         A file's name may be - for standard input or output; a file of that name is ./-\n\n\
         Exit status: 0 done, 1 refused or failed, 2 not understood, 3 the hidden source reaches the\n\
         interpreter.\n",
    );
    fitted(&out)
}
