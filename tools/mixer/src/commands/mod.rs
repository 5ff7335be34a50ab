//! The commands.
mod causes;
mod check;
mod compare;
mod dearest;
mod forecast;
mod list;
mod make;
mod remove;
mod render;
mod stain;
mod steps;
mod text;

use crate::cli::args::{Args, Opt};
use crate::cli::failure::Failure;

pub struct Command {
    pub name: &'static str,
    pub summary: &'static str,
    pub help: &'static str,
    pub options: &'static [Opt],
    /// Does it, and answers what is to be printed.
    pub run: fn(Args) -> Result<String, Failure>,
}

pub static ALL: [Command; 12] = [
    make::COMMAND,
    text::COMMAND,
    remove::COMMAND,
    list::COMMAND,
    check::COMMAND,
    forecast::COMMAND,
    dearest::COMMAND,
    render::COMMAND,
    steps::COMMAND,
    stain::COMMAND,
    compare::COMMAND,
    causes::COMMAND,
];
