//! `mixer causes`: why a call may be refused.
use super::Command;
use crate::cli::args::Args;
use crate::cli::failure::Failure;
use tiglostrema::Cause;

pub const COMMAND: Command = Command {
    name: "causes",
    summary: "says in words why the library refuses a call",
    help: include_str!("causes.help"),
    options: &[],
    run,
};

fn run(args: Args) -> Result<String, Failure> {
    args.finish()?;
    let line = |cause: &Cause| format!("{:2}  {cause}\n", cause.number());
    Ok(Cause::ALL.iter().map(line).collect())
}
