//! `mixer remove`: a layer out of a rundown.
use super::Command;
use crate::cli::args::{once, Args, Opt, OUT};
use crate::cli::failure::Failure;
use crate::{files, rundowns};
use show::count;

const PRIORITY: Opt = once("--priority");

pub const COMMAND: Command = Command {
    name: "remove",
    summary: "takes a layer out of a rundown",
    help: include_str!("remove.help"),
    options: &[PRIORITY, OUT],
    run,
};

fn run(mut args: Args) -> Result<String, Failure> {
    let out = args.required(OUT.name)?;
    let priority = rundowns::priority(&PRIORITY, &args.required(PRIORITY.name)?)?;
    let path = args.plain("the rundown")?;
    args.finish()?;
    files::apart(&[&path], Some(&out))?;
    let mut rundown = rundowns::read(&path)?;
    let name = files::input(&path);
    let left = rundown
        .remove(priority)
        .map_err(|refusal| Failure::refused(format!("{name}: {refusal}")))?;
    files::write(&out, rundown.as_bytes())?;
    Ok(format!(
        "{}: {}\n",
        files::output(&out),
        count::of(left, "layer")
    ))
}
