//! `mixer list`: a rundown's layers as a table.
use super::Command;
use crate::cli::args::{flag, many, once, Args, Opt};
use crate::cli::failure::Failure;
use crate::names::{Names, NAMES};
use crate::sources::{Given, Sources, PICTURE, SIZES};
use crate::{rundowns, size, table};
use show::{boxes, describe, values};
use tiglostrema::{IRect, Layer, Rundown};

pub const JSON: Opt = flag("--json");

/// Where a layer's fields begin, and the longest line that they are broken into.
const INDENT: &str = "          ";
const WIDEST: usize = 100;

pub const COMMAND: Command = Command {
    name: "list",
    summary: "lists a rundown's layers in playing order",
    help: include_str!("list.help"),
    options: &[once("--canvas"), many(PICTURE), many(SIZES), NAMES, JSON],
    run,
};

fn run(mut args: Args) -> Result<String, Failure> {
    let canvas = args.optional("--canvas");
    let canvas = canvas
        .map(|word| size::option("--canvas", &word))
        .transpose()?;
    let json = args.flag(JSON.name);
    let path = args.plain("the rundown")?;
    let given = Given::read(&mut args, &[&path], None)?;
    args.finish()?;
    let rundown = rundowns::read(&path)?;
    given.names.fit(&rundown)?;
    let sizes = boxes::Sizes {
        canvas,
        sources: &given.sizes,
    };
    Ok(match json {
        true => show::json(&rundown, &sizes, given.names.all()),
        false => lines(&in_playing_order(&rundown, &sizes), &given.names),
    })
}

/// The layers with their priorities and boxes, the lowest first.
fn in_playing_order(
    rundown: &Rundown,
    sizes: &boxes::Sizes<'_>,
) -> Vec<((u16, Layer), Option<IRect>)> {
    let mut layers: Vec<_> = rundown.iter().zip(boxes::of(rundown, sizes)).collect();
    layers.sort_by_key(|((priority, _), _)| *priority);
    layers
}

/// A row for each layer, and below it the layer's fields.
fn lines(layers: &[((u16, Layer), Option<IRect>)], names: &Names) -> String {
    let head = ["priority", "kind", "source", "box", "what it does"].map(str::to_owned);
    let rows = layers.iter().map(|((priority, layer), area)| {
        [
            priority.to_string(),
            describe::kind(layer).to_owned(),
            names.column(layer),
            boxes::show(*area),
            describe::layer(layer),
        ]
    });
    let rows: Vec<_> = [head].into_iter().chain(rows).collect();
    let table = table::lines(&rows, &[0, 2]);
    let mut rows = table.lines();
    let mut out = format!("{}\n", rows.next().unwrap_or_default());
    for (row, ((_, layer), _)) in rows.zip(layers) {
        out.push_str(&format!("{row}\n{}", fields(layer)));
    }
    out
}

/// A layer's fields on as many lines as they need. The source stands in the row.
fn fields(layer: &Layer) -> String {
    let all = values::of(layer);
    let given = all.iter().filter(|f| !f.is_implied() && f.name != "source");
    let mut out = String::new();
    let mut line = String::new();
    for words in given.map(values::Field::brief) {
        if line.is_empty() {
            line = format!("{INDENT}{words}");
        } else if line.chars().count() + words.chars().count() + 3 > WIDEST {
            out.push_str(&format!("{line};\n"));
            line = format!("{INDENT}{words}");
        } else {
            line.push_str(&format!("; {words}"));
        }
    }
    format!("{out}{line}\n")
}
