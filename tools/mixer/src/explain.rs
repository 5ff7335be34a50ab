//! Refusals in words, with what the command knows about them.
use crate::sources::Given;
use show::KINDS;
use show::{count, describe};
use tiglostrema::raw::BLOCK_LEN;
use tiglostrema::{Cause, Forecast, Layer, Refusal, SourceId, MAX_SIDE, MAX_SOURCES};

/// What is to be done about a rundown with a table that does not suit its bezel: nothing is added to it or removed from
/// it, since its layers are tested before. Its text alone is given back.
const ANEW: &str = "\
    `mixer remove` cannot take this layer out: mend its table in the show's text (`mixer text` gives it back), \
    and make the rundown anew";

/// What was refused, as far as it is known.
#[derive(Default)]
pub struct Case<'a> {
    pub rundown: &'a [u8],
    pub canvas: Option<(u32, u32)>,
    pub sources: Option<&'a Given>,
    pub scratch: Option<usize>,
}

impl Case<'_> {
    /// The refusal, and on a second line what it is about; on a third one what is to be done, if that is known.
    pub fn explain(&self, refusal: &Refusal) -> String {
        let more = match (refusal.cause(), refusal.block()) {
            (Cause::CanvasSize, _) => self.canvas.map(|(w, h)| format!("the canvas is {w}x{h}")),
            (Cause::SourceTable, _) => self.sources.map(table),
            (Cause::RundownLength, _) => Some(length(self.rundown.len())),
            (cause, Some(block)) => Some(self.block(cause, block)),
            _ => None,
        };
        match more {
            Some(more) => format!("{refusal}\n  {more}"),
            None => refusal.to_string(),
        }
    }

    fn block(&self, cause: Cause, block: usize) -> String {
        let start = block * BLOCK_LEN;
        let bytes = &self.rundown[start..start + BLOCK_LEN];
        if cause == Cause::Check {
            let end = start + BLOCK_LEN - 1;
            return format!(
                "bytes {start} to {end} were changed since the block was made, or are no block"
            );
        }
        let priority = u16::from_le_bytes([bytes[2], bytes[3]]);
        let Some(layer) = decoded(bytes) else {
            return format!(
                "block {block} has priority {priority} and kind {}",
                kind(bytes[0])
            );
        };
        let kind = describe::kind(&layer);
        format!(
            "block {block} has priority {priority}: {kind}, {}",
            self.detail(cause, &layer, priority)
        )
    }

    /// What is wrong with a block whose layer is known.
    fn detail(&self, cause: Cause, layer: &Layer, priority: u16) -> String {
        match (cause, layer) {
            (Cause::Bend, _) => format!("{}\n  {ANEW}", show::torn(layer).unwrap_or_default()),
            (Cause::DuplicatePriority, _) => {
                format!("and block {} has it as well", self.first_of(priority))
            }
            (Cause::NoSuchSource, _) => {
                let none = Given::default();
                let (number, given) = (layer.source(), self.sources.unwrap_or(&none));
                let source = number.map_or_else(String::new, |n| given.names.source(n));
                format!("from {source}; {}", given.which())
            }
            (Cause::FrameTooWide, Layer::Frame(f)) => {
                let width = self.canvas.map_or(0, |(w, _)| w);
                format!(
                    "from column {} to {}; the canvas has {width} columns",
                    f.x,
                    f.x + f.width
                )
            }
            (Cause::ScratchTooShort, _) => {
                let lent = self.scratch.unwrap_or_default();
                let need = self.need().map_or(String::new(), |need| {
                    format!("; the rundown needs {need} in each slice")
                });
                format!("for which {lent} bytes of scratch are too few{need}")
            }
            _ => describe::layer(layer),
        }
    }

    /// The bytes of each scratch slice that the whole rundown needs.
    fn need(&self) -> Option<usize> {
        let ((width, height), sources) = (self.canvas?, self.sources?);
        let forecast = Forecast::of_bytes(self.rundown, width, height, &sources.table());
        forecast.ok().map(|forecast| forecast.scratch())
    }

    /// The first block of a priority.
    fn first_of(&self, priority: u16) -> usize {
        let mut blocks = self.rundown.chunks_exact(BLOCK_LEN);
        let first = blocks.position(|b| b[2..4] == priority.to_le_bytes());
        first.unwrap_or_default()
    }
}

/// The layer of one block, if the block is right by itself, or wrong for no more than a table that does not suit its
/// bezel.
fn decoded(block: &[u8]) -> Option<Layer> {
    let (_, layer) = show::stored(block).ok()?.pop()?;
    Some(layer)
}

/// A kind's number with its name.
fn kind(number: u8) -> String {
    let place = usize::from(number).checked_sub(1);
    match place.and_then(|p| KINDS.get(p)) {
        Some(name) => format!("{number}, {name}"),
        None => format!("{number}, which is unknown"),
    }
}

fn table(sources: &Given) -> String {
    let number = sources.sizes.len();
    if number > MAX_SOURCES {
        return format!("{number} sources are given");
    }
    let side = 1..=MAX_SIDE;
    let wrong = |(_, (w, h)): &(usize, &(u32, u32))| !side.contains(w) || !side.contains(h);
    match sources.sizes.iter().enumerate().find(wrong) {
        Some((number, (w, h))) => {
            format!(
                "{} is {w}x{h}",
                sources.names.source(SourceId::new(number as u32))
            )
        }
        None => sources.which(),
    }
}

fn length(bytes: usize) -> String {
    let (blocks, more) = (count::of(bytes / BLOCK_LEN, "block"), bytes % BLOCK_LEN);
    match more {
        0 => format!("it has {blocks}"),
        _ => format!(
            "it has {bytes} bytes: {blocks} and {}",
            count::of(more, "byte")
        ),
    }
}
