//! A rundown with what it is played on, from the command line.
use crate::cli::args::{once, Args, Opt};
use crate::cli::failure::Failure;
use crate::engine::Stage;
use crate::explain::Case;
use crate::progress::Step;
use crate::sources::{Pictures, Sources};
use crate::{files, rundowns, size, words};
use picture::Picture;
use std::ffi::{OsStr, OsString};
use tiglostrema::{Forecast, Refusal, Rundown};

/// Options that not every command has: the canvas before the first layer, and the length of each scratch slice.
pub const BACKGROUND: Opt = once("--background");
pub const SCRATCH: Opt = once("--scratch");

/// What a play needs; with sources of which the sizes alone are known, what a forecast needs.
pub struct Job<S = Pictures> {
    pub path: OsString,
    pub rundown: Vec<u8>,
    pub canvas: (u32, u32),
    pub sources: S,
    background: u32,
    scratch: Option<usize>,
}

/// The painted canvas and the number of layers.
pub struct Played {
    pub pixels: Vec<u32>,
    pub layers: usize,
}

impl<S: Sources> Job<S> {
    /// Takes its options and words out of the arguments, of which nothing may be left. `out` is the file that will be
    /// written, and `more` those that will be read besides.
    pub fn read(mut args: Args, out: Option<&OsStr>, more: &[&OsStr]) -> Result<Job<S>, Failure> {
        let canvas = size::option("--canvas", &args.required("--canvas")?)?;
        let background = args.optional(BACKGROUND.name).unwrap_or("black".into());
        let word = background.to_string_lossy();
        let background = words::pixel(BACKGROUND.name, &background, &word)?;
        let scratch = args.optional(SCRATCH.name);
        let bytes = |word: OsString| rundowns::number::<u32>(&SCRATCH, &word, "a number of bytes");
        let scratch = scratch.map(bytes).transpose()?.map(|n| n as usize);
        let path = args.plain("the rundown")?;
        let others: Vec<&OsStr> = more.iter().copied().chain([&*path]).collect();
        let sources = S::read(&mut args, &others, out)?;
        args.finish()?;
        let rundown = rundowns::bytes(&path)?;
        sources.given().fit(&rundown)?;
        Ok(Job {
            rundown,
            path,
            canvas,
            sources,
            background,
            scratch,
        })
    }

    /// What a play will need, from the library.
    pub fn forecast(&self) -> Result<Forecast, Failure> {
        let (width, height) = self.canvas;
        let table = self.sources.given().table();
        let forecast = Forecast::of_bytes(&self.rundown, width, height, &table);
        forecast.map_err(|refusal| self.refused(&refusal))
    }

    /// The layers.
    pub fn layers(&self) -> Result<Rundown, Failure> {
        Rundown::from_bytes(&self.rundown).map_err(|refusal| self.refused(&refusal))
    }

    pub fn refused(&self, refusal: &Refusal) -> Failure {
        let case = Case {
            rundown: &self.rundown,
            canvas: Some(self.canvas),
            sources: Some(self.sources.given()),
            scratch: self.scratch,
        };
        let (name, why) = (files::input(&self.path), case.explain(refusal));
        Failure::refused(format!("{name}: {why}"))
    }
}

impl Job {
    /// A fresh canvas.
    pub fn stage(&self) -> Stage {
        Stage::new(self.canvas, self.background, self.scratch)
    }

    /// What the terminal shows while the canvas is painted.
    pub fn painting(&self) -> Step {
        let (width, height) = self.canvas;
        Step::new(format!("Painting {width}x{height} pixels"))
    }

    pub fn play(&self) -> Result<Played, Failure> {
        let _step = self.painting();
        let mut stage = self.stage();
        let played = stage.play(&self.rundown, &self.sources);
        let layers = played.map_err(|refusal| self.refused(&refusal))?;
        Ok(Played {
            pixels: stage.pixels,
            layers,
        })
    }

    /// Writes a picture of the canvas's size.
    pub fn write(&self, out: &OsStr, pixels: Vec<u32>) -> Result<(), Failure> {
        let _step = Step::new(format!("Writing {}", files::output(out)));
        let (w, h) = self.canvas;
        let picture = Picture::new(w, h, pixels)
            .ok_or_else(|| Failure::refused("the picture has another size"))?;
        files::write_picture(out, &picture)
    }
}
