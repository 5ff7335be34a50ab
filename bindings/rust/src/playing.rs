//! Playing a rundown in steps.
use crate::play::with_scratch;
use crate::{raw, Canvas, Cause, Refusal, Rundown, Scratch, SourceId, Sources};

/// A playing in steps: each [`step`](Playing::step) paints one layer, in ascending priority, from the
/// sources as they are then. So a camera's newest picture can be written between two layers, where painting
/// all of them takes longer than a frame, and the interpreter is not late.
///
/// ```
/// use tiglostrema::{Canvas, Playing, Rundown, Scratch, Source, Sources, StraightCopy};
///
/// let mut sources = Sources::new();
/// let studio = sources.push(Source::new(2, 1, &[0x112233, 0x445566])?)?;
/// let interpreter = sources.push(Source::new(1, 1, &[0xFFFFFF])?)?;
/// let mut rundown = Rundown::new();
/// rundown.add(10, StraightCopy::new(interpreter, 1, 0))?;
/// rundown.add(9, StraightCopy::new(studio, 0, 0))?;
///
/// let (mut canvas, mut scratch) = (Canvas::new(4, 2)?, Scratch::new());
/// let mut playing = Playing::begin(&rundown, &mut canvas, &mut sources, &mut scratch)?;
/// assert_eq!(playing.count(), 2);
/// assert_eq!(playing.step(), Some(9));
/// // Meanwhile the interpreter has moved.
/// playing.pixels_mut(interpreter).unwrap().copy_from_slice(&[0xABCDEF]);
/// assert_eq!(playing.step(), Some(10));
/// assert_eq!(playing.step(), None);
/// assert_eq!(canvas.pixels()[..4], [0x112233, 0xABCDEF, 0, 0]);
/// # Ok::<(), tiglostrema::Refusal>(())
/// ```
///
/// It is proved that the canvas ends as the layers painted in ascending priority, each from the sources of
/// its own step; where these stay it is that of [`play`](crate::play). And each pixel outside a source's
/// [`stain`](crate::stain) ends the same, whatever that source shows at each step. Before the end this
/// holds for the stain of the layers painted so far: one that is still to come may be what hides a source.
///
/// Rundown, canvas and the sizes of the sources have to stay meanwhile, so they are borrowed:
///
/// ```compile_fail,E0502
/// # use tiglostrema::{Canvas, Playing, Rundown, Scratch, Sources, StraightCopy};
/// # let (mut rundown, mut sources) = (Rundown::new(), Sources::new());
/// # let (mut canvas, mut scratch) = (Canvas::new(4, 2)?, Scratch::new());
/// let mut playing = Playing::begin(&rundown, &mut canvas, &mut sources, &mut scratch)?;
/// rundown.remove(9)?;
/// playing.step();
/// # Ok::<(), tiglostrema::Refusal>(())
/// ```
///
/// ```compile_fail,E0499
/// # use tiglostrema::{Canvas, Color, Playing, Rundown, Scratch, Sources};
/// # let (rundown, mut sources) = (Rundown::new(), Sources::new());
/// # let (mut canvas, mut scratch) = (Canvas::new(4, 2)?, Scratch::new());
/// let mut playing = Playing::begin(&rundown, &mut canvas, &mut sources, &mut scratch)?;
/// canvas.fill(Color::BLACK);
/// playing.step();
/// # Ok::<(), tiglostrema::Refusal>(())
/// ```
///
/// ```compile_fail,E0499
/// # use tiglostrema::{Canvas, Playing, Rundown, Scratch, Sources};
/// # let (rundown, mut sources) = (Rundown::new(), Sources::new());
/// # let (mut canvas, mut scratch) = (Canvas::new(4, 2)?, Scratch::new());
/// let mut playing = Playing::begin(&rundown, &mut canvas, &mut sources, &mut scratch)?;
/// sources.resize(0, 3, 3)?;
/// playing.step();
/// # Ok::<(), tiglostrema::Refusal>(())
/// ```
///
/// A playing that is dropped before its end leaves the canvas with the layers painted so far.
pub struct Playing<'a> {
    rundown: &'a Rundown,
    canvas: &'a mut Canvas,
    sources: &'a mut Sources,
    scratch: &'a mut Scratch,
    count: usize,
    last: Option<u16>,
}

impl<'a> Playing<'a> {
    /// Begins a playing in steps: tests all that it is lent, and paints nothing yet. A scratch that is too
    /// short grows here, as in [`play`](crate::play), and in no step.
    ///
    /// # Errors
    ///
    /// As [`play`](crate::play). Nothing has changed then.
    pub fn begin(
        rundown: &'a Rundown,
        canvas: &'a mut Canvas,
        sources: &'a mut Sources,
        scratch: &'a mut Scratch,
    ) -> Result<Playing<'a>, Refusal> {
        let (width, height) = (canvas.width(), canvas.height());
        let table = sources.table();
        let count = with_scratch(rundown, (width, height), table, scratch, |a, b| {
            raw::begin(
                rundown.as_bytes(),
                width,
                height,
                canvas.pixels(),
                table.as_words(),
                sources.pool(),
                a,
                b,
            )
        })?;
        Ok(Playing {
            rundown,
            canvas,
            sources,
            scratch,
            count,
            last: None,
        })
    }

    /// Paints the next layer, from the sources as they are now, and answers its priority; none where all
    /// layers are painted, and from then on.
    ///
    /// # Panics
    ///
    /// Never, unless the library breaks its contract: every step makes the tests of
    /// [`begin`](Playing::begin) again, and these look at nothing that may have changed since.
    pub fn step(&mut self) -> Option<u16> {
        let (a, b) = self.scratch.slices();
        let painted = raw::step(
            self.rundown.as_bytes(),
            self.canvas.width(),
            self.canvas.height(),
            self.canvas.pixels_mut(),
            self.sources.table().as_words(),
            self.sources.pool(),
            a,
            b,
            self.last,
        );
        match painted {
            Ok(priority) => self.last = Some(priority),
            Err(refusal) if refusal.cause() == Cause::NoNextLayer => return None,
            // The tests see the rundown's bytes, sizes and lengths. All are borrowed, and as they were when
            // `begin` passed; what `pixels_mut` may change they do not see.
            Err(refusal) => unreachable!("begin has passed these tests: {refusal}"),
        }
        self.last
    }

    /// The pixels of that source, to be changed before the next step; its size stays. None if there is no
    /// such source.
    pub fn pixels_mut(&mut self, source: impl Into<SourceId>) -> Option<&mut [u32]> {
        self.sources.pixels_mut(source)
    }

    /// Writes a source's pixels from bytes, as [`Sources::write_rgb`] does.
    ///
    /// # Errors
    ///
    /// As [`Sources::write_rgb`].
    pub fn write_rgb(&mut self, source: impl Into<SourceId>, bytes: &[u8]) -> Result<(), Refusal> {
        self.sources.write_rgb(source, bytes)
    }

    /// Writes a source's pixels from bytes with an alpha, as [`Sources::write_rgba`] does.
    ///
    /// # Errors
    ///
    /// As [`Sources::write_rgba`].
    pub fn write_rgba(&mut self, source: impl Into<SourceId>, bytes: &[u8]) -> Result<(), Refusal> {
        self.sources.write_rgba(source, bytes)
    }

    /// The canvas with the layers that are painted so far.
    #[must_use]
    pub fn canvas(&self) -> &Canvas {
        self.canvas
    }

    /// How many layers there are, painted or not: after so many steps there is none left.
    #[must_use]
    pub fn count(&self) -> usize {
        self.count
    }

    /// The priority that was painted last; none before the first step.
    #[must_use]
    pub fn last(&self) -> Option<u16> {
        self.last
    }
}
