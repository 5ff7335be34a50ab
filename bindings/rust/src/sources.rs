//! The sources of a show.
use crate::detail::area;
use crate::{Refusal, Source, SourceId, SourceTable};
use std::iter::repeat;
use std::ops::Range;

/// The sources of a show, at most 16. It owns their pixels, one source behind the other; a source
/// that moves is written anew each frame through [`pixels_mut`](Sources::pixels_mut).
///
/// Layers name sources by their numbers, so a source keeps its number as long as the show has it,
/// and no other source gets it unasked: [`remove`](Sources::remove) leaves a gap, and only
/// [`replace`](Sources::replace) fills it. A layer can then be refused, and never shows a picture
/// that nobody chose for it.
///
/// ```
/// use tiglostrema::{play, Canvas, Cause, Rundown, Scratch, Source, Sources, StraightCopy};
///
/// let mut sources = Sources::new();
/// let studio = sources.push(Source::new(2, 1, &[0x112233, 0x112233])?)?;
/// let relay = sources.push(Source::new(1, 1, &[0x445566])?)?;
/// let mut rundown = Rundown::new();
/// rundown.add(1, StraightCopy::new(studio, 0, 0))?;
///
/// // A larger studio: the relay call stays where it is.
/// sources.replace(studio, Source::new(2, 2, &[0x778899; 4])?)?;
/// assert_eq!(sources.get(relay), Some(Source::new(1, 1, &[0x445566])?));
///
/// // Without the studio its layer is refused; the relay call does not move into its place.
/// sources.remove(studio)?;
/// let mut canvas = Canvas::new(2, 2)?;
/// let refusal = play(&rundown, &mut canvas, &sources, &mut Scratch::new()).unwrap_err();
/// assert_eq!((refusal.cause(), refusal.block()), (Cause::NoSuchSource, Some(0)));
/// # Ok::<(), tiglostrema::Refusal>(())
/// ```
#[derive(Clone, Default, PartialEq, Eq, Hash)]
pub struct Sources {
    table: SourceTable,
    pool: Vec<u32>,
}

impl Sources {
    /// No source.
    #[must_use]
    pub fn new() -> Sources {
        Sources::default()
    }

    /// Takes a copy of a source's pixels, and answers the source's number: 0 for the first, and
    /// always one that no source has had before.
    ///
    /// # Errors
    ///
    /// [`Cause::SourceTable`](crate::Cause::SourceTable) if all 16 numbers are taken.
    pub fn push(&mut self, source: Source<'_>) -> Result<SourceId, Refusal> {
        let number = self.table.push(source.width(), source.height())?;
        self.pool.extend_from_slice(source.pixels());
        Ok(number)
    }

    /// Puts another picture in the place of a source that is there, or that was removed. Its size
    /// may be another one.
    ///
    /// # Errors
    ///
    /// [`Cause::NoSuchSource`](crate::Cause::NoSuchSource) if there has been no such source.
    pub fn replace(
        &mut self,
        number: impl Into<SourceId>,
        source: Source<'_>,
    ) -> Result<(), Refusal> {
        let number = number.into();
        let place = self.place(number);
        self.table
            .replace(number, source.width(), source.height())?;
        self.pool.splice(place, source.pixels().iter().copied());
        Ok(())
    }

    /// Changes the size of a source. All its pixels are black then, until they are written.
    ///
    /// A layer's box goes by the size of its source: a smaller source covers less of what lies
    /// beneath, so ask for the [`stain`](crate::stain) again.
    ///
    /// ```
    /// use tiglostrema::{Source, Sources};
    ///
    /// let mut sources = Sources::new();
    /// let camera = sources.push(Source::new(1, 1, &[0x112233])?)?;
    /// sources.resize(camera, 2, 1)?;
    /// sources.pixels_mut(camera).unwrap().copy_from_slice(&[0x445566, 0x778899]);
    /// assert_eq!(sources.get(camera), Some(Source::new(2, 1, &[0x445566, 0x778899])?));
    ///
    /// let refusal = sources.resize(camera, 4097, 1).unwrap_err();
    /// let words = "the source is 4097 × 1 pixels, and a side has 1 to 4096 (cause 2)";
    /// assert_eq!(refusal.to_string(), words);
    /// # Ok::<(), tiglostrema::Refusal>(())
    /// ```
    ///
    /// # Errors
    ///
    /// [`Cause::SourceTable`](crate::Cause::SourceTable) if a side is not 1 to 4096,
    /// [`Cause::NoSuchSource`](crate::Cause::NoSuchSource) if there is no such source.
    pub fn resize(
        &mut self,
        source: impl Into<SourceId>,
        width: u32,
        height: u32,
    ) -> Result<(), Refusal> {
        let source = source.into();
        let place = self.place(source);
        self.table.resize(source, width, height)?;
        self.pool
            .splice(place, repeat(0).take(area((width, height))));
        Ok(())
    }

    /// Removes a source with its pixels. The others keep their numbers. Its own stays free until
    /// [`replace`](Sources::replace) puts another picture there, and a layer that still copies it
    /// is refused.
    ///
    /// # Errors
    ///
    /// [`Cause::NoSuchSource`](crate::Cause::NoSuchSource) if there is no such source.
    pub fn remove(&mut self, source: impl Into<SourceId>) -> Result<(), Refusal> {
        let source = source.into();
        let place = self.place(source);
        self.table.remove(source)?;
        self.pool.splice(place, [0]);
        Ok(())
    }

    /// How many numbers are taken, those of removed sources among them.
    #[must_use]
    pub fn len(&self) -> usize {
        self.table.len()
    }

    /// Whether no number is taken.
    #[must_use]
    pub fn is_empty(&self) -> bool {
        self.table.is_empty()
    }

    /// The source of that number.
    #[must_use]
    pub fn get(&self, source: impl Into<SourceId>) -> Option<Source<'_>> {
        let source = source.into();
        let (width, height) = self.table.size(source)?;
        Source::new(width, height, &self.pool[self.place(source)]).ok()
    }

    /// The sources that are there, with their numbers.
    ///
    /// ```
    /// use tiglostrema::{Source, Sources};
    ///
    /// let mut sources = Sources::new();
    /// sources.push(Source::new(2, 1, &[0x112233, 0x445566])?)?;
    /// sources.push(Source::new(1, 1, &[0])?)?;
    /// sources.push(Source::new(1, 3, &[0; 3])?)?;
    /// sources.remove(1)?;
    /// let heights: Vec<_> = sources.iter().map(|(id, source)| (id.number(), source.height())).collect();
    /// assert_eq!(heights, [(0, 1), (2, 3)]);
    /// # Ok::<(), tiglostrema::Refusal>(())
    /// ```
    pub fn iter(&self) -> impl DoubleEndedIterator<Item = (SourceId, Source<'_>)> {
        let numbers = (0..self.len() as u32).map(SourceId::new);
        numbers.filter_map(|number| Some((number, self.get(number)?)))
    }

    /// The pixels of that source, to be changed; its size stays.
    ///
    /// ```
    /// use tiglostrema::{Source, Sources};
    ///
    /// let mut sources = Sources::new();
    /// let camera = sources.push(Source::new(2, 1, &[0, 0])?)?;
    /// sources.pixels_mut(camera).unwrap().copy_from_slice(&[0x112233, 0x445566]);
    /// assert_eq!(sources.get(camera).unwrap().pixels(), [0x112233, 0x445566]);
    /// # Ok::<(), tiglostrema::Refusal>(())
    /// ```
    pub fn pixels_mut(&mut self, source: impl Into<SourceId>) -> Option<&mut [u32]> {
        let source = source.into();
        self.table.size(source)?;
        let place = self.place(source);
        Some(&mut self.pool[place])
    }

    /// The sizes alone.
    #[must_use]
    pub fn table(&self) -> &SourceTable {
        &self.table
    }

    /// All pixels, one source behind the other, as the library takes them. A removed source is one
    /// black pixel there.
    #[must_use]
    pub fn pool(&self) -> &[u32] {
        &self.pool
    }

    /// Where a source's pixels stand in the pool; nothing where there is no such source.
    fn place(&self, source: SourceId) -> Range<usize> {
        let mut areas = self.table.entries().map(area);
        let start = areas.by_ref().take(source.index()).sum();
        start..start + areas.next().unwrap_or(0)
    }
}
