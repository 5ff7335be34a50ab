//! The sizes of the sources.
use crate::detail::{sides, Detail, Picture, Size};
use crate::{Cause, Layer, Refusal, Rundown, SourceId};

/// How many sources there may be.
pub const MAX_SOURCES: usize = 16;

/// The words of an entry: a width and a height.
const ENTRY: usize = 2;

/// The sizes of the sources: at most 16, each side 1 to 4096. It is all that
/// [`stain`](crate::stain) and [`forecast`](crate::forecast) have to know of them.
///
/// A source keeps its number: [`remove`](SourceTable::remove) moves no other one, and only
/// [`replace`](SourceTable::replace) puts another source in its place.
#[derive(Clone, Default, PartialEq, Eq, Hash)]
pub struct SourceTable {
    /// As the library takes them. A removed source has the smallest size, 1 × 1.
    words: Vec<u32>,
    /// Which sources were removed, by their numbers.
    removed: [bool; MAX_SOURCES],
}

impl SourceTable {
    /// No source.
    #[must_use]
    pub fn new() -> SourceTable {
        SourceTable::default()
    }

    /// Adds a source's size, and answers the source's number: one that no source has had before.
    ///
    /// # Errors
    ///
    /// [`Cause::SourceTable`] if a side is not 1 to 4096, or all 16 numbers are taken.
    pub fn push(&mut self, width: u32, height: u32) -> Result<SourceId, Refusal> {
        sides(Picture::Source, (width, height))?;
        if self.len() == MAX_SOURCES {
            let removed = self.removed.iter().filter(|removed| **removed).count();
            return Err(Detail::NoNumber(removed).into());
        }
        let number = SourceId::new(self.len() as u32);
        self.words.extend([width, height]);
        Ok(number)
    }

    /// Changes the size of a source.
    ///
    /// # Errors
    ///
    /// [`Cause::SourceTable`] if a side is not 1 to 4096, [`Cause::NoSuchSource`] if there is no
    /// such source.
    pub fn resize(
        &mut self,
        source: impl Into<SourceId>,
        width: u32,
        height: u32,
    ) -> Result<(), Refusal> {
        let source = source.into();
        self.present(source)?;
        self.replace(source, width, height)
    }

    /// Puts a source of that size in the place of one that is there, or that was removed.
    ///
    /// # Errors
    ///
    /// [`Cause::SourceTable`] if a side is not 1 to 4096, [`Cause::NoSuchSource`] if there has been
    /// no such source.
    pub fn replace(
        &mut self,
        source: impl Into<SourceId>,
        width: u32,
        height: u32,
    ) -> Result<(), Refusal> {
        let source = source.into();
        self.known(source)?;
        sides(Picture::Source, (width, height))?;
        self.set(source, (width, height), false);
        Ok(())
    }

    /// Removes a source. The others keep their numbers, and its own stays free until
    /// [`replace`](SourceTable::replace) puts another one there.
    ///
    /// # Errors
    ///
    /// [`Cause::NoSuchSource`] if there is no such source.
    pub fn remove(&mut self, source: impl Into<SourceId>) -> Result<(), Refusal> {
        let source = source.into();
        self.present(source)?;
        self.set(source, (1, 1), true);
        Ok(())
    }

    /// How many numbers are taken, those of removed sources among them.
    #[must_use]
    pub fn len(&self) -> usize {
        self.words.len() / ENTRY
    }

    /// Whether no number is taken.
    #[must_use]
    pub fn is_empty(&self) -> bool {
        self.words.is_empty()
    }

    /// The width and the height of a source.
    #[must_use]
    pub fn size(&self, source: impl Into<SourceId>) -> Option<(u32, u32)> {
        self.sizes().nth(source.into().index())?
    }

    /// The width and the height of each source, in the order of their numbers; none for one that
    /// was removed.
    #[must_use]
    pub fn sizes(&self) -> impl ExactSizeIterator<Item = Option<(u32, u32)>> + '_ {
        let entries = self.entries().zip(self.removed);
        entries.map(|(size, removed)| (!removed).then_some(size))
    }

    /// The widths and heights by turns, as the library takes them. A removed source stands there as
    /// one pixel, since the library's table has no gaps; [`raw::play`](crate::raw::play) paints that
    /// pixel where [`play`](crate::play) refuses the layer.
    #[must_use]
    pub fn as_words(&self) -> &[u32] {
        &self.words
    }

    /// The size of each source, as the library sees it.
    pub(crate) fn entries(&self) -> impl ExactSizeIterator<Item = Size> + '_ {
        self.words
            .chunks_exact(ENTRY)
            .map(|size| (size[0], size[1]))
    }

    /// The size of a source that is there.
    pub(crate) fn present(&self, source: SourceId) -> Result<Size, Detail> {
        self.known(source)?;
        self.size(source).ok_or(Detail::Removed(source))
    }

    /// That no layer copies a source that was removed. The library cannot tell: it sees one pixel.
    pub(crate) fn suits(&self, rundown: &Rundown) -> Result<(), Refusal> {
        if !self.removed.contains(&true) {
            return Ok(());
        }
        for (block, (_, layer)) in (0..).zip(rundown) {
            let source = layer.source().map(SourceId::index);
            if source.and_then(|source| self.removed.get(source)) == Some(&true) {
                return Err(Refusal::new(Cause::NoSuchSource, block));
            }
        }
        Ok(())
    }

    /// A refusal of the rundown on a canvas of that width, with the priority of its layer, and with
    /// the number of a source that is not there or the end of a frame.
    pub(crate) fn told(&self, refusal: Refusal, rundown: &Rundown, width: u32) -> Refusal {
        let layer = refusal.block().and_then(|block| rundown.iter().nth(block));
        let Some((priority, layer)) = layer else {
            return refusal;
        };
        let refusal = refusal.of_layer(priority);
        let detail = match (refusal.cause(), layer) {
            (Cause::FrameTooWide, Layer::Frame(frame)) => {
                Some(Detail::Wide(frame.x + frame.width, width))
            }
            (Cause::NoSuchSource, copy) => {
                copy.source().and_then(|source| self.present(source).err())
            }
            _ => None,
        };
        refusal.with(detail)
    }

    /// That there is, or has been, such a source.
    fn known(&self, source: SourceId) -> Result<(), Detail> {
        known(source, &self.words)
    }

    fn set(&mut self, source: SourceId, (width, height): Size, removed: bool) {
        let at = ENTRY * source.index();
        self.words[at..at + ENTRY].copy_from_slice(&[width, height]);
        self.removed[source.index()] = removed;
    }
}

/// That a table of these words has such a source. An entry that lacks a word counts: what is wrong
/// with such a table the library says.
pub(crate) fn known(source: SourceId, words: &[u32]) -> Result<(), Detail> {
    let count = words.len().div_ceil(ENTRY);
    if source.index() >= count {
        return Err(Detail::Absent(source, count));
    }
    Ok(())
}
