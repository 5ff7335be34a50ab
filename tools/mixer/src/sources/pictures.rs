//! Sources with their pixels.
use super::items::{Content, Item};
use super::{Given, Sources};
use crate::cli::args::Opt;
use crate::cli::failure::Failure;
use crate::files;
use crate::names::Names;
use std::ffi::OsStr;
use std::ops::Range;
use tiglostrema::{SourceId, MAX_SIDE, MAX_SOURCES};

/// The sources with their pixels, for a play.
#[derive(Default)]
pub struct Pictures {
    pub given: Given,
    /// Their pixels, one source behind the other; black for sizes alone.
    pub pool: Vec<u32>,
    /// Whether their pixels are those of a file.
    from_file: Vec<bool>,
}

impl Sources for Pictures {
    fn of(items: &[Item], names: Names) -> Result<Pictures, Failure> {
        let mut pictures = Pictures::default();
        pictures.given.names = names;
        for item in items {
            pictures.push(&item.content)?;
        }
        Ok(pictures)
    }

    fn given(&self) -> &Given {
        &self.given
    }
}

impl Pictures {
    fn push(&mut self, content: &Content) -> Result<(), Failure> {
        let path = match content {
            Content::Flat(size, pixel) => {
                self.flat(*size, *pixel);
                return Ok(());
            }
            Content::File(path) => path,
        };
        let picture = files::read_picture(path)?;
        self.given.sizes.push((picture.width(), picture.height()));
        self.from_file.push(true);
        self.pool.extend_from_slice(picture.pixels());
        Ok(())
    }

    fn flat(&mut self, size: (u32, u32), pixel: u32) {
        self.given.sizes.push(size);
        self.from_file.push(false);
        // A table that the library refuses needs no pixels, which might be far too many.
        let fits = size.0.max(size.1) <= MAX_SIDE && self.given.sizes.len() <= MAX_SOURCES;
        if fits {
            let area = size.0 as usize * size.1 as usize;
            self.pool.resize(self.pool.len() + area, pixel);
        }
    }

    /// Puts another picture of the same size in the place of a source that is given.
    pub fn replace(
        &mut self,
        source: SourceId,
        option: &Opt,
        value: &OsStr,
    ) -> Result<(), Failure> {
        let other = self.for_source(source, option, value)?;
        if self.pool[self.place(source)] == other {
            let (name, source) = (files::input(value), self.given.names.source(source));
            return Err(Failure::refused(format!(
                "{name}: this is the picture of {source} itself, by which nothing could differ"
            )));
        }
        self.put(source, &other);
        Ok(())
    }

    /// The pixels of another picture for a source that is given, which has to have its size.
    pub fn for_source(
        &self,
        source: SourceId,
        option: &Opt,
        value: &OsStr,
    ) -> Result<Vec<u32>, Failure> {
        let mut other = Pictures::default();
        other.push(&Content::of(option.name, value)?)?;
        let ((w, h), (own_w, own_h)) = (other.given.sizes[0], self.given.sizes[source.index()]);
        match (own_w, own_h) == (w, h) {
            true => Ok(other.pool),
            false => {
                let (name, source) = (files::input(value), self.given.names.source(source));
                Err(Failure::refused(format!(
                    "{name}: {w}x{h} is not the size of {source}, which is {own_w}x{own_h}"
                )))
            }
        }
    }

    /// Puts these pixels in the place of a source's own, of which there are as many.
    pub fn put(&mut self, source: SourceId, pixels: &[u32]) {
        let place = self.place(source);
        self.pool[place].copy_from_slice(pixels);
    }

    /// Where a source's pixels stand in the pool.
    fn place(&self, source: SourceId) -> Range<usize> {
        let area = |&(w, h): &(u32, u32)| w as usize * h as usize;
        let start = self.given.sizes[..source.index()].iter().map(area).sum();
        start..start + area(&self.given.sizes[source.index()])
    }

    /// The other sources whose files show the same picture as this one's.
    pub fn twins(&self, source: SourceId) -> Vec<SourceId> {
        let picture = |n: usize| {
            let place = self.place(SourceId::new(n as u32));
            self.from_file[n].then(|| (self.given.sizes[n], &self.pool[place]))
        };
        let own = picture(source.index());
        let others = (0..self.given.sizes.len()).filter(|n| *n != source.index());
        let same = others.filter(|n| own.is_some() && picture(*n) == own);
        same.map(|n| SourceId::new(n as u32)).collect()
    }
}

#[cfg(test)]
mod tests {
    use super::*;
    use crate::cli::args::once;

    fn flats(sizes: &[(u32, u32)]) -> Pictures {
        let mut pictures = Pictures::default();
        for (i, size) in sizes.iter().enumerate() {
            pictures.flat(*size, i as u32);
        }
        pictures
    }

    #[test]
    fn a_size_that_is_refused_gets_no_pixels() {
        let pictures = flats(&[(2, 3), (1, 1), (4097, 1)]);
        assert_eq!(pictures.given.table(), [2, 3, 1, 1, 4097, 1]);
        assert_eq!(pictures.pool, [0, 0, 0, 0, 0, 0, 1]);
    }

    #[test]
    fn a_picture_in_a_sources_place_has_its_size() {
        let mut pictures = flats(&[(2, 1), (1, 2), (1, 1)]);
        let option = once("--instead");
        let mut replace = |word: &str| pictures.replace(1.into(), &option, OsStr::new(word));
        replace("1x2:#112233").unwrap();
        let [size, same] = ["2x1:red", "1x2:#112233"].map(|word| replace(word).unwrap_err());
        assert_eq!(pictures.pool, [0, 0, 0x112233, 0x112233, 2]);
        assert_eq!(
            size.to_string(),
            "mixer: 2x1:red: 2x1 is not the size of source 1, which is 1x2"
        );
        assert_eq!(
            same.to_string(),
            "mixer: 1x2:#112233: this is the picture of source 1 itself, by which nothing could differ"
        );
    }

    #[test]
    fn twins_are_pictures_of_files() {
        let mut pictures = flats(&[(2, 1), (1, 1), (2, 1), (1, 2), (2, 1)]);
        pictures.pool.fill(7);
        assert_eq!(pictures.twins(0.into()), []);
        pictures.from_file = vec![true, true, true, true, false];
        assert_eq!(pictures.twins(0.into()), [SourceId::new(2)]);
        assert_eq!(pictures.twins(4.into()), []);
    }
}
