//! Files of every sort, and what each of their pixels has to become.
use crate::png::{File, Kind};
use picture::Picture;

/// What a file says of its samples: nothing, that they are sRGB, or a gamma in 100,000ths.
#[derive(Clone, Copy, Debug, PartialEq)]
pub enum Space {
    Unsaid,
    Srgb,
    Gamma(u32),
}

/// The gamma that stands for sRGB, 1 / 2.2.
pub const USUAL: Space = Space::Gamma(45455);
/// The gamma of samples that count light.
pub const LINEAR: Space = Space::Gamma(100_000);
/// The gamma of old Macintosh screens, 1 / 1.8.
pub const OLD_SCREEN: Space = Space::Gamma(55556);

impl Space {
    fn chunk(self) -> Option<([u8; 4], Vec<u8>)> {
        match self {
            Space::Unsaid => None,
            Space::Srgb => Some((*b"sRGB", vec![0])),
            Space::Gamma(gamma) => Some((*b"gAMA", gamma.to_be_bytes().to_vec())),
        }
    }

    /// The power that takes a sample, 0 to 1, to an sRGB one.
    fn power(self) -> f64 {
        match self {
            Space::Unsaid | Space::Srgb => 1.0,
            Space::Gamma(gamma) => 100_000.0 / (f64::from(gamma) * 2.2),
        }
    }
}

/// A file, what it says of its samples, and its colours.
pub struct Case {
    pub file: File,
    space: Space,
    palette: Vec<[u8; 3]>,
    /// The palette's alphas, where there is a chunk for them; the colours behind them are opaque.
    alphas: Vec<u8>,
    /// The samples of the pixels that are clear, where there is a chunk for them.
    key: Option<Vec<u16>>,
}

/// Samples that are spread over all but the darkest, of which 16-bit files have a test of their own.
fn spread(count: usize, depth: u8) -> Vec<u16> {
    let sample = |n: usize| (1024 + n * 40503 % 64512) >> (16 - depth);
    (0..count).map(|n| sample(n) as u16).collect()
}

impl Case {
    /// A file of spread samples, and of a palette where it needs one.
    pub fn new(kind: Kind, depth: u8, (width, height): (usize, usize), space: Space) -> Case {
        let file = File {
            width,
            height,
            kind,
            depth,
            interlaced: false,
            chunks: space.chunk().into_iter().collect(),
            samples: spread(width * height * kind.channels(), depth),
        };
        let mut case = Case {
            file,
            space,
            palette: Vec::new(),
            alphas: Vec::new(),
            key: None,
        };
        if kind == Kind::Palette {
            case.add_palette();
        }
        case
    }

    fn add_palette(&mut self) {
        let bytes: Vec<u8> = (0..3usize << self.file.depth)
            .map(|n| (n * 167 + 5) as u8)
            .collect();
        self.palette = bytes.chunks(3).map(|c| [c[0], c[1], c[2]]).collect();
        self.file.chunks.push((*b"PLTE", bytes));
    }

    /// The same with clear pixels by a chunk `tRNS`, where the sort may have one: alphas for all colours of the
    /// palette but the last, or the first pixel's samples as those of clear pixels.
    pub fn with_clear(mut self) -> Option<Case> {
        let chunk = match self.file.kind {
            Kind::GreyAlpha | Kind::Rgba => return None,
            Kind::Palette => {
                let alphas = 0..self.palette.len() - 1;
                self.alphas = alphas.map(|n| (n * 89) as u8).collect();
                self.alphas.clone()
            }
            Kind::Grey | Kind::Rgb => {
                let key = &self.file.samples[..self.file.kind.channels()];
                self.key = Some(key.to_vec());
                key.iter().flat_map(|sample| sample.to_be_bytes()).collect()
            }
        };
        self.file.chunks.push((*b"tRNS", chunk));
        Some(self)
    }

    /// A pixel's colour and alpha, 0 to 1, as they stand in the file.
    fn stored(&self, samples: &[u16]) -> ([f64; 3], f64) {
        let most = f64::from((1u32 << self.file.depth) - 1);
        let part = |n: usize| f64::from(samples[n]) / most;
        let opaque = f64::from(self.key.as_deref() != Some(samples));
        match self.file.kind {
            Kind::Grey => ([part(0); 3], opaque),
            Kind::Rgb => ([part(0), part(1), part(2)], opaque),
            Kind::GreyAlpha => ([part(0); 3], part(1)),
            Kind::Rgba => ([part(0), part(1), part(2)], part(3)),
            Kind::Palette => {
                let number = usize::from(samples[0]);
                let alpha = self.alphas.get(number).copied().unwrap_or(255);
                let colour = self.palette[number].map(|byte| f64::from(byte) / 255.0);
                (colour, f64::from(alpha) / 255.0)
            }
        }
    }

    /// A pixel as it should be read: red, green and blue.
    fn expected(&self, samples: &[u16]) -> [u8; 3] {
        let (colour, alpha) = self.stored(samples);
        let alpha = (255.0 * alpha).round();
        colour.map(|part| {
            let byte = (255.0 * part.powf(self.space.power())).round();
            (byte * alpha / 255.0).round() as u8
        })
    }

    /// libpng works a gamma out for a sample's upper 11 bits alone, so that a 16-bit one may be off by 1.
    fn slack(&self) -> u8 {
        let worked_out = [LINEAR, OLD_SCREEN].contains(&self.space);
        u8::from(self.file.depth == 16 && worked_out)
    }

    /// Reads the file, and holds every pixel to the one that is expected.
    pub fn check(&self) {
        let File {
            width,
            height,
            kind,
            ..
        } = self.file;
        let bytes = self.file.bytes();
        let picture = Picture::decode(&bytes).unwrap();
        let size = (picture.width(), picture.height());
        assert_eq!(size, (width as u32, height as u32));
        assert_eq!(Picture::size(&bytes).unwrap(), size);
        let pixels = self.file.samples.chunks(kind.channels());
        for (samples, got) in pixels.zip(picture.pixels()) {
            let [top, got @ ..] = got.to_be_bytes();
            let near = |(got, want): (u8, u8)| got.abs_diff(want) <= self.slack();
            let right = got.into_iter().zip(self.expected(samples)).all(near);
            assert!(top == 0 && right, "{samples:?} is {got:?} in {self:?}");
        }
    }
}

impl std::fmt::Debug for Case {
    fn fmt(&self, f: &mut std::fmt::Formatter<'_>) -> std::fmt::Result {
        let File {
            kind,
            depth,
            width,
            height,
            interlaced,
            ..
        } = self.file;
        let clear = self.key.is_some() || !self.alphas.is_empty();
        write!(
            f,
            "{width}x{height} {kind:?} of {depth} bits, {:?}, clear {clear}, interlaced {interlaced}",
            self.space
        )
    }
}
