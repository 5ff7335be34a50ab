//! The list of layers.
use crate::block::{Reader, LEN};
use crate::{field, raw, Cause, Layer, Refusal};
use std::fmt;
use std::iter::FusedIterator;

/// How many layers a rundown may have.
pub const MAX_LAYERS: usize = 256;

/// A rundown: up to 256 layers, each with a priority of its own. They are painted in ascending
/// priority, whatever the order in which they were added.
///
/// It is kept as the bytes that the library plays, so it can be stored and sent as it is:
/// [`as_bytes`](Rundown::as_bytes) and [`from_bytes`](Rundown::from_bytes). Every layer in it has
/// passed the library's tests.
///
/// Two rundowns are equal where their bytes are. [`add`](Rundown::add) and [`remove`](Rundown::remove)
/// leave the blocks in ascending priority, so the same layers, added in any order, are equal. Bytes that
/// came in another order keep it until then: compare [`in_playing_order`](Rundown::in_playing_order),
/// which does not know it.
///
/// ```
/// use tiglostrema::{Color, Fill, Layer, Rect, Rundown, StraightCopy};
///
/// let mut rundown = Rundown::new();
/// rundown.add(10, StraightCopy::new(0, 100, 40))?;
/// rundown.add(9, Fill::new(Rect::new(0.0, 0.0, 640.0, 360.0), Color::BLACK))?;
///
/// let order: Vec<u16> = rundown.in_playing_order().map(|(priority, _)| priority).collect();
/// assert_eq!(order, [9, 10]);
/// assert!(rundown.iter().eq(rundown.in_playing_order()), "and so do the blocks stand");
/// assert!(matches!(rundown.get(10), Some(Layer::Straight(copy)) if copy.x == 100));
///
/// rundown.remove(9)?;
/// assert_eq!(rundown.len(), 1);
/// assert_eq!(Rundown::from_bytes(rundown.as_bytes())?, rundown);
/// # Ok::<(), tiglostrema::Refusal>(())
/// ```
#[derive(Clone, Default, PartialEq, Eq, Hash)]
pub struct Rundown {
    bytes: Vec<u8>,
}

impl Rundown {
    /// A rundown without layers.
    #[must_use]
    pub fn new() -> Rundown {
        Rundown::default()
    }

    /// The rundown of stored bytes, which are kept as they are: blocks that do not stand in ascending
    /// priority stay so, until a layer is added or removed.
    ///
    /// # Errors
    ///
    /// Causes 3 to 8 and 15: what [`raw::play`] would say of these bytes, but for the tests that need
    /// the canvas or the sources.
    ///
    /// A rundown that was stored before version 0.3.0 may hold a panel whose table does not suit its
    /// bezel, which is [`Cause::Bend`] now. Such a rundown has to be made anew; the command `mixer text`
    /// gives its text back, to mend its tables there.
    pub fn from_bytes(bytes: &[u8]) -> Result<Rundown, Refusal> {
        if bytes.len() % LEN != 0 {
            return Err(Refusal::new(Cause::RundownLength, 0));
        }
        let mut rundown = Rundown {
            bytes: bytes.to_vec(),
        };
        // A remove makes all the tests before it looks for its priority, and refused it changes
        // nothing: asked for one that is not there, it says whether the rest is right.
        let (count, absent) = (rundown.len(), rundown.unused_priority());
        match raw::remove(&mut rundown.bytes, count, absent) {
            Err(refusal) if refusal.cause() == Cause::NoSuchPriority => Ok(rundown),
            Err(refusal) => Err(refusal),
            Ok(_) => unreachable!("no block has that priority"),
        }
    }

    /// The bytes: a block of 512 for each layer.
    #[must_use]
    pub fn as_bytes(&self) -> &[u8] {
        &self.bytes
    }

    /// The bytes, out of the rundown.
    #[must_use]
    pub fn into_bytes(self) -> Vec<u8> {
        self.bytes
    }

    /// Adds a layer, and answers how many there are now. Afterwards all blocks stand in ascending
    /// priority.
    ///
    /// # Errors
    ///
    /// [`Cause::FloatRange`] or [`Cause::IntegerRange`] if a field is out of its range,
    /// [`Cause::Bend`] if a panel's displacement table does not suit its bezel,
    /// [`Cause::DuplicatePriority`] if a layer has that priority, [`Cause::RundownFull`] if there
    /// are 256. The rundown is as it was then, and also if the conversion into a [`Layer`] panics.
    pub fn add(&mut self, priority: u16, layer: impl Into<Layer>) -> Result<usize, Refusal> {
        // The layer first: its conversion is the caller's, and may panic.
        let body = layer.into().encode(priority);
        let count = self.len();
        self.bytes.resize((count + 1) * LEN, 0);
        let added = raw::add(&mut self.bytes, count, &body);
        self.bytes.truncate(added.unwrap_or(count) * LEN);
        added.map_err(|refusal| field::named(refusal, &body).of_layer(priority))
    }

    /// Removes the layer of that priority, and answers how many are left. Afterwards all blocks stand
    /// in ascending priority. If they did so before, the same layer, added again, gives the same bytes.
    ///
    /// # Errors
    ///
    /// [`Cause::NoSuchPriority`] if there is none.
    pub fn remove(&mut self, priority: u16) -> Result<usize, Refusal> {
        let count = self.len();
        let removed = raw::remove(&mut self.bytes, count, priority);
        self.bytes.truncate(removed.unwrap_or(count) * LEN);
        removed.map_err(|refusal| refusal.of_layer(priority))
    }

    /// Puts another layer at a priority that is there, as a show does that moves a layer from
    /// frame to frame. Its block takes the place of the old one, and no other block is touched: where
    /// they stand in ascending priority, a remove and an add give the same bytes.
    ///
    /// ```
    /// use tiglostrema::{Cause, Layer, Rundown, StraightCopy};
    ///
    /// let mut rundown = Rundown::new();
    /// rundown.add(5, StraightCopy::new(0, 0, 0))?;
    /// rundown.replace(5, StraightCopy::new(0, 8, 0))?;
    /// assert!(matches!(rundown.get(5), Some(Layer::Straight(copy)) if copy.x == 8));
    ///
    /// let refusal = rundown.replace(6, StraightCopy::new(0, 8, 0)).unwrap_err();
    /// assert_eq!(refusal.cause(), Cause::NoSuchPriority);
    /// # Ok::<(), tiglostrema::Refusal>(())
    /// ```
    ///
    /// # Errors
    ///
    /// [`Cause::NoSuchPriority`] if there is no such layer; [`Cause::FloatRange`],
    /// [`Cause::IntegerRange`] or [`Cause::Bend`] as [`add`](Rundown::add). The rundown is as it was
    /// then.
    pub fn replace(&mut self, priority: u16, layer: impl Into<Layer>) -> Result<(), Refusal> {
        let number = self.number(priority)?;
        let block = tested(priority, layer.into(), number)?;
        self.bytes[number * LEN..][..LEN].copy_from_slice(&block);
        Ok(())
    }

    /// Changes the layer of that priority. `change` is handed the layer as it is, of whichever kind;
    /// what it leaves there is tested and takes its place. To leave it as it is, as the closure below
    /// does with a layer that is no straight copy, is no error.
    ///
    /// ```
    /// use tiglostrema::{Cause, Layer, Rundown, StraightCopy};
    ///
    /// let mut rundown = Rundown::new();
    /// rundown.add(5, StraightCopy::new(0, 10, 20).with_alpha(200))?;
    /// rundown.update(5, |layer| {
    ///     if let Layer::Straight(copy) = layer {
    ///         copy.x += 8;
    ///     }
    /// })?;
    /// assert_eq!(rundown.get(5), Some(StraightCopy::new(0, 18, 20).with_alpha(200).into()));
    ///
    /// let refusal = rundown.update(6, |_| {}).unwrap_err();
    /// assert_eq!(refusal.cause(), Cause::NoSuchPriority);
    /// assert_eq!(refusal.to_string(), "priority 6: no layer has that priority (cause 13)");
    /// # Ok::<(), tiglostrema::Refusal>(())
    /// ```
    ///
    /// # Errors
    ///
    /// As [`replace`](Rundown::replace). The rundown is as it was then, and also if `change` panics.
    pub fn update(
        &mut self,
        priority: u16,
        change: impl FnOnce(&mut Layer),
    ) -> Result<(), Refusal> {
        let mut layer = self.get(priority).ok_or(absent(priority))?;
        change(&mut layer);
        self.replace(priority, layer)
    }

    /// How many layers there are.
    #[must_use]
    pub fn len(&self) -> usize {
        self.bytes.len() / LEN
    }

    /// Whether there is none.
    #[must_use]
    pub fn is_empty(&self) -> bool {
        self.bytes.is_empty()
    }

    /// The layer of that priority.
    #[must_use]
    pub fn get(&self, priority: u16) -> Option<Layer> {
        let number = self.number(priority).ok()?;
        let (_, layer) = self.iter().nth(number)?;
        Some(layer)
    }

    /// The layers with their priorities in the order of their blocks, which is the one that a
    /// [`Refusal`] counts by. After [`add`](Rundown::add) and [`remove`](Rundown::remove) it is
    /// ascending priority; after [`from_bytes`](Rundown::from_bytes) that of the bytes.
    #[must_use]
    pub fn iter(&self) -> Iter<'_> {
        Iter {
            blocks: self.bytes.chunks_exact(LEN),
        }
    }

    /// The layers with their priorities in ascending priority: as they are painted, in whatever order
    /// their blocks stand.
    #[must_use]
    pub fn in_playing_order(
        &self,
    ) -> impl DoubleEndedIterator<Item = (u16, Layer)> + ExactSizeIterator {
        let mut layers: Vec<_> = self.iter().collect();
        layers.sort_by_key(|(priority, _)| *priority);
        layers.into_iter()
    }

    /// The number of the block with that priority.
    fn number(&self, priority: u16) -> Result<usize, Refusal> {
        let mut blocks = self.bytes.chunks_exact(LEN);
        let number = blocks.position(|block| Reader::new(block).priority() == priority);
        number.ok_or(absent(priority))
    }

    /// The lowest priority that no block has. There is one, unless the blocks are far too many.
    fn unused_priority(&self) -> u16 {
        let mut used = vec![false; 1 << 16];
        for block in self.bytes.chunks_exact(LEN) {
            used[usize::from(Reader::new(block).priority())] = true;
        }
        used.iter().position(|used| !used).unwrap_or(0) as u16
    }
}

/// That no layer has the priority.
const fn absent(priority: u16) -> Refusal {
    Refusal::new(Cause::NoSuchPriority, 0).of_layer(priority)
}

/// The layer's block with its check, added by the library to an empty rundown. It may stand for
/// any block of the same priority: the tests of an add look at one block, and at its priority
/// beside the others'. A refusal is of the block with that number.
fn tested(priority: u16, layer: Layer, number: usize) -> Result<[u8; LEN], Refusal> {
    let (mut block, body) = ([0; LEN], layer.encode(priority));
    match raw::add(&mut block, 0, &body) {
        Ok(_) => Ok(block),
        Err(refusal) => Err(field::named(refusal, &body)
            .in_block(number as u32)
            .of_layer(priority)),
    }
}

impl<'a> IntoIterator for &'a Rundown {
    type Item = (u16, Layer);
    type IntoIter = Iter<'a>;

    fn into_iter(self) -> Iter<'a> {
        self.iter()
    }
}

/// The layers by their priorities, in playing order.
impl fmt::Debug for Rundown {
    fn fmt(&self, f: &mut fmt::Formatter<'_>) -> fmt::Result {
        f.debug_map().entries(self.in_playing_order()).finish()
    }
}

impl AsRef<[u8]> for Rundown {
    fn as_ref(&self) -> &[u8] {
        self.as_bytes()
    }
}

/// As [`Rundown::from_bytes`].
impl TryFrom<&[u8]> for Rundown {
    type Error = Refusal;

    fn try_from(bytes: &[u8]) -> Result<Rundown, Refusal> {
        Rundown::from_bytes(bytes)
    }
}

/// The layers of a [`Rundown`] with their priorities: see [`Rundown::iter`].
#[derive(Clone, Debug)]
pub struct Iter<'a> {
    blocks: std::slice::ChunksExact<'a, u8>,
}

impl Iterator for Iter<'_> {
    type Item = (u16, Layer);

    fn next(&mut self) -> Option<(u16, Layer)> {
        self.blocks.next().map(read)
    }

    // Without this the blocks before it would be read as layers.
    fn nth(&mut self, n: usize) -> Option<(u16, Layer)> {
        self.blocks.nth(n).map(read)
    }

    fn size_hint(&self) -> (usize, Option<usize>) {
        self.blocks.size_hint()
    }
}

impl DoubleEndedIterator for Iter<'_> {
    fn next_back(&mut self) -> Option<(u16, Layer)> {
        self.blocks.next_back().map(read)
    }
}

impl ExactSizeIterator for Iter<'_> {}

impl FusedIterator for Iter<'_> {}

/// A block's priority and layer.
fn read(block: &[u8]) -> (u16, Layer) {
    let block = Reader::new(block);
    let layer = Layer::decode(block).expect("the library has tested every block");
    (block.priority(), layer)
}
