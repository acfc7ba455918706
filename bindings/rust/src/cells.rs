//! A frame counted in cells of 8 pixels, and the lengths that follow.
use std::ops::Range;

use crate::hints::Slot;
use crate::refusal::Refusal;
use crate::store::Mode;

/// Greatest width and height, in pixels.
const MOST_PIXELS: u32 = 65_536;
/// Bytes of a saved block.
pub(crate) const BLOCK: usize = 6;
/// Rows above a superblock row that the field keeps in row mode.
pub(crate) const ROWS_ABOVE: usize = 3;

/// A frame counted in cells of 8 pixels, and the lengths of everything that a load is lent.
///
/// ```
/// use refmvs::{Cells, Mode};
///
/// let cells = Cells::new(200, 120, 0)?;
/// assert_eq!((cells.wide(), cells.high(), cells.side(), cells.stride()), (25, 15, 8, 32));
/// assert_eq!(cells.field_len(Mode::Row), (8 + 3) * 32);
/// # Ok::<(), refmvs::Refusal>(())
/// ```
#[derive(Clone, Copy, Debug, PartialEq, Eq, Hash)]
pub struct Cells {
    wide: usize,
    high: usize,
    side: usize,
    stride: usize,
    field_row: usize,
    field_whole: usize,
    row: usize,
    plane: usize,
}

/// The product of all, where it fits.
fn product<const N: usize>(factors: [usize; N]) -> Option<usize> {
    factors.into_iter().try_fold(1usize, usize::checked_mul)
}

impl Cells {
    /// The cells of a frame of so many pixels with the superblock code `sb128`.
    ///
    /// Refuses a code above 2, [`Refusal::Superblock`], and a width or height not 1 to 65,536, or too large for this
    /// machine's addresses, [`Refusal::Size`].
    ///
    /// ```
    /// use refmvs::{Cells, Refusal};
    ///
    /// assert_eq!(Cells::new(1920, 1080, 2)?.stride(), 256);
    /// assert_eq!(Cells::new(1920, 1080, 3), Err(Refusal::Superblock));
    /// assert_eq!(Cells::new(0, 1080, 2), Err(Refusal::Size));
    /// # Ok::<(), Refusal>(())
    /// ```
    pub fn new(width: u32, height: u32, sb128: u8) -> Result<Cells, Refusal> {
        let side = match sb128 {
            0 => 8,
            1 => 16,
            2 => 32,
            _ => return Err(Refusal::Superblock),
        };
        let sizes = 1..=MOST_PIXELS;
        if !sizes.contains(&width) || !sizes.contains(&height) {
            return Err(Refusal::Size);
        }
        let wide = width.div_ceil(8) as usize;
        let high = height.div_ceil(8) as usize;
        let stride = width.div_ceil(256) as usize * 32;
        Cells::measured(wide, high, side, stride).ok_or(Refusal::Size)
    }

    /// With all lengths, of which the longest, that of the planes and of the maps, have to fit as well.
    fn measured(wide: usize, high: usize, side: usize, stride: usize) -> Option<Cells> {
        product([7, BLOCK, high, stride])?;
        product([3, 7, side, stride])?;
        Some(Cells {
            wide,
            high,
            side,
            stride,
            field_row: product([side + ROWS_ABOVE, stride])?,
            field_whole: product([high.div_ceil(32), 32, stride])?,
            row: product([side, stride])?,
            plane: product([high, stride, BLOCK])?,
        })
    }

    /// Cells in a row, the paper's W.
    ///
    /// ```
    /// assert_eq!(refmvs::Cells::new(65, 1, 0)?.wide(), 9);
    /// # Ok::<(), refmvs::Refusal>(())
    /// ```
    pub const fn wide(&self) -> usize {
        self.wide
    }

    /// Rows of cells, H.
    ///
    /// ```
    /// assert_eq!(refmvs::Cells::new(1, 64, 0)?.high(), 8);
    /// # Ok::<(), refmvs::Refusal>(())
    /// ```
    pub const fn high(&self) -> usize {
        self.high
    }

    /// A superblock's side, S: 8, 16 or 32.
    ///
    /// ```
    /// assert_eq!(refmvs::Cells::new(1, 1, 1)?.side(), 16);
    /// # Ok::<(), refmvs::Refusal>(())
    /// ```
    pub const fn side(&self) -> usize {
        self.side
    }

    /// Cells from a row to the next in every list.
    ///
    /// ```
    /// assert_eq!(refmvs::Cells::new(257, 1, 0)?.stride(), 64);
    /// # Ok::<(), refmvs::Refusal>(())
    /// ```
    pub const fn stride(&self) -> usize {
        self.stride
    }

    /// The length of the field's three lists: `(S + 3) * stride`, or in whole-frame mode H raised to a multiple of 32,
    /// times stride.
    ///
    /// ```
    /// use refmvs::{Cells, Mode};
    ///
    /// let cells = Cells::new(200, 300, 0)?;
    /// assert_eq!(cells.field_len(Mode::Row), 11 * 32);
    /// assert_eq!(cells.field_len(Mode::WholeFrame), 64 * 32);
    /// # Ok::<(), refmvs::Refusal>(())
    /// ```
    pub const fn field_len(&self, mode: Mode) -> usize {
        match mode {
            Mode::Row => self.field_row,
            Mode::WholeFrame => self.field_whole,
        }
    }

    /// The length of the two lists of trajectories, `7 * S * stride`.
    ///
    /// ```
    /// assert_eq!(refmvs::Cells::new(64, 64, 0)?.traj_len(), 7 * 8 * 32);
    /// # Ok::<(), refmvs::Refusal>(())
    /// ```
    pub const fn traj_len(&self) -> usize {
        7 * self.row
    }

    /// The length of the two lists of map bytes, `3 * 7 * S * stride`.
    ///
    /// ```
    /// assert_eq!(refmvs::Cells::new(64, 64, 0)?.map_len(), 21 * 8 * 32);
    /// # Ok::<(), refmvs::Refusal>(())
    /// ```
    pub const fn map_len(&self) -> usize {
        21 * self.row
    }

    /// The bytes of one slot's plane: six for each of `H * stride` saved blocks.
    ///
    /// ```
    /// assert_eq!(refmvs::Cells::new(64, 64, 0)?.plane_len(), 8 * 32 * 6);
    /// # Ok::<(), refmvs::Refusal>(())
    /// ```
    pub const fn plane_len(&self) -> usize {
        self.plane
    }

    /// The bytes of all seven planes.
    ///
    /// ```
    /// assert_eq!(refmvs::Cells::new(64, 64, 0)?.planes_len(), 7 * 8 * 32 * 6);
    /// # Ok::<(), refmvs::Refusal>(())
    /// ```
    pub const fn planes_len(&self) -> usize {
        7 * self.plane
    }

    /// Where the six bytes of a saved block stand in the planes, if the frame has that row and column.
    ///
    /// ```
    /// use refmvs::{Block, Cells, QMv, Slot};
    ///
    /// let cells = Cells::new(64, 64, 0)?;
    /// let mut planes = vec![0; cells.planes_len()];
    /// let block = Block { mv: [QMv { y: 5, x: -32 }, QMv::MARK], reference: [0, -1] };
    /// let at = cells.block_at(Slot::ALL[1], 2, 3).expect("row 2 and column 3 are in the frame");
    /// planes[at].copy_from_slice(&block.to_bytes());
    /// assert_eq!(cells.block_at(Slot::ALL[1], 8, 0), None);
    /// # Ok::<(), refmvs::Refusal>(())
    /// ```
    pub fn block_at(&self, slot: Slot, row: usize, column: usize) -> Option<Range<usize>> {
        if row >= self.high || column >= self.wide {
            return None;
        }
        let at = slot.index() * self.plane + BLOCK * (row * self.stride + column);
        Some(at..at + BLOCK)
    }

    /// The rows of each superblock row, from the top.
    ///
    /// ```
    /// let cells = refmvs::Cells::new(200, 120, 0)?;
    /// assert!(cells.superblock_rows().eq([0..8, 8..15]));
    /// # Ok::<(), refmvs::Refusal>(())
    /// ```
    pub fn superblock_rows(
        &self,
    ) -> impl DoubleEndedIterator<Item = Range<usize>> + ExactSizeIterator {
        let (side, high) = (self.side, self.high);
        (0..high.div_ceil(side)).map(move |n| n * side..high.min((n + 1) * side))
    }

    /// Whether these are the rows of a superblock row, as a load wants them.
    pub(crate) fn has_rows(&self, rows: &Range<usize>) -> bool {
        if rows.start >= self.high {
            return false;
        }
        let end = rows.start + self.side;
        rows.start / self.side * self.side == rows.start
            && (rows.end == end || (self.high <= rows.end && rows.end <= end))
    }
}

#[cfg(test)]
mod tests {
    use super::*;

    #[test]
    fn greatest_frame() {
        let cells = Cells::new(65_536, 65_536, 2).unwrap();
        assert_eq!(
            (cells.wide(), cells.high(), cells.stride()),
            (8192, 8192, 8192)
        );
        assert_eq!(cells.planes_len(), 7 * 8192 * 8192 * 6);
        assert_eq!(cells.map_len(), 21 * 32 * 8192);
        assert_eq!(Cells::new(65_537, 1, 0), Err(Refusal::Size));
        assert_eq!(Cells::new(1, 65_537, 0), Err(Refusal::Size));
    }

    #[test]
    fn lengths_that_do_not_fit() {
        assert_eq!(Cells::measured(1, usize::MAX / 32, 8, 32), None);
        assert_eq!(Cells::measured(1, 1, 32, usize::MAX / 64), None);
        assert_eq!(product([usize::MAX, 2]), None);
    }

    #[test]
    fn rows_of_a_superblock_row() {
        let cells = Cells::new(64, 120, 0).unwrap();
        for rows in [0..8, 8..15, 8..16] {
            assert!(cells.has_rows(&rows), "{rows:?}");
        }
        let turned = Range { start: 8, end: 0 };
        for rows in [0..7, 0..9, 4..12, 8..14, 8..17, 16..24, turned] {
            assert!(!cells.has_rows(&rows), "{rows:?}");
        }
    }
}
