//! The load of a tile.
use std::ops::Range;

use crate::cells::BLOCK;
use crate::raw;
use crate::refusal::Refusal;
use crate::setup::Setup;
use crate::store::StoreMut;
use crate::vectors::QMv;

/// A tile of a superblock row, in cells of 8 pixels, the ends not included. Columns start at a multiple of the
/// superblock's side and end at one or at the frame's end; so do rows, over at most one superblock.
#[derive(Clone, Debug, PartialEq, Eq, Hash)]
pub struct Tile {
    /// The tile's columns.
    pub columns: Range<usize>,
    /// The rows of its superblock row.
    pub rows: Range<usize>,
}

impl Tile {
    /// The tile of these columns and rows.
    ///
    /// ```
    /// use refmvs::Tile;
    ///
    /// assert_eq!(Tile::new(0..8, 0..8), Tile { columns: 0..8, rows: 0..8 });
    /// ```
    pub const fn new(columns: Range<usize>, rows: Range<usize>) -> Tile {
        Tile { columns, rows }
    }
}

/// The switches of a load.
#[derive(Clone, Copy, Debug, Default, PartialEq, Eq, Hash)]
pub struct Switches {
    /// Whether trajectories are followed.
    pub traj: bool,
    /// Whether holes are filled, and the field smoothed; with TIP alone.
    pub holes: bool,
}

/// A saved block: what a plane holds for each cell.
#[derive(Clone, Copy, Debug, PartialEq, Eq, Hash)]
pub struct Block {
    /// Its two vectors.
    pub mv: [QMv; 2],
    /// The reference of each, 0 to 6; −1 is none.
    pub reference: [i8; 2],
}

impl Block {
    /// A block without motion.
    ///
    /// ```
    /// assert_eq!(refmvs::Block::NONE.reference, [-1, -1]);
    /// ```
    pub const NONE: Block = Block {
        mv: [QMv::MARK; 2],
        reference: [-1; 2],
    };

    /// The block's six bytes in a plane.
    ///
    /// ```
    /// use refmvs::{Block, QMv};
    ///
    /// let block = Block { mv: [QMv { y: 1, x: 2 }, QMv { y: 3, x: 4 }], reference: [5, -1] };
    /// assert_eq!(block.to_bytes(), [1, 2, 3, 4, 5, -1]);
    /// ```
    pub const fn to_bytes(self) -> [i8; BLOCK] {
        let [first, second] = self.mv;
        [
            first.y,
            first.x,
            second.y,
            second.x,
            self.reference[0],
            self.reference[1],
        ]
    }
}

/// Loads a tile: the store's field, trajectories and maps in the tile's columns become what its saved blocks give.
/// Tiles of a superblock row may be loaded in any order, superblock rows from the top.
///
/// `planes` are the seven slots' saved blocks, [`Cells::planes_len`](crate::Cells::planes_len) bytes or more.
///
/// Refuses a tile that is none, [`Refusal::Tile`]; lists or planes that are shorter than stated, [`Refusal::Length`];
/// and saved blocks or trajectories that are out of range, [`Refusal::Contents`]. The store is then as it was.
///
/// ```
/// use refmvs::{init_frame, load_tmvs, Block, Cell, Header, Mode, Mv, OrderHint, QMv, Refusal};
/// use refmvs::{Saved, Slot, Store, Switches, Tile};
///
/// // Frame 2, whose slot 0 is frame 1, which was saved with a reference to frame 0.
/// let saved = Saved { ref_poc: [OrderHint(0); 7], refcnt: 1 };
/// let setup = init_frame(&Header {
///     order_hint_n_bits: 4,
///     width: 64,
///     height: 64,
///     n_ref_frames: 2,
///     tmvp_sample_step: 1,
///     use_ref_frame_mvs: true,
///     frame_offset: OrderHint(2),
///     ref_poc: [1, 0, 0, 0, 0, 0, 0].map(OrderHint),
///     saved: [saved; 7],
///     rp_ref: [true, false, false, false, false, false, false],
///     ..Header::default()
/// })?;
/// let cells = setup.cells();
///
/// // A block moved by a cell to the right.
/// let mut planes = vec![-1; cells.planes_len()];
/// let block = Block { mv: [QMv { y: 0, x: -48 }, QMv::MARK], reference: [0, -1] };
/// planes[cells.block_at(Slot::ALL[0], 4, 4).unwrap()].copy_from_slice(&block.to_bytes());
///
/// let mut store = Store::new(&setup, Mode::Row);
/// let tile = Tile::new(0..8, 0..8);
/// load_tmvs(&mut store.lend(), &planes, &setup, Switches::default(), &tile)?;
/// let moved = Cell { mv: Mv { y: 0, x: -64 }, reference: 1 };
/// assert_eq!(store.field(&setup, &tile.rows)?.cell(4, 5), Some(moved));
///
/// let before = store.clone();
/// let none = Tile::new(0..7, 0..8);
/// assert_eq!(load_tmvs(&mut store.lend(), &planes, &setup, Switches::default(), &none), Err(Refusal::Tile));
/// assert_eq!(store, before);
/// # Ok::<(), Refusal>(())
/// ```
pub fn load_tmvs(
    store: &mut StoreMut<'_>,
    planes: &[i8],
    setup: &Setup,
    switches: Switches,
    tile: &Tile,
) -> Result<(), Refusal> {
    raw::load_tmvs(store, planes, setup.frame(), switches, tile)
}
