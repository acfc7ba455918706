//! The motion field of an AV2 frame, rebuilt from the motion saved with earlier frames: a safe interface over
//! `librefmvs.a`, whose every function is proved equal to its definition.
//!
//! Functions have the names of the decoder that they come from. Each takes any numbers; it answers, or refuses with a
//! [`Refusal`] and changes nothing. A decoder makes a setup once a frame, and loads the tiles of each superblock row in
//! whatever order:
//!
//! ```
//! use refmvs::{init_frame, load_tmvs, Header, Mode, OrderHint, Store, Switches, Tile};
//!
//! let setup = init_frame(&Header {
//!     order_hint_n_bits: 4,
//!     width: 200,
//!     height: 120,
//!     n_ref_frames: 2,
//!     tmvp_sample_step: 1,
//!     use_ref_frame_mvs: true,
//!     frame_offset: OrderHint(5),
//!     ref_poc: [4, 6, 0, 0, 0, 0, 0].map(OrderHint),
//!     rp_ref: [true; 7],
//!     ..Header::default()
//! })?;
//! let cells = setup.cells();
//! let planes = vec![-1; cells.planes_len()]; // no saved block has a reference
//! let mut store = Store::new(&setup, Mode::Row);
//! for rows in cells.superblock_rows() {
//!     for columns in [16..25, 0..16] {
//!         let tile = Tile::new(columns, rows.clone());
//!         load_tmvs(&mut store.lend(), &planes, &setup, Switches { traj: true, holes: true }, &tile)?;
//!     }
//!     assert!(store.field(&setup, &rows)?.cells().all(|(_, _, cell)| cell.is_none()));
//! }
//! # Ok::<(), refmvs::Refusal>(())
//! ```
//!
//! What C could get wrong can't be written here: a buffer's length comes with the slice, slices that are written never
//! overlap, a [`Slot`] is no [`OrderHint`], an empty vector is `None` and not an [`Mv`], and every [`Setup`] has passed
//! the tests that a load makes of one.
#![deny(missing_docs)]
#![deny(unsafe_code)]

mod cells;
mod hints;
mod load;
mod raw;
mod refusal;
mod setup;
mod store;
mod vectors;

pub use cells::Cells;
pub use hints::{get_poc_diff, OrderHint, Slot};
pub use load::{load_tmvs, Block, Switches, Tile};
pub use refusal::Refusal;
pub use setup::{init_frame, Frame, Header, Saved, Setup, Source, Sources, Tip};
pub use store::{Cell, Field, Mode, Store, StoreMut};
pub use vectors::{dequantize_mv, mv_projection, quantize_mv, scale_mv, Mv, QMv};
