//! Loads made by hand, each for one thing that it shows.
use std::rc::Rc;

use super::load::Case;
use crate::entry::{Frame, Slot, Source};
use crate::load::{BLOCK_BYTES, Call, Geometry, Store};
use crate::reference::EMPTY_Y;

/// A case, and what the store shows after it if it is the case that it is meant to be.
pub struct Directed {
    pub name: &'static str,
    pub case: Case,
    pub shows: fn(&Call, &Store) -> bool,
}

/// Planes whose blocks have no reference.
pub(super) fn no_blocks(geometry: &Geometry) -> Vec<i8> {
    [0, 0, 0, 0, -1, -1].repeat(geometry.planes() / BLOCK_BYTES)
}

pub(super) fn block_at<'a>(
    geometry: &Geometry,
    planes: &'a mut [i8],
    slot: usize,
    y: usize,
    x: usize,
) -> &'a mut [i8] {
    let at = ((slot * geometry.high + y) * geometry.stride + x) * BLOCK_BYTES;
    &mut planes[at..at + BLOCK_BYTES]
}

/// One tile of a frame of so many cells: row mode, no TIP, trajectories on, an emptied store.
pub(super) struct Plain {
    call: Call,
    planes: Vec<i8>,
}

impl Plain {
    pub(super) fn new(wide: u32, high: u32, code: u8, step: u8) -> Self {
        let setup = Frame {
            width: 8 * wide,
            height: 8 * high,
            sb128: code,
            tmvp_sample_step: step,
            n_ref_frames: 7,
            rp_ref: [1; 7],
            ..Frame::default()
        };
        let geometry = Geometry::new(&setup);
        let planes = no_blocks(&geometry);
        let call = Call {
            setup,
            whole_frame: false,
            traj: true,
            holes: false,
            columns: (0, geometry.wide),
            rows: (0, geometry.side),
            planes: Rc::new(Vec::new()),
        };
        Self { call, planes }
    }

    /// One more source of direction 0, all of whose references are alike.
    pub(super) fn source(mut self, slot: u8, ref2ref: i8, ref2idx: i8, factors: [i32; 2]) -> Self {
        let sources = &mut self.call.setup.sources;
        sources.mfmv[sources.n_mfmvs] = Source {
            reference: Slot { value: slot },
            tgt: -1,
            ref2ref: [ref2ref; 7],
            ref2idx: [ref2idx; 7],
            ref2sf0: [factors[0]; 7],
            ref2sf1: [factors[1]; 7],
            ..Source::default()
        };
        sources.n_mfmvs += 1;
        self
    }

    /// Vector 0 and reference 0 of a block.
    pub(super) fn block(mut self, slot: usize, y: usize, x: usize, vector: [i8; 2]) -> Self {
        let block = block_at(&self.call.geometry(), &mut self.planes, slot, y, x);
        block[..2].copy_from_slice(&vector);
        block[4] = 0;
        self
    }

    pub(super) fn with(mut self, change: impl FnOnce(&mut Call)) -> Self {
        change(&mut self.call);
        self
    }

    pub(super) fn on(self, change: impl FnOnce(&mut Store)) -> Case {
        let geometry = self.call.geometry();
        let store = Store::zeroed(&geometry, self.call.whole_frame, 0);
        let mut store = store.emptied();
        change(&mut store);
        Case {
            calls: vec![Call {
                planes: Rc::new(self.planes),
                ..self.call
            }],
            store,
            one_row: true,
        }
    }
}

/// The field's cell in a row of the tile.
fn field(call: &Call, store: &Store, y: usize, x: usize) -> [i32; 2] {
    let at = call.offset() + (y - call.rows.0) * call.geometry().stride + x;
    [store.field_y[at], store.field_x[at]]
}

fn traj(call: &Call, store: &Store, slot: usize, y: usize, x: usize) -> [i32; 2] {
    let geometry = call.geometry();
    let at = slot * geometry.plane() + y % geometry.side * geometry.stride + x;
    [store.traj_y[at], store.traj_x[at]]
}

fn directed_case(name: &'static str, case: Case, shows: fn(&Call, &Store) -> bool) -> Directed {
    Directed { name, case, shows }
}

pub fn all() -> Vec<Directed> {
    let keep = |_: &mut Store| {};
    let corner = || Plain::new(7, 7, 0, 2).source(0, 1, -1, [0, 0]);
    let lone = || Plain::new(8, 1, 0, 1).source(0, 1, -1, [0, 0]);
    let tip = |call: &mut Call| {
        call.setup.tip_frame_mode = 1;
        call.setup.tip.delta = 1;
        call.holes = true;
    };
    vec![
        directed_case(
            "gaps past column and row",
            corner().block(0, 6, 6, [3, -5]).on(keep),
            |call, store| {
                let cells = [(6, 6), (6, 7), (7, 6), (7, 7)];
                cells
                    .iter()
                    .all(|&(y, x)| field(call, store, y, x) == [3, -5])
            },
        ),
        directed_case(
            "gaps of trajectories past column and row",
            corner()
                .source(1, 1, 2, [0, 16_384])
                .block(1, 6, 6, [3, -5])
                .on(keep),
            |call, store| {
                let cells = [(6, 6), (6, 7), (7, 6), (7, 7)];
                cells
                    .iter()
                    .all(|&(y, x)| traj(call, store, 2, y, x) == [3, -5])
            },
        ),
        directed_case(
            "map cell of another superblock row",
            Plain::new(8, 15, 0, 1)
                .source(0, 1, 1, [0, 0])
                .with(|call| call.rows = (8, 15))
                .block(0, 8, 0, [-48, 0])
                .on(|store| {
                    store.map_y.fill(0);
                    store.map_x.fill(0);
                    store.traj_y.fill(5);
                }),
            |call, store| field(call, store, 8, 0) == [-64, 0],
        ),
        directed_case(
            "second half of the intersection",
            Plain::new(24, 8, 0, 1)
                .source(1, 1, 2, [0, 507_904])
                .source(0, 0, 2, [0, 0])
                .block(1, 0, 8, [0, 48])
                .block(0, 0, 19, [0, -100])
                .on(keep),
            |call, store| traj(call, store, 0, 0, 8) == [0, 2_624],
        ),
        directed_case(
            "second half from past the window",
            // Column 20 is no longer in the window of the block of (0, 8).
            Plain::new(24, 8, 0, 1)
                .source(1, 1, 2, [0, 507_904])
                .source(0, 0, 2, [0, 0])
                .block(1, 0, 8, [0, 48])
                .block(0, 0, 20, [0, -102])
                .on(keep),
            |call, store| traj(call, store, 0, 0, 8) == [EMPTY_Y, 0],
        ),
        directed_case(
            "second half through a place past the window",
            // Slot 2's trajectory at (0, 4) comes from column 15, which is not in the window of its block.
            Plain::new(24, 8, 0, 1)
                .source(2, 1, -1, [16_384, 0])
                .source(0, 0, 2, [0, 0])
                .block(2, 0, 15, [0, -102])
                .block(0, 0, 10, [0, 84])
                .on(keep),
            |call, store| {
                traj(call, store, 2, 0, 4) == [0, 704] && traj(call, store, 0, 0, 4) == [EMPTY_Y, 0]
            },
        ),
        directed_case(
            "second half from another block's rows",
            Plain::new(16, 16, 1, 1)
                .source(1, 1, 2, [0, 507_904])
                .source(0, 0, 2, [0, 0])
                .block(1, 7, 8, [0, 48])
                .block(0, 8, 9, [-48, 0])
                .on(keep),
            |call, store| traj(call, store, 0, 7, 8) == [EMPTY_Y, 0],
        ),
        directed_case(
            "map cell of another superblock row, leading into this one",
            Plain::new(8, 15, 0, 1)
                .source(0, 0, 1, [0, 0])
                .with(|call| call.rows = (8, 15))
                .block(0, 8, 0, [-48, 0])
                .on(|store| {
                    let at = 32 * (8 * (7 + 1) + 7);
                    (store.map_y[at], store.map_x[at]) = (1, 0);
                }),
            |call, store| traj(call, store, 0, 8, 0) == [EMPTY_Y, 0],
        ),
        directed_case(
            "first half of the intersection",
            // Slot 2's trajectory at (0, 8) has x 1984, and goes on by 64 to slot 0.
            Plain::new(24, 8, 0, 1)
                .source(1, 1, 2, [0, 507_904])
                .source(2, 0, 0, [0, 0])
                .block(1, 0, 8, [0, 48])
                .block(2, 0, 9, [0, 48])
                .on(keep),
            |call, store| traj(call, store, 0, 0, 8) == [0, 2_047],
        ),
        directed_case(
            "holes filled in place",
            // Columns 1 and 3 to 7 are filled; 0 is what smoothing makes of 1.
            lone().block(0, 0, 2, [4, 4]).with(tip).on(keep),
            |call, store| (0..8).all(|x| field(call, store, 0, x) == [4, 4]),
        ),
        directed_case(
            "smoothing from the originals",
            lone()
                .block(0, 0, 0, [10, 0])
                .block(0, 0, 1, [20, 0])
                .block(0, 0, 2, [30, 0])
                .with(tip)
                .on(keep),
            |call, store| field(call, store, 0, 1) == [20, 0] && field(call, store, 0, 0)[0] == 15,
        ),
        directed_case(
            "gaps of trajectories with trajectories off",
            Plain::new(8, 8, 0, 2)
                .with(|call| call.traj = false)
                .on(|store| {
                    store.traj_y[0] = 40_000;
                    store.traj_x[0] = -40_000;
                }),
            |call, store| traj(call, store, 0, 1, 1) == [40_000, -40_000],
        ),
        directed_case(
            "rows above, also for the first row",
            Plain::new(8, 8, 0, 1).on(|store| {
                let last = store.field_y.len() - 1;
                store.field_y[32 * 10 + 7] = 77;
                store.field_ref[32 * 10 + 7] = 9;
                store.field_y[last] = 5;
            }),
            |_, store| store.field_y[32 * 2 + 7] == 77 && store.field_ref[32 * 2 + 7] == 9,
        ),
    ]
}
