//! Loads: setups, tiles, saved blocks and stores, at random within the scope, and refused ones.
use std::rc::Rc;

use crate::cases;
use crate::entry::{Frame, Slot, Source, Sources, Tip};
use crate::expected::FACTOR_LIMIT;
use crate::fields;
use crate::load::{BLOCK_BYTES, Call, Geometry, SLOTS, Store};
use crate::reference::{self, EMPTY_Y};
use crate::rng::Rng;

/// Calls one after the other on a store.
pub struct Case {
    pub calls: Vec<Call>,
    pub store: Store,
    /// The calls are tiles without a common column of one superblock row.
    pub one_row: bool,
}

/// Mode, switches and tile.
pub fn numbers(call: &Call) -> [usize; 7] {
    [
        usize::from(call.whole_frame),
        usize::from(call.traj),
        usize::from(call.holes),
        call.columns.0,
        call.columns.1,
        call.rows.0,
        call.rows.1,
    ]
}

/// The call's numbers; setup last, as the kept list has it. Planes and store are the seed's.
pub fn text(call: &Call) -> String {
    let numbers = numbers(call);
    let setup = fields::frame(&call.setup).into_iter();
    let setup = fields::text(setup.flat_map(|(_, numbers)| numbers));
    format!("mode, trajectories, holes, columns, rows {numbers:?}, setup {setup}")
}

/// All from the seed.
pub fn random(seed: u64) -> Case {
    let mut rng = Rng::new(seed);
    let rng = &mut rng;
    let setup = setup(rng);
    of_setup(rng, setup)
}

fn of_setup(rng: &mut Rng, setup: Frame) -> Case {
    let geometry = Geometry::new(&setup);
    let whole_frame = rng.one_in(3);
    let planes = Rc::new(blocks(rng, &setup, &geometry));
    let call = Call {
        setup,
        whole_frame,
        traj: !rng.one_in(4),
        holes: rng.one_in(2),
        columns: (0, geometry.wide),
        rows: (0, geometry.side),
        planes,
    };
    let (tiles, one_row) = tiles(rng, &geometry);
    let calls = tiles.into_iter().map(|(columns, rows)| Call {
        columns,
        rows,
        ..call.clone()
    });
    Case {
        calls: calls.collect(),
        store: store(rng, &geometry, whole_frame),
        one_row,
    }
}

/// A superblock row of a frame of 1080p or 4K.
pub fn real_size(seed: u64) -> Case {
    let mut rng = Rng::new(seed);
    let rng = &mut rng;
    let (width, height) = [(1_920, 1_080), (3_840, 2_160)][rng.word() as usize % 2];
    let setup = invented(rng, width, height);
    of_setup(rng, setup)
}

/// The first superblock row of a frame with three sources, much of whose motion is alike, for timing.
pub fn timed(rng: &mut Rng, width: u32, height: u32, step: u8, traj: bool) -> Call {
    let source = |reference: u8, dir: u8| Source {
        reference: Slot { value: reference },
        tgt: -1,
        dir,
        ref2cur: if dir == 0 { 2 } else { -2 },
        ref2ref: std::array::from_fn(|n| (1 + n as i8 % 4) * if dir == 0 { 1 } else { -1 }),
        ref2idx: std::array::from_fn(|n| (reference as i8 + 1 + n as i8) % 7),
        ref2sf0: [8_192; 7],
        ref2sf1: [8_192; 7],
    };
    let setup = Frame {
        width,
        height,
        sb128: 2,
        tmvp_sample_step: step,
        n_ref_frames: 7,
        tip_frame_mode: 1,
        rp_ref: [1; 7],
        tip: Tip {
            delta: 3,
            ..Tip::default()
        },
        sources: Sources {
            mfmv: [source(0, 0), source(3, 1), source(5, 0), source(6, 1)],
            n_mfmvs: 3,
            ..Sources::default()
        },
        ..Frame::default()
    };
    let geometry = Geometry::new(&setup);
    let planes = alike(rng, &geometry);
    Call {
        setup,
        whole_frame: false,
        traj,
        holes: true,
        columns: (0, geometry.wide),
        rows: (0, geometry.side),
        planes: Rc::new(planes),
    }
}

/// Blocks with one vector in each direction of a plane, give or take little; an eighth without.
fn alike(rng: &mut Rng, geometry: &Geometry) -> Vec<i8> {
    let size = geometry.high * geometry.stride;
    let mut all = vec![0; geometry.planes()];
    for (at, block) in all.chunks_exact_mut(BLOCK_BYTES).enumerate() {
        let about = (at / size) as i32 * 9 - 30;
        for dir in 0..2 {
            for byte in &mut block[2 * dir..2 * dir + 2] {
                *byte = (about + rng.within(-12, 12)) as i8;
            }
            block[4 + dir] = match rng.one_in(8) {
                true => -1,
                false => rng.within(0, 6) as i8,
            };
        }
    }
    all
}

pub(super) fn pixels(rng: &mut Rng, cells: i32) -> u32 {
    (8 * cells - rng.within(0, 7)) as u32
}

fn cells(rng: &mut Rng) -> i32 {
    let most = match rng.word() % 16 {
        0..=5 => 12,
        6..=14 => 40,
        _ => 70,
    };
    let n = rng.within(1, most);
    // Odd ones show what gap filling does past the frame.
    if rng.one_in(3) { n | 1 } else { n }
}

fn setup(rng: &mut Rng) -> Frame {
    let (wide, high) = (cells(rng), cells(rng).min(40));
    let (width, height) = (pixels(rng, wide), pixels(rng, high));
    if rng.one_in(3) {
        let mut header = cases::setup::random(rng);
        (header.width, header.height) = (width, height);
        return reference::init_frame(&header);
    }
    invented(rng, width, height)
}

/// A setup in the loader's ranges.
pub(super) fn invented(rng: &mut Rng, width: u32, height: u32) -> Frame {
    // Few slots, so that trajectories of one source meet those of another.
    let most = [2, 3, 3, 7][rng.word() as usize % 4];
    let slots = rng.within(1, most);
    Frame {
        width,
        height,
        sb128: rng.within(0, 2) as u8,
        tmvp_sample_step: rng.within(1, 2) as u8,
        n_ref_frames: rng.within(0, 7) as usize,
        tip_frame_mode: rng.within(0, 2) as u8,
        rp_ref: std::array::from_fn(|_| u8::from(!rng.one_in(8))),
        tip: Tip {
            delta: match rng.one_in(2) {
                true => rng.within(1, 31) as i8,
                false => rng.word() as i8,
            },
            ..Tip::default()
        },
        sources: Sources {
            mfmv: match rng.one_in(3) {
                true => joined(rng, slots),
                false => std::array::from_fn(|_| source(rng, slots)),
            },
            n_mfmvs: if rng.one_in(8) {
                rng.within(0, 4)
            } else {
                rng.within(2, 4)
            } as usize,
            ..Sources::default()
        },
        ..Frame::default()
    }
}

/// A source among the first slots, in the loader's ranges.
fn source(rng: &mut Rng, slots: i32) -> Source {
    let dir = rng.within(0, 1);
    let own = rng.within(0, slots - 1);
    let distance = |rng: &mut Rng| {
        let d = match rng.word() % 8 {
            0 => 0,
            1 => rng.within(-31, 31),
            _ => rng.within(1, 8),
        };
        if dir == 1 { -d } else { d }
    };
    Source {
        reference: Slot { value: own as u8 },
        tgt: match rng.one_in(2) {
            true => -1,
            false => rng.within(0, slots - 1) as i8,
        },
        dir: dir as u8,
        ref2cur: match rng.word() % 16 {
            0 => -32,
            1 => rng.within(-32, 31) as i8,
            _ => rng.within(-8, 8) as i8,
        },
        ref2ref: std::array::from_fn(|_| distance(rng) as i8),
        ref2idx: std::array::from_fn(|_| match rng.one_in(6) {
            true => rng.within(-1, 6) as i8,
            false => rng.within(0, slots - 1) as i8,
        }),
        ref2sf0: std::array::from_fn(|_| factor(rng)),
        ref2sf1: std::array::from_fn(|_| factor(rng)),
    }
}

/// Sources whose references are one slot: long trajectories of it go on to each source's own slot.
fn joined(rng: &mut Rng, slots: i32) -> [Source; 4] {
    let (slot, limit) = (rng.within(0, 6), FACTOR_LIMIT as i32);
    let near = [0, 0, 4_096, -4_096][rng.word() as usize % 4];
    std::array::from_fn(|_| Source {
        ref2idx: [slot as i8; 7],
        ref2sf0: [near; 7],
        ref2sf1: [[limit, -limit][rng.word() as usize % 2]; 7],
        ..source(rng, slots)
    })
}

/// Small ones often, so that what is projected stays near.
fn factor(rng: &mut Rng) -> i32 {
    let limit = FACTOR_LIMIT as i32;
    match rng.word() % 8 {
        0 => rng.within(-limit, limit),
        1 => [0, limit, -limit][rng.word() as usize % 3],
        2 => rng.within(-31, 31) * 16_384 / rng.within(1, 31),
        3 | 4 => rng.within(-16_384, 16_384),
        _ => rng.within(-4, 4) * 4_096,
    }
}

/// Columns and rows of a tile.
pub(super) type Tile = ((usize, usize), (usize, usize));

/// A tile; or tiles of one superblock row in any order; or those of several rows, row after row.
fn tiles(rng: &mut Rng, geometry: &Geometry) -> (Vec<Tile>, bool) {
    let rows: Vec<usize> = (0..geometry.high).step_by(geometry.side).collect();
    let pick = |rng: &mut Rng| rows[rng.word() as usize % rows.len()];
    match rng.word() % 4 {
        0 | 1 => {
            let start = pick(rng);
            let row = row(rng, geometry, start);
            let columns = columns(rng, geometry);
            let at = rng.word() as usize % columns.len();
            (vec![(columns[at], row)], true)
        }
        2 => {
            let start = pick(rng);
            let columns = columns(rng, geometry);
            let tiles = columns.into_iter();
            (
                tiles.map(|c| (c, row(rng, geometry, start))).collect(),
                true,
            )
        }
        _ => {
            let mut all = Vec::new();
            for &start in &rows {
                let columns = columns(rng, geometry);
                all.extend(columns.into_iter().map(|c| (c, row(rng, geometry, start))));
            }
            all.truncate(12);
            (all, rows.len() == 1)
        }
    }
}

/// The rows from a start on: a whole superblock, or an end anywhere from the frame's on.
pub(super) fn row(rng: &mut Rng, geometry: &Geometry, start: usize) -> (usize, usize) {
    let end = start + geometry.side;
    match end <= geometry.high {
        true => (start, end),
        false => (start, rng.within(geometry.high as i32, end as i32) as usize),
    }
}

/// The columns cut in tiles, in any order; now and then one is left out.
fn columns(rng: &mut Rng, geometry: &Geometry) -> Vec<(usize, usize)> {
    let mut cuts = vec![0];
    let keep = rng.within(0, 3);
    for cut in (geometry.side..geometry.wide).step_by(geometry.side) {
        if rng.within(1, 3) <= keep {
            cuts.push(cut);
        }
    }
    cuts.push(geometry.wide);
    let mut all: Vec<(usize, usize)> = cuts.windows(2).map(|cut| (cut[0], cut[1])).collect();
    for at in (1..all.len()).rev() {
        all.swap(at, rng.word() as usize % (at + 1));
    }
    if all.len() > 1 && rng.one_in(4) {
        all.pop();
    }
    all
}

/// How a case's vectors are spread.
#[derive(Clone, Copy)]
enum Spread {
    /// Any code, so any length up to 31 cells.
    Any,
    /// Codes up to a limit.
    Short(i32),
    /// About one vector for each plane and direction.
    Alike(i32),
    /// Long to the sides, and of no more than a cell up or down.
    Flat,
}

pub(super) fn blocks(rng: &mut Rng, setup: &Frame, geometry: &Geometry) -> Vec<i8> {
    let spread = match rng.word() % 8 {
        0 | 1 => Spread::Any,
        2 => Spread::Short(rng.within(1, 96)),
        3 => Spread::Flat,
        4 | 5 => Spread::Alike(rng.within(0, 3)),
        _ => Spread::Alike(rng.within(0, 12)),
    };
    let none = [1, 2, 4, 16][rng.word() as usize % 4];
    let marks = [8, 64][rng.word() as usize % 2];
    let references = rng.within(0, 6);
    let wild = geometry.step == 2 && rng.one_in(4);
    let more = if rng.one_in(4) { rng.within(1, 40) } else { 0 };
    let mut all = vec![0; geometry.planes() + more as usize];
    let size = geometry.high * geometry.stride;
    for slot in 0..SLOTS {
        let used = setup.sources.mfmv.iter();
        if !used.into_iter().any(|s| s.reference.value as usize == slot) {
            continue;
        }
        let about: [i32; 4] = std::array::from_fn(|_| rng.within(-110, 110));
        for at in 0..size {
            let block = &mut all[(slot * size + at) * BLOCK_BYTES..][..BLOCK_BYTES];
            let (y, x) = (at / geometry.stride, at % geometry.stride);
            if wild && (y % 2 == 1 || x % 2 == 1) {
                block.fill_with(|| rng.word() as i8);
                continue;
            }
            for dir in 0..2 {
                let vector = match rng.one_in(marks) {
                    true => [-128; 2],
                    false => std::array::from_fn(|n| code(rng, spread, n, about[2 * dir + n])),
                };
                block[2 * dir..2 * dir + 2].copy_from_slice(&vector);
                block[4 + dir] = match none == 1 || !rng.one_in(none) {
                    true => rng.within(0, references) as i8,
                    false => -1,
                };
            }
            if none == 1 && !rng.one_in(8) {
                block[4..].fill(-1);
            }
        }
    }
    all
}

/// Of a vector's y, 0, or its x, 1.
fn code(rng: &mut Rng, spread: Spread, component: usize, about: i32) -> i8 {
    let code = match spread {
        _ if rng.one_in(8) => 0,
        Spread::Any => rng.within(-127, 127),
        Spread::Flat if component == 0 => rng.within(-50, 50),
        Spread::Flat => rng.within(-127, 127),
        Spread::Short(limit) => rng.within(-limit, limit),
        Spread::Alike(by) => about + rng.within(-by, by),
    };
    code.clamp(-127, 127) as i8
}

/// Zeroed, emptied, or with whatever may have been left.
fn store(rng: &mut Rng, geometry: &Geometry, whole_frame: bool) -> Store {
    let more = if rng.one_in(4) { rng.within(1, 40) } else { 0 };
    let mut store = Store::zeroed(geometry, whole_frame, more as usize);
    match rng.word() % 8 {
        0 => return store,
        1 => return store.emptied(),
        _ => {}
    }
    let wild = rng.one_in(8);
    for at in 0..store.field_y.len() {
        (store.field_y[at], store.field_x[at]) = match rng.one_in(3) {
            _ if wild => (rng.word() as i32, rng.word() as i32),
            true => (EMPTY_Y, 0),
            false => (rng.within(-2_047, 2_047), rng.within(-2_047, 2_047)),
        };
        store.field_ref[at] = rng.word() as u8;
    }
    let limit = [100, 2_047, 65_535][rng.word() as usize % 3];
    for at in 0..store.traj_y.len() {
        (store.traj_y[at], store.traj_x[at]) = match rng.one_in(3) {
            true => (EMPTY_Y, 0),
            false => (rng.within(-limit, limit), rng.within(-limit, limit)),
        };
    }
    let near = rng.one_in(2);
    for at in 0..store.map_y.len() {
        (store.map_y[at], store.map_x[at]) = match (rng.one_in(3), near) {
            (true, _) => (-128, -128),
            (false, true) => (rng.within(-8, 8) as i8, rng.within(-8, 8) as i8),
            (false, false) => (rng.word() as i8, rng.word() as i8),
        };
    }
    store
}

// ---- refused calls

/// The case's first call, with something of it changed that may be a reason to refuse it.
pub fn broken(rng: &mut Rng, case: &Case) -> (Call, Store) {
    let (mut call, mut store) = (case.calls[0].clone(), case.store.clone());
    for _ in 0..rng.within(1, 2) {
        match rng.word() % 4 {
            0 => break_setup(rng, &mut call.setup),
            1 => break_tile(rng, &mut call),
            2 => shorten(rng, &mut call, &mut store),
            _ => break_contents(rng, &mut call, &mut store),
        }
    }
    (call, store)
}

fn break_setup(rng: &mut Rng, setup: &mut Frame) {
    let any = |rng: &mut Rng, values: [i32; 2]| values[rng.word() as usize % 2];
    let at = rng.word() as usize % SLOTS;
    let (n, limit) = (rng.word() as usize % 4, FACTOR_LIMIT as i32 + 1);
    let source = &mut setup.sources.mfmv[n];
    match rng.word() % 14 {
        0 => setup.sb128 = any(rng, [3, 255]) as u8,
        1 => setup.tmvp_sample_step = any(rng, [0, 3]) as u8,
        2 => setup.width = any(rng, [0, 65_537]) as u32,
        3 => setup.height = any(rng, [0, 65_537]) as u32,
        4 => setup.n_ref_frames = any(rng, [8, 255]) as usize,
        5 => setup.sources.n_mfmvs = any(rng, [5, 255]) as usize,
        6 => source.reference.value = any(rng, [7, 255]) as u8,
        7 => source.tgt = any(rng, [-2, 7]) as i8,
        8 => source.dir = any(rng, [2, 255]) as u8,
        9 => source.ref2cur = any(rng, [-33, 32]) as i8,
        10 => source.ref2ref[at] = any(rng, [-32, 32]) as i8,
        11 => source.ref2idx[at] = any(rng, [-2, 7]) as i8,
        12 => source.ref2sf0[at] = any(rng, [-limit, limit]),
        _ => source.ref2sf1[at] = any(rng, [-limit, limit]),
    }
}

fn break_tile(rng: &mut Rng, call: &mut Call) {
    let Geometry { side, high, .. } = Geometry::new(&Frame {
        sb128: call.setup.sb128.min(2),
        ..call.setup
    });
    let by = rng.within(1, 8) as usize;
    match rng.word() % 10 {
        0 => call.columns.0 += by,
        1 => call.columns.1 += by,
        2 => call.columns.1 = call.columns.1.saturating_sub(by),
        3 => call.columns.1 = call.columns.0,
        4 => call.columns.1 += side,
        5 => call.rows = (call.rows.0 + by, call.rows.1 + by),
        6 => call.rows = (call.rows.0 + side, call.rows.1 + side),
        7 => call.rows.1 = call.rows.0 + side + by,
        8 => call.rows.1 = call.rows.1.saturating_sub(by),
        _ => call.rows.1 = high,
    }
}

/// One buffer is cut at its stated length, or just below it.
fn shorten(rng: &mut Rng, call: &mut Call, store: &mut Store) {
    if setup_is_odd(&call.setup) {
        return;
    }
    let geometry = call.geometry();
    let less = rng.within(0, 1) as usize;
    let field = geometry.field(call.whole_frame) - less;
    let traj = SLOTS * geometry.plane() - less;
    let map = 3 * SLOTS * geometry.plane() - less;
    match rng.word() % 8 {
        0 => Rc::make_mut(&mut call.planes).truncate(geometry.planes() - less),
        1 => store.field_y.truncate(field),
        2 => store.field_x.truncate(field),
        3 => store.field_ref.truncate(field),
        4 => store.traj_y.truncate(traj),
        5 => store.traj_x.truncate(traj),
        6 => store.map_y.truncate(map),
        _ => store.map_x.truncate(map),
    }
}

/// No sizes can be worked out of it.
fn setup_is_odd(setup: &Frame) -> bool {
    setup.sb128 > 2 || setup.width == 0 || setup.height == 0
}

fn break_contents(rng: &mut Rng, call: &mut Call, store: &mut Store) {
    if rng.one_in(3) {
        let bad = [
            (EMPTY_Y, 1),
            (65_536, 0),
            (0, 65_536),
            (-65_536, 5),
            (3, i32::MIN),
            (EMPTY_Y + 1, 0),
            (0, EMPTY_Y),
        ];
        let at = rng.word() as usize % store.traj_y.len().min(store.traj_x.len());
        (store.traj_y[at], store.traj_x[at]) = bad[rng.word() as usize % bad.len()];
        return;
    }
    if setup_is_odd(&call.setup) {
        return;
    }
    let geometry = call.geometry();
    let sources = &call.setup.sources.mfmv;
    let slot = sources[rng.word() as usize % 4].reference.value as usize % SLOTS;
    // Anywhere in the tile's rows, also where no block is sampled.
    let y = (call.rows.0 + rng.word() as usize % geometry.side).min(geometry.high - 1);
    let x = rng.word() as usize % (geometry.wide + 1).min(geometry.stride);
    let at = ((slot * geometry.high + y) * geometry.stride + x) * BLOCK_BYTES;
    if at + BLOCK_BYTES > call.planes.len() {
        return;
    }
    let dir = rng.within(0, 1) as usize;
    let block = &mut Rc::make_mut(&mut call.planes)[at..at + BLOCK_BYTES];
    match rng.word() % 4 {
        0 => block[4 + dir] = 7,
        1 => block[4 + dir] = -2,
        2 => block[4 + dir] = -128,
        _ => {
            block[4 + dir] = rng.within(-1, 6) as i8;
            block[2 * dir] = -128;
            block[2 * dir + 1] = rng.within(-128, 127) as i8;
        }
    }
}
