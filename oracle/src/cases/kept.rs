//! The cases of the kept list: small frames with few blocks and few cells left over, so that the list is short.
use std::rc::Rc;

use super::load::{self, Case};
use super::{directed, refused, setup};
use crate::entry::{Frame, Source};
use crate::load::{Call, Geometry, MAP_PLANES, SLOTS, Store};
use crate::reference;
use crate::rng::Rng;

/// Of so many random cases the one that shows most is kept.
const DRAWS: usize = 12;
/// A random case changes no more elements than this.
const CHANGED: usize = 260;

type Named = (String, Case);

pub fn all(seed: u64) -> Vec<Named> {
    let mut rng = Rng::new(seed);
    let directed = directed::all().into_iter();
    let mut all: Vec<Named> = directed.map(|d| (d.name.to_string(), d.case)).collect();
    all.extend(stale());
    all.extend(refused::all());
    let crossed = CROSSED.iter();
    all.extend(crossed.map(|&(seed, shows)| (shows.to_string(), crossed_case(seed))));
    for kind in kinds() {
        all.push((kind.text(), best(&mut rng, &kind)));
    }
    all
}

// ---- stores that are stale everywhere: what a load empties, and what it leaves

/// A frame of one row, a tile of it, and every element of the store left over.
fn stale() -> Vec<Named> {
    // Width, code, step, columns; of the last the stride is 64.
    let tiles = [
        (20, 0, 1, (0, 8)),
        (20, 0, 1, (8, 16)),
        (20, 0, 2, (16, 20)),
        (17, 0, 2, (0, 17)),
        (24, 1, 1, (0, 16)),
        (23, 1, 1, (16, 23)),
        (24, 1, 2, (0, 16)),
        (23, 1, 2, (16, 23)),
        (24, 2, 1, (0, 24)),
        (7, 2, 2, (0, 7)),
        (40, 0, 2, (32, 40)),
        (40, 1, 1, (16, 32)),
    ];
    let cases = tiles.iter().enumerate().map(|(n, &tile)| {
        let (wide, code, step, columns) = tile;
        let case = directed::Plain::new(wide, 1, code, step)
            .with(|call| {
                call.columns = columns;
                call.whole_frame = n % 2 == 1;
                call.setup.n_ref_frames = n % 8;
            })
            .on(|store| leave_everywhere(store, n as i32));
        (format!("stale everywhere: {tile:?}"), case)
    });
    cases.collect()
}

fn leave_everywhere(store: &mut Store, n: i32) {
    store.field_y.fill(11 + n);
    store.field_x.fill(-13);
    store.field_ref.fill(200);
    store.traj_y.fill(-300 - n);
    store.traj_x.fill(65_535);
    store.map_y.fill(0);
    store.map_x.fill(-2);
}

// ---- random cases, of every kind

#[derive(Clone, Copy, Debug)]
enum Shape {
    /// One tile, the whole row.
    Whole,
    /// One tile of several.
    Part,
    /// All tiles of a superblock row, not by columns.
    Turned,
    /// The rows of superblocks one after the other, the store carried on.
    Rows,
    /// One tile with a setup that the published one has made.
    Published,
}

#[derive(Clone, Copy, Debug)]
enum Tip {
    Off,
    On,
    /// With hole filling and smoothing.
    Holes,
}

struct Kind {
    code: u8,
    step: u8,
    whole_frame: bool,
    traj: bool,
    tip: Tip,
    shape: Shape,
}

/// Both steps, both modes, all switches; superblock code 0 most often, as its frames are small.
fn kinds() -> Vec<Kind> {
    use Shape::{Part, Published, Rows, Turned, Whole};
    let mut all = Vec::new();
    for n in 0..24 {
        let odd = n % 2 == 1;
        let code_1 = if odd { [Whole, Rows] } else { [Part, Turned] };
        let code_0 = [Whole, Part, Turned, Rows, Published].map(|shape| (0, shape));
        let shapes = code_0.into_iter().chain(code_1.map(|shape| (1, shape)));
        for (code, shape) in shapes.chain([(2, Whole)]) {
            all.push(Kind {
                code,
                step: 1 + (n / 12) as u8,
                whole_frame: n / 6 % 2 == 1,
                traj: n / 3 % 2 == 0,
                tip: [Tip::Off, Tip::On, Tip::Holes][n % 3],
                shape,
            });
        }
    }
    all
}

/// Found among thousands, as few random cases show these. tests/mistakes.d has an edit for each of the first
/// four; the last two show it where the owners of cells are not asked.
const CROSSED: [(u64, &str); 6] = [
    (374, "blocks past column W, which are not read"),
    (
        1_866,
        "a vector that ends in row H, on the step the last row",
    ),
    (
        1_649,
        "a vector that ends in column W, on the step the last column",
    ),
    (2_029, "a vector that ends between sampled cells"),
    (575, "a map cell that leads into another tile"),
    (1_330, "a map cell that leads into another tile"),
];

/// A case with trajectories from a seed of its own.
fn crossed_case(seed: u64) -> Case {
    let mut rng = Rng::new(seed);
    let shapes = [Shape::Whole, Shape::Part, Shape::Turned, Shape::Rows];
    let kind = Kind {
        code: rng.within(0, 1) as u8,
        step: rng.within(1, 2) as u8,
        whole_frame: rng.one_in(2),
        traj: true,
        tip: Tip::Off,
        shape: shapes[rng.word() as usize % 4],
    };
    draw(&mut rng, &kind)
}

fn best(rng: &mut Rng, kind: &Kind) -> Case {
    let mut most: Option<(usize, Case)> = None;
    let mut drawn = 0;
    while drawn < DRAWS || most.is_none() {
        drawn += 1;
        let case = draw(rng, kind);
        let Some(shown) = shown(&case) else {
            continue;
        };
        if most.as_ref().is_none_or(|(most, _)| shown > *most) {
            most = Some((shown, case));
        }
    }
    most.unwrap().1
}

impl Kind {
    fn text(&self) -> String {
        let mode = if self.whole_frame {
            "whole-frame"
        } else {
            "row"
        };
        let traj = if self.traj { "on" } else { "off" };
        let Self {
            code,
            step,
            tip,
            shape,
            ..
        } = self;
        format!(
            "code {code}, step {step}, {mode} mode, trajectories {traj}, TIP {tip:?}, {shape:?}"
        )
    }

    /// In cells, wide and high.
    fn size(&self, rng: &mut Rng) -> (i32, i32) {
        let side = 8 << self.code;
        let (wide, high) = match self.shape {
            Shape::Whole | Shape::Published => ((1, 24), (1, side.min(16))),
            Shape::Part => ((side + 1, 24), (1, 16)),
            Shape::Turned => ((side + 1, 24), (1, 8)),
            Shape::Rows => ((1, side), (side + 1, side + 8)),
        };
        let odd = |rng: &mut Rng, (least, most): (i32, i32)| {
            let n = rng.within(least, most);
            // Odd ones show what gap filling does past the frame.
            if rng.one_in(2) && n | 1 <= most {
                n | 1
            } else {
                n
            }
        };
        (odd(rng, wide), odd(rng, high))
    }

    fn tiles(&self, rng: &mut Rng, g: &Geometry) -> Vec<load::Tile> {
        let rows: Vec<usize> = (0..g.high).step_by(g.side).collect();
        let any = rows[rng.word() as usize % rows.len()];
        let starts = (0..g.wide).step_by(g.side);
        let columns: Vec<_> = starts.map(|x| (x, (x + g.side).min(g.wide))).collect();
        let mut row = |start| load::row(rng, g, start);
        match self.shape {
            Shape::Whole | Shape::Published => vec![((0, g.wide), row(any))],
            Shape::Part => vec![(columns[any / g.side % columns.len()], row(any))],
            Shape::Turned => {
                let tiles = columns.into_iter().rev();
                tiles.map(|columns| (columns, row(any))).collect()
            }
            Shape::Rows => {
                let tiles = rows.into_iter();
                tiles.map(|start| ((0, g.wide), row(start))).collect()
            }
        }
    }

    fn setup(&self, rng: &mut Rng) -> Frame {
        let (wide, high) = self.size(rng);
        let (width, height) = (load::pixels(rng, wide), load::pixels(rng, high));
        let mut frame = match self.shape {
            Shape::Published => {
                let mut header = setup::random(rng);
                (header.width, header.height) = (width, height);
                reference::init_frame(&header)
            }
            _ => load::invented(rng, width, height),
        };
        (frame.sb128, frame.tmvp_sample_step) = (self.code, self.step);
        frame.tip_frame_mode = match self.tip {
            Tip::Off => 0,
            Tip::On | Tip::Holes => rng.within(1, 2) as u8,
        };
        let sources = &mut frame.sources;
        sources.n_mfmvs = sources.n_mfmvs.min(3);
        if !rng.one_in(8) {
            sources.mfmv[sources.n_mfmvs..].fill(Source::default());
        }
        frame
    }
}

fn draw(rng: &mut Rng, kind: &Kind) -> Case {
    let setup = kind.setup(rng);
    let geometry = Geometry::new(&setup);
    let planes = Rc::new(blocks(rng, &setup, &geometry));
    let store = left(rng, &geometry, kind.whole_frame);
    let tiles = kind.tiles(rng, &geometry).into_iter();
    let calls = tiles.map(|(columns, rows)| Call {
        setup,
        whole_frame: kind.whole_frame,
        traj: kind.traj,
        // Without TIP the switch says nothing.
        holes: matches!(kind.tip, Tip::Holes) || matches!(kind.tip, Tip::Off) && rng.one_in(2),
        columns,
        rows,
        planes: planes.clone(),
    });
    Case {
        calls: calls.collect(),
        store,
        one_row: false,
    }
}

/// Clusters of a few blocks, so that cells meet in means.
fn blocks(rng: &mut Rng, setup: &Frame, g: &Geometry) -> Vec<i8> {
    let mut planes = directed::no_blocks(g);
    for source in &setup.sources.mfmv[..setup.sources.n_mfmvs] {
        for _ in 0..rng.within(1, 3) {
            cluster(rng, source, g, &mut planes);
        }
    }
    planes
}

fn cluster(rng: &mut Rng, source: &Source, g: &Geometry, planes: &mut [i8]) {
    let (slot, dir) = (source.reference.value as usize, source.dir as usize);
    let place = |rng: &mut Rng, end: usize| rng.within(0, end as i32 - 1) as usize / g.step;
    let (y, x) = (place(rng, g.high), place(rng, g.wide));
    let about = [rng.within(-50, 50), rng.within(-90, 90)];
    let reference = rng.within(0, 6) as i8;
    // Now and then blocks that are not sampled, or that lie past the frame.
    let aside = usize::from(rng.one_in(8));
    let end = if rng.one_in(4) { g.stride } else { g.wide };
    for _ in 0..rng.within(1, 5) {
        let y = (y + rng.within(0, 2) as usize) * g.step + aside;
        let x = (x + rng.within(0, 2) as usize) * g.step;
        if y >= g.high || x >= end {
            continue;
        }
        let block = directed::block_at(g, planes, slot, y, x);
        let vector = about.map(|code| (code + rng.within(-9, 9)) as i8);
        let marked = rng.one_in(12);
        block[2 * dir..2 * dir + 2].copy_from_slice(if marked { &[-128; 2] } else { &vector });
        block[4 + dir] = reference;
    }
}

/// An emptied store with a few cells left over.
fn left(rng: &mut Rng, g: &Geometry, whole_frame: bool) -> Store {
    let more = if rng.one_in(6) { rng.within(1, 9) } else { 0 };
    let mut store = Store::zeroed(g, whole_frame, more as usize).emptied();
    store.field_ref.fill([0, 77, 255][rng.word() as usize % 3]);
    let rows = g.field(whole_frame) / g.stride;
    let column = |rng: &mut Rng| rng.within(0, g.wide as i32) as usize % g.stride;
    for _ in 0..rng.within(0, 8) {
        // Near the end, as the last rows are copied.
        let row = rows - 1 - rng.within(0, rows as i32 - 1).min(rng.within(0, 12)) as usize;
        let at = row * g.stride + column(rng);
        store.field_y[at] = rng.within(-2_047, 2_047);
        store.field_x[at] = rng.within(-2_047, 2_047);
        store.field_ref[at] = rng.word() as u8;
    }
    let limit = [2_047, 65_535][rng.word() as usize % 2];
    for _ in 0..rng.within(0, 8) {
        let row = rng.within(0, (SLOTS * g.side) as i32 - 1) as usize;
        let at = row * g.stride + column(rng);
        store.traj_y[at] = rng.within(-limit, limit);
        store.traj_x[at] = rng.within(-limit, limit);
    }
    for _ in 0..rng.within(0, 8) {
        let row = rng.within(0, (MAP_PLANES * SLOTS * g.side) as i32 - 1) as usize;
        let at = row * g.stride + column(rng);
        store.map_y[at] = rng.within(-8, 8) as i8;
        store.map_x[at] = rng.within(-8, 8) as i8;
    }
    store
}

// ---- how much a case shows

/// In how many ways its calls could be others and leave another store. None where they change too much.
fn shown(case: &Case) -> Option<usize> {
    let after = loaded(case, |_| {})?;
    let differs = |change: &fn(&mut Call)| loaded(case, change).as_ref() != Some(&after);
    Some(CHANGES.iter().filter(|change| differs(change)).count())
}

/// The store after the calls, each of them changed. None where they change too many elements of it.
fn loaded(case: &Case, change: impl Fn(&mut Call)) -> Option<Store> {
    let mut store = case.store.clone();
    let mut changed = 0;
    for call in &case.calls {
        let mut call = call.clone();
        change(&mut call);
        let before = store.lists();
        reference::load_tmvs(&call, &mut store);
        let pairs = before.iter().zip(store.lists());
        let pairs = pairs.flat_map(|((_, before), (_, after))| before.iter().zip(after));
        changed += pairs.filter(|(before, after)| *before != after).count();
    }
    (changed <= CHANGED).then_some(store)
}

fn each_source(call: &mut Call, change: impl Fn(&mut Source)) {
    call.setup.sources.mfmv.iter_mut().for_each(change);
}

const CHANGES: [fn(&mut Call); 17] = [
    |call| call.traj = !call.traj,
    |call| call.holes = !call.holes,
    |call| call.setup.tip_frame_mode ^= 1,
    |call| call.setup.tip.delta = call.setup.tip.delta.wrapping_add(1),
    |call| call.setup.n_ref_frames = 0,
    |call| call.setup.sources.n_mfmvs = call.setup.sources.n_mfmvs.min(1),
    |call| call.setup.sources.mfmv[0].ref2cur = -32,
    |call| call.setup.sources.mfmv[1].ref2cur = -32,
    |call| call.setup.sources.mfmv[2].ref2cur = -32,
    |call| each_source(call, |s| s.tgt = -1),
    |call| each_source(call, |s| s.dir = 1 - s.dir),
    |call| each_source(call, |s| s.ref2ref = s.ref2ref.map(|d| -d)),
    |call| each_source(call, |s| s.ref2idx = [-1; 7]),
    |call| each_source(call, |s| s.ref2sf0 = [0; 7]),
    |call| each_source(call, |s| s.ref2sf0 = s.ref2sf0.map(|f| -f)),
    |call| each_source(call, |s| s.ref2sf1 = [0; 7]),
    // Only what the tile's own columns have.
    |call| {
        let (g, (left, right)) = (call.geometry(), call.columns);
        let planes = Rc::make_mut(&mut call.planes);
        for (at, block) in planes.chunks_exact_mut(6).enumerate() {
            if !(left..right).contains(&(at % g.stride)) {
                block[4..].fill(-1);
            }
        }
    },
];
