//! Loads that are refused, each reason past its limit, and at the limit loads that are not.
use std::rc::Rc;

use super::directed::{self, Plain};
use super::load::Case;
use crate::entry::{Frame, Source};
use crate::load::{Call, Store};
use crate::reference::EMPTY_Y;

type Named = (String, Case);

pub fn all() -> Vec<Named> {
    let mut all = vec![
        ("refusal 9: the frame's numbers".to_string(), frames()),
        ("refusal 9: the sources' numbers".to_string(), sources()),
        ("refusal 10: tiles of 20 by 12 cells".to_string(), tiles()),
        ("refusal 10: rows of 8 cells".to_string(), rows()),
        ("refusal 12: blocks".to_string(), blocks()),
    ];
    all.extend(short_lists());
    all.extend(trajectories());
    all
}

/// A frame with one source, which leaves a vector and its trajectories.
fn plain(wide: u32, high: u32, step: u8) -> Plain {
    let frame = Plain::new(wide, high, 0, step).source(0, 1, 1, [4_096, -4_096]);
    frame.block(0, 0, 2, [9, -40])
}

/// The case's call, changed by each in turn; what one call leaves, the next one is lent.
fn calls<C>(case: Case, changes: impl IntoIterator<Item = C>, by: fn(&mut Call, C)) -> Case {
    let calls = changes.into_iter().map(|change| {
        let mut call = case.calls[0].clone();
        by(&mut call, change);
        call
    });
    Case {
        calls: calls.collect(),
        one_row: false,
        ..case
    }
}

fn emptied(_: &mut Store) {}

fn setups<const N: usize>(case: Case, changes: [fn(&mut Frame); N]) -> Case {
    calls(case, changes, |call, change| change(&mut call.setup))
}

fn frames() -> Case {
    let case = plain(12, 8, 2).on(emptied);
    setups(
        case,
        [
            |f| f.width = 0,
            |f| f.width = 65_537,
            // In range, but the lists are too short: 11.
            |f| f.width = 65_536,
            |f| f.height = 0,
            |f| f.height = 65_537,
            |f| f.height = 65_536,
            |f| f.sb128 = 3,
            |f| f.tmvp_sample_step = 0,
            |f| f.tmvp_sample_step = 3,
            |f| f.n_ref_frames = 8,
            |f| f.n_ref_frames = 7,
            |f| f.n_ref_frames = 0,
            |f| f.sources.n_mfmvs = 5,
            |f| f.sources.n_mfmvs = 4,
            |f| f.sources.n_mfmvs = 0,
        ],
    )
}

fn sources() -> Case {
    fn first(f: &mut Frame) -> &mut Source {
        &mut f.sources.mfmv[0]
    }
    let case = plain(12, 8, 1).on(emptied);
    setups(
        case,
        [
            |f| first(f).reference.value = 7,
            |f| first(f).reference.value = 6,
            |f| first(f).tgt = -2,
            |f| first(f).tgt = 7,
            |f| first(f).tgt = 6,
            |f| first(f).dir = 2,
            |f| first(f).dir = 1,
            |f| first(f).ref2cur = -33,
            |f| first(f).ref2cur = 32,
            |f| first(f).ref2cur = -32,
            |f| first(f).ref2cur = 31,
            |f| first(f).ref2ref[6] = -32,
            |f| first(f).ref2ref[6] = 32,
            |f| first(f).ref2ref = [31; 7],
            |f| first(f).ref2idx[6] = -2,
            |f| first(f).ref2idx[6] = 7,
            |f| first(f).ref2idx = [6; 7],
            |f| first(f).ref2idx = [-1; 7],
            |f| first(f).ref2sf0[6] = 507_905,
            |f| first(f).ref2sf0[6] = -507_905,
            |f| first(f).ref2sf1[6] = 507_905,
            |f| first(f).ref2sf1[6] = -507_905,
            |f| first(f).ref2sf1 = [-507_904, 507_904, 0, 0, 0, 0, 507_904],
            // An entry that the record does not count.
            |f| f.sources.mfmv[1].dir = 2,
        ],
    )
}

/// Columns from and to, rows from and to.
fn tiled<const N: usize>(case: Case, tiles: [[usize; 4]; N]) -> Case {
    calls(case, tiles, |call, [left, right, top, bottom]| {
        (call.columns, call.rows) = ((left, right), (top, bottom));
    })
}

fn tiles() -> Case {
    let case = plain(20, 12, 1).block(0, 8, 10, [1, 2]).on(emptied);
    tiled(
        case,
        [
            [4, 8, 0, 8],
            [0, 4, 0, 8],
            [0, 12, 0, 8],
            [8, 8, 0, 8],
            [8, 0, 0, 8],
            [16, 24, 0, 8],
            [16, 19, 0, 8],
            [24, 32, 0, 8],
            [0, 8, 4, 12],
            [0, 8, 0, 7],
            [0, 8, 0, 9],
            [0, 8, 0, 12],
            [0, 8, 0, 16],
            [0, 8, 8, 11],
            [0, 8, 8, 17],
            [0, 8, 16, 24],
            // These are accepted.
            [16, 20, 0, 8],
            [0, 16, 0, 8],
            [0, 20, 8, 12],
            [8, 16, 8, 13],
            [8, 16, 8, 16],
        ],
    )
}

fn rows() -> Case {
    let case = plain(8, 8, 2).on(emptied);
    tiled(case, [[0, 8, 0, 16], [0, 8, 8, 16], [0, 8, 0, 8]])
}

fn less<T>(list: &mut Vec<T>) {
    list.pop();
}

/// Each list one element short; of the field also in whole-frame mode.
fn short_lists() -> Vec<Named> {
    type Cut = fn(&mut Call, &mut Store);
    let cut: [(&str, Cut); 8] = [
        ("field y", |_, store| less(&mut store.field_y)),
        ("field x", |_, store| less(&mut store.field_x)),
        ("field bytes", |_, store| less(&mut store.field_ref)),
        ("trajectories y", |_, store| less(&mut store.traj_y)),
        ("trajectories x", |_, store| less(&mut store.traj_x)),
        ("maps y", |_, store| less(&mut store.map_y)),
        ("maps x", |_, store| less(&mut store.map_x)),
        ("planes", |call, _| less(Rc::make_mut(&mut call.planes))),
    ];
    let modes = [(false, &cut[..]), (true, &cut[..3])].into_iter();
    let cases = modes.flat_map(|(whole_frame, cut)| {
        cut.iter().map(move |(list, cut)| {
            let frame = plain(8, 1, 1).with(|call| call.whole_frame = whole_frame);
            let mut case = frame.on(emptied);
            cut(&mut case.calls[0], &mut case.store);
            (format!("refusal 11: one element less of {list}"), case)
        })
    });
    cases.collect()
}

/// Step 2, the tile 0..8 by 0..8 of 12 by 10 cells, direction 0 of slot 0.
fn blocks() -> Case {
    fn put(call: &mut Call, y: usize, x: usize, bytes: [i8; 6]) {
        let g = call.geometry();
        let planes: &mut Vec<i8> = Rc::make_mut(&mut call.planes);
        directed::block_at(&g, planes, 0, y, x).copy_from_slice(&bytes);
    }
    let frame = plain(12, 10, 2).with(|call| call.columns = (0, 8));
    let changes: [fn(&mut Call); 16] = [
        |call| put(call, 2, 2, [0, 0, 0, 0, 7, -1]),
        |call| put(call, 2, 2, [0, 0, 0, 0, -2, -1]),
        |call| put(call, 6, 6, [0, 0, 0, 0, -128, -1]),
        |call| put(call, 2, 2, [-128, 0, 0, 0, 0, -1]),
        |call| put(call, 2, 2, [127, -128, 0, 0, 6, -1]),
        |call| put(call, 2, 10, [0, 0, 0, 0, 7, -1]),
        // These are accepted: both marks, no reference, not sampled, another row, past W, another direction.
        |call| put(call, 2, 2, [-128, -128, 0, 0, 6, -1]),
        |call| put(call, 2, 2, [-128, 5, 0, 0, -1, -1]),
        |call| put(call, 1, 2, [0, 0, 0, 0, 7, -1]),
        |call| put(call, 2, 3, [0, 0, 0, 0, 7, -1]),
        |call| put(call, 8, 2, [0, 0, 0, 0, 7, -1]),
        |call| put(call, 2, 12, [0, 0, 0, 0, 7, -1]),
        |call| put(call, 2, 2, [0, 0, -128, 0, 0, 7]),
        // A source that is skipped, and one with no plane.
        |call| {
            put(call, 2, 2, [0, 0, 0, 0, 7, -1]);
            call.setup.sources.mfmv[0].ref2cur = -32;
        },
        |call| {
            put(call, 2, 2, [0, 0, 0, 0, 7, -1]);
            call.setup.rp_ref[0] = 0;
        },
        |_| {},
    ];
    calls(frame.on(emptied), changes, |call, change| change(call))
}

/// One trajectory in the last column of the stride, or behind the stated length.
fn trajectories() -> Vec<Named> {
    let last = 7 * 8 * 32 - 1;
    let cells = [
        (last, (EMPTY_Y, 1)),
        (31, (EMPTY_Y + 1, 0)),
        (last, (65_536, 0)),
        (0, (0, -65_536)),
        (64, (0, EMPTY_Y)),
        (last, (-65_535, 65_535)),
        (last + 1, (EMPTY_Y, 1)),
    ];
    let cases = cells.map(|(at, (y, x))| {
        let case = plain(8, 1, 2).with(|call| call.traj = false).on(|store| {
            store.traj_y.push(0);
            store.traj_x.push(0);
            (store.traj_y[at], store.traj_x[at]) = (y, x);
        });
        (format!("refusal 12: trajectory {at} is ({y}, {x})"), case)
    });
    cases.into()
}
