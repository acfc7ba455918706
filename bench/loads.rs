//! Times the library's load, its tests included, against the published one, which tests nothing.
use std::time::Duration;

use oracle::cases::load as cases;
use oracle::entry;
use oracle::load::{Call, Store};
use oracle::reference::Held;
use oracle::rng::Rng;

use crate::passes;

const STORES: usize = 3;
const TIME_EACH: Duration = Duration::from_millis(900);
const FRAMES: [(&str, u32, u32); 3] = [
    ("1080p", 1_920, 1_080),
    ("4K", 3_840, 2_160),
    ("8K", 7_680, 4_320),
];

/// The call's columns cut in so many tiles.
fn tiles(call: &Call, count: usize) -> Vec<Call> {
    let geometry = call.geometry();
    let blocks = geometry.wide.div_ceil(geometry.side);
    let cut = |n: usize| (n * blocks / count * geometry.side).min(geometry.wide);
    let tile = |n| Call {
        columns: (cut(n), cut(n + 1)),
        ..call.clone()
    };
    (0..count).map(tile).collect()
}

pub fn time_all(rng: &mut Rng) {
    for (frame, width, height) in FRAMES {
        for step in [1, 2] {
            for traj in [false, true] {
                let call = cases::timed(rng, width, height, step, traj);
                time_row(rng, frame, &call);
            }
        }
    }
}

fn time_row(rng: &mut Rng, frame: &str, call: &Call) {
    let stores = passes::stores(rng, call, STORES);
    let step = call.geometry().step;
    let trajectories = if call.traj { "on" } else { "off" };
    for count in [1, 4] {
        let tiles = tiles(call, count);
        let what = format!("{frame}, step {step}, trajectories {trajectories}");
        let name = format!("load of {count}");
        let library = |store: &mut Store| {
            for tile in &tiles {
                assert_eq!(entry::load_tmvs(tile, store), 0);
            }
        };
        passes::time(
            &name,
            &what,
            call,
            &stores,
            TIME_EACH,
            library,
            |held: &mut Held| tiles.iter().for_each(|tile| held.load_tmvs(tile)),
        );
    }
}
