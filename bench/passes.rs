//! Times the library's passes against the published ones on the same superblock rows.
use std::hint::black_box;
use std::time::{Duration, Instant};

use oracle::cases::load as cases;
use oracle::load::{Call, Store};
use oracle::passes::{ALL, Contents, INTERSECTIONS, Intersection, Pass};
use oracle::reference::Held;
use oracle::rng::Rng;

// Rows that a branch predictor does not learn by heart.
const STORES: usize = 12;
const TIME_EACH: Duration = Duration::from_millis(600);
const FRAMES: [(&str, u32, u32); 2] = [("1080p", 1_920, 1_080), ("4K", 3_840, 2_160)];

/// Interleaved rounds over the same stores, and the least time of each side.
pub fn time(
    name: &str,
    what: &str,
    call: &Call,
    stores: &[Store],
    time_each: Duration,
    library: impl Fn(&mut Store),
    published: impl Fn(&mut Held),
) {
    let held: Vec<Held> = stores.iter().map(|store| Held::new(call, store)).collect();
    let (mut ours, mut theirs) = (stores[0].clone(), Held::new(call, &stores[0]));
    let (mut best_library, mut best_rust) = (f64::MAX, f64::MAX);
    let start = Instant::now();
    while start.elapsed() < time_each {
        let (mut library_sum, mut rust_sum) = (0.0, 0.0);
        for store in stores {
            ours.clone_from(store);
            library_sum += microseconds(|| library(black_box(&mut ours)));
        }
        for held in &held {
            theirs.restore(held);
            rust_sum += microseconds(|| published(black_box(&mut theirs)));
        }
        best_library = best_library.min(library_sum / stores.len() as f64);
        best_rust = best_rust.min(rust_sum / stores.len() as f64);
    }
    println!(
        "{name:20} {what:27} library {best_library:8.2} µs, Rust {best_rust:8.2} µs, ratio {:.2}",
        best_library / best_rust
    );
}

fn microseconds(run: impl FnOnce()) -> f64 {
    let start = Instant::now();
    run();
    start.elapsed().as_nanos() as f64 / 1_000.0
}

pub fn time_all(rng: &mut Rng) {
    for (frame, width, height) in FRAMES {
        for step in [1, 2] {
            for traj in [false, true] {
                let call = cases::timed(rng, width, height, step, traj);
                time_row(rng, frame, call);
            }
        }
    }
}

/// Stores of the call's sizes, a third of their cells empty.
pub fn stores(rng: &mut Rng, call: &Call, count: usize) -> Vec<Store> {
    let contents = Contents {
        empty_in: 3,
        bits: 10,
    };
    let filled = |_| {
        let mut store = Store::zeroed(&call.geometry(), call.whole_frame, 0);
        contents.fill(rng, &mut store);
        store
    };
    (0..count).map(filled).collect()
}

fn time_row(rng: &mut Rng, frame: &str, call: Call) {
    let stores = stores(rng, &call, STORES);
    let step = call.geometry().step;
    let trajectories = if call.traj { "on" } else { "off" };
    let what = format!("{frame}, step {step}, trajectories {trajectories}");
    for pass in ALL.into_iter().filter(|pass| pass.applies(&call)) {
        // The other passes do not ask for the switch.
        if call.traj && !matches!(pass, Pass::Empty | Pass::Project) {
            continue;
        }
        let run = |store: &mut Store| pass.library(&call, store);
        time(pass.name(), &what, &call, &stores, TIME_EACH, run, |held| {
            pass.published(&call, held)
        });
    }
    if call.traj {
        let intersections: Vec<Intersection> = (0..INTERSECTIONS)
            .map(|_| Intersection::random(rng, &call))
            .collect();
        let run = |store: &mut Store| intersections.iter().for_each(|m| m.library(&call, store));
        time(
            "check_traj_intersect",
            &what,
            &call,
            &stores,
            TIME_EACH,
            run,
            |held| intersections.iter().for_each(|m| m.published(&call, held)),
        );
        let empty = [stores[0].clone().emptied()];
        let run = |store: &mut Store| intersections.iter().for_each(|m| m.library(&call, store));
        time(
            "  with empty maps",
            &what,
            &call,
            &empty,
            TIME_EACH,
            run,
            |held| intersections.iter().for_each(|m| m.published(&call, held)),
        );
    }
}
