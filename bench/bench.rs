//! Times the library's entries against the published functions behind the same signatures.
use std::hint::black_box;
use std::process::ExitCode;
use std::time::{Duration, Instant};

use oracle::entry::{self, Header, OrderHint, Saved};
use oracle::rng::Rng;
use oracle::{args, shim};

mod loads;
mod passes;

// Too many for a branch predictor to learn by heart, few enough for the cache.
const INPUTS: usize = 8_192;
const TIME_EACH: Duration = Duration::from_secs(4);

/// Nanoseconds a call, one pass over the inputs.
fn pass<F: Copy, C>(f: F, inputs: &[C], call: impl Fn(F, &C)) -> f64 {
    let f = black_box(f);
    let start = Instant::now();
    for input in inputs {
        call(f, input);
    }
    start.elapsed().as_nanos() as f64 / inputs.len() as f64
}

/// Interleaved passes, and the least time of each side.
fn time<F: Copy, C>(
    name: &str,
    [library, rust, tested]: [F; 3],
    rng: &mut Rng,
    make: impl Fn(&mut Rng) -> C,
    call: impl Fn(F, &C) + Copy,
) {
    let inputs: Vec<C> = (0..INPUTS).map(|_| make(rng)).collect();
    let (mut best_library, mut best_rust, mut best_tested) = (f64::MAX, f64::MAX, f64::MAX);
    let start = Instant::now();
    while start.elapsed() < TIME_EACH {
        best_library = best_library.min(pass(library, &inputs, call));
        best_rust = best_rust.min(pass(rust, &inputs, call));
        best_tested = best_tested.min(pass(tested, &inputs, call));
    }
    println!(
        "{name:14} library {best_library:6.2} ns, Rust {best_rust:6.2} ns, ratio {:.2}; \
         Rust with the refusals tested {best_tested:6.2} ns, ratio {:.2}",
        best_library / best_rust,
        best_library / best_tested
    );
}

/// In range, small ones as likely as large ones.
fn component(rng: &mut Rng) -> i32 {
    rng.scaled(16).max(-65_535)
}

fn hint(rng: &mut Rng) -> OrderHint {
    OrderHint {
        value: rng.word() as u8,
    }
}

/// Of all sizes that have a code, and one pair in 16 past them.
fn unpacked(rng: &mut Rng) -> [i32; 2] {
    let bits = if rng.one_in(16) { 13 } else { 11 };
    [rng.scaled(bits), rng.scaled(bits)]
}

/// Any codes, and one pair in 16 the mark.
fn packed(rng: &mut Rng) -> [i8; 2] {
    match rng.one_in(16) {
        true => [-128, -128],
        false => [rng.within(-127, 127) as i8, rng.within(-127, 127) as i8],
    }
}

/// With sources to pick. Half have their hints near the frame's, half of the saved hints are those of
/// slots, and TIP is on in half.
fn header(rng: &mut Rng) -> Header {
    let bits = rng.within(4, 8);
    let frame = rng.word() as i32;
    let spread = if rng.one_in(2) { 8 } else { 128 };
    let slots = rng.within(2, 7);
    let near = |rng: &mut Rng, spread: i32| OrderHint {
        value: ((frame + rng.within(-spread, spread)) & ((1 << bits) - 1)) as u8,
    };
    let ref_poc: [OrderHint; 7] = std::array::from_fn(|_| near(rng, spread));
    let saved = |rng: &mut Rng| match rng.one_in(2) {
        true => ref_poc[rng.within(0, 6) as usize],
        false => near(rng, 128),
    };
    let tip = rng.within(0, 1) as u8;
    Header {
        order_hint_n_bits: bits as u32,
        width: rng.within(1, 65_536) as u32,
        height: rng.within(1, 65_536) as u32,
        n_ref_frames: slots as u32,
        tip,
        sb128: rng.within(0, 2) as u8,
        tmvp_sample_step: rng.within(1, 2) as u8,
        use_ref_frame_mvs: 1,
        has_bothside_refs: rng.within(0, 1) as u8,
        tip_frame_mode: tip * rng.within(0, 2) as u8,
        tip_reference: std::array::from_fn(|_| rng.within(0, slots - 1) as i8),
        frame_offset: near(rng, 0),
        ref_poc,
        saved: std::array::from_fn(|_| Saved {
            ref_poc: std::array::from_fn(|_| saved(rng)),
            refcnt: rng.within(0, 7) as u8,
        }),
        rp_ref: [1; 7],
    }
}

fn time_all(rng: &mut Rng) {
    time::<entry::MvProjection, _>(
        "mv_projection",
        [
            entry::refmvs_mv_projection,
            shim::mv_projection,
            shim::tested::mv_projection,
        ],
        rng,
        |rng| {
            let mv = [component(rng), component(rng)];
            (mv, rng.within(-31, 31), rng.within(1, 31))
        },
        |f, &([y, x], num, den)| {
            let mut out = [0; 2];
            unsafe { f(y, x, num, den, -2_047, 2_047, out.as_mut_ptr()) };
            black_box(&out);
        },
    );
    time::<entry::ScaleMv, _>(
        "scale_mv",
        [
            entry::refmvs_scale_mv,
            shim::scale_mv,
            shim::tested::scale_mv,
        ],
        rng,
        |rng| {
            let mv = [component(rng), component(rng)];
            (mv, rng.within(-507_904, 507_904))
        },
        |f, &([y, x], sf)| {
            let mut out = [0; 2];
            unsafe { f(y, x, sf, out.as_mut_ptr()) };
            black_box(&out);
        },
    );
    time::<entry::QuantizeMv, _>(
        "quantize_mv",
        [
            entry::refmvs_quantize_mv,
            shim::quantize_mv,
            shim::tested::quantize_mv,
        ],
        rng,
        unpacked,
        |f, &[y, x]| {
            let mut out = [0; 2];
            unsafe { f(y, x, out.as_mut_ptr()) };
            black_box(&out);
        },
    );
    time::<entry::DequantizeMv, _>(
        "dequantize_mv",
        [
            entry::refmvs_dequantize_mv,
            shim::dequantize_mv,
            shim::tested::dequantize_mv,
        ],
        rng,
        packed,
        |f, &[y, x]| {
            let mut out = [0; 2];
            unsafe { f(y, x, out.as_mut_ptr()) };
            black_box(&out);
        },
    );
    time::<entry::GetPocDiff, _>(
        "get_poc_diff",
        [
            entry::refmvs_get_poc_diff,
            shim::get_poc_diff,
            shim::tested::get_poc_diff,
        ],
        rng,
        |rng| (rng.within(0, 8) as u32, hint(rng), hint(rng)),
        |f, &(n, a, b)| {
            let mut out = [0; 1];
            unsafe { f(n, a, b, out.as_mut_ptr()) };
            black_box(&out);
        },
    );
    // Rust's share of taking the header over, zeroing and handing out: see shim::reused_frame.
    time::<entry::InitFrame, _>(
        "init_frame",
        [
            entry::refmvs_init_frame,
            shim::init_frame,
            shim::tested::init_frame,
        ],
        rng,
        header,
        |f, &header| {
            black_box(&unsafe { f(header) });
        },
    );
}

fn main() -> ExitCode {
    let mut args: Vec<String> = std::env::args().skip(1).collect();
    // One part alone, where it is named.
    let named = args.first().filter(|word| !word.starts_with('-')).cloned();
    if named.is_some() {
        args.remove(0);
    }
    let part = |name: &str| named.as_deref().is_none_or(|word| word == name);
    let known = ["leaves", "passes", "loads"].into_iter().any(part);
    let Some(seed) = args::seed(&args).filter(|_| known) else {
        eprintln!("usage: bench [leaves|passes|loads] [--seed N]");
        return ExitCode::from(2);
    };
    let rng = &mut Rng::new(seed);
    if part("leaves") {
        time_all(rng);
    }
    if part("passes") {
        passes::time_all(rng);
    }
    if part("loads") {
        loads::time_all(rng);
    }
    ExitCode::SUCCESS
}
