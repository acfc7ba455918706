//! The inputs: edges of each argument, and random ones.
use crate::expected::FACTOR_LIMIT;
use crate::reference;
use crate::rng::Rng;

pub mod directed;
pub mod frame;
pub mod frame_limits;
pub mod kept;
pub mod load;
mod refused;
pub mod sample;
pub mod setup;

const MIN: i32 = i32::MIN;
const MAX: i32 = i32::MAX;

/// Bounds in order, then crossed ones.
pub const BOUNDS: [(i32, i32); 18] = [
    (-2_047, 2_047),
    (-65_535, 65_535),
    (MIN, MAX),
    (0, 0),
    (-1, 1),
    (0, 1),
    (5, 5),
    (-7, -7),
    (MIN, MIN),
    (MAX, MAX),
    (MIN, -1),
    (1, MAX),
    (1, 0),
    (0, -1),
    (6, 5),
    (2_047, -2_047),
    (MIN + 1, MIN),
    (MAX, MIN),
];

pub fn both_signs(magnitudes: &[i32]) -> Vec<i32> {
    let mut all: Vec<i32> = magnitudes.iter().flat_map(|&m| [m, -m]).collect();
    all.sort_unstable();
    all.dedup();
    all
}

/// Components to project or scale, on both sides of the limit.
pub fn components() -> Vec<i32> {
    let mut all = both_signs(&[
        0, 1, 2, 3, 31, 32, 100, 2_047, 2_048, 8_191, 8_192, 8_193, 16_383, 16_384, 16_385, 32_767,
        32_768, 65_534, 65_535, 65_536, 65_537, 2_097_152, MAX,
    ]);
    all.push(MIN);
    all
}

pub fn numerators() -> Vec<i32> {
    (-40..=40).chain([MIN, MAX]).collect()
}

pub fn denominators() -> Vec<i32> {
    (-3..=40).chain([MIN, MAX]).collect()
}

/// Factors on both sides of the limit.
pub fn factors() -> Vec<i32> {
    let limit = FACTOR_LIMIT as i32;
    let mut all = both_signs(&[
        0,
        1,
        2,
        3,
        4_096,
        8_191,
        8_192,
        8_193,
        16_383,
        16_384,
        16_385,
        24_576,
        limit - 1,
        limit,
        limit + 1,
        MAX,
    ]);
    all.push(MIN);
    all
}

/// The least and the largest component of each of the 128 codes, both signs.
pub fn code_edges() -> Vec<i32> {
    let least: Vec<i32> = (0..=127)
        .map(|code| reference::dequantize_mv(code, 0)[0])
        .collect();
    let largest = least[1..].iter().map(|next| next - 1).chain([2_047]);
    both_signs(&least.iter().copied().chain(largest).collect::<Vec<_>>())
}

/// Components to pack about the mark's limit and at the ends of i32.
pub fn pack_extremes() -> Vec<i32> {
    let mut all = both_signs(&[
        0, 1, 31, 32, 2_046, 2_047, 2_048, 2_049, 65_535, 65_536, 2_097_152, MAX,
    ]);
    all.push(MIN);
    all
}

/// Mostly in range.
fn component(rng: &mut Rng) -> i32 {
    let bits = if rng.one_in(32) { 31 } else { 16 };
    rng.scaled(bits)
}

fn bounds(rng: &mut Rng) -> (i32, i32) {
    let (a, b) = (rng.scaled(20), rng.scaled(20));
    match rng.word() % 16 {
        0 => (a, b),
        1..=4 => (-2_047, 2_047),
        5..=8 => (-65_535, 65_535),
        9 => (MIN, MAX),
        _ => (a.min(b), a.max(b)),
    }
}

pub fn random_project(rng: &mut Rng) -> [i32; 6] {
    let (y, x) = (component(rng), component(rng));
    let (num, den) = match rng.one_in(16) {
        true => (rng.scaled(31), rng.scaled(31)),
        false => (rng.within(-32, 32), rng.within(0, 32)),
    };
    let (min, max) = bounds(rng);
    [y, x, num, den, min, max]
}

pub fn random_scale(rng: &mut Rng) -> [i32; 3] {
    let sf = match rng.word() % 32 {
        0 => rng.scaled(31),
        1..=8 => rng.scaled(19),
        _ => rng.within(-(FACTOR_LIMIT as i32), FACTOR_LIMIT as i32),
    };
    [component(rng), component(rng), sf]
}

pub fn random_pack(rng: &mut Rng) -> [i32; 2] {
    let bits = if rng.one_in(8) { 31 } else { 11 };
    [rng.scaled(bits), rng.scaled(bits)]
}
