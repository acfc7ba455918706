//! The published functions over plain numbers. The caller keeps to their domain.
use crate::levels::{INVALID_MV, Mv};
use crate::refmvs::{self, QMv, SnglMvBlock};

mod load;
mod setup;
pub use load::{Held, load_tmvs};
pub use setup::{Decoder, init_frame};

pub const EMPTY_Y: i32 = INVALID_MV;

fn comps(mv: Mv) -> [i32; 2] {
    [mv.y(), mv.x()]
}

pub fn mv_projection(y: i32, x: i32, num: i32, den: i32, min: i32, max: i32) -> [i32; 2] {
    comps(refmvs::mv_projection(Mv::from_xy(y, x), num, den, min, max))
}

pub fn scale_mv(y: i32, x: i32, sf: i32) -> [i32; 2] {
    comps(refmvs::scale_mv(Mv::from_xy(y, x), sf))
}

pub fn quantize_mv(y: i32, x: i32) -> [i8; 2] {
    refmvs::quantize_mv(Mv::from_xy(y, x)).comps()
}

pub fn dequantize_mv(y: i8, x: i8) -> [i32; 2] {
    comps(refmvs::dequantize_mv(QMv { c: [y, x] }))
}

pub fn get_poc_diff(n: u32, a: u8, b: u8) -> i32 {
    crate::env::get_poc_diff(n as i32, i32::from(a), i32::from(b))
}

const SIDE: usize = 8;
const CENTRE: usize = 3 * SIDE + 3;
const CROSS: [usize; 5] = [CENTRE, CENTRE - 1, CENTRE + 1, CENTRE - SIDE, CENTRE + SIDE];

/// What `smoothen` leaves in a cell whose cross holds n vectors with this sum.
pub fn smooth_mean(n: usize, sum: i32) -> i32 {
    let means = choices(&CROSS, n).map(|cells| smoothed_centre(&share(&cells, sum)));
    the_one(means)
}

/// What `fill_gap_traj` leaves amid four cells of which n hold vectors with this sum.
pub fn gap_mean(n: usize, sum: i32) -> i32 {
    // Without a vector at the top left the pass skips the four.
    let others = [2, 2 * SIDE, 2 * SIDE + 2];
    let means = choices(&others, n - 1).map(|mut cells| {
        cells.push(0);
        filled_middle(&share(&cells, sum))
    });
    the_one(means)
}

fn smoothed_centre(cells: &[(usize, i32)]) -> i32 {
    let empty = SnglMvBlock {
        mv: Mv::from_xy(EMPTY_Y, 0),
        reference: 1,
    };
    let mut field = [empty; SIDE * SIDE];
    for &(at, v) in cells {
        field[at].mv = Mv::from_xy(v, v);
    }
    let side = SIDE as i32;
    refmvs::smoothen(
        &mut field,
        SIDE as isize,
        0,
        side,
        0,
        side,
        side,
        side,
        1,
        1,
    );
    same_comps(field[CENTRE].mv)
}

fn filled_middle(cells: &[(usize, i32)]) -> i32 {
    let mut field = [Mv::from_xy(EMPTY_Y, 0); SIDE * SIDE];
    for &(at, v) in cells {
        field[at] = Mv::from_xy(v, v);
    }
    let side = SIDE as i32;
    refmvs::fill_gap_traj(&mut field, SIDE as isize, 0, side, 0, side, side, side);
    same_comps(field[SIDE + 1])
}

fn same_comps(mv: Mv) -> i32 {
    assert_eq!(mv.y(), mv.x());
    mv.y()
}

/// Every choice of n of the places.
fn choices(places: &[usize], n: usize) -> impl Iterator<Item = Vec<usize>> {
    (0u32..1 << places.len())
        .filter(move |mask| mask.count_ones() as usize == n)
        .map(|mask| {
            let picked = places.iter().enumerate();
            let picked = picked.filter(|(bit, _)| mask >> bit & 1 == 1);
            picked.map(|(_, &place)| place).collect()
        })
}

/// The sum dealt out over the cells, the rest to the first ones.
fn share(cells: &[usize], sum: i32) -> Vec<(usize, i32)> {
    let n = cells.len() as i32;
    let (each, rest) = (sum.div_euclid(n), sum.rem_euclid(n));
    let part = |i: usize| each + i32::from((i as i32) < rest);
    cells
        .iter()
        .enumerate()
        .map(|(i, &c)| (c, part(i)))
        .collect()
}

/// The mean must not depend on which cells hold the vectors.
fn the_one(mut means: impl Iterator<Item = i32>) -> i32 {
    let first = means.next().unwrap();
    assert!(means.all(|mean| mean == first));
    first
}
