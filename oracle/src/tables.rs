//! Stands in for the published tables.rs: no function that is compared reads it.
use crate::headers::{WarpedMotionParams, WarpedMotionType};

pub(crate) static BLOCK_DIMENSIONS: [[u8; 4]; 64] = [[0; 4]; 64];

pub(crate) static DEFAULT_WM_PARAMS: WarpedMotionParams = WarpedMotionParams {
    wm_type: WarpedMotionType::Identity,
    matrix: [0; 6],
    abcd: [0; 4],
    affine: 0,
};
