//! The entries of librefmvs.a, as include/refmvs.h declares them; the only unsafe code of the crate.
//!
//! Each entry is safe for any numbers and for buffers as long as they say, which is proved. So a call is sound where
//! pointers and lengths come from slices, and where the types below have C's layout, which the tests hold against
//! the header.
#![allow(unsafe_code)]
use crate::hints::{OrderHint, Slot};
use crate::load::{Switches, Tile};
use crate::refusal::Refusal;
use crate::setup::{self, Frame, Saved};
use crate::store::{Mode, StoreMut};
use crate::vectors::{Mv, QMv};

/// refmvs_header.
#[repr(C)]
struct Header {
    order_hint_n_bits: u32,
    width: u32,
    height: u32,
    n_ref_frames: u32,
    tip: u8,
    sb128: u8,
    tmvp_sample_step: u8,
    use_ref_frame_mvs: u8,
    has_bothside_refs: u8,
    tip_frame_mode: u8,
    tip_reference: [i8; 2],
    frame_offset: OrderHint,
    ref_poc: [OrderHint; 7],
    saved: [Saved; 7],
    rp_ref: [u8; 7],
}

/// refmvs_setup.
#[repr(C)]
struct Setup {
    refusal: u32,
    frame: Frame,
}

extern "C" {
    fn refmvs_mv_projection(
        y: i32,
        x: i32,
        num: i32,
        den: i32,
        min: i32,
        max: i32,
        out: *mut [i32; 2],
    ) -> u32;
    fn refmvs_scale_mv(y: i32, x: i32, sf: i32, out: *mut [i32; 2]) -> u32;
    fn refmvs_quantize_mv(y: i32, x: i32, out: *mut [i8; 2]) -> u32;
    fn refmvs_dequantize_mv(y: i8, x: i8, out: *mut [i32; 2]) -> u32;
    fn refmvs_get_poc_diff(
        order_hint_n_bits: u32,
        poc0: OrderHint,
        poc1: OrderHint,
        out: *mut [i32; 1],
    ) -> u32;
    fn refmvs_init_frame(header: Header) -> Setup;
    fn refmvs_load_tmvs(
        field_y: *mut i32,
        field_y_len: usize,
        field_x: *mut i32,
        field_x_len: usize,
        field_ref: *mut u8,
        field_ref_len: usize,
        traj_y: *mut i32,
        traj_y_len: usize,
        traj_x: *mut i32,
        traj_x_len: usize,
        map_y: *mut i8,
        map_y_len: usize,
        map_x: *mut i8,
        map_x_len: usize,
        planes: *const i8,
        planes_len: usize,
        setup: Frame,
        whole_frame: u8,
        traj: u8,
        holes: u8,
        col_start: usize,
        col_end: usize,
        row_start: usize,
        row_end: usize,
    ) -> u32;
}

pub(crate) fn mv_projection(mv: Mv, num: i32, den: i32, min: i32, max: i32) -> Result<Mv, Refusal> {
    let mut out = [0; 2];
    // SAFETY: any numbers, and a buffer of two.
    Refusal::from_answer(unsafe {
        refmvs_mv_projection(mv.y, mv.x, num, den, min, max, &mut out)
    })?;
    let [y, x] = out;
    Ok(Mv { y, x })
}

pub(crate) fn scale_mv(mv: Mv, sf: i32) -> Result<Mv, Refusal> {
    let mut out = [0; 2];
    // SAFETY: any numbers, and a buffer of two.
    Refusal::from_answer(unsafe { refmvs_scale_mv(mv.y, mv.x, sf, &mut out) })?;
    let [y, x] = out;
    Ok(Mv { y, x })
}

pub(crate) fn quantize_mv(mv: Mv) -> QMv {
    let mut out = [0; 2];
    // SAFETY: any numbers, and a buffer of two. The answer is always 0.
    unsafe { refmvs_quantize_mv(mv.y, mv.x, &mut out) };
    let [y, x] = out;
    QMv { y, x }
}

pub(crate) fn dequantize_mv(packed: QMv) -> Result<Option<Mv>, Refusal> {
    let mut out = [0; 2];
    // SAFETY: any numbers, and a buffer of two.
    Refusal::from_answer(unsafe { refmvs_dequantize_mv(packed.y, packed.x, &mut out) })?;
    let [y, x] = out;
    Ok(Mv::of_components(y, x))
}

pub(crate) fn get_poc_diff(bits: u32, poc0: OrderHint, poc1: OrderHint) -> Result<i32, Refusal> {
    let mut out = [0];
    // SAFETY: any numbers, and a buffer of one.
    Refusal::from_answer(unsafe { refmvs_get_poc_diff(bits, poc0, poc1, &mut out) })?;
    let [diff] = out;
    Ok(diff)
}

pub(crate) fn init_frame(header: &setup::Header) -> Result<Frame, Refusal> {
    let header = Header {
        order_hint_n_bits: header.order_hint_n_bits,
        width: header.width,
        height: header.height,
        n_ref_frames: header.n_ref_frames,
        tip: header.tip.into(),
        sb128: header.sb128,
        tmvp_sample_step: header.tmvp_sample_step,
        use_ref_frame_mvs: header.use_ref_frame_mvs.into(),
        has_bothside_refs: header.has_bothside_refs.into(),
        tip_frame_mode: header.tip_frame_mode,
        tip_reference: header.tip_reference.map(Slot::to_byte),
        frame_offset: header.frame_offset,
        ref_poc: header.ref_poc,
        saved: header.saved,
        rp_ref: header.rp_ref.map(u8::from),
    };
    // SAFETY: a record of numbers and bytes, of which any will do, handed over and given back by value.
    let setup = unsafe { refmvs_init_frame(header) };
    Refusal::from_answer(setup.refusal)?;
    Ok(setup.frame)
}

pub(crate) fn load_tmvs(
    store: &mut StoreMut<'_>,
    planes: &[i8],
    frame: &Frame,
    switches: Switches,
    tile: &Tile,
) -> Result<(), Refusal> {
    let whole_frame = store.mode == Mode::WholeFrame;
    // SAFETY: pointers and lengths of slices. Those that are written are exclusive, so that none overlaps another.
    let answer = unsafe {
        refmvs_load_tmvs(
            store.field_y.as_mut_ptr(),
            store.field_y.len(),
            store.field_x.as_mut_ptr(),
            store.field_x.len(),
            store.field_ref.as_mut_ptr(),
            store.field_ref.len(),
            store.traj_y.as_mut_ptr(),
            store.traj_y.len(),
            store.traj_x.as_mut_ptr(),
            store.traj_x.len(),
            store.map_y.as_mut_ptr(),
            store.map_y.len(),
            store.map_x.as_mut_ptr(),
            store.map_x.len(),
            planes.as_ptr(),
            planes.len(),
            *frame,
            whole_frame.into(),
            switches.traj.into(),
            switches.holes.into(),
            tile.columns.start,
            tile.columns.end,
            tile.rows.start,
            tile.rows.end,
        )
    };
    Refusal::from_answer(answer)
}

/// Whether a load would refuse the record: it tests the record first, and then the tile, which is none here.
pub(crate) fn test_frame(frame: &Frame) -> Result<(), Refusal> {
    let mut nothing = StoreMut {
        mode: Mode::Row,
        field_y: &mut [],
        field_x: &mut [],
        field_ref: &mut [],
        traj_y: &mut [],
        traj_x: &mut [],
        map_y: &mut [],
        map_x: &mut [],
    };
    let no_tile = Tile::new(0..0, 0..0);
    match load_tmvs(&mut nothing, &[], frame, Switches::default(), &no_tile) {
        Err(Refusal::Tile) => Ok(()),
        answer => answer,
    }
}

#[cfg(test)]
mod layout;
