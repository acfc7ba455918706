//! The library's entries, as include/refmvs.h declares them.
use crate::load::{Call, Store};

#[derive(Clone, Copy, Debug, Default, PartialEq)]
#[repr(C)]
pub struct OrderHint {
    pub value: u8,
}

#[derive(Clone, Copy, Debug, Default, PartialEq)]
#[repr(C)]
pub struct Slot {
    pub value: u8,
}

#[derive(Clone, Copy, Debug, Default, PartialEq)]
#[repr(C)]
pub struct Saved {
    pub ref_poc: [OrderHint; 7],
    pub refcnt: u8,
}

#[derive(Clone, Copy, Debug, Default, PartialEq)]
#[repr(C)]
pub struct Header {
    pub order_hint_n_bits: u32,
    pub width: u32,
    pub height: u32,
    pub n_ref_frames: u32,
    pub tip: u8,
    pub sb128: u8,
    pub tmvp_sample_step: u8,
    pub use_ref_frame_mvs: u8,
    pub has_bothside_refs: u8,
    pub tip_frame_mode: u8,
    pub tip_reference: [i8; 2],
    pub frame_offset: OrderHint,
    pub ref_poc: [OrderHint; 7],
    pub saved: [Saved; 7],
    pub rp_ref: [u8; 7],
}

#[derive(Clone, Copy, Debug, Default, PartialEq)]
#[repr(C)]
pub struct Source {
    pub reference: Slot,
    pub tgt: i8,
    pub dir: u8,
    pub ref2cur: i8,
    pub ref2ref: [i8; 7],
    pub ref2idx: [i8; 7],
    pub ref2sf0: [i32; 7],
    pub ref2sf1: [i32; 7],
}

#[derive(Clone, Copy, Debug, Default, PartialEq)]
#[repr(C)]
pub struct Tip {
    pub delta: i8,
    pub sf: [i32; 2],
}

#[derive(Clone, Copy, Debug, Default, PartialEq)]
#[repr(C)]
pub struct Sources {
    pub mfmv: [Source; 4],
    pub n_mfmvs: usize,
    pub mfmv_mask: u8,
}

#[derive(Clone, Copy, Debug, Default, PartialEq)]
#[repr(C)]
pub struct Frame {
    pub width: u32,
    pub height: u32,
    pub sb128: u8,
    pub tmvp_sample_step: u8,
    pub n_ref_frames: usize,
    pub tip_frame_mode: u8,
    pub tip_reference: [i8; 2],
    pub rp_ref: [u8; 7],
    pub ref_sign: [u8; 7],
    pub pocdiff: [i8; 7],
    pub abspocdiff: [u8; 7],
    pub ref_flip: u64,
    pub tip: Tip,
    pub use_ref_frame_mvs: u8,
    pub sources: Sources,
}

#[derive(Clone, Copy, Debug, Default, PartialEq)]
#[repr(C)]
pub struct Setup {
    pub refusal: u32,
    pub frame: Frame,
}

impl Setup {
    pub fn accepted(frame: Frame) -> Self {
        Self { refusal: 0, frame }
    }

    pub fn refused(refusal: u32) -> Self {
        let frame = Frame::default();
        Self { refusal, frame }
    }
}

pub type MvProjection = unsafe extern "C" fn(i32, i32, i32, i32, i32, i32, *mut i32) -> u32;
pub type ScaleMv = unsafe extern "C" fn(i32, i32, i32, *mut i32) -> u32;
pub type QuantizeMv = unsafe extern "C" fn(i32, i32, *mut i8) -> u32;
pub type DequantizeMv = unsafe extern "C" fn(i8, i8, *mut i32) -> u32;
pub type GetPocDiff = unsafe extern "C" fn(u32, OrderHint, OrderHint, *mut i32) -> u32;
pub type InitFrame = unsafe extern "C" fn(Header) -> Setup;

unsafe extern "C" {
    pub fn refmvs_mv_projection(
        y: i32,
        x: i32,
        num: i32,
        den: i32,
        min: i32,
        max: i32,
        out: *mut i32,
    ) -> u32;
    pub fn refmvs_scale_mv(y: i32, x: i32, sf: i32, out: *mut i32) -> u32;
    pub fn refmvs_quantize_mv(y: i32, x: i32, out: *mut i8) -> u32;
    pub fn refmvs_dequantize_mv(y: i8, x: i8, out: *mut i32) -> u32;
    pub fn refmvs_get_poc_diff(
        order_hint_n_bits: u32,
        poc0: OrderHint,
        poc1: OrderHint,
        out: *mut i32,
    ) -> u32;
    pub fn refmvs_init_frame(header: Header) -> Setup;
    fn refmvs_load_tmvs(
        field_y: *mut i32,
        field_y_len: usize,
        field_x: *mut i32,
        field_x_len: usize,
        field_ref: *mut u8,
        field_ref_len: usize,
        traj_y: *mut i32,
        traj_y_len: usize,
        traj_x: *mut i32,
        traj_x_len: usize,
        map_y: *mut i8,
        map_y_len: usize,
        map_x: *mut i8,
        map_x_len: usize,
        planes: *const i8,
        planes_len: usize,
        setup: Frame,
        whole_frame: u8,
        traj: u8,
        holes: u8,
        col_start: usize,
        col_end: usize,
        row_start: usize,
        row_end: usize,
    ) -> u32;
}

/// The library's load of a call: the refusal's number, 0 for none.
pub fn load_tmvs(call: &Call, store: &mut Store) -> u32 {
    let Store {
        field_y,
        field_x,
        field_ref,
        traj_y,
        traj_x,
        map_y,
        map_x,
    } = store;
    unsafe {
        refmvs_load_tmvs(
            field_y.as_mut_ptr(),
            field_y.len(),
            field_x.as_mut_ptr(),
            field_x.len(),
            field_ref.as_mut_ptr(),
            field_ref.len(),
            traj_y.as_mut_ptr(),
            traj_y.len(),
            traj_x.as_mut_ptr(),
            traj_x.len(),
            map_y.as_mut_ptr(),
            map_y.len(),
            map_x.as_mut_ptr(),
            map_x.len(),
            call.planes.as_ptr(),
            call.planes.len(),
            call.setup,
            u8::from(call.whole_frame),
            u8::from(call.traj),
            u8::from(call.holes),
            call.columns.0,
            call.columns.1,
            call.rows.0,
            call.rows.1,
        )
    }
}
