//! The published functions behind the signatures of the library's entries.
//!
//! # Safety
//! `out` points to the buffer that the entry's declaration in include/refmvs.h asks for.
#![allow(clippy::missing_safety_doc)]
use std::cell::RefCell;

use crate::entry::{Frame, Header, OrderHint, Setup};
use crate::reference::{self, Decoder};

thread_local! {
    static DECODER: RefCell<Decoder> = RefCell::default();
}

/// The setup over a frame that is used again and again. It takes the header over, zeroes the entries
/// that may stay unwritten and hands the record out, a few per cent in all; nothing is allocated.
fn reused_frame(header: &Header) -> Frame {
    DECODER.with_borrow_mut(|decoder| {
        decoder.clear();
        decoder.init_frame(header)
    })
}

/// The same with the scope's refusals tested first, as a caller with unchosen input has to run them.
pub mod tested {
    use crate::entry::{Header, OrderHint, Setup};
    use crate::expected::{self, Answer};

    /// Writes an answer, or answers the refusal's number and writes nothing.
    unsafe fn put<T>(answer: Answer<T>, out: *mut T) -> u32 {
        match answer {
            Ok(value) => {
                unsafe { *out = value };
                0
            }
            Err(number) => number,
        }
    }

    #[inline(never)]
    pub unsafe extern "C" fn mv_projection(
        y: i32,
        x: i32,
        num: i32,
        den: i32,
        min: i32,
        max: i32,
        out: *mut i32,
    ) -> u32 {
        unsafe { put(expected::project([y, x, num, den, min, max]), out.cast()) }
    }

    #[inline(never)]
    pub unsafe extern "C" fn scale_mv(y: i32, x: i32, sf: i32, out: *mut i32) -> u32 {
        unsafe { put(expected::scale([y, x, sf]), out.cast()) }
    }

    #[inline(never)]
    pub unsafe extern "C" fn quantize_mv(y: i32, x: i32, out: *mut i8) -> u32 {
        unsafe { put(Ok(expected::quantize([y, x])), out.cast()) }
    }

    #[inline(never)]
    pub unsafe extern "C" fn dequantize_mv(y: i8, x: i8, out: *mut i32) -> u32 {
        unsafe { put(expected::dequantize([y, x]), out.cast()) }
    }

    #[inline(never)]
    pub unsafe extern "C" fn get_poc_diff(
        order_hint_n_bits: u32,
        poc0: OrderHint,
        poc1: OrderHint,
        out: *mut i32,
    ) -> u32 {
        unsafe {
            put(
                expected::hint(order_hint_n_bits, poc0.value, poc1.value),
                out,
            )
        }
    }

    #[inline(never)]
    pub unsafe extern "C" fn init_frame(header: Header) -> Setup {
        match expected::setup_refusal(&header) {
            Some(number) => Setup::refused(number),
            None => Setup::accepted(super::reused_frame(&header)),
        }
    }
}

#[inline(never)]
pub unsafe extern "C" fn mv_projection(
    y: i32,
    x: i32,
    num: i32,
    den: i32,
    min: i32,
    max: i32,
    out: *mut i32,
) -> u32 {
    let mv = reference::mv_projection(y, x, num, den, min, max);
    unsafe { *out.cast::<[i32; 2]>() = mv };
    0
}

#[inline(never)]
pub unsafe extern "C" fn scale_mv(y: i32, x: i32, sf: i32, out: *mut i32) -> u32 {
    unsafe { *out.cast::<[i32; 2]>() = reference::scale_mv(y, x, sf) };
    0
}

#[inline(never)]
pub unsafe extern "C" fn quantize_mv(y: i32, x: i32, out: *mut i8) -> u32 {
    unsafe { *out.cast::<[i8; 2]>() = reference::quantize_mv(y, x) };
    0
}

#[inline(never)]
pub unsafe extern "C" fn dequantize_mv(y: i8, x: i8, out: *mut i32) -> u32 {
    unsafe { *out.cast::<[i32; 2]>() = reference::dequantize_mv(y, x) };
    0
}

#[inline(never)]
pub unsafe extern "C" fn get_poc_diff(
    order_hint_n_bits: u32,
    poc0: OrderHint,
    poc1: OrderHint,
    out: *mut i32,
) -> u32 {
    unsafe { *out = reference::get_poc_diff(order_hint_n_bits, poc0.value, poc1.value) };
    0
}

#[inline(never)]
pub unsafe extern "C" fn init_frame(header: Header) -> Setup {
    Setup::accepted(reused_frame(&header))
}
