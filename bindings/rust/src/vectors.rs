//! Vectors and packed vectors.
use crate::raw;
use crate::refusal::Refusal;

/// A motion vector. An empty vector is none: where one may be empty, the type is `Option<Mv>`, and `None` is no
/// still vector.
///
/// ```
/// use refmvs::Mv;
///
/// let cells = [Some(Mv { y: 0, x: 0 }), None];
/// assert_ne!(cells[0], cells[1]);
/// ```
#[derive(Clone, Copy, Debug, Default, PartialEq, Eq, Hash)]
pub struct Mv {
    /// The vertical component.
    pub y: i32,
    /// The horizontal component.
    pub x: i32,
}

impl Mv {
    /// The y that says "empty" where components stand in lists of their own; the x beside it is 0.
    ///
    /// ```
    /// assert_eq!(refmvs::Mv::EMPTY_Y, 2_097_152);
    /// ```
    pub const EMPTY_Y: i32 = 0x20_0000;

    /// The vector of two components as a list of the store has them: `None` is empty.
    ///
    /// ```
    /// use refmvs::Mv;
    ///
    /// assert_eq!(Mv::of_components(2_097_152, 0), None);
    /// assert_eq!(Mv::of_components(0, 0), Some(Mv { y: 0, x: 0 }));
    /// ```
    pub const fn of_components(y: i32, x: i32) -> Option<Mv> {
        if y == Mv::EMPTY_Y {
            None
        } else {
            Some(Mv { y, x })
        }
    }
}

/// A packed vector: two codes with their signs, as a saved block holds it.
#[derive(Clone, Copy, Debug, Default, PartialEq, Eq, Hash)]
pub struct QMv {
    /// The vertical component's code.
    pub y: i8,
    /// The horizontal component's code.
    pub x: i8,
}

impl QMv {
    /// The mark: the code of what is empty or too long.
    ///
    /// ```
    /// use refmvs::{dequantize_mv, QMv};
    ///
    /// assert_eq!(dequantize_mv(QMv::MARK), Ok(None));
    /// ```
    pub const MARK: QMv = QMv { y: -128, x: -128 };

    /// Whether this is the mark.
    ///
    /// ```
    /// use refmvs::QMv;
    ///
    /// assert!(QMv { y: -128, x: -128 }.is_mark());
    /// assert!(!QMv { y: 0, x: 0 }.is_mark());
    /// ```
    pub const fn is_mark(self) -> bool {
        self.y == QMv::MARK.y && self.x == QMv::MARK.x
    }
}

/// The vector times num/den, rounded to nearest, halves away from zero, and clipped to min..=max. `num` counts as
/// −31..=31 and `den` as 1..=31.
///
/// Refuses a component past ±65,535 and `min` above `max`, [`Refusal::Range`].
///
/// ```
/// use refmvs::{mv_projection, Mv, Refusal};
///
/// assert_eq!(mv_projection(Mv { y: 100, x: -100 }, 1, 3, -2047, 2047), Ok(Mv { y: 33, x: -33 }));
/// assert_eq!(mv_projection(Mv { y: 65_536, x: 0 }, 1, 3, -2047, 2047), Err(Refusal::Range));
/// ```
pub fn mv_projection(mv: Mv, num: i32, den: i32, min: i32, max: i32) -> Result<Mv, Refusal> {
    raw::mv_projection(mv, num, den, min, max)
}

/// The vector times sf/16384, rounded to nearest, halves away from zero, and clipped to ±65,535.
///
/// Refuses a component past ±65,535 and a factor past ±507,904, [`Refusal::Range`].
///
/// ```
/// use refmvs::{scale_mv, Mv, Refusal};
///
/// assert_eq!(scale_mv(Mv { y: 1, x: -1 }, 8192), Ok(Mv { y: 1, x: -1 }));
/// assert_eq!(scale_mv(Mv { y: 1, x: -1 }, 507_905), Err(Refusal::Range));
/// ```
pub fn scale_mv(mv: Mv, sf: i32) -> Result<Mv, Refusal> {
    raw::scale_mv(mv, sf)
}

/// The packed vector; [`QMv::MARK`] where a magnitude is 2,048 or more. It refuses nothing.
///
/// ```
/// use refmvs::{quantize_mv, Mv, QMv};
///
/// assert_eq!(quantize_mv(Mv { y: 2047, x: -33 }), QMv { y: 127, x: -32 });
/// assert_eq!(quantize_mv(Mv { y: 2048, x: 0 }), QMv::MARK);
/// ```
pub fn quantize_mv(mv: Mv) -> QMv {
    raw::quantize_mv(mv)
}

/// The least vector of the codes; `None`, an empty vector, for the mark.
///
/// Refuses exactly one byte of −128, [`Refusal::HalfMark`].
///
/// ```
/// use refmvs::{dequantize_mv, Mv, QMv, Refusal};
///
/// assert_eq!(dequantize_mv(QMv { y: 127, x: -33 }), Ok(Some(Mv { y: 1984, x: -34 })));
/// assert_eq!(dequantize_mv(QMv::MARK), Ok(None));
/// assert_eq!(dequantize_mv(QMv { y: -128, x: 0 }), Err(Refusal::HalfMark));
/// ```
pub fn dequantize_mv(packed: QMv) -> Result<Option<Mv>, Refusal> {
    raw::dequantize_mv(packed)
}
