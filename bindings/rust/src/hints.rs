//! Slots and order hints: both small numbers, and neither is taken for the other.
use crate::raw;
use crate::refusal::Refusal;

/// A reference slot, 0 to 6. It is no order hint:
///
/// ```compile_fail,E0308
/// use refmvs::{get_poc_diff, OrderHint, Slot};
///
/// get_poc_diff(4, OrderHint(1), Slot::ALL[1]); // a slot where a hint is wanted
/// ```
#[repr(C)]
#[derive(Clone, Copy, Debug, Default, PartialEq, Eq, Hash, PartialOrd, Ord)]
pub struct Slot(pub(crate) u8);

impl Slot {
    /// The seven slots, in order.
    ///
    /// ```
    /// assert!(refmvs::Slot::ALL.iter().map(|s| s.index()).eq(0..7));
    /// ```
    pub const ALL: [Slot; 7] = [
        Slot(0),
        Slot(1),
        Slot(2),
        Slot(3),
        Slot(4),
        Slot(5),
        Slot(6),
    ];

    /// The slot of that number, if there is one.
    ///
    /// ```
    /// use refmvs::Slot;
    ///
    /// assert_eq!(Slot::new(6), Some(Slot::ALL[6]));
    /// assert_eq!(Slot::new(7), None);
    /// ```
    pub const fn new(number: u8) -> Option<Slot> {
        if number < 7 {
            Some(Slot(number))
        } else {
            None
        }
    }

    /// The slot as an index of an array of seven.
    ///
    /// ```
    /// let present = [true, false, true, false, false, false, false];
    /// assert!(present[refmvs::Slot::ALL[2].index()]);
    /// ```
    pub const fn index(self) -> usize {
        self.0 as usize
    }

    /// The slot of a signed byte, as the record has it: negative for none.
    pub(crate) fn of_byte(byte: i8) -> Option<Slot> {
        u8::try_from(byte).ok().and_then(Slot::new)
    }

    /// A slot or none as a signed byte, −1 for none.
    pub(crate) fn to_byte(slot: Option<Slot>) -> i8 {
        slot.map_or(-1, |s| s.0 as i8)
    }
}

/// An order hint, 0 to 255. It is no slot.
#[repr(C)]
#[derive(Clone, Copy, Debug, Default, PartialEq, Eq, Hash, PartialOrd, Ord)]
pub struct OrderHint(pub u8);

/// The difference of two order hints of n bits, in −2^(n−1) .. 2^(n−1)−1; of 0 bits, 0.
///
/// Refuses more than 8 bits, [`Refusal::HintBits`].
///
/// ```
/// use refmvs::{get_poc_diff, OrderHint, Refusal};
///
/// assert_eq!(get_poc_diff(4, OrderHint(1), OrderHint(15)), Ok(2));
/// assert_eq!(get_poc_diff(8, OrderHint(128), OrderHint(0)), Ok(-128));
/// assert_eq!(get_poc_diff(9, OrderHint(1), OrderHint(15)), Err(Refusal::HintBits));
/// ```
pub fn get_poc_diff(
    order_hint_n_bits: u32,
    poc0: OrderHint,
    poc1: OrderHint,
) -> Result<i32, Refusal> {
    raw::get_poc_diff(order_hint_n_bits, poc0, poc1)
}
