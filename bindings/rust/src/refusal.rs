//! Why a call is turned back.
use std::error::Error;
use std::fmt;

/// Why a call was refused. A refused call has changed nothing.
///
/// ```
/// use refmvs::{get_poc_diff, OrderHint, Refusal};
///
/// let refusal = get_poc_diff(9, OrderHint(1), OrderHint(15)).unwrap_err();
/// assert_eq!(refusal, Refusal::HintBits);
/// assert_eq!(refusal.number(), 3);
/// assert_eq!(refusal.to_string(), "hint bits above 8 (refusal 3)");
/// ```
#[derive(Clone, Copy, Debug, PartialEq, Eq, Hash, PartialOrd, Ord)]
pub enum Refusal {
    /// 1: a component past ±65,535, bounds crossed, or a factor past ±507,904.
    Range = 1,
    /// 2: exactly one byte of a packed vector is −128.
    HalfMark = 2,
    /// 3: hint bits above 8.
    HintBits = 3,
    /// 4: more than seven slots in use.
    Slots = 4,
    /// 5: superblock code above 2.
    Superblock = 5,
    /// 6: sample step not 1 or 2.
    Step = 6,
    /// 7: width or height not 1 to 65,536.
    Size = 7,
    /// 8: a TIP slot that is not a slot in use, where the setup looks at the TIP pair.
    TipSlot = 8,
    /// 9: a record that is no setup's.
    Setup = 9,
    /// 10: columns or rows that are no tile's.
    Tile = 10,
    /// 11: planes, or a list of the store, shorter than stated.
    Length = 11,
    /// 12: a saved block of the superblock row, or a trajectory, out of range.
    Contents = 12,
}

impl Refusal {
    /// All refusals, in the order in which they are tested.
    ///
    /// ```
    /// assert!(refmvs::Refusal::ALL.iter().map(|r| r.number()).eq(1..=12));
    /// ```
    pub const ALL: [Refusal; 12] = [
        Refusal::Range,
        Refusal::HalfMark,
        Refusal::HintBits,
        Refusal::Slots,
        Refusal::Superblock,
        Refusal::Step,
        Refusal::Size,
        Refusal::TipSlot,
        Refusal::Setup,
        Refusal::Tile,
        Refusal::Length,
        Refusal::Contents,
    ];

    /// The number, 1 to 12.
    ///
    /// ```
    /// assert_eq!(refmvs::Refusal::Contents.number(), 12);
    /// ```
    pub const fn number(self) -> u32 {
        self as u32
    }

    /// What an entry's number says: 0 is no refusal.
    pub(crate) fn from_answer(number: u32) -> Result<(), Refusal> {
        match Refusal::ALL.into_iter().find(|r| r.number() == number) {
            Some(refusal) => Err(refusal),
            None => {
                // No entry answers another number: that is proved of each.
                assert_eq!(number, 0, "no refusal has this number");
                Ok(())
            }
        }
    }

    const fn sentence(self) -> &'static str {
        match self {
            Refusal::Range => "a component past ±65535, bounds crossed, or a factor past ±507904",
            Refusal::HalfMark => "exactly one byte of a packed vector is -128",
            Refusal::HintBits => "hint bits above 8",
            Refusal::Slots => "more than 7 slots in use",
            Refusal::Superblock => "superblock code above 2",
            Refusal::Step => "sample step not 1 or 2",
            Refusal::Size => "width or height not 1 to 65536",
            Refusal::TipSlot => "a TIP slot that is not a slot in use",
            Refusal::Setup => "a setup out of its ranges",
            Refusal::Tile => "columns or rows that are no tile's",
            Refusal::Length => "planes, or a list of the store, shorter than stated",
            Refusal::Contents => {
                "a saved block of the superblock row, or a trajectory, out of range"
            }
        }
    }
}

impl fmt::Display for Refusal {
    fn fmt(&self, f: &mut fmt::Formatter<'_>) -> fmt::Result {
        write!(f, "{} (refusal {})", self.sentence(), self.number())
    }
}

impl Error for Refusal {}
