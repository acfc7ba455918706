//! The setup of a frame.
use crate::cells::Cells;
use crate::hints::{OrderHint, Slot};
use crate::raw;
use crate::refusal::Refusal;

/// What was saved with a slot.
#[repr(C)]
#[derive(Clone, Copy, Debug, Default, PartialEq, Eq)]
pub struct Saved {
    /// The hints of its references.
    pub ref_poc: [OrderHint; 7],
    /// How many references it has; 0 for none.
    pub refcnt: u8,
}

/// The values of the sequence's and the frame's header that a setup is made of. Arrays of seven go by slot.
///
/// The default is all zeros and switches off, which is no frame yet: it has no size and no sample step.
#[derive(Clone, Copy, Debug, Default, PartialEq, Eq)]
pub struct Header {
    /// Bits of an order hint, 0 to 8.
    pub order_hint_n_bits: u32,
    /// The frame's width in pixels, 1 to 65,536.
    pub width: u32,
    /// The frame's height in pixels, 1 to 65,536.
    pub height: u32,
    /// How many slots are in use, 0 to 7.
    pub n_ref_frames: u32,
    /// The sequence's TIP switch.
    pub tip: bool,
    /// The superblock code, 0 to 2.
    pub sb128: u8,
    /// The sample step, 1 or 2.
    pub tmvp_sample_step: u8,
    /// The frame's switch: whether motion is projected at all.
    pub use_ref_frame_mvs: bool,
    /// Whether the frame has references on both sides.
    pub has_bothside_refs: bool,
    /// The frame's TIP mode; 0 is off.
    pub tip_frame_mode: u8,
    /// The TIP pair.
    pub tip_reference: [Option<Slot>; 2],
    /// The frame's own hint.
    pub frame_offset: OrderHint,
    /// The slots' hints.
    pub ref_poc: [OrderHint; 7],
    /// What was saved with the slots.
    pub saved: [Saved; 7],
    /// Whether a slot's plane of saved blocks is present.
    pub rp_ref: [bool; 7],
}

/// A source: the slot that motion is projected from.
#[repr(C)]
#[derive(Clone, Copy, Debug, Default, PartialEq, Eq)]
pub struct Source {
    /// The slot.
    pub reference: Slot,
    /// The TIP target's slot, or −1; see [`Source::target`].
    pub tgt: i8,
    /// Which of a saved block's two vectors is read, 0 or 1.
    pub dir: u8,
    /// The distance from the frame to the slot; −32 where it is too far, and the source is skipped.
    pub ref2cur: i8,
    /// The distance from each of the slot's own references to the slot; 0 where it is past ±31.
    pub ref2ref: [i8; 7],
    /// The slot of this frame that has each of these references, or −1; see [`Source::slot_of`].
    pub ref2idx: [i8; 7],
    /// For each of these references, ref2cur over its distance, in parts of 16,384.
    pub ref2sf0: [i32; 7],
    /// For each of these references, what is left of its distance over its distance, in parts of 16,384.
    pub ref2sf1: [i32; 7],
}

impl Source {
    /// The TIP target's slot.
    ///
    /// ```
    /// use refmvs::{Slot, Source};
    ///
    /// assert_eq!(Source { tgt: -1, ..Source::default() }.target(), None);
    /// assert_eq!(Source { tgt: 2, ..Source::default() }.target(), Some(Slot::ALL[2]));
    /// ```
    pub fn target(&self) -> Option<Slot> {
        Slot::of_byte(self.tgt)
    }

    /// The slot of this frame that has reference n of the source, where there is one.
    ///
    /// ```
    /// use refmvs::{Slot, Source};
    ///
    /// let source = Source { ref2idx: [3, -1, -1, -1, -1, -1, -1], ..Source::default() };
    /// assert_eq!(source.slot_of(0), Some(Slot::ALL[3]));
    /// assert_eq!(source.slot_of(1), None);
    /// assert_eq!(source.slot_of(7), None);
    /// ```
    pub fn slot_of(&self, n: usize) -> Option<Slot> {
        self.ref2idx.get(n).copied().and_then(Slot::of_byte)
    }
}

/// The frame's own pair of references.
#[repr(C)]
#[derive(Clone, Copy, Debug, Default, PartialEq, Eq)]
pub struct Tip {
    /// Their distance, in a signed byte: 128 is −128.
    pub delta: i8,
    /// The factor of each.
    pub sf: [i32; 2],
}

/// The sources of a setup.
#[repr(C)]
#[derive(Clone, Copy, Debug, Default, PartialEq, Eq)]
pub struct Sources {
    /// The sources; those from `n_mfmvs` on are not used.
    pub mfmv: [Source; 4],
    /// How many there are.
    pub n_mfmvs: usize,
    /// The mask of the slots that are used, bit i for slot i.
    pub mfmv_mask: u8,
}

/// The setup record as C has it: numbers of any value, switches as bytes, on where not 0. [`Setup`] is one that a load
/// accepts.
#[repr(C)]
#[derive(Clone, Copy, Debug, Default, PartialEq, Eq)]
pub struct Frame {
    /// The frame's width in pixels.
    pub width: u32,
    /// The frame's height in pixels.
    pub height: u32,
    /// The superblock code.
    pub sb128: u8,
    /// The sample step.
    pub tmvp_sample_step: u8,
    /// How many slots are in use.
    pub n_ref_frames: usize,
    /// The frame's TIP mode; 0 is off.
    pub tip_frame_mode: u8,
    /// The TIP pair, −1 for none.
    pub tip_reference: [i8; 2],
    /// Whether a slot's plane is present.
    pub rp_ref: [u8; 7],
    /// A slot's sign: 1 where its hint is before the frame's.
    pub ref_sign: [u8; 7],
    /// The difference from the slot's hint to the frame's, clipped to ±31.
    pub pocdiff: [i8; 7],
    /// Its magnitude.
    pub abspocdiff: [u8; 7],
    /// The flip mask, bit 8 i + n for slots i and n.
    pub ref_flip: u64,
    /// The TIP numbers.
    pub tip: Tip,
    /// Whether there are sources.
    pub use_ref_frame_mvs: u8,
    /// The sources.
    pub sources: Sources,
}

/// A setup record that has passed the tests of a load: that of an accepted header, or one that was made elsewhere and
/// has been tested.
#[derive(Clone, Copy, Debug, PartialEq, Eq)]
pub struct Setup {
    frame: Frame,
    cells: Cells,
}

impl Setup {
    /// A record that was made elsewhere, tested as a load tests it.
    ///
    /// Refuses a record whose numbers are out of their ranges, [`Refusal::Setup`].
    ///
    /// ```
    /// use refmvs::{Frame, Refusal, Setup};
    ///
    /// let mut frame = Frame { width: 64, height: 64, tmvp_sample_step: 1, ..Frame::default() };
    /// assert_eq!(Setup::from_frame(frame)?.cells().wide(), 8);
    /// frame.sources.n_mfmvs = 5;
    /// assert_eq!(Setup::from_frame(frame), Err(Refusal::Setup));
    /// # Ok::<(), Refusal>(())
    /// ```
    pub fn from_frame(frame: Frame) -> Result<Setup, Refusal> {
        raw::test_frame(&frame)?;
        let cells = Cells::new(frame.width, frame.height, frame.sb128)?;
        Ok(Setup { frame, cells })
    }

    /// The record.
    ///
    /// ```
    /// # use refmvs::{init_frame, Header};
    /// let setup = init_frame(&Header { width: 64, height: 64, tmvp_sample_step: 1, ..Header::default() })?;
    /// assert_eq!(setup.frame().width, 64);
    /// # Ok::<(), refmvs::Refusal>(())
    /// ```
    pub const fn frame(&self) -> &Frame {
        &self.frame
    }

    /// The frame in cells, and the lengths of its store and planes.
    ///
    /// ```
    /// # use refmvs::{init_frame, Header};
    /// let setup = init_frame(&Header { width: 64, height: 64, tmvp_sample_step: 1, ..Header::default() })?;
    /// assert_eq!(setup.cells().traj_len(), 7 * 8 * 32);
    /// # Ok::<(), refmvs::Refusal>(())
    /// ```
    pub const fn cells(&self) -> &Cells {
        &self.cells
    }

    /// The sources, in the order in which they are projected.
    ///
    /// ```
    /// # use refmvs::{init_frame, Header};
    /// let setup = init_frame(&Header { width: 64, height: 64, tmvp_sample_step: 1, ..Header::default() })?;
    /// assert!(setup.sources().is_empty()); // the frame's switch is off
    /// # Ok::<(), refmvs::Refusal>(())
    /// ```
    pub fn sources(&self) -> &[Source] {
        // A setup counts at most four sources.
        &self.frame.sources.mfmv[..self.frame.sources.n_mfmvs]
    }
}

/// The setup of a frame: signs and differences of its slots, TIP numbers, and up to four sources with their factors.
///
/// Refuses what is out of range in the header, [`Refusal::HintBits`] to [`Refusal::TipSlot`].
///
/// ```
/// use refmvs::{init_frame, Header, OrderHint, Refusal, Slot};
///
/// let mut header = Header {
///     order_hint_n_bits: 4,
///     width: 64,
///     height: 64,
///     n_ref_frames: 3,
///     tmvp_sample_step: 1,
///     use_ref_frame_mvs: true,
///     frame_offset: OrderHint(0),
///     ref_poc: [8, 1, 2, 0, 0, 0, 0].map(OrderHint),
///     rp_ref: [true; 7],
///     ..Header::default()
/// };
/// let setup = init_frame(&header)?;
/// assert_eq!(setup.frame().pocdiff, [-8, -1, -2, 0, 0, 0, 0]);
/// assert!(setup.sources().iter().map(|s| s.reference).eq([2, 2, 1, 1].map(|n| Slot::ALL[n])));
///
/// header.width = 0;
/// assert_eq!(init_frame(&header), Err(Refusal::Size));
/// # Ok::<(), Refusal>(())
/// ```
pub fn init_frame(header: &Header) -> Result<Setup, Refusal> {
    let frame = raw::init_frame(header)?;
    let cells = Cells::new(frame.width, frame.height, frame.sb128)?;
    Ok(Setup { frame, cells })
}
