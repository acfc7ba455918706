//! The published setup over the library's header and record.
use crate::entry::{self, Header, OrderHint, Slot, Source, Sources, Tip};
use crate::headers::{FrameHeader, SequenceHeader};
use crate::refmvs::{self, Frame, FrameTip, MfmvRef, TemporalBlock};

/// The record of a header that the scope accepts, from a zeroed frame.
pub fn init_frame(header: &Header) -> entry::Frame {
    Decoder::default().init_frame(header)
}

/// The published frame itself, with these planes, set up for loads in whole-frame mode.
pub(super) fn whole_frame(header: &Header, planes: [Option<Vec<TemporalBlock>>; 7]) -> Frame {
    let mut decoder = Decoder {
        frame: Frame::default(),
        ..Decoder::default()
    };
    decoder.prepare(header);
    decoder.planes = planes;
    decoder.run(true);
    decoder.frame
}

/// What a decoder keeps from frame to frame, and the arguments of the next setup.
pub struct Decoder {
    seq_hdr: SequenceHeader,
    frm_hdr: FrameHeader,
    ref_poc: [u8; 7],
    ref_ref_poc: [[u8; 7]; 7],
    refcnt: [u8; 7],
    planes: [Option<Vec<TemporalBlock>>; 7],
    frame: Frame,
}

fn hints(hints: [OrderHint; 7]) -> [u8; 7] {
    hints.map(|hint| hint.value)
}

impl Default for Decoder {
    fn default() -> Self {
        // The store counts as allocated: the record does not depend on it.
        let frame = Frame {
            n_blocks: i32::MAX,
            ..Frame::default()
        };
        Self {
            seq_hdr: SequenceHeader::default(),
            frm_hdr: FrameHeader::default(),
            ref_poc: [0; 7],
            ref_ref_poc: [[0; 7]; 7],
            refcnt: [0; 7],
            planes: Default::default(),
            frame,
        }
    }
}

impl Decoder {
    /// The record of a header that the scope accepts; what is not written stays as it was.
    pub fn init_frame(&mut self, header: &Header) -> entry::Frame {
        self.prepare(header);
        self.run(false);
        self.record(header)
    }

    /// Takes over the header. Past the scope's refusals no number is cut.
    fn prepare(&mut self, header: &Header) {
        self.seq_hdr.order_hint_n_bits = header.order_hint_n_bits as u8;
        self.seq_hdr.tip = header.tip != 0;
        self.frm_hdr.width = header.width as i32;
        self.frm_hdr.height = header.height as i32;
        self.frm_hdr.n_ref_frames = header.n_ref_frames as u8;
        self.frm_hdr.sb128 = header.sb128;
        self.frm_hdr.tmvp_sample_step = header.tmvp_sample_step;
        self.frm_hdr.use_ref_frame_mvs = header.use_ref_frame_mvs;
        self.frm_hdr.has_bothside_refs = header.has_bothside_refs;
        self.frm_hdr.tip.frame_mode = header.tip_frame_mode;
        self.frm_hdr.tip.reference = header.tip_reference;
        self.frm_hdr.frame_offset = header.frame_offset.value;
        self.ref_poc = hints(header.ref_poc);
        self.ref_ref_poc = header.saved.map(|saved| hints(saved.ref_poc));
        self.refcnt = header.saved.map(|saved| saved.refcnt);
        // Without blocks, so that no plane is copied: the setup asks only which are there.
        self.planes = header.rp_ref.map(|present| (present != 0).then(Vec::new));
    }

    fn run(&mut self, whole_frame: bool) {
        refmvs::init_frame(
            &mut self.frame,
            &self.seq_hdr,
            &self.frm_hdr,
            &self.ref_poc,
            &self.ref_ref_poc,
            &self.refcnt,
            &self.planes,
            false,
            whole_frame,
        )
        .unwrap();
    }

    /// Zeroes what a setup may leave unwritten.
    pub fn clear(&mut self) {
        let frame = &mut self.frame;
        frame.tip = FrameTip::default();
        frame.ref_sign = [0; 7];
        frame.pocdiff = [0; 7];
        frame.abspocdiff = [0; 7];
        frame.mfmv = [MfmvRef::default(); 4];
        frame.mfmv_ref2cur = [0; 4];
        frame.mfmv_ref2ref = [[0; 7]; 4];
        frame.mfmv_ref2idx = [[0; 7]; 4];
        frame.mfmv_ref2sf = [[[0; 2]; 7]; 4];
    }

    /// The record. What the published frame does not keep is the header's.
    fn record(&self, header: &Header) -> entry::Frame {
        let frame = &self.frame;
        entry::Frame {
            width: header.width,
            height: header.height,
            sb128: header.sb128,
            tmvp_sample_step: header.tmvp_sample_step,
            n_ref_frames: header.n_ref_frames as usize,
            tip_frame_mode: header.tip_frame_mode,
            tip_reference: frame.tip.reference.refs(),
            rp_ref: header.rp_ref.map(|present| u8::from(present != 0)),
            ref_sign: frame.ref_sign,
            pocdiff: frame.pocdiff,
            abspocdiff: frame.abspocdiff,
            ref_flip: frame.ref_flip,
            tip: Tip {
                delta: frame.tip.delta,
                sf: frame.tip.sf,
            },
            use_ref_frame_mvs: frame.use_ref_frame_mvs as u8,
            sources: Sources {
                mfmv: std::array::from_fn(|n| self.source(n)),
                n_mfmvs: frame.n_mfmvs as usize,
                mfmv_mask: frame.mfmv_mask,
            },
        }
    }

    fn source(&self, n: usize) -> Source {
        let frame = &self.frame;
        let MfmvRef {
            reference,
            tgt,
            dir,
        } = frame.mfmv[n];
        Source {
            reference: Slot { value: reference },
            tgt,
            dir,
            ref2cur: frame.mfmv_ref2cur[n],
            ref2ref: frame.mfmv_ref2ref[n],
            ref2idx: frame.mfmv_ref2idx[n],
            ref2sf0: frame.mfmv_ref2sf[n].map(|factors| factors[0]),
            ref2sf1: frame.mfmv_ref2sf[n].map(|factors| factors[1]),
        }
    }
}
