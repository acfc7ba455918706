//! The numbers of header and record as the kept list has them, to list and to print.
use crate::entry::{Frame, Header, OrderHint, Slot, Source, Sources, Tip};

// Wide enough for every field, ref_flip too.
pub type Number = i128;

fn numbers<T: Copy + Into<Number>>(values: &[T]) -> Vec<Number> {
    values.iter().map(|&value| value.into()).collect()
}

fn hints(hints: &[OrderHint]) -> Vec<Number> {
    hints.iter().map(|hint| hint.value.into()).collect()
}

pub fn header(h: &Header) -> Vec<Number> {
    let mut all = numbers(&[h.order_hint_n_bits, h.width, h.height, h.n_ref_frames]);
    all.extend(numbers(&[
        h.tip,
        h.sb128,
        h.tmvp_sample_step,
        h.use_ref_frame_mvs,
        h.has_bothside_refs,
        h.tip_frame_mode,
    ]));
    all.extend(numbers(&h.tip_reference));
    all.extend(hints(&[h.frame_offset]));
    all.extend(hints(&h.ref_poc));
    for saved in &h.saved {
        all.extend(hints(&saved.ref_poc));
        all.push(saved.refcnt.into());
    }
    all.extend(numbers(&h.rp_ref));
    all
}

/// Each field's name and numbers.
pub fn frame(f: &Frame) -> Vec<(String, Vec<Number>)> {
    let mut all = vec![
        ("width", numbers(&[f.width])),
        ("height", numbers(&[f.height])),
        ("n_ref_frames", numbers(&[f.n_ref_frames as u64])),
        ("sb128", numbers(&[f.sb128])),
        ("tmvp_sample_step", numbers(&[f.tmvp_sample_step])),
        ("tip_frame_mode", numbers(&[f.tip_frame_mode])),
        ("tip_reference", numbers(&f.tip_reference)),
        ("tip_delta", numbers(&[f.tip.delta])),
        ("tip_sf", numbers(&f.tip.sf)),
        ("ref_flip", numbers(&[f.ref_flip])),
        ("rp_ref", numbers(&f.rp_ref)),
        ("ref_sign", numbers(&f.ref_sign)),
        ("pocdiff", numbers(&f.pocdiff)),
        ("abspocdiff", numbers(&f.abspocdiff)),
        ("mfmv_mask", numbers(&[f.sources.mfmv_mask])),
        ("use_ref_frame_mvs", numbers(&[f.use_ref_frame_mvs])),
        ("n_mfmvs", numbers(&[f.sources.n_mfmvs as u64])),
    ]
    .into_iter()
    .map(|(name, numbers)| (name.to_string(), numbers))
    .collect::<Vec<_>>();
    for (n, s) in f.sources.mfmv.iter().enumerate() {
        all.extend(source(s).map(|(name, numbers)| (format!("mfmv[{n}].{name}"), numbers)));
    }
    all
}

fn source(s: &Source) -> [(&'static str, Vec<Number>); 8] {
    [
        ("reference", numbers(&[s.reference.value])),
        ("tgt", numbers(&[s.tgt])),
        ("dir", numbers(&[s.dir])),
        ("ref2cur", numbers(&[s.ref2cur])),
        ("ref2ref", numbers(&s.ref2ref)),
        ("ref2idx", numbers(&s.ref2idx)),
        ("ref2sf0", numbers(&s.ref2sf0)),
        ("ref2sf1", numbers(&s.ref2sf1)),
    ]
}

/// Numbers that are taken one after the other. None at the end, and for one that does not fit.
struct Taken<'a>(std::slice::Iter<'a, i64>);

impl Taken<'_> {
    fn one<T: TryFrom<i64>>(&mut self) -> Option<T> {
        self.0.next().and_then(|&n| n.try_into().ok())
    }

    fn array<T: TryFrom<i64> + Copy + Default, const N: usize>(&mut self) -> Option<[T; N]> {
        let mut all = [T::default(); N];
        for one in &mut all {
            *one = self.one()?;
        }
        Some(all)
    }

    fn source(&mut self) -> Option<Source> {
        Some(Source {
            reference: Slot { value: self.one()? },
            tgt: self.one()?,
            dir: self.one()?,
            ref2cur: self.one()?,
            ref2ref: self.array()?,
            ref2idx: self.array()?,
            ref2sf0: self.array()?,
            ref2sf1: self.array()?,
        })
    }
}

/// The record of the numbers that `frame` has.
pub fn frame_of(numbers: &[i64]) -> Option<Frame> {
    let mut all = Taken(numbers.iter());
    // Fields are taken in the order in which they are written here.
    let mut frame = Frame {
        width: all.one()?,
        height: all.one()?,
        n_ref_frames: all.one()?,
        sb128: all.one()?,
        tmvp_sample_step: all.one()?,
        tip_frame_mode: all.one()?,
        tip_reference: all.array()?,
        tip: Tip {
            delta: all.one()?,
            sf: all.array()?,
        },
        ref_flip: all.one()?,
        rp_ref: all.array()?,
        ref_sign: all.array()?,
        pocdiff: all.array()?,
        abspocdiff: all.array()?,
        sources: Sources {
            mfmv_mask: all.one()?,
            ..Sources::default()
        },
        use_ref_frame_mvs: all.one()?,
    };
    frame.sources.n_mfmvs = all.one()?;
    for source in &mut frame.sources.mfmv {
        *source = all.source()?;
    }
    all.0.next().is_none().then_some(frame)
}

/// Numbers as a line has them.
pub fn text(numbers: impl IntoIterator<Item = Number>) -> String {
    let words: Vec<String> = numbers.into_iter().map(|n| n.to_string()).collect();
    words.join(" ")
}
