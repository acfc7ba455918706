//! The published load over lent slices.
use super::setup;
use crate::entry::Header;
use crate::headers::{FrameHeader, SequenceHeader};
use crate::levels::{Mv, RefPair};
use crate::load::{BLOCK_BYTES, Call, Geometry, MAP_PLANES, SLOTS, Store};
use crate::refmvs::{
    self, Frame, MfmvRef, QMv, SnglMvBlock, TemporalBlock, TemporalBlockMv, TrajMap,
};

/// A call that the scope accepts. What lies behind the stated lengths is not handed over.
pub fn load_tmvs(call: &Call, store: &mut Store) {
    let mut held = Held::new(call, store);
    held.load_tmvs(call);
    held.take(store);
}

/// A store as the published functions hold it, in their own types, with a call's setup and planes.
pub struct Held {
    frame: Frame,
    geometry: Geometry,
}

impl Held {
    pub fn new(call: &Call, store: &Store) -> Self {
        let geometry = call.geometry();
        let mut frame = sized(call);
        hand_setup(call, &mut frame);
        hand_planes(call, &geometry, &mut frame);
        hand_store(store, &geometry, &mut frame);
        Self { frame, geometry }
    }

    /// The frame as the published setup of the header leaves it; the call is one of its tiles, in whole-frame mode.
    pub fn set_up(header: &Header, call: &Call, store: &Store) -> Self {
        let geometry = call.geometry();
        let planes = std::array::from_fn(|slot| plane(call, &geometry, slot));
        let mut frame = setup::whole_frame(header, planes);
        hand_store(store, &geometry, &mut frame);
        Self { frame, geometry }
    }

    /// The store again. What lies behind the stated lengths stays.
    pub fn take(&self, store: &mut Store) {
        take_store(&self.frame, &self.geometry, store);
    }

    /// The cells of another store of the same sizes.
    pub fn restore(&mut self, other: &Held) {
        self.frame.rp_proj.copy_from_slice(&other.frame.rp_proj);
        for slot in 0..SLOTS {
            self.frame.rp_traj[slot].copy_from_slice(&other.frame.rp_traj[slot]);
            for k in 0..MAP_PLANES {
                self.frame.rp_map[k][slot].copy_from_slice(&other.frame.rp_map[k][slot]);
            }
        }
    }

    pub fn load_tmvs(&mut self, call: &Call) {
        let setup = &call.setup;
        refmvs::load_tmvs(
            &mut self.frame,
            0,
            call.columns.0 as i32,
            call.columns.1 as i32,
            call.rows.0 as i32,
            call.rows.1 as i32,
            call.traj,
            setup.tip_frame_mode,
            call.holes,
            i32::from(setup.tmvp_sample_step),
            setup.n_ref_frames as i32,
        );
    }

    /// A load of a call without sources, TIP and slots: copy of the rows above and emptying alone, as all that follows finds empty cells.
    pub fn empty(&mut self, call: &Call) {
        let mut call = call.clone();
        call.setup.n_ref_frames = 0;
        call.setup.tip_frame_mode = 0;
        let sources = std::mem::take(&mut self.frame.n_mfmvs);
        self.load_tmvs(&call);
        self.frame.n_mfmvs = sources;
    }

    pub fn tip_projection(&mut self, call: &Call) {
        self.over_field(call, refmvs::tip_projection);
    }

    pub fn fill_holes(&mut self, call: &Call) {
        self.over_field(call, refmvs::fill_holes);
    }

    pub fn smoothen(&mut self, call: &Call) {
        self.over_field(call, refmvs::smoothen);
    }

    fn over_field(&mut self, call: &Call, pass: FieldPass) {
        let (g, [left, right, top, bottom]) = (&self.geometry, bounds(call));
        pass(
            &mut self.frame.rp_proj[call.offset()..],
            g.stride as isize,
            left,
            right,
            top,
            bottom,
            g.block as i32,
            g.side as i32,
            g.step as i32,
            call.setup.tip.delta,
        );
    }

    pub fn fill_gap_proj(&mut self, call: &Call) {
        let field = &mut self.frame.rp_proj[call.offset()..];
        over_gaps(field, &self.geometry, call, refmvs::fill_gap_proj);
    }

    /// Slots a and b, the block at (y, x), its vector.
    pub fn check_traj_intersect(
        &mut self,
        call: &Call,
        [a, b]: [usize; 2],
        at: [i32; 2],
        mv: [i32; 2],
    ) {
        let (trajs, maps) = (&mut self.frame.rp_traj, &mut self.frame.rp_map);
        let (mut trajs, mut maps) = (std::mem::take(trajs), std::mem::take(maps));
        let shift = self.frame.mfmv_k_shift;
        refmvs::check_traj_intersect(
            &self.frame,
            &mut trajs,
            &mut maps,
            a,
            b,
            at[0],
            at[1],
            Mv::from_xy(mv[0], mv[1]),
            call.columns.0 as i32 >> shift,
            (call.columns.1 as i32 - 1) >> shift,
            !(self.geometry.step as i32 - 1),
        );
        (self.frame.rp_traj, self.frame.rp_map) = (trajs, maps);
    }

    pub fn fill_gap_traj(&mut self, call: &Call, slot: usize) {
        let trajs = &mut self.frame.rp_traj[slot];
        over_gaps(trajs, &self.geometry, call, refmvs::fill_gap_traj);
    }
}

type GapPass<T> = fn(&mut [T], isize, i32, i32, i32, i32, i32, i32);

fn over_gaps<T>(cells: &mut [T], g: &Geometry, call: &Call, pass: GapPass<T>) {
    let [left, right, top, bottom] = bounds(call);
    let (block, side) = (g.block as i32, g.side as i32);
    pass(
        cells,
        g.stride as isize,
        left,
        right,
        top,
        bottom,
        block,
        side,
    );
}

type FieldPass = fn(&mut [SnglMvBlock], isize, i32, i32, i32, i32, i32, i32, i32, i8);

/// The tile's columns and rows, as the published passes take them.
fn bounds(call: &Call) -> [i32; 4] {
    let (left, right) = call.columns;
    [left, right, call.rows.0, call.bottom()].map(|n| n as i32)
}

/// A frame whose sizes the published setup has worked out, and whose store it has allocated.
fn sized(call: &Call) -> Frame {
    let frm_hdr = FrameHeader {
        width: call.setup.width as i32,
        height: call.setup.height as i32,
        sb128: call.setup.sb128,
        tmvp_sample_step: call.setup.tmvp_sample_step,
        ..FrameHeader::default()
    };
    let mut frame = Frame::default();
    refmvs::init_frame(
        &mut frame,
        &SequenceHeader::default(),
        &frm_hdr,
        &[0; 7],
        &[[0; 7]; 7],
        &[0; 7],
        &Default::default(),
        false,
        call.whole_frame,
    )
    .unwrap();
    frame
}

fn hand_setup(call: &Call, frame: &mut Frame) {
    let sources = &call.setup.sources;
    frame.tip.delta = call.setup.tip.delta;
    frame.n_mfmvs = sources.n_mfmvs as i32;
    for (n, source) in sources.mfmv.iter().enumerate() {
        frame.mfmv[n] = MfmvRef {
            reference: source.reference.value,
            tgt: source.tgt,
            dir: source.dir,
        };
        frame.mfmv_ref2cur[n] = source.ref2cur;
        frame.mfmv_ref2ref[n] = source.ref2ref;
        frame.mfmv_ref2idx[n] = source.ref2idx;
        let pair = |m: usize| [source.ref2sf0[m], source.ref2sf1[m]];
        frame.mfmv_ref2sf[n] = std::array::from_fn(pair);
    }
}

fn hand_planes(call: &Call, geometry: &Geometry, frame: &mut Frame) {
    for slot in 0..SLOTS {
        frame.rp_ref[slot] = plane(call, geometry, slot).unwrap_or_default();
    }
}

/// A slot's plane, where the setup has it.
fn plane(call: &Call, geometry: &Geometry, slot: usize) -> Option<Vec<TemporalBlock>> {
    if call.setup.rp_ref[slot] == 0 {
        return None;
    }
    let size = geometry.high * geometry.stride * BLOCK_BYTES;
    let bytes = &call.planes[slot * size..(slot + 1) * size];
    let blocks = bytes.chunks_exact(BLOCK_BYTES).map(|b| TemporalBlock {
        mv: TemporalBlockMv::from_mvs(QMv { c: [b[0], b[1]] }, QMv { c: [b[2], b[3]] }),
        reference: RefPair::from_refs(b[4], b[5]),
    });
    Some(blocks.collect())
}

fn hand_store(store: &Store, geometry: &Geometry, frame: &mut Frame) {
    for (at, cell) in frame.rp_proj.iter_mut().enumerate() {
        *cell = SnglMvBlock {
            mv: Mv::from_xy(store.field_y[at], store.field_x[at]),
            reference: store.field_ref[at],
        };
    }
    let plane = geometry.plane();
    for slot in 0..SLOTS {
        assert_eq!(frame.rp_traj[slot].len(), plane);
        for (at, cell) in frame.rp_traj[slot].iter_mut().enumerate() {
            let at = slot * plane + at;
            *cell = Mv::from_xy(store.traj_y[at], store.traj_x[at]);
        }
        for k in 0..MAP_PLANES {
            for (at, cell) in frame.rp_map[k][slot].iter_mut().enumerate() {
                let at = (k * SLOTS + slot) * plane + at;
                let (y, x) = (store.map_y[at], store.map_x[at]);
                *cell = TrajMap { y, x };
            }
        }
    }
}

fn take_store(frame: &Frame, geometry: &Geometry, store: &mut Store) {
    for (at, cell) in frame.rp_proj.iter().enumerate() {
        (store.field_y[at], store.field_x[at]) = (cell.mv.y(), cell.mv.x());
        store.field_ref[at] = cell.reference;
    }
    let plane = geometry.plane();
    for slot in 0..SLOTS {
        for (at, cell) in frame.rp_traj[slot].iter().enumerate() {
            let at = slot * plane + at;
            (store.traj_y[at], store.traj_x[at]) = (cell.y(), cell.x());
        }
        for k in 0..MAP_PLANES {
            for (at, cell) in frame.rp_map[k][slot].iter().enumerate() {
                let at = (k * SLOTS + slot) * plane + at;
                (store.map_y[at], store.map_x[at]) = (cell.y, cell.x);
            }
        }
    }
}
