//! The library's passes beside the published ones, on random stores: every element of the lent slices.
use std::cmp::Ordering;
use std::collections::BTreeMap;
use std::fs;
use std::io::{self, Write};
use std::panic::{self, AssertUnwindSafe};
use std::rc::Rc;

use crate::answers::SOURCE;
use crate::cases::load as cases;
use crate::entry::Source;
use crate::kept::{self, What};
use crate::load::{Call, SLOTS, Store};
use crate::reference::{EMPTY_Y, Held};
use crate::rng::Rng;

const PRINTED_DIFFERENCES: u64 = 10;
const INTERSECT: &str = "check_traj_intersect";
/// Calls of `check_traj_intersect` on a store, one after the other.
pub const INTERSECTIONS: usize = 64;

/// The numbers of a load, as the library takes them.
#[derive(Clone, Copy, Debug)]
#[repr(C)]
pub struct Tile {
    side: usize,
    block: usize,
    edge: usize,
    step: usize,
    wide: usize,
    high: usize,
    stride: usize,
    offset: usize,
    left: usize,
    right: usize,
    top: usize,
    bottom: usize,
}

impl Tile {
    pub fn new(call: &Call) -> Self {
        let g = call.geometry();
        Self {
            side: g.side,
            block: g.block,
            edge: g.edge,
            step: g.step,
            wide: g.wide,
            high: g.high,
            stride: g.stride,
            offset: call.offset(),
            left: call.columns.0,
            right: call.columns.1,
            top: call.rows.0,
            bottom: call.bottom(),
        }
    }
}

unsafe extern "C" {
    fn pass_empty_field(y: *mut i32, y_len: usize, x: *mut i32, x_len: usize, t: Tile);
    fn pass_empty_trajs(
        traj_y: *mut i32,
        traj_y_len: usize,
        traj_x: *mut i32,
        traj_x_len: usize,
        map_y: *mut i8,
        map_y_len: usize,
        map_x: *mut i8,
        map_x_len: usize,
        t: Tile,
    );
    fn pass_fill_gap_traj(
        y: *mut i32,
        y_len: usize,
        x: *mut i32,
        x_len: usize,
        t: Tile,
        slot: usize,
    );
    fn pass_project_source(
        field_y: *mut i32,
        field_y_len: usize,
        field_x: *mut i32,
        field_x_len: usize,
        field_ref: *mut u8,
        field_ref_len: usize,
        traj_y: *mut i32,
        traj_y_len: usize,
        traj_x: *mut i32,
        traj_x_len: usize,
        map_y: *mut i8,
        map_y_len: usize,
        map_x: *mut i8,
        map_x_len: usize,
        planes: *const i8,
        planes_len: usize,
        t: Tile,
        traj: bool,
        present: bool,
        source: Source,
    );
    fn pass_check_traj_intersect(
        traj_y: *mut i32,
        traj_y_len: usize,
        traj_x: *mut i32,
        traj_x_len: usize,
        map_y: *mut i8,
        map_y_len: usize,
        map_x: *mut i8,
        map_x_len: usize,
        t: Tile,
        a: usize,
        b: usize,
        y: usize,
        x: usize,
        mv: Mv,
    );
}

#[derive(Clone, Copy, Debug)]
#[repr(C)]
struct Mv {
    y: i32,
    x: i32,
}

macro_rules! field_passes {
    ($($name:ident($($more:ident: $type:ty)?);)*) => {
        unsafe extern "C" {
            $(fn $name(
                y: *mut i32,
                y_len: usize,
                x: *mut i32,
                x_len: usize,
                reference: *mut u8,
                reference_len: usize,
                t: Tile
                $(, $more: $type)?
            );)*
        }
    };
}

field_passes! {
    pass_copy_above();
    pass_tip_projection(delta: i8);
    pass_fill_holes(delta: i8);
    pass_smoothen(delta: i8);
    pass_fill_gap_proj();
}

/// A pass over the field of a store.
macro_rules! field_pass {
    ($name:ident($store:expr, $t:expr $(, $more:expr)?)) => {{
        let (y, x, reference) = (&mut $store.field_y, &mut $store.field_x, &mut $store.field_ref);
        unsafe {
            $name(
                y.as_mut_ptr(),
                y.len(),
                x.as_mut_ptr(),
                x.len(),
                reference.as_mut_ptr(),
                reference.len(),
                $t
                $(, $more)?
            )
        }
    }};
}

#[derive(Clone, Copy, Debug, PartialEq)]
pub enum Pass {
    /// Copy of the rows above, emptying: no functions of their own in the published source, but what its load does without sources.
    Empty,
    TipProjection,
    FillHoles,
    Smoothen,
    FillGapProj,
    FillGapTraj,
    /// The load without TIP: the published source has no function for the projection alone.
    Project,
}

pub const ALL: [Pass; 7] = [
    Pass::Empty,
    Pass::TipProjection,
    Pass::FillHoles,
    Pass::Smoothen,
    Pass::FillGapProj,
    Pass::FillGapTraj,
    Pass::Project,
];

impl Pass {
    pub fn name(self) -> &'static str {
        match self {
            Pass::Empty => "copy, empty",
            Pass::TipProjection => "tip_projection",
            Pass::FillHoles => "fill_holes",
            Pass::Smoothen => "smoothen",
            Pass::FillGapProj => "fill_gap_proj",
            Pass::FillGapTraj => "fill_gap_traj",
            Pass::Project => "load without TIP",
        }
    }

    /// Gaps are between samples.
    pub fn applies(self, call: &Call) -> bool {
        let gaps = matches!(self, Pass::FillGapProj | Pass::FillGapTraj);
        !gaps || call.geometry().step == 2
    }

    pub fn published(self, call: &Call, held: &mut Held) {
        match self {
            Pass::Empty => held.empty(call),
            Pass::TipProjection => held.tip_projection(call),
            Pass::FillHoles => held.fill_holes(call),
            Pass::Smoothen => held.smoothen(call),
            Pass::FillGapProj => held.fill_gap_proj(call),
            Pass::FillGapTraj => (0..SLOTS).for_each(|slot| held.fill_gap_traj(call, slot)),
            Pass::Project => held.load_tmvs(&without_tip(call)),
        }
    }

    pub fn library(self, call: &Call, store: &mut Store) {
        let (t, delta) = (Tile::new(call), call.setup.tip.delta);
        match self {
            Pass::Empty => empty(call, store),
            Pass::TipProjection => field_pass!(pass_tip_projection(store, t, delta)),
            Pass::FillHoles => field_pass!(pass_fill_holes(store, t, delta)),
            Pass::Smoothen => field_pass!(pass_smoothen(store, t, delta)),
            Pass::FillGapProj => field_pass!(pass_fill_gap_proj(store, t)),
            Pass::FillGapTraj => (0..SLOTS).for_each(|slot| fill_gap_traj(t, slot, store)),
            Pass::Project => project(call, store),
        }
    }
}

fn without_tip(call: &Call) -> Call {
    let mut call = call.clone();
    call.setup.tip_frame_mode = 0;
    call
}

fn project(call: &Call, store: &mut Store) {
    let (t, setup) = (Tile::new(call), &call.setup);
    empty(call, store);
    for source in &setup.sources.mfmv[..setup.sources.n_mfmvs] {
        let present = setup.rp_ref[source.reference.value as usize] != 0;
        project_source(t, call, present, source, store);
    }
    if t.step == 2 {
        (0..setup.n_ref_frames).for_each(|slot| fill_gap_traj(t, slot, store));
        field_pass!(pass_fill_gap_proj(store, t));
    }
}

fn project_source(t: Tile, call: &Call, present: bool, source: &Source, store: &mut Store) {
    let (y, x, reference) = (&mut store.field_y, &mut store.field_x, &mut store.field_ref);
    let (traj_y, traj_x) = (&mut store.traj_y, &mut store.traj_x);
    let (map_y, map_x) = (&mut store.map_y, &mut store.map_x);
    unsafe {
        pass_project_source(
            y.as_mut_ptr(),
            y.len(),
            x.as_mut_ptr(),
            x.len(),
            reference.as_mut_ptr(),
            reference.len(),
            traj_y.as_mut_ptr(),
            traj_y.len(),
            traj_x.as_mut_ptr(),
            traj_x.len(),
            map_y.as_mut_ptr(),
            map_y.len(),
            map_x.as_mut_ptr(),
            map_x.len(),
            call.planes.as_ptr(),
            call.planes.len(),
            t,
            call.traj,
            present,
            *source,
        )
    }
}

fn empty(call: &Call, store: &mut Store) {
    let t = Tile::new(call);
    if !call.whole_frame {
        field_pass!(pass_copy_above(store, t));
    }
    let (y, x) = (&mut store.field_y, &mut store.field_x);
    unsafe { pass_empty_field(y.as_mut_ptr(), y.len(), x.as_mut_ptr(), x.len(), t) };
    if !call.traj {
        return;
    }
    let (y, x) = (&mut store.traj_y, &mut store.traj_x);
    let (map_y, map_x) = (&mut store.map_y, &mut store.map_x);
    unsafe {
        pass_empty_trajs(
            y.as_mut_ptr(),
            y.len(),
            x.as_mut_ptr(),
            x.len(),
            map_y.as_mut_ptr(),
            map_y.len(),
            map_x.as_mut_ptr(),
            map_x.len(),
            t,
        )
    }
}

/// Slots a and b, the block at (y, x), its vector.
#[derive(Clone, Copy, Debug)]
pub struct Intersection {
    slots: [usize; 2],
    at: [usize; 2],
    mv: [i32; 2],
}

impl Intersection {
    /// A sampled block of the tile or of the edge beside it, and a vector of a saved block.
    pub fn random(rng: &mut Rng, call: &Call) -> Self {
        let (g, (left, right)) = (call.geometry(), call.columns);
        let within = |rng: &mut Rng, low: usize, end: usize| {
            let n = rng.within(low as i32, end as i32 - 1) as usize;
            (n - n % g.step).max(low)
        };
        let bits = rng.within(1, 11);
        Self {
            slots: [rng.within(0, 6) as usize, rng.within(0, 6) as usize],
            at: [
                within(rng, call.rows.0, call.bottom()),
                within(
                    rng,
                    left.saturating_sub(g.edge),
                    (right + g.edge).min(g.wide),
                ),
            ],
            mv: [rng.scaled(bits), rng.scaled(bits)],
        }
    }

    pub fn published(&self, call: &Call, held: &mut Held) {
        held.check_traj_intersect(call, self.slots, self.at.map(|n| n as i32), self.mv);
    }

    pub fn library(&self, call: &Call, store: &mut Store) {
        let (traj_y, traj_x) = (&mut store.traj_y, &mut store.traj_x);
        let (map_y, map_x) = (&mut store.map_y, &mut store.map_x);
        let ([a, b], [y, x], [mv_y, mv_x]) = (self.slots, self.at, self.mv);
        unsafe {
            pass_check_traj_intersect(
                traj_y.as_mut_ptr(),
                traj_y.len(),
                traj_x.as_mut_ptr(),
                traj_x.len(),
                map_y.as_mut_ptr(),
                map_y.len(),
                map_x.as_mut_ptr(),
                map_x.len(),
                Tile::new(call),
                a,
                b,
                y,
                x,
                Mv { y: mv_y, x: mv_x },
            )
        }
    }
}

fn fill_gap_traj(t: Tile, slot: usize, store: &mut Store) {
    let (y, x) = (&mut store.traj_y, &mut store.traj_x);
    unsafe { pass_fill_gap_traj(y.as_mut_ptr(), y.len(), x.as_mut_ptr(), x.len(), t, slot) }
}

/// How many of a store's cells are empty, and how long its vectors are.
#[derive(Clone, Copy)]
pub struct Contents {
    pub empty_in: u64,
    pub bits: i32,
}

impl Contents {
    fn random(rng: &mut Rng) -> Self {
        Self {
            empty_in: [2, 2, 3, 16, 1][rng.word() as usize % 5],
            bits: [3, 8, 11, 16][rng.word() as usize % 4],
        }
    }

    fn vector(&self, rng: &mut Rng) -> (i32, i32) {
        let bits = self.bits;
        match self.empty_in {
            // Few vectors, so that each has holes around it.
            1 if !rng.one_in(12) => (EMPTY_Y, 0),
            n if n > 1 && rng.one_in(n) => (EMPTY_Y, 0),
            _ => (rng.scaled(bits).max(-65_535), rng.scaled(bits).max(-65_535)),
        }
    }

    pub fn fill(&self, rng: &mut Rng, store: &mut Store) {
        for at in 0..store.field_y.len() {
            (store.field_y[at], store.field_x[at]) = self.vector(rng);
            store.field_ref[at] = match rng.one_in(8) {
                true => rng.word() as u8,
                false => rng.within(1, 31) as u8,
            };
        }
        for at in 0..store.traj_y.len() {
            (store.traj_y[at], store.traj_x[at]) = self.vector(rng);
        }
        // Near ones lead to a trajectory of the block's window.
        let near = rng.one_in(2);
        for at in 0..store.map_y.len() {
            (store.map_y[at], store.map_x[at]) = match (rng.one_in(4), near) {
                (true, _) => (-128, -128),
                (false, true) => (rng.within(-8, 8) as i8, rng.within(-12, 12) as i8),
                (false, false) => (rng.word() as i8, rng.word() as i8),
            };
        }
    }
}

/// A count of runs, and of those that changed something.
#[derive(Clone, Copy, Default)]
struct Runs {
    all: u64,
    changed: u64,
}

#[derive(Default)]
struct Passes {
    runs: BTreeMap<&'static str, Runs>,
    elements: u64,
    differences: u64,
}

// ---- kept passes

/// The first passes of `ALL`: whole projections are kept as loads.
const KEPT_PASSES: usize = 6;
/// So many cases of each pass are kept.
const KEPT: usize = 4;

const KEPT_HEAD: &str = "# Passes of a load, and what the published pass leaves in the store, for the program replay_loads.
# Made by `oracle/run passes --keep --seed SEED` from SOURCE.
# The lines are those of the loads, with a `pass` line for a `call` line, and no planes:
# pass kind a b y x mv_y mv_x mode trajectories holes column_start column_end row_start row_end: kind 0 copy of the rows
#   above and emptying, 1 tip_projection, 2 fill_holes, 3 smoothen, 4 fill_gap_proj, 5 fill_gap_traj of every slot,
#   6 check_traj_intersect of slots a and b for the vector of the block at (y, x); a to mv_x are 0 for the others
";

pub fn keep(seed: u64) -> io::Result<()> {
    let mut out = io::stdout().lock();
    let head = KEPT_HEAD.replace("SEED", &seed.to_string());
    write!(out, "{}", head.replace("SOURCE", SOURCE))?;
    let mut rng = Rng::new(seed);
    for n in 0..KEPT * (KEPT_PASSES + 1) {
        let kind = n / KEPT;
        let (call, pass, before, after) = loop {
            let call = small(&mut rng, kind);
            let before = little(&mut rng, &call, kind);
            let pass = Kind::random(&mut rng, kind, &call);
            let mut after = before.clone();
            let mut held = Held::new(&call, &before);
            pass.published(&call, &mut held);
            held.take(&mut after);
            if after != before {
                break (call, pass, before, after);
            }
        };
        let text = kept::pass_text(n + 1, pass.numbers(), &call, [&before, &after]);
        write!(out, "# {}\n{text}", pass.name())?;
    }
    Ok(())
}

/// A pass or a call of `check_traj_intersect`, as the kept list has it.
#[derive(Clone, Copy)]
enum Kind {
    Pass(usize),
    Intersect(Intersection),
}

impl Kind {
    fn random(rng: &mut Rng, kind: usize, call: &Call) -> Self {
        match kind < KEPT_PASSES {
            true => Kind::Pass(kind),
            false => Kind::Intersect(Intersection::random(rng, call)),
        }
    }

    fn of([kind, a, b, y, x, mv_y, mv_x]: [i64; kept::PASS_NUMBERS]) -> Option<Self> {
        let kind = usize::try_from(kind).ok()?;
        let intersection = Intersection {
            slots: [a.try_into().ok()?, b.try_into().ok()?],
            at: [y.try_into().ok()?, x.try_into().ok()?],
            mv: [mv_y.try_into().ok()?, mv_x.try_into().ok()?],
        };
        match kind.cmp(&KEPT_PASSES) {
            Ordering::Less => Some(Kind::Pass(kind)),
            Ordering::Equal => Some(Kind::Intersect(intersection)),
            Ordering::Greater => None,
        }
    }

    fn numbers(self) -> [i64; kept::PASS_NUMBERS] {
        match self {
            Kind::Pass(kind) => [kind as i64, 0, 0, 0, 0, 0, 0],
            Kind::Intersect(Intersection { slots, at, mv }) => {
                let [[a, b], [y, x]] = [slots, at].map(|pair| pair.map(|n| n as i64));
                let [mv_y, mv_x] = mv.map(i64::from);
                [KEPT_PASSES as i64, a, b, y, x, mv_y, mv_x]
            }
        }
    }

    fn name(self) -> &'static str {
        match self {
            Kind::Pass(kind) => ALL[kind].name(),
            Kind::Intersect(_) => INTERSECT,
        }
    }

    fn published(self, call: &Call, held: &mut Held) {
        match self {
            Kind::Pass(kind) => ALL[kind].published(call, held),
            Kind::Intersect(intersection) => intersection.published(call, held),
        }
    }

    fn library(self, call: &Call, store: &mut Store) {
        match self {
            Kind::Pass(kind) => ALL[kind].library(call, store),
            Kind::Intersect(intersection) => intersection.library(call, store),
        }
    }
}

/// A tile of a small frame, to which the pass applies.
fn small(rng: &mut Rng, kind: usize) -> Call {
    loop {
        let mut call = cases::random(rng.word()).calls[0].clone();
        let g = call.geometry();
        let applies = kind == KEPT_PASSES || ALL[kind].applies(&call);
        if g.side == 8 && g.stride == 32 && g.wide <= 20 && g.high <= 16 && applies {
            call.setup.rp_ref = [0; 7];
            call.planes = Rc::new(Vec::new());
            return call;
        }
    }
}

/// A store in which only what the pass reads is filled.
fn little(rng: &mut Rng, call: &Call, kind: usize) -> Store {
    let g = call.geometry();
    let mut store = Store::zeroed(&g, call.whole_frame, 0).emptied();
    let (some, near) = (Contents::random(rng), kind == KEPT_PASSES);
    if kind < 5 {
        for at in 0..store.field_y.len() {
            (store.field_y[at], store.field_x[at]) = some.vector(rng);
            store.field_ref[at] = rng.within(1, 31) as u8;
        }
    }
    for at in 0..store.traj_y.len() {
        // Gaps of two slots show all; for check_traj_intersect, few have one.
        let gaps = kind == 5 && at / g.plane() % 3 == 1 && !rng.one_in(3);
        if gaps || (near && rng.one_in(4)) {
            (store.traj_y[at], store.traj_x[at]) = (rng.within(-200, 200), rng.within(-200, 200));
        }
    }
    for at in 0..store.map_y.len() {
        if near && rng.one_in(16) {
            (store.map_y[at], store.map_x[at]) = (rng.within(-3, 3) as i8, rng.within(-8, 8) as i8);
        }
    }
    store
}

/// The kept passes again: the library and the published ones leave what the list says. Tells whether all agreed.
pub fn kept(file: &str) -> io::Result<bool> {
    let text = fs::read_to_string(file)?;
    let mut passes = Passes::default();
    let mut fault = None;
    kept::read_only(&text, What::Passes, |kept| {
        match kept.pass.and_then(Kind::of) {
            None => fault = Some(kept.line),
            Some(kind) => {
                let (name, call) = (kind.name(), &kept.call);
                let line = kept.line as u64;
                passes.both(
                    name,
                    line,
                    call,
                    &kept.before,
                    |held| kind.published(call, held),
                    |store| kind.library(call, store),
                );
                let mut after = kept.before.clone();
                kind.library(call, &mut after);
                if after != kept.after {
                    passes.difference(|| print_differing(name, line, call, &after, &kept.after));
                }
            }
        }
    })?;
    match fault {
        Some(line) => Err(io::Error::other(format!("line {line}: not a pass"))),
        None => Ok(passes.report()),
    }
}

/// 01's example, then random tiles and stores, every pass on each. Tells whether all agreed.
pub fn run(seed: u64, count: u64) -> bool {
    let mut passes = Passes::default();
    passes.lone_vector();
    let mut rng = Rng::new(seed);
    for _ in 0..count {
        passes.random(rng.word());
    }
    passes.report()
}

impl Passes {
    fn random(&mut self, seed: u64) {
        let case = cases::random(seed);
        let mut rng = Rng::new(!seed);
        let call = &case.calls[rng.word() as usize % case.calls.len()];
        let mut store = case.store;
        Contents::random(&mut rng).fill(&mut rng, &mut store);
        for pass in ALL.into_iter().filter(|pass| pass.applies(call)) {
            self.pass(pass, seed, call, &store);
        }
        let intersections: Vec<Intersection> = (0..INTERSECTIONS)
            .map(|_| Intersection::random(&mut rng, call))
            .collect();
        self.both(
            INTERSECT,
            seed,
            call,
            &store,
            |held| intersections.iter().for_each(|m| m.published(call, held)),
            |store| intersections.iter().for_each(|m| m.library(call, store)),
        );
    }

    fn pass(&mut self, pass: Pass, seed: u64, call: &Call, before: &Store) {
        self.both(
            pass.name(),
            seed,
            call,
            before,
            |held| pass.published(call, held),
            |store| pass.library(call, store),
        );
    }

    /// What both leave of a store.
    fn both(
        &mut self,
        name: &'static str,
        seed: u64,
        call: &Call,
        before: &Store,
        published: impl FnOnce(&mut Held),
        library: impl FnOnce(&mut Store),
    ) {
        let mut wanted = before.clone();
        let ran = panic::catch_unwind(AssertUnwindSafe(|| {
            let mut held = Held::new(call, before);
            published(&mut held);
            held.take(&mut wanted);
        }));
        let mut got = before.clone();
        library(&mut got);
        let runs = self.runs.entry(name).or_default();
        runs.all += 1;
        runs.changed += u64::from(got != *before);
        self.elements += got.elements();
        if ran.is_err() {
            self.difference(|| {
                println!(
                    "{name}, seed {seed}: the published pass breaks: {}",
                    cases::text(call)
                )
            });
        } else if got != wanted {
            self.difference(|| print_differing(name, seed, call, &got, &wanted));
        }
    }

    fn difference(&mut self, print: impl FnOnce()) {
        self.differences += 1;
        if self.differences <= PRINTED_DIFFERENCES {
            print();
        }
    }

    /// 01: a lone vector at column 2 of a one-row block of 8 fills 1 and 3 to 7, never 0.
    fn lone_vector(&mut self) {
        let mut call = cases::random(0).calls[0].clone();
        call.setup.width = 64;
        call.setup.height = 8;
        call.setup.sb128 = 0;
        call.setup.tmvp_sample_step = 1;
        call.setup.rp_ref = [0; 7];
        call.whole_frame = false;
        call.columns = (0, 8);
        call.rows = (0, 1);
        let mut store = Store::zeroed(&call.geometry(), false, 0).emptied();
        let at = call.offset();
        (store.field_y[at + 2], store.field_x[at + 2]) = (5, -7);
        self.pass(Pass::FillHoles, 0, &call, &store);
        Pass::FillHoles.library(&call, &mut store);
        let filled: Vec<usize> = (0..8).filter(|&x| store.field_y[at + x] == 5).collect();
        assert_eq!(filled, [1, 2, 3, 4, 5, 6, 7]);
    }

    fn report(&self) -> bool {
        for (name, Runs { all, changed }) in &self.runs {
            println!("{all:>9}  {name}, {changed} of them with a change");
        }
        println!(
            "passes: {} runs, {} elements compared, {} differences",
            self.runs.values().map(|runs| runs.all).sum::<u64>(),
            self.elements,
            self.differences
        );
        self.differences == 0
    }
}

fn print_differing(name: &str, seed: u64, call: &Call, got: &Store, wanted: &Store) {
    let text = cases::text(call);
    for ((list, got), (_, wanted)) in got.lists().into_iter().zip(wanted.lists()) {
        if let Some(at) = (0..got.len()).find(|&at| got[at] != wanted[at]) {
            let (got, wanted) = (got[at], wanted[at]);
            println!("{name}, seed {seed}: {list} {at}: library {got}, published {wanted}: {text}");
        }
    }
}
