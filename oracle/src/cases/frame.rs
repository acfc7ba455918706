//! Frame files at random: frames that can be shown, and files with something of them changed.
use super::load;
use super::setup;
use crate::entry::{Header, OrderHint};
use crate::frame_file::{FrameFile, HEAD, SHOWN_LIMIT};
use crate::load::{BLOCK_BYTES, Geometry, SLOTS};
use crate::reference;
use crate::rng::Rng;

/// One frame in so many may be as large as frames are shown.
const LARGE: u64 = 50;
const NO_PLANES: u64 = 16;

/// All from the seed.
pub fn random(seed: u64) -> FrameFile {
    let mut rng = Rng::new(seed);
    let rng = &mut rng;
    let mut header = match rng.one_in(3) {
        true => setup::random(rng),
        false => near(rng),
    };
    if rng.one_in(NO_PLANES) {
        header.rp_ref = [0; 7];
    }
    (header.width, header.height) = size(rng);
    of_header(rng, header)
}

/// A random frame with this header, which is accepted.
pub(super) fn of_header(rng: &mut Rng, header: Header) -> FrameFile {
    let geometry = Geometry::new(&reference::init_frame(&header));
    FrameFile {
        traj: switch(rng),
        holes: switch(rng),
        ends: ends(rng, &geometry),
        planes: planes(rng, &header),
        header,
    }
}

/// Slots near the frame with references near them, so that most sources are projected.
fn near(rng: &mut Rng) -> Header {
    let mut header = setup::random(rng);
    let n = rng.within(2, 7);
    let around = |rng: &mut Rng, hint: OrderHint, most: i32| OrderHint {
        value: hint.value.wrapping_add(rng.within(-most, most) as u8),
    };
    header.order_hint_n_bits = rng.within(6, 8) as u32;
    header.n_ref_frames = n as u32;
    header.use_ref_frame_mvs = 1;
    header.tip_reference = std::array::from_fn(|_| rng.within(0, n - 1) as i8);
    for slot in 0..SLOTS {
        header.ref_poc[slot] = around(rng, header.frame_offset, 5);
        let saved = &mut header.saved[slot];
        saved.refcnt = rng.within(1, 7) as u8;
        saved.ref_poc = std::array::from_fn(|_| around(rng, header.ref_poc[slot], 8));
    }
    header
}

fn size(rng: &mut Rng) -> (u32, u32) {
    if rng.one_in(LARGE) {
        return (large(rng), large(rng));
    }
    (small(rng), small(rng))
}

fn large(rng: &mut Rng) -> u32 {
    match rng.one_in(2) {
        true => SHOWN_LIMIT,
        false => rng.within(1, SHOWN_LIMIT as i32) as u32,
    }
}

/// Up to a few superblocks, odd ones often.
fn small(rng: &mut Rng) -> u32 {
    let most = [8, 20, 40, 80][rng.word() as usize % 4];
    let cells = rng.within(1, most);
    let odd = if rng.one_in(3) { cells | 1 } else { cells };
    load::pixels(rng, odd)
}

fn switch(rng: &mut Rng) -> u8 {
    match rng.word() % 8 {
        0 => rng.word() as u8,
        1..=4 => 1,
        _ => 0,
    }
}

/// One tile column, or the width cut at none to all superblocks.
fn ends(rng: &mut Rng, geometry: &Geometry) -> Vec<u32> {
    let keep = rng.within(0, 3);
    let cuts = (geometry.side..geometry.wide).step_by(geometry.side);
    let mut all: Vec<u32> = cuts
        .filter(|_| rng.within(1, 3) <= keep)
        .map(|cut| cut as u32)
        .collect();
    all.push(geometry.wide as u32);
    all
}

/// The planes that are present. What no source reads may be anything.
fn planes(rng: &mut Rng, header: &Header) -> Vec<i8> {
    let setup = reference::init_frame(header);
    let geometry = Geometry::new(&setup);
    let sources = &setup.sources.mfmv[..setup.sources.n_mfmvs];
    let is_read = |slot: usize, dir: usize| {
        let mut reading = sources.iter().filter(|source| source.ref2cur != -32);
        reading.any(|s| (s.reference.value as usize, s.dir as usize) == (slot, dir))
    };
    let strided = load::blocks(rng, &setup, &geometry);
    let wild = rng.one_in(4);
    let mut all = Vec::new();
    for slot in (0..SLOTS).filter(|&slot| header.rp_ref[slot] != 0) {
        let at = all.len();
        for y in 0..geometry.high {
            let row = (slot * geometry.high + y) * geometry.stride * BLOCK_BYTES;
            all.extend(&strided[row..][..geometry.wide * BLOCK_BYTES]);
        }
        for dir in (0..2).filter(|&dir| wild && !is_read(slot, dir)) {
            for block in all[at..].chunks_exact_mut(BLOCK_BYTES) {
                block[2 * dir] = rng.word() as i8;
                block[2 * dir + 1] = rng.word() as i8;
                block[4 + dir] = rng.word() as i8;
            }
        }
    }
    all
}

/// A file with one to three changes, of which most are problems.
pub fn changed(rng: &mut Rng, file: &FrameFile) -> Vec<u8> {
    let mut bytes = file.bytes();
    for _ in 0..rng.within(1, 3) {
        change(rng, &mut bytes);
    }
    bytes
}

fn change(rng: &mut Rng, bytes: &mut Vec<u8>) {
    let length = bytes.len().max(1) as u64;
    match rng.word() % 8 {
        0 => bytes.truncate((rng.word() % length) as usize),
        1 => bytes.truncate(bytes.len().saturating_sub(1)),
        2 => bytes.push(rng.word() as u8),
        3 => put(rng, bytes, HEAD as u64),
        4 | 5 => {
            let behind = length.saturating_sub(HEAD as u64).max(1);
            let at = HEAD as u64 + rng.word() % behind.min(20);
            put_at(rng, bytes, at as usize);
        }
        _ => put(rng, bytes, length),
    }
}

/// A byte among the first so many.
fn put(rng: &mut Rng, bytes: &mut [u8], most: u64) {
    let at = (rng.word() % most) as usize;
    put_at(rng, bytes, at);
}

fn put_at(rng: &mut Rng, bytes: &mut [u8], at: usize) {
    let any = rng.word() as u8;
    if let Some(byte) = bytes.get_mut(at) {
        *byte = match rng.word() % 4 {
            0 => any,
            1 => byte.wrapping_add(1),
            2 => byte.wrapping_sub(1),
            _ => [0, 7, 128, 255][usize::from(any) % 4],
        };
    }
}
