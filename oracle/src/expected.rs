//! The expected answers: the scope's refusals first, in its order, then the published functions.
use crate::entry::{Frame, Header, Source};
use crate::load::{BLOCK_BYTES, Call, Geometry, MAP_PLANES, SLOTS as SLOT_COUNT, Store};
use crate::reference::{self, EMPTY_Y};

/// The answer, or the refusal's number.
pub type Answer<T> = Result<T, u32>;

pub const COMPONENT_LIMIT: u32 = 65_535;
pub const FACTOR_LIMIT: u32 = 507_904;
pub const BITS_LIMIT: u32 = 8;
pub const SLOTS: u32 = 7;
pub const SUPERBLOCK_LIMIT: u8 = 2;
pub const SIDE_LIMIT: u32 = 65_536;
pub const MARK: [i8; 2] = [-128, -128];

fn past_range(y: i32, x: i32) -> bool {
    y.unsigned_abs().max(x.unsigned_abs()) > COMPONENT_LIMIT
}

pub fn project([y, x, num, den, min, max]: [i32; 6]) -> Answer<[i32; 2]> {
    if past_range(y, x) || min > max {
        return Err(1);
    }
    Ok(reference::mv_projection(y, x, num, den, min, max))
}

pub fn scale([y, x, sf]: [i32; 3]) -> Answer<[i32; 2]> {
    if past_range(y, x) || sf.unsigned_abs() > FACTOR_LIMIT {
        return Err(1);
    }
    Ok(reference::scale_mv(y, x, sf))
}

/// Never refused. The published function breaks at the least i32, which the scope packs to the mark.
pub fn quantize([y, x]: [i32; 2]) -> [i8; 2] {
    if y == i32::MIN || x == i32::MIN {
        return MARK;
    }
    reference::quantize_mv(y, x)
}

pub fn dequantize([y, x]: [i8; 2]) -> Answer<[i32; 2]> {
    if (y == -128) != (x == -128) {
        return Err(2);
    }
    Ok(reference::dequantize_mv(y, x))
}

pub fn hint(n: u32, a: u8, b: u8) -> Answer<i32> {
    if n > BITS_LIMIT {
        return Err(3);
    }
    Ok(reference::get_poc_diff(n, a, b))
}

/// Whether the setup looks at the TIP pair.
pub fn looks_at_tip(header: &Header) -> bool {
    let picks_sources =
        header.use_ref_frame_mvs != 0 && header.order_hint_n_bits != 0 && header.n_ref_frames > 1;
    header.tip_frame_mode != 0 || header.tip != 0 && picks_sources
}

/// The number of the first refusal that applies to the header.
pub fn setup_refusal(header: &Header) -> Option<u32> {
    let side = 1..=SIDE_LIMIT;
    let in_use = |&slot: &i8| slot >= 0 && (slot as u32) < header.n_ref_frames;
    let refused = [
        (3, header.order_hint_n_bits > BITS_LIMIT),
        (4, header.n_ref_frames > SLOTS),
        (5, header.sb128 > SUPERBLOCK_LIMIT),
        (6, !matches!(header.tmvp_sample_step, 1 | 2)),
        (
            7,
            !side.contains(&header.width) || !side.contains(&header.height),
        ),
        (
            8,
            looks_at_tip(header) && !header.tip_reference.iter().all(in_use),
        ),
    ];
    refused
        .iter()
        .find(|(_, applies)| *applies)
        .map(|&(number, _)| number)
}

pub fn setup(header: &Header) -> Answer<Frame> {
    match setup_refusal(header) {
        Some(number) => Err(number),
        None => Ok(reference::init_frame(header)),
    }
}

/// Whether a refusal applies to a load.
type Test = fn(&Call, &Store) -> bool;

/// The number of the first of the refusals 9 to 12 that applies to a load, 0 for none.
pub fn load_refusal(call: &Call, store: &Store) -> u32 {
    let refused: [(u32, Test); 4] = [
        (9, |call, _| setup_out_of_range(&call.setup)),
        (10, |call, _| tile_broken(call)),
        (11, too_short),
        (12, |call, store| {
            bad_block(call) || bad_trajectory(call, store)
        }),
    ];
    let first = refused.iter().find(|(_, applies)| applies(call, store));
    first.map_or(0, |&(number, _)| number)
}

fn setup_out_of_range(setup: &Frame) -> bool {
    let side = 1..=SIDE_LIMIT;
    let sources = &setup.sources;
    !side.contains(&setup.width)
        || !side.contains(&setup.height)
        || setup.sb128 > SUPERBLOCK_LIMIT
        || !matches!(setup.tmvp_sample_step, 1 | 2)
        || setup.n_ref_frames > SLOT_COUNT
        || sources.n_mfmvs > sources.mfmv.len()
        || !sources.mfmv[..sources.n_mfmvs].iter().all(in_range)
}

fn in_range(source: &Source) -> bool {
    let slot_or_none = -1..=6;
    let factors = source.ref2sf0.iter().chain(&source.ref2sf1);
    source.reference.value <= 6
        && slot_or_none.contains(&source.tgt)
        && source.dir <= 1
        && (-32..=31).contains(&source.ref2cur)
        && source.ref2ref.iter().all(|d| (-31..=31).contains(d))
        && source
            .ref2idx
            .iter()
            .all(|slot| slot_or_none.contains(slot))
        && factors
            .into_iter()
            .all(|f| f.unsigned_abs() <= FACTOR_LIMIT)
}

fn tile_broken(call: &Call) -> bool {
    let Geometry {
        side, wide, high, ..
    } = call.geometry();
    let (left, right) = call.columns;
    let (top, bottom) = call.rows;
    let columns =
        left < right && right <= wide && left % side == 0 && (right % side == 0 || right == wide);
    let end = bottom == top + side || (high <= bottom && bottom <= top + side);
    !(columns && top % side == 0 && top < high && end)
}

fn too_short(call: &Call, store: &Store) -> bool {
    let geometry = call.geometry();
    let field = geometry.field(call.whole_frame);
    let traj = SLOT_COUNT * geometry.plane();
    let map = MAP_PLANES * traj;
    call.planes.len() < geometry.planes()
        || store.field_y.len() < field
        || store.field_x.len() < field
        || store.field_ref.len() < field
        || store.traj_y.len() < traj
        || store.traj_x.len() < traj
        || store.map_y.len() < map
        || store.map_x.len() < map
}

fn bad_block(call: &Call) -> bool {
    let geometry = call.geometry();
    let sources = &call.setup.sources;
    let read = sources.mfmv[..sources.n_mfmvs].iter().filter(|source| {
        source.ref2cur != -32 && call.setup.rp_ref[source.reference.value as usize] != 0
    });
    for source in read {
        let (slot, dir) = (source.reference.value as usize, source.dir as usize);
        for y in (call.rows.0..call.bottom()).step_by(geometry.step) {
            for x in (0..geometry.wide).step_by(geometry.step) {
                let at = ((slot * geometry.high + y) * geometry.stride + x) * BLOCK_BYTES;
                let block = &call.planes[at..at + BLOCK_BYTES];
                let (reference, vector) = (block[4 + dir], &block[2 * dir..2 * dir + 2]);
                let half = (vector[0] == -128) != (vector[1] == -128);
                if !(-1..=6).contains(&reference) || reference != -1 && half {
                    return true;
                }
            }
        }
    }
    false
}

fn bad_trajectory(call: &Call, store: &Store) -> bool {
    let count = SLOT_COUNT * call.geometry().plane();
    let mut all = store.traj_y.iter().zip(&store.traj_x).take(count);
    all.any(|(&y, &x)| (y, x) != (EMPTY_Y, 0) && past_range(y, x))
}
