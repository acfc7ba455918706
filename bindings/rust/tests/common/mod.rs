//! A small frame for the tests.
#![allow(dead_code)]
use refmvs::{init_frame, Block, Header, Mv, OrderHint, QMv, Saved, Setup, Slot};

/// Frame 6, of 569 by 313 pixels and so 72 by 40 cells, with slots 5, 7 and 4, each saved with the two frames before it.
pub fn header() -> Header {
    let ref_poc = [5, 7, 4, 0, 0, 0, 0];
    Header {
        order_hint_n_bits: 5,
        width: 569,
        height: 313,
        n_ref_frames: 3,
        tip: true,
        sb128: 1,
        tmvp_sample_step: 2,
        use_ref_frame_mvs: true,
        has_bothside_refs: true,
        tip_frame_mode: 1,
        tip_reference: [Slot::new(0), Slot::new(1)],
        frame_offset: OrderHint(6),
        ref_poc: ref_poc.map(OrderHint),
        saved: ref_poc.map(saved_with),
        rp_ref: [true; 7],
    }
}

fn saved_with(poc: u8) -> Saved {
    let mut ref_poc = [OrderHint(0); 7];
    ref_poc[0] = OrderHint(poc.wrapping_sub(1) % 32);
    ref_poc[1] = OrderHint(poc.wrapping_sub(2) % 32);
    Saved { ref_poc, refcnt: 2 }
}

pub fn setup() -> Setup {
    init_frame(&header()).expect("the header is accepted")
}

/// Planes in which every third block has a vector.
pub fn planes(setup: &Setup) -> Vec<i8> {
    let cells = setup.cells();
    let mut planes = vec![-1; cells.planes_len()];
    for slot in Slot::ALL {
        for row in 0..cells.high() {
            for column in 0..cells.wide() {
                put(
                    &mut planes,
                    setup,
                    slot,
                    row,
                    column,
                    invented(slot.index() + 7 * row + 5 * column),
                );
            }
        }
    }
    planes
}

fn invented(n: usize) -> Block {
    if n % 3 > 0 {
        return Block::NONE;
    }
    let mv = Mv {
        y: (13 * n % 161) as i32 - 80,
        x: (29 * n % 241) as i32 - 120,
    };
    Block {
        mv: [refmvs::quantize_mv(mv), QMv { y: 3, x: -3 }],
        reference: [0, 1],
    }
}

pub fn put(planes: &mut [i8], setup: &Setup, slot: Slot, row: usize, column: usize, block: Block) {
    let at = setup
        .cells()
        .block_at(slot, row, column)
        .expect("a block of the frame");
    planes[at].copy_from_slice(&block.to_bytes());
}
