//! A decoder's loop over two frames: a setup once a frame, then the tiles of each superblock row in any order.
//! Prints what the field holds; examples/decoder_loop.c is the same in C, and prints the same.
use std::ops::Range;

use refmvs::{
    init_frame, load_tmvs, quantize_mv, Block, Cell, Header, Mode, Mv, OrderHint, Refusal,
};
use refmvs::{Saved, Setup, Slot, Store, Switches, Tile};

/// The slots that have planes; the first two are the TIP pair.
const SLOTS: usize = 3;

/// The header of frame `hint`: its slots are the frame before, the frame after and the one two before.
fn header(hint: u8, step: u8, tip_frame_mode: u8) -> Header {
    let ref_poc = [hint - 1, hint + 1, hint - 2, 0, 0, 0, 0];
    Header {
        order_hint_n_bits: 5,
        width: 200,
        height: 120,
        n_ref_frames: SLOTS as u32,
        tip: true,
        sb128: 0,
        tmvp_sample_step: step,
        use_ref_frame_mvs: true,
        has_bothside_refs: true,
        tip_frame_mode,
        tip_reference: [Slot::new(0), Slot::new(1)],
        frame_offset: OrderHint(hint),
        ref_poc: ref_poc.map(OrderHint),
        saved: ref_poc.map(saved_with),
        rp_ref: [true; 7],
    }
}

/// Each slot was saved with references to the two frames before it.
fn saved_with(poc: u8) -> Saved {
    let mut ref_poc = [OrderHint(0); 7];
    ref_poc[0] = OrderHint(poc.wrapping_sub(1) % 32);
    ref_poc[1] = OrderHint(poc.wrapping_sub(2) % 32);
    Saved { ref_poc, refcnt: 2 }
}

/// An invented block: a ball that moves to the right and down a little, and a wall that stands still. Both vectors
/// are the same, the first to the frame before and the second to the one before that.
fn block(row: usize, column: usize) -> Block {
    let ball = (3..12).contains(&row) && (5..14).contains(&column) && (row + column) % 3 > 0;
    let wall = column >= 21;
    if !ball && !wall {
        return Block::NONE;
    }
    let size = if ball { 1 + (row % 2) as i32 } else { 0 };
    let mv = quantize_mv(Mv {
        y: -9 * size,
        x: -40 * size,
    });
    Block {
        mv: [mv; 2],
        reference: [0, 1],
    }
}

/// The planes of saved blocks, as earlier frames would have left them.
fn planes(setup: &Setup) -> Vec<i8> {
    let cells = setup.cells();
    let mut planes = vec![0; cells.planes_len()];
    for slot in &Slot::ALL[..SLOTS] {
        for row in 0..cells.high() {
            for column in 0..cells.wide() {
                let at = cells
                    .block_at(*slot, row, column)
                    .expect("a block of the frame");
                planes[at].copy_from_slice(&block(row, column).to_bytes());
            }
        }
    }
    planes
}

/// Loads the tiles of a superblock row; a refused one is told, and changes nothing.
fn load_row(
    store: &mut Store,
    planes: &[i8],
    setup: &Setup,
    rows: &Range<usize>,
    tiles: &[Range<usize>],
) {
    for columns in tiles {
        let tile = Tile::new(columns.clone(), rows.clone());
        let switches = Switches {
            traj: true,
            holes: true,
        };
        if let Err(refusal) = load_tmvs(&mut store.lend(), planes, setup, switches, &tile) {
            println!(
                "columns {} to {}: refusal {}",
                columns.start,
                columns.end,
                refusal.number()
            );
        }
    }
}

/// A dot is empty, 0 is a still cell, + any other vector.
fn sign(cell: Option<Cell>) -> char {
    match cell {
        None => '.',
        Some(Cell {
            mv: Mv { y: 0, x: 0 },
            ..
        }) => '0',
        Some(_) => '+',
    }
}

fn print_row(store: &Store, setup: &Setup, rows: &Range<usize>) -> Result<(), Refusal> {
    let field = store.field(setup, rows)?;
    for row in rows.clone() {
        println!("{row:2} {}", field.row(row).map(sign).collect::<String>());
    }
    let held: Vec<Cell> = field.cells().filter_map(|(_, _, cell)| cell).collect();
    let y: i32 = held.iter().map(|cell| cell.mv.y).sum();
    let x: i32 = held.iter().map(|cell| cell.mv.x).sum();
    println!("{} cells hold a vector; their sum is {y}, {x}", held.len());
    Ok(())
}

fn print_sources(hint: u8, setup: &Setup) {
    println!("frame {hint}: {} sources", setup.sources().len());
    for source in setup.sources() {
        println!(
            "slot {}, vector {}, {} from the frame",
            source.reference.index(),
            source.dir,
            source.ref2cur
        );
    }
}

fn main() -> Result<(), Refusal> {
    let tiles = [16..25, 0..8, 4..8, 8..16];
    let mut store = None;
    for (hint, step, tip_frame_mode) in [(6, 1, 0), (7, 2, 1)] {
        let setup = init_frame(&header(hint, step, tip_frame_mode))?;
        print_sources(hint, &setup);
        let planes = planes(&setup);
        let store = store.get_or_insert_with(|| Store::new(&setup, Mode::Row));
        for rows in setup.cells().superblock_rows() {
            load_row(store, &planes, &setup, &rows, &tiles);
            print_row(store, &setup, &rows)?;
        }
    }
    Ok(())
}
