//! A decoder's loop: both modes, tiles in every order, lists that are lent, refused loads among the others.
mod common;

use std::ops::Range;

use common::{header, planes, setup};
use refmvs::{
    init_frame, load_tmvs, Header, Mode, Refusal, Setup, Slot, Store, StoreMut, Switches, Tile,
};

const COLUMNS: [Range<usize>; 3] = [0..16, 16..48, 48..72];
const ORDERS: [[usize; 3]; 6] = [
    [0, 1, 2],
    [0, 2, 1],
    [1, 0, 2],
    [1, 2, 0],
    [2, 0, 1],
    [2, 1, 0],
];
const SWITCHES: [Switches; 4] = [
    Switches {
        traj: false,
        holes: false,
    },
    Switches {
        traj: false,
        holes: true,
    },
    Switches {
        traj: true,
        holes: false,
    },
    Switches {
        traj: true,
        holes: true,
    },
];

/// The store after a superblock row whose tiles come in this order.
fn row(
    store: &Store,
    planes: &[i8],
    setup: &Setup,
    switches: Switches,
    rows: &Range<usize>,
    order: [usize; 3],
) -> Store {
    let mut store = store.clone();
    for n in order {
        let tile = Tile::new(COLUMNS[n].clone(), rows.clone());
        load_tmvs(&mut store.lend(), planes, setup, switches, &tile).expect("a tile");
        let none = Tile::new(1..COLUMNS[n].end, rows.clone());
        assert_eq!(
            load_tmvs(&mut store.lend(), planes, setup, switches, &none),
            Err(Refusal::Tile)
        );
    }
    store
}

#[test]
fn any_order_of_tiles() {
    for (sb128, step) in [(0, 1), (1, 2), (0, 2)] {
        let setup = init_frame(&Header {
            sb128,
            tmvp_sample_step: step,
            ..header()
        })
        .expect("accepted");
        let planes = planes(&setup);
        for mode in [Mode::Row, Mode::WholeFrame] {
            for switches in SWITCHES {
                let mut store = Store::new(&setup, mode);
                for rows in setup.cells().superblock_rows() {
                    let next = row(&store, &planes, &setup, switches, &rows, ORDERS[0]);
                    for order in &ORDERS[1..] {
                        assert!(
                            row(&store, &planes, &setup, switches, &rows, *order) == next,
                            "{order:?}"
                        );
                    }
                    store = next;
                }
            }
        }
    }
}

/// Row mode and whole-frame mode hold the same cells, row after row.
#[test]
fn modes_agree() {
    let setup = setup();
    let planes = planes(&setup);
    let switches = Switches {
        traj: true,
        holes: true,
    };
    let mut row_store = Store::new(&setup, Mode::Row);
    let mut whole = Store::new(&setup, Mode::WholeFrame);
    let mut held = 0;
    for rows in setup.cells().superblock_rows() {
        row_store = row(&row_store, &planes, &setup, switches, &rows, ORDERS[3]);
        whole = row(&whole, &planes, &setup, switches, &rows, ORDERS[0]);
        let (a, b) = (
            row_store.field(&setup, &rows).unwrap(),
            whole.field(&setup, &rows).unwrap(),
        );
        assert!(a.cells().eq(b.cells()));
        held += a.cells().filter(|(_, _, cell)| cell.is_some()).count();
        for slot in Slot::ALL {
            let of = |store: &Store| {
                store
                    .trajectories(&setup, slot)
                    .unwrap()
                    .collect::<Vec<_>>()
            };
            assert_eq!(of(&row_store), of(&whole));
        }
    }
    assert!(held > 100, "{held} cells");
    let trajectories = row_store.trajectories(&setup, Slot::ALL[1]).unwrap();
    assert!(trajectories.filter(|(_, _, mv)| mv.is_some()).count() > 10);
}

/// Lists that are longer than stated: what lies behind is left alone, and the rest is what a store of its own has.
#[test]
fn lent_lists() {
    const BEHIND: usize = 5;
    let setup = setup();
    let cells = setup.cells();
    let planes = planes(&setup);
    let tile = Tile::new(0..72, 0..16);
    let switches = Switches {
        traj: true,
        holes: true,
    };
    let mut own = Store::new(&setup, Mode::Row);
    load_tmvs(&mut own.lend(), &planes, &setup, switches, &tile).unwrap();

    let (field, traj, map) = (
        cells.field_len(Mode::Row),
        cells.traj_len(),
        cells.map_len(),
    );
    let (mut field_y, mut field_x) = (vec![2_097_152; field + BEHIND], vec![0; field + BEHIND]);
    let mut field_ref = vec![0; field + BEHIND];
    let (mut traj_y, mut traj_x) = (vec![2_097_152; traj + BEHIND], vec![0; traj + BEHIND]);
    let (mut map_y, mut map_x) = (vec![-128; map + BEHIND], vec![-128; map + BEHIND]);
    field_y[field..].fill(77);
    traj_y[traj..].fill(77_777); // out of range, and not looked at
    map_y[map..].fill(7);
    let mut lent = StoreMut {
        mode: Mode::Row,
        field_y: &mut field_y,
        field_x: &mut field_x,
        field_ref: &mut field_ref,
        traj_y: &mut traj_y,
        traj_x: &mut traj_x,
        map_y: &mut map_y,
        map_x: &mut map_x,
    };
    load_tmvs(&mut lent, &planes, &setup, switches, &tile).unwrap();
    assert!(lent
        .field(&setup, &tile.rows)
        .unwrap()
        .cells()
        .eq(own.field(&setup, &tile.rows).unwrap().cells()));

    let own = own.lend();
    assert!(field_y[..field] == *own.field_y && field_y[field..] == [77; BEHIND]);
    assert!(field_x[..field] == *own.field_x && field_x[field..] == [0; BEHIND]);
    assert!(field_ref[..field] == *own.field_ref && field_ref[field..] == [0; BEHIND]);
    assert!(traj_y[..traj] == *own.traj_y && traj_y[traj..] == [77_777; BEHIND]);
    assert!(traj_x[..traj] == *own.traj_x && traj_x[traj..] == [0; BEHIND]);
    assert!(map_y[..map] == *own.map_y && map_y[map..] == [7; BEHIND]);
    assert!(map_x[..map] == *own.map_x && map_x[map..] == [-128; BEHIND]);
}
