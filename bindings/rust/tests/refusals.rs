//! Each refusal through the safe interface, at its limit and past it; a refused load leaves the store as it was.
mod common;

use std::error::Error;

use common::{header, planes, put, setup};
use refmvs::{
    dequantize_mv, get_poc_diff, init_frame, load_tmvs, mv_projection, quantize_mv, scale_mv,
};
use refmvs::{
    Block, Frame, Header, Mode, Mv, OrderHint, QMv, Refusal, Setup, Slot, Store, StoreMut,
    Switches, Tile,
};

const FIRST: Tile = Tile::new(0..16, 0..16);
const BOTH: Switches = Switches {
    traj: true,
    holes: true,
};

#[test]
fn numbers_and_sentences() {
    for (refusal, number) in Refusal::ALL.into_iter().zip(1..) {
        assert_eq!(refusal.number(), number);
        let said = refusal.to_string();
        assert!(
            said.len() > 25 && said.ends_with(&format!(" (refusal {number})")),
            "{said}"
        );
        let error: Box<dyn Error + Send + Sync> = Box::new(refusal);
        assert_eq!(error.to_string(), said);
    }
    let mut sentences = Refusal::ALL.map(|r| r.to_string());
    sentences.sort();
    assert!(sentences.windows(2).all(|two| two[0] != two[1]));
}

#[test]
fn range_1() {
    for y in [-65_535, 65_535] {
        assert!(mv_projection(Mv { y, x: 0 }, 1, 3, -2047, 2047).is_ok());
        assert!(scale_mv(Mv { y: 0, x: y }, 507_904).is_ok());
        assert!(scale_mv(Mv { y: 0, x: y }, -507_904).is_ok());
    }
    for y in [-65_536, 65_536, i32::MIN, i32::MAX, Mv::EMPTY_Y] {
        for mv in [Mv { y, x: 0 }, Mv { y: 0, x: y }] {
            assert_eq!(mv_projection(mv, 1, 3, -2047, 2047), Err(Refusal::Range));
            assert_eq!(scale_mv(mv, 1), Err(Refusal::Range));
        }
    }
    assert_eq!(
        mv_projection(Mv { y: 9, x: 9 }, 1, 1, 5, 5),
        Ok(Mv { y: 5, x: 5 })
    );
    assert_eq!(
        mv_projection(Mv { y: 9, x: 9 }, 1, 1, 5, 4),
        Err(Refusal::Range)
    );
    assert_eq!(scale_mv(Mv { y: 1, x: 1 }, 507_905), Err(Refusal::Range));
    assert_eq!(scale_mv(Mv { y: 1, x: 1 }, -507_905), Err(Refusal::Range));
}

#[test]
fn half_mark_2() {
    for other in (-127..=127).chain([-128]) {
        let expected = other == -128;
        assert_eq!(
            dequantize_mv(QMv { y: -128, x: other }) == Err(Refusal::HalfMark),
            !expected
        );
        assert_eq!(
            dequantize_mv(QMv { y: other, x: -128 }) == Err(Refusal::HalfMark),
            !expected
        );
    }
    assert_eq!(dequantize_mv(QMv::MARK), Ok(None));
    assert_eq!(quantize_mv(Mv { y: i32::MIN, x: 0 }), QMv::MARK);
}

#[test]
fn empty_is_not_still() {
    assert_eq!(
        dequantize_mv(QMv { y: 0, x: 0 }),
        Ok(Some(Mv { y: 0, x: 0 }))
    );
    assert_eq!(
        dequantize_mv(quantize_mv(Mv {
            y: Mv::EMPTY_Y,
            x: 0
        })),
        Ok(None)
    );
}

#[test]
fn hint_bits_3() {
    assert_eq!(get_poc_diff(8, OrderHint(0), OrderHint(1)), Ok(-1));
    for bits in [9, u32::MAX] {
        assert_eq!(
            get_poc_diff(bits, OrderHint(0), OrderHint(1)),
            Err(Refusal::HintBits)
        );
        assert_eq!(
            init_frame(&Header {
                order_hint_n_bits: bits,
                ..header()
            }),
            Err(Refusal::HintBits)
        );
    }
}

#[test]
fn headers_4_to_8() {
    let refused =
        |header: Header, refusal| assert_eq!(init_frame(&header), Err(refusal), "{header:?}");
    assert!(init_frame(&Header {
        n_ref_frames: 7,
        ..header()
    })
    .is_ok());
    refused(
        Header {
            n_ref_frames: 8,
            ..header()
        },
        Refusal::Slots,
    );
    refused(
        Header {
            n_ref_frames: u32::MAX,
            ..header()
        },
        Refusal::Slots,
    );
    assert!(init_frame(&Header {
        sb128: 2,
        ..header()
    })
    .is_ok());
    refused(
        Header {
            sb128: 3,
            ..header()
        },
        Refusal::Superblock,
    );
    for step in [0, 3, 255] {
        refused(
            Header {
                tmvp_sample_step: step,
                ..header()
            },
            Refusal::Step,
        );
    }
    assert!(init_frame(&Header {
        width: 65_536,
        height: 65_536,
        ..header()
    })
    .is_ok());
    for size in [0, 65_537, u32::MAX] {
        refused(
            Header {
                width: size,
                ..header()
            },
            Refusal::Size,
        );
        refused(
            Header {
                height: size,
                ..header()
            },
            Refusal::Size,
        );
    }
    refused(
        Header {
            tip_reference: [None, Slot::new(1)],
            ..header()
        },
        Refusal::TipSlot,
    );
    refused(
        Header {
            tip_reference: [Slot::new(0), Slot::new(3)],
            ..header()
        },
        Refusal::TipSlot,
    );
    // The pair is not looked at.
    let unused = Header {
        tip: false,
        tip_frame_mode: 0,
        tip_reference: [None; 2],
        ..header()
    };
    assert_eq!(
        init_frame(&unused).expect("accepted").frame().tip_reference,
        [-1, -1]
    );
    // The first that holds, in the table's order.
    refused(
        Header {
            sb128: 3,
            width: 0,
            tmvp_sample_step: 0,
            ..header()
        },
        Refusal::Superblock,
    );
}

#[test]
fn setup_9() {
    let frame = *setup().frame();
    assert_eq!(Setup::from_frame(frame), Ok(setup()));
    let refused = |edit: fn(&mut Frame)| {
        let mut edited = frame;
        edit(&mut edited);
        assert_eq!(Setup::from_frame(edited), Err(Refusal::Setup), "{edited:?}");
    };
    refused(|f| f.width = 0);
    refused(|f| f.height = 65_537);
    refused(|f| f.sb128 = 3);
    refused(|f| f.tmvp_sample_step = 0);
    refused(|f| f.n_ref_frames = 8);
    refused(|f| f.sources.n_mfmvs = 5);
    refused(|f| f.sources.n_mfmvs = usize::MAX);
    refused(|f| f.sources.mfmv[0].tgt = 7);
    refused(|f| f.sources.mfmv[0].dir = 2);
    refused(|f| f.sources.mfmv[0].ref2cur = 32);
    refused(|f| f.sources.mfmv[0].ref2ref[6] = -32);
    refused(|f| f.sources.mfmv[0].ref2idx[6] = -2);
    refused(|f| f.sources.mfmv[0].ref2sf0[6] = 507_905);
    refused(|f| f.sources.mfmv[0].ref2sf1[6] = -507_905);
    assert_eq!(Setup::from_frame(Frame::default()), Err(Refusal::Setup));
}

/// A load that has to be refused, and to leave the store as it was.
fn refused(store: &Store, planes: &[i8], tile: &Tile, refusal: Refusal) {
    for switches in [BOTH, Switches::default()] {
        let mut tried = store.clone();
        assert_eq!(
            load_tmvs(&mut tried.lend(), planes, &setup(), switches, tile),
            Err(refusal),
            "{tile:?}"
        );
        assert!(tried == *store, "{tile:?}");
    }
}

#[test]
fn tile_10() {
    const MAX: usize = usize::MAX;
    let setup = setup();
    let (planes, store) = (planes(&setup), Store::new(&setup, Mode::Row));
    assert_eq!((setup.cells().wide(), setup.cells().high()), (72, 40));
    for (start, end) in [
        (0, 0),
        (4, 16),
        (0, 15),
        (0, 73),
        (64, 80),
        (80, 96),
        (16, 0),
        (0, MAX),
        (MAX, MAX),
    ] {
        refused(
            &store,
            &planes,
            &Tile::new(start..end, 0..16),
            Refusal::Tile,
        );
    }
    for (start, end) in [
        (0, 0),
        (0, 15),
        (4, 20),
        (0, 17),
        (32, 39),
        (32, 49),
        (48, 64),
        (16, 0),
        (MAX, 0),
    ] {
        refused(
            &store,
            &planes,
            &Tile::new(0..16, start..end),
            Refusal::Tile,
        );
        assert_eq!(
            store.field(&setup, &(start..end)).err(),
            Some(Refusal::Tile)
        );
    }
    for tile in [Tile::new(64..72, 32..40), Tile::new(0..72, 32..48)] {
        load_tmvs(&mut store.clone().lend(), &planes, &setup, BOTH, &tile).expect("a tile");
    }
}

/// Shortens one of the seven lists.
type Shorten = fn(&mut StoreMut<'_>);

const SHORTENED: [Shorten; 7] = [
    |s| s.field_y = &mut std::mem::take(&mut s.field_y)[1..],
    |s| s.field_x = &mut std::mem::take(&mut s.field_x)[1..],
    |s| s.field_ref = &mut std::mem::take(&mut s.field_ref)[1..],
    |s| s.traj_y = &mut std::mem::take(&mut s.traj_y)[1..],
    |s| s.traj_x = &mut std::mem::take(&mut s.traj_x)[1..],
    |s| s.map_y = &mut std::mem::take(&mut s.map_y)[1..],
    |s| s.map_x = &mut std::mem::take(&mut s.map_x)[1..],
];

#[test]
fn length_11() {
    let setup = setup();
    let planes = planes(&setup);
    for mode in [Mode::Row, Mode::WholeFrame] {
        let mut store = Store::new(&setup, mode);
        let before = store.clone();
        refused(&store, &planes[1..], &FIRST, Refusal::Length);
        refused(&store, &[], &FIRST, Refusal::Length);
        for shorten in SHORTENED {
            let mut lent = store.lend();
            shorten(&mut lent);
            assert_eq!(
                load_tmvs(&mut lent, &planes, &setup, BOTH, &FIRST),
                Err(Refusal::Length)
            );
            assert!(store == before);
        }
    }
    // A store of a smaller frame.
    let small = init_frame(&Header {
        width: 64,
        height: 64,
        ..header()
    })
    .expect("accepted");
    refused(
        &Store::new(&small, Mode::Row),
        &planes,
        &FIRST,
        Refusal::Length,
    );
    let store = Store::new(&small, Mode::Row);
    assert_eq!(store.field(&setup, &(0..16)).err(), Some(Refusal::Length));
    assert_eq!(
        store.trajectories(&setup, Slot::ALL[0]).err(),
        Some(Refusal::Length)
    );
}

#[test]
fn contents_12() {
    let setup = setup();
    let (good, store) = (planes(&setup), Store::new(&setup, Mode::Row));
    let source = setup.sources()[0];
    let block = |reference, mv| Block {
        mv: [mv; 2],
        reference: [reference; 2],
    };
    let half = QMv { y: -128, x: 0 };
    let still = QMv { y: 0, x: 0 };
    for bad in [
        block(7, still),
        block(-2, still),
        block(0, half),
        block(6, half),
    ] {
        let mut planes = good.clone();
        // In the superblock row, outside the tile's columns.
        put(&mut planes, &setup, source.reference, 2, 70, bad);
        refused(&store, &planes, &FIRST, Refusal::Contents);
        load_tmvs(
            &mut store.clone().lend(),
            &planes,
            &setup,
            BOTH,
            &Tile::new(0..16, 16..32),
        )
        .expect("another superblock row");
    }
    let mut planes = good.clone();
    put(&mut planes, &setup, source.reference, 3, 70, block(7, half));
    put(
        &mut planes,
        &setup,
        source.reference,
        2,
        70,
        block(-1, half),
    );
    load_tmvs(&mut store.clone().lend(), &planes, &setup, BOTH, &FIRST)
        .expect("not sampled, or without reference");

    for (y, x) in [(65_536, 0), (0, -65_536), (Mv::EMPTY_Y, 1)] {
        let mut store = store.clone();
        let lent = store.lend();
        (
            *lent.traj_y.last_mut().unwrap(),
            *lent.traj_x.last_mut().unwrap(),
        ) = (y, x);
        refused(&store, &good, &FIRST, Refusal::Contents);
    }
}
