//! Headers: one for each trap of the setup, the refusals and their limits, and random ones.
use crate::entry::{Frame, Header, OrderHint};
use crate::expected::{SIDE_LIMIT, looks_at_tip};
use crate::rng::Rng;

/// A header, and what its record shows if it is the trap that it is meant to be.
pub struct Trap {
    pub name: &'static str,
    pub header: Header,
    pub shows: fn(&Frame) -> bool,
}

fn hint(value: u8) -> OrderHint {
    OrderHint { value }
}

/// Slots with these hints, all planes, the frame's switch on and TIP off. No slot has references.
fn slots(bits: u32, frame: u8, hints: &[u8]) -> Header {
    let mut header = Header {
        order_hint_n_bits: bits,
        width: 100,
        height: 60,
        n_ref_frames: hints.len() as u32,
        sb128: 1,
        tmvp_sample_step: 2,
        use_ref_frame_mvs: 1,
        frame_offset: hint(frame),
        // Not a hint of any slot in use, nor of its references.
        ref_poc: [hint(222); 7],
        rp_ref: [1; 7],
        ..Header::default()
    };
    for (slot, &value) in header.ref_poc.iter_mut().zip(hints) {
        slot.value = value;
    }
    header
}

impl Header {
    /// The slot with these references, the last one up to the seventh.
    fn refs(mut self, slot: usize, hints: &[u8]) -> Self {
        let saved = &mut self.saved[slot];
        saved.ref_poc = std::array::from_fn(|n| hint(hints[n.min(hints.len() - 1)]));
        saved.refcnt = hints.len() as u8;
        self
    }

    fn refcnt(mut self, slot: usize, refcnt: u8) -> Self {
        self.saved[slot].refcnt = refcnt;
        self
    }

    fn poc(mut self, slot: usize, value: u8) -> Self {
        self.ref_poc[slot] = hint(value);
        self
    }

    fn tip(self, pair: [i8; 2]) -> Self {
        Self {
            tip: 1,
            tip_reference: pair,
            ..self
        }
    }

    fn mode(self, pair: [i8; 2]) -> Self {
        Self {
            tip_frame_mode: 1,
            tip_reference: pair,
            ..self
        }
    }

    fn bothside(self) -> Self {
        Self {
            has_bothside_refs: 1,
            ..self
        }
    }

    fn planes(self, rp_ref: [u8; 7]) -> Self {
        Self { rp_ref, ..self }
    }
}

fn sources(frame: &Frame) -> Vec<(u8, u8)> {
    let counted = &frame.sources.mfmv[..frame.sources.n_mfmvs];
    counted.iter().map(|s| (s.reference.value, s.dir)).collect()
}

fn targets(frame: &Frame) -> [i8; 4] {
    frame.sources.mfmv.map(|source| source.tgt)
}

pub fn traps() -> Vec<Trap> {
    let groups = [
        half_range_traps(),
        reference_count_traps(),
        tip_traps(),
        index_traps(),
        sort_traps(),
        dependency_traps(),
        plane_traps(),
        distance_traps(),
        switch_traps(),
    ];
    groups.into_iter().flatten().collect()
}

fn trap(name: &'static str, header: Header, shows: fn(&Frame) -> bool) -> Trap {
    Trap {
        name,
        header,
        shows,
    }
}

fn half_range_traps() -> Vec<Trap> {
    vec![
        trap("half range", slots(4, 0, &[8, 1, 2]), |f| {
            f.ref_sign[..3] == [1, 0, 0]
                && f.pocdiff[..3] == [-8, -1, -2]
                && sources(f) == [(2, 0), (2, 1), (1, 0), (1, 1)]
        }),
        trap("half range after earlier", slots(4, 0, &[8, 15]), |f| {
            f.ref_sign[..2] == [1, 1] && sources(f) == [(0, 0), (1, 0), (1, 1), (0, 1)]
        }),
        trap(
            "half range after later",
            slots(8, 200, &[72, 201, 199]),
            |f| f.ref_sign[..3] == [1, 0, 1] && sources(f) == [(2, 0), (2, 1), (1, 0), (1, 1)],
        ),
        trap("one bit", slots(1, 0, &[1, 0, 1]), |f| {
            f.ref_sign[..3] == [1, 0, 1] && f.pocdiff[..3] == [-1, 0, -1]
        }),
    ]
}

fn reference_count_traps() -> Vec<Trap> {
    let later_with_earlier = slots(8, 10, &[8, 12]).refs(1, &[8, 9]);
    vec![
        trap("count 0", later_with_earlier.refcnt(1, 0), |f| {
            sources(f)[..2] == [(0, 0), (1, 0)]
                && f.sources.mfmv[1].ref2ref == [4, 3, 3, 3, 3, 3, 3]
        }),
        trap("count 1", later_with_earlier.refcnt(1, 1), |f| {
            sources(f)[0] == (1, 0)
        }),
        trap(
            "count 1 is seven",
            slots(8, 10, &[8, 12])
                .refs(1, &[12, 12, 12, 12, 12, 12, 8])
                .refcnt(1, 1),
            |f| sources(f)[0] == (1, 0),
        ),
        trap("count 255", later_with_earlier.refcnt(1, 255), |f| {
            sources(f)[0] == (1, 0)
        }),
    ]
}

fn tip_traps() -> Vec<Trap> {
    let two = slots(8, 10, &[8, 12]);
    vec![
        trap("TIP, no sign", slots(8, 10, &[12, 14]).tip([0, 1]), |f| {
            f.sources.n_mfmvs == 4 && targets(f) == [-1; 4]
        }),
        trap("TIP, sign of the first", two.tip([0, 1]), |f| {
            targets(f) == [0, -1, -1, -1]
        }),
        trap("TIP, sign of the second", two.tip([1, 0]), |f| {
            targets(f) == [0, -1, -1, -1]
        }),
        trap("TIP, no planes", two.tip([0, 1]).planes([0; 7]), |f| {
            sources(f) == [(1, 0)]
        }),
        trap("TIP, one slot twice", two.tip([0, 0]), |f| {
            sources(f)[0] == (0, 0) && f.sources.mfmv[0].tgt == 0
        }),
        trap(
            "TIP, dependency order",
            two.refs(0, &[12]).tip([0, 1]),
            |f| sources(f)[0] == (0, 1) && f.sources.mfmv[0].tgt == 1,
        ),
        trap(
            "TIP distance 128",
            slots(8, 0, &[0, 128]).mode([0, 1]),
            |f| f.tip.delta == -128 && f.tip.sf == [0, 31 * 528],
        ),
        trap(
            "TIP distance 128, both sides",
            slots(8, 64, &[0, 128]).bothside().mode([0, 1]),
            |f| f.tip.delta == -128 && f.tip.sf == [-31 * 528, 31 * 528],
        ),
        trap(
            "TIP distance 127",
            slots(8, 1, &[0, 127]).mode([1, 0]),
            |f| f.tip.delta == 127,
        ),
        trap("TIP distance 0", slots(8, 1, &[5, 5]).mode([1, 0]), |f| {
            f.tip.delta == 0 && f.tip.sf == [0, 0]
        }),
        trap("TIP distance 3", two.poc(1, 11).mode([0, 1]), |f| {
            f.tip.sf == [-2 * 5_461, 5_461]
        }),
        trap(
            "TIP distance 3, both sides",
            two.poc(1, 11).bothside().mode([0, 1]),
            |f| f.tip.sf == [2 * 5_461, -5_461],
        ),
        trap(
            "TIP without bits",
            slots(0, 3, &[1, 2]).tip([0, 1]).mode([0, 1]),
            |f| f.tip.delta == 0 && f.sources.n_mfmvs == 0,
        ),
    ]
}

fn index_traps() -> Vec<Trap> {
    let two = slots(8, 10, &[8, 12]);
    vec![
        trap(
            "ref2idx past the slots",
            two.poc(5, 30).refs(1, &[30, 8]),
            |f| sources(f)[0] == (1, 0) && f.sources.mfmv[0].ref2idx[..2] == [5, 0],
        ),
        trap(
            "ref2idx, last slot",
            two.poc(6, 30).refs(1, &[8, 31, 30]),
            |f| f.sources.mfmv[0].ref2idx[..3] == [0, -1, 6],
        ),
        trap(
            "ref2idx, first of equals",
            slots(8, 10, &[12, 8, 8, 8]).refs(0, &[8]),
            |f| sources(f)[0] == (0, 0) && f.sources.mfmv[0].ref2idx == [1; 7],
        ),
        trap(
            "hints alike in their bits",
            slots(4, 0, &[3, 19, 35]).refs(0, &[19, 51]),
            |f| {
                // Slot 1 is entered before slot 0.
                sources(f) == [(2, 0), (2, 1), (0, 0), (0, 1)]
                    && f.sources.mfmv[2].ref2idx[..2] == [1, -1]
            },
        ),
    ]
}

fn sort_traps() -> Vec<Trap> {
    vec![
        trap("equal differences", slots(8, 10, &[8; 4]), |f| {
            sources(f) == [(3, 0), (2, 0), (3, 1), (2, 1)]
        }),
        trap("equal where clipped", slots(8, 128, &[28, 60, 90]), |f| {
            f.pocdiff[..3] == [31; 3] && sources(f)[..2] == [(2, 0), (1, 0)]
        }),
        trap("equal later ones", equal_later(), |f| {
            sources(f)[..2] == [(0, 0), (1, 0)]
        }),
        trap("the frame's own hint", slots(8, 10, &[10, 10, 10]), |f| {
            sources(f) == [(2, 1), (2, 0), (1, 1), (1, 0)]
        }),
        trap(
            "seven in falling order",
            slots(8, 10, &[9, 8, 7, 6, 5, 4, 3]),
            |f| sources(f) == [(0, 0), (1, 0), (6, 1), (6, 0)],
        ),
        trap(
            "seven in rising order",
            slots(8, 10, &[3, 4, 5, 6, 7, 8, 9]),
            |f| sources(f) == [(6, 0), (5, 0), (6, 1), (5, 1)],
        ),
        trap("neighbours equally near", near(8, 12), |f| {
            sources(f)[..2] == [(0, 0), (1, 1)]
        }),
        trap("earlier neighbour nearer", near(8, 11), |f| {
            sources(f)[..2] == [(1, 1), (0, 0)]
        }),
        // A search from 31 would find neither, and put the later neighbour first.
        trap(
            "nearest references past 31",
            slots(8, 100, &[110, 90]).refs(0, &[77]).refs(1, &[122]),
            |f| sources(f)[..2] == [(1, 1), (0, 0)],
        ),
        // The later neighbour's reference is not before the frame: it has none, which is farther than 128.
        trap(
            "nearest reference 128 away",
            slots(8, 100, &[101, 99]).refs(0, &[100]).refs(1, &[227]),
            |f| sources(f)[..2] == [(1, 1), (0, 0)],
        ),
    ]
}

fn equal_later() -> Header {
    let header = slots(8, 10, &[12, 12, 12]);
    header.refs(0, &[8]).refs(1, &[8]).refs(2, &[8])
}

/// A later slot with an earlier reference, and an earlier slot with a later one.
fn near(earlier: u8, later: u8) -> Header {
    let header = slots(8, 10, &[12, 8]);
    header.refs(0, &[earlier]).refs(1, &[later])
}

fn dependency_traps() -> Vec<Trap> {
    let seven = [11, 12, 13, 14, 15, 16, 17];
    let chain = (0..6).fold(slots(8, 10, &seven), |h, i| h.refs(i, &[seven[i + 1]]));
    let back = (1..7).fold(slots(8, 10, &seven), |h, i| h.refs(i, &[seven[i - 1]]));
    vec![
        trap(
            "slot of its own",
            slots(8, 10, &[11, 12]).refs(0, &[11]),
            |f| sources(f) == [(1, 0), (1, 1), (0, 0), (0, 1)],
        ),
        trap(
            "circle of two",
            slots(8, 10, &[11, 12]).refs(0, &[12]).refs(1, &[11]),
            |f| {
                // Slot 0 waits for slot 1, which finds it entered.
                sources(f) == [(1, 0), (0, 0), (0, 1), (1, 1)]
            },
        ),
        trap("chain of seven", chain, |f| {
            sources(f)[..2] == [(0, 0), (0, 1)] && sources(f)[2..] == [(1, 0), (1, 1)]
        }),
        trap("chain backwards", back, |f| {
            sources(f)[..2] == [(1, 0), (6, 0)]
        }),
        trap("circle of seven", chain.refs(6, &[seven[0]]), |f| {
            sources(f).contains(&(0, 1))
        }),
        trap(
            "all to all",
            (0..7).fold(chain, |h, i| h.refs(i, &seven)),
            |f| f.sources.n_mfmvs == 4,
        ),
        trap(
            "all to all, backwards",
            (0..7).fold(chain, |h, i| h.refs(i, &reversed(seven))),
            |f| f.sources.n_mfmvs == 4,
        ),
        trap(
            "link past the slots",
            slots(8, 10, &[11, 12]).poc(6, 30).refs(0, &[30]),
            |f| sources(f) == [(1, 0), (1, 1), (0, 0), (0, 1)],
        ),
        trap(
            "link of a slot without references",
            slots(8, 10, &[11, 12]).refs(0, &[12]).refcnt(0, 0),
            |f| sources(f) == [(1, 0), (1, 1), (0, 0), (0, 1)],
        ),
    ]
}

fn reversed(mut hints: [u8; 7]) -> [u8; 7] {
    hints.reverse();
    hints
}

fn plane_traps() -> Vec<Trap> {
    let three = slots(8, 10, &[8, 9, 12]);
    vec![
        trap("no planes", three.planes([0; 7]), |f| {
            (f.sources.n_mfmvs, f.use_ref_frame_mvs, f.sources.mfmv_mask) == (0, 0, 0b111)
        }),
        trap(
            "planes past the slots",
            three.planes([0, 0, 0, 1, 1, 1, 1]),
            |f| f.sources.n_mfmvs == 0 && f.rp_ref == [0, 0, 0, 1, 1, 1, 1],
        ),
        trap(
            "planes in use only",
            three.planes([1, 1, 1, 0, 0, 0, 0]),
            |f| f.sources.mfmv_mask & !0b111 == 0 && f.sources.n_mfmvs == 4,
        ),
        trap("one plane", three.planes([0, 1, 0, 0, 0, 0, 0]), |f| {
            sources(f) == [(1, 0), (1, 1)] && f.sources.mfmv_mask == 0b111
        }),
    ]
}

fn distance_traps() -> Vec<Trap> {
    // 31, 32, -31, -32, -128, 127 and 1 before slot 0.
    let saved = [97, 96, 159, 160, 0, 1, 127];
    vec![
        trap("31 away", slots(8, 128, &[97, 159]), |f| {
            f.sources.mfmv.map(|s| s.ref2cur) == [-31, 31, 31, -31]
        }),
        trap(
            "32 away",
            slots(8, 128, &[96, 160]).refs(0, &[96, 128]),
            |f| {
                f.sources.n_mfmvs == 4
                    && f.sources
                        .mfmv
                        .iter()
                        .all(|s| s.ref2cur == -32 && s.ref2idx == [0; 7])
            },
        ),
        trap("128 away", slots(8, 128, &[0, 0]), |f| {
            f.sources.mfmv.map(|s| s.ref2cur) == [-32; 4]
        }),
        trap(
            "far references",
            slots(8, 129, &[128, 127]).refs(0, &saved),
            |f| {
                f.sources
                    .mfmv
                    .iter()
                    .any(|s| s.ref2ref == [31, 0, -31, 0, 0, 0, 1])
            },
        ),
        trap("factors", slots(8, 159, &[128, 128]).refs(0, &saved), |f| {
            let wanted = [-31 * 528, 0, 31 * 528, 0, 0, 0, -31 * 16_384];
            f.sources
                .mfmv
                .iter()
                .any(|s| s.ref2cur == -31 && s.ref2sf0 == wanted)
        }),
    ]
}

fn switch_traps() -> Vec<Trap> {
    let three = slots(8, 10, &[8, 9, 12]).refs(2, &[8]);
    let off = Header {
        use_ref_frame_mvs: 0,
        ..three
    };
    let odd = Header {
        tip: 2,
        use_ref_frame_mvs: 255,
        has_bothside_refs: 128,
        tip_frame_mode: 255,
        rp_ref: [2, 255, 128, 0, 3, 0, 4],
        ..three.tip([0, 2])
    };
    let none: fn(&Frame) -> bool = |f| f.sources.n_mfmvs == 0 && f.sources.mfmv_mask == 0;
    vec![
        trap("switch off", off.tip([-1, 127]), |f| {
            f.sources.n_mfmvs == 0 && f.tip_reference == [-1, 127]
        }),
        trap(
            "TIP off",
            Header {
                tip_reference: [-128, 7],
                ..three
            },
            |f| f.sources.n_mfmvs == 4 && f.tip_reference == [-128, 7],
        ),
        trap("no slots", slots(8, 10, &[]).tip([-1, -1]), none),
        trap("one slot", slots(8, 10, &[8]).tip([-1, -1]), none),
        trap("two slots", slots(8, 10, &[8, 9]), |f| {
            f.sources.n_mfmvs == 4
        }),
        trap("no bits", slots(0, 10, &[8, 9]).tip([-1, -1]), none),
        trap("switches that are not 1", odd, |f| {
            f.rp_ref == [1, 1, 1, 0, 1, 0, 1]
                && f.tip_frame_mode == 255
                && f.use_ref_frame_mvs == 1
                && f.sources.mfmv[0].tgt == 0
        }),
    ]
}

/// Makes a header refused.
pub type Way = fn(&mut Header);

/// Every refusal's number, and ways to it at and far past its limit.
pub const WAYS: [(u32, &[Way]); 6] = [
    (
        3,
        &[
            |h| h.order_hint_n_bits = 9,
            |h| h.order_hint_n_bits = 256,
            |h| h.order_hint_n_bits = u32::MAX,
        ],
    ),
    (
        4,
        &[
            |h| h.n_ref_frames = 8,
            |h| h.n_ref_frames = 256 + 3,
            |h| h.n_ref_frames = u32::MAX,
        ],
    ),
    (5, &[|h| h.sb128 = 3, |h| h.sb128 = 255]),
    (
        6,
        &[
            |h| h.tmvp_sample_step = 0,
            |h| h.tmvp_sample_step = 3,
            |h| h.tmvp_sample_step = 255,
        ],
    ),
    (
        7,
        &[
            |h| h.width = 0,
            |h| h.width = SIDE_LIMIT + 1,
            |h| h.width = u32::MAX,
            |h| h.height = 0,
            |h| h.height = SIDE_LIMIT + 1,
            |h| h.height = u32::MAX,
        ],
    ),
    (
        8,
        &[
            |h| *h = h.mode([-1, 0]),
            |h| *h = h.mode([0, -1]),
            |h| *h = h.mode([0, h.n_ref_frames as i8]),
            |h| *h = h.mode([h.n_ref_frames as i8, 0]),
            |h| *h = h.mode([-128, 127]),
            |h| *h = h.tip([-1, 0]),
            |h| *h = h.tip([0, -1]),
            |h| *h = h.tip([0, h.n_ref_frames as i8]),
            |h| *h = h.tip([h.n_ref_frames as i8, 0]),
            |h| *h = h.tip([127, -128]),
        ],
    ),
];

/// Accepted; sources are picked, and TIP is off.
pub fn accepted() -> Header {
    slots(8, 10, &[8, 9, 12]).refs(2, &[8, 9])
}

/// Accepted, at a limit or just where the TIP pair is not looked at.
pub fn at_limits() -> Vec<Header> {
    let limits: &[Way] = &[
        |h| h.order_hint_n_bits = 0,
        |h| h.order_hint_n_bits = 8,
        |h| h.n_ref_frames = 0,
        |h| h.n_ref_frames = 7,
        |h| h.sb128 = 0,
        |h| h.sb128 = 2,
        |h| h.tmvp_sample_step = 1,
        |h| h.tmvp_sample_step = 2,
        |h| h.width = 1,
        |h| h.width = SIDE_LIMIT,
        |h| h.height = 1,
        |h| h.height = SIDE_LIMIT,
        |h| (h.width, h.height) = (SIDE_LIMIT, SIDE_LIMIT),
        |h| *h = h.mode([2, 0]),
        |h| *h = h.mode([0, 2]),
        |h| *h = h.tip([2, 0]),
        |h| *h = h.tip([0, 2]),
    ];
    let unseen: &[Way] = &[
        |h| h.tip = 0,
        |h| h.use_ref_frame_mvs = 0,
        |h| h.order_hint_n_bits = 0,
        |h| h.n_ref_frames = 1,
        |h| h.n_ref_frames = 0,
    ];
    let past = accepted().tip([-1, 3]);
    each_alone(accepted(), limits)
        .chain(each_alone(past, unseen))
        .collect()
}

pub fn changed(mut header: Header, ways: &[Way]) -> Header {
    ways.iter().for_each(|way| way(&mut header));
    header
}

/// The header changed in each of the ways alone.
fn each_alone(header: Header, ways: &[Way]) -> impl Iterator<Item = Header> + '_ {
    ways.iter().map(move |&way| changed(header, &[way]))
}

/// Refused by the number, each way alone.
pub fn past_limits() -> Vec<(u32, Header)> {
    // A mode makes the pair looked at whatever else is off, and then no slot may be named without one.
    let mode_alone: &[Way] = &[
        |h| (h.tip, h.use_ref_frame_mvs) = (0, 0),
        |h| h.order_hint_n_bits = 0,
        |h| (h.n_ref_frames, h.tip_reference) = (0, [0, 0]),
    ];
    let mut all = Vec::new();
    for (number, ways) in WAYS {
        all.extend(each_alone(accepted(), ways).map(|header| (number, header)));
    }
    all.extend(each_alone(accepted().mode([-1, 0]), mode_alone).map(|header| (8, header)));
    all
}

/// Two refusals or more, each in every way, and the first one's number.
pub fn refused_twice() -> Vec<(u32, Header)> {
    let mut all = vec![(Vec::new(), accepted())];
    for (number, ways) in WAYS {
        for (numbers, header) in all.clone() {
            all.extend(ways.iter().map(|&way| {
                let numbers: Vec<u32> = numbers.iter().copied().chain([number]).collect();
                (numbers, changed(header, &[way]))
            }));
        }
    }
    let twice = all.into_iter().filter(|(numbers, _)| numbers.len() > 1);
    twice
        .map(|(numbers, header)| (numbers[0], header))
        .collect()
}

/// Every pair of refusals, each in its first way.
pub fn refused_pairs() -> Vec<Header> {
    let mut all = Vec::new();
    for (i, (_, first)) in WAYS.iter().enumerate() {
        let pairs = WAYS[i + 1..].iter();
        all.extend(pairs.map(|(_, second)| changed(accepted(), &[first[0], second[0]])));
    }
    all
}

/// How the hints of a random header lie about the frame's.
struct Spread {
    offsets: Vec<i32>,
    frame: u8,
    mask: u8,
}

impl Spread {
    fn random(rng: &mut Rng, bits: u32) -> Self {
        let half = (1 << bits) / 2;
        let near = rng.within(1, 8);
        let offsets = match rng.word() % 4 {
            // Equal hints, links and circles are common.
            0 | 1 => (-near..=near).collect(),
            2 => vec![0, -1, 1, half - 1, half, half + 1, -31, 31, -32, 32],
            _ => (0..=255).collect(),
        };
        let wide = bits == 0 || rng.one_in(4);
        let mask = if wide {
            255
        } else {
            ((1u32 << bits) - 1) as u8
        };
        Self {
            offsets,
            frame: rng.word() as u8 & mask,
            mask,
        }
    }

    fn hint(&self, rng: &mut Rng) -> OrderHint {
        let at = rng.word() as usize % self.offsets.len();
        hint((i32::from(self.frame) + self.offsets[at]) as u8 & self.mask)
    }
}

/// On but once in so many; seldom another number than 1.
fn switch(rng: &mut Rng, off: u64) -> u8 {
    match (rng.one_in(off), rng.one_in(8)) {
        (true, _) => 0,
        (false, true) => rng.within(1, 255) as u8,
        (false, false) => 1,
    }
}

fn side(rng: &mut Rng) -> u32 {
    (rng.scaled(16).unsigned_abs()).clamp(1, SIDE_LIMIT)
}

fn refcnt(rng: &mut Rng, none: u64) -> u8 {
    match (rng.one_in(none), rng.one_in(16)) {
        (true, _) => 0,
        (false, true) => rng.word() as u8,
        (false, false) => rng.within(1, 7) as u8,
    }
}

/// Accepted.
pub fn random(rng: &mut Rng) -> Header {
    let bits = rng.within(0, 8) as u32;
    let spread = Spread::random(rng, bits);
    let n = match rng.one_in(8) {
        true => rng.within(0, 1),
        false => rng.within(2, 7),
    };
    let mut header = Header {
        order_hint_n_bits: bits,
        width: side(rng),
        height: side(rng),
        n_ref_frames: n as u32,
        tip: switch(rng, 2),
        sb128: rng.within(0, 2) as u8,
        tmvp_sample_step: rng.within(1, 2) as u8,
        use_ref_frame_mvs: switch(rng, 8),
        has_bothside_refs: switch(rng, 2),
        // Without slots the pair of a mode is refused.
        tip_frame_mode: if n == 0 { 0 } else { switch(rng, 2) },
        frame_offset: hint(spread.frame),
        ref_poc: std::array::from_fn(|_| spread.hint(rng)),
        ..Header::default()
    };
    link(&mut header, &spread, rng);
    let absent = [2, 4, 1 << 63][rng.word() as usize % 3];
    header.rp_ref = std::array::from_fn(|_| switch(rng, absent));
    header.tip_reference = match looks_at_tip(&header) {
        true => std::array::from_fn(|_| rng.within(0, n - 1) as i8),
        false => std::array::from_fn(|_| rng.word() as i8),
    };
    header
}

/// Saved hints, of which none to all are hints of slots, in use or not.
fn link(header: &mut Header, spread: &Spread, rng: &mut Rng) {
    let quarters = rng.within(0, 4);
    let none = [1, 4, 64][rng.word() as usize % 3];
    let slots = header.ref_poc;
    for saved in &mut header.saved {
        saved.ref_poc = std::array::from_fn(|_| match rng.within(1, 4) <= quarters {
            true => slots[rng.word() as usize % 7],
            false => spread.hint(rng),
        });
        saved.refcnt = refcnt(rng, none);
    }
}

/// A random header with one to three reasons to refuse it.
pub fn random_refused(rng: &mut Rng) -> Header {
    let mut header = random(rng);
    for _ in 0..rng.within(1, 3) {
        let (_, ways) = WAYS[rng.word() as usize % WAYS.len()];
        ways[rng.word() as usize % ways.len()](&mut header);
    }
    header
}
