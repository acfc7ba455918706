//! The list of cases and expected answers that the program `replay` reads.
use std::collections::HashSet;
use std::io::{self, BufWriter, Write};

use crate::cases;
use crate::entry::Header;
use crate::expected::{self, Answer};
use crate::fields;
use crate::reference;
use crate::rng::Rng;

pub const SOURCE: &str = "awxkee/tealdust 9d7b0500a5";
const LINES: usize = 300;
const SMOOTH_LIMIT: i32 = 2_047;
const GAP_LIMIT: i32 = 65_535;

struct List<W> {
    out: W,
    rng: Rng,
}

pub fn write(seed: u64) -> io::Result<()> {
    let mut list = List {
        out: BufWriter::new(io::stdout().lock()),
        rng: Rng::new(seed),
    };
    list.head(seed)?;
    list.kind(LINES, project_edges(), project, cases::random_project)?;
    list.kind(LINES, scale_edges(), scale, cases::random_scale)?;
    list.kind(LINES, quantize_edges(), quantize, cases::random_pack)?;
    list.kind(LINES, dequantize_edges(), dequantize, random_bytes)?;
    list.kind(LINES, hint_edges(), hint, random_hint)?;
    for n in 1..=5 {
        let random = |rng: &mut Rng| (n, rng.within(-n * SMOOTH_LIMIT, n * SMOOTH_LIMIT));
        list.kind(LINES / 5, sum_edges(n, SMOOTH_LIMIT), smooth, random)?;
    }
    for n in 1..=4 {
        let random = |rng: &mut Rng| (n, rng.within(-n * GAP_LIMIT, n * GAP_LIMIT));
        list.kind(LINES / 4, sum_edges(n, GAP_LIMIT), gap, random)?;
    }
    list.kind(LINES, frame_edges(), frame, cases::setup::random)?;
    list.out.flush()
}

impl<W: Write> List<W> {
    fn head(&mut self, seed: u64) -> io::Result<()> {
        writeln!(
            self.out,
            "# What the published functions answer, and the scope's refusals, for the program replay.
# Made by `oracle/run answers --seed {seed}` from {SOURCE}.
# One case a line, inputs and then the answer; a refusal's number comes with zeros, 0 is none:
# project y x num den min max refusal y x
# scale y x sf refusal y x
# quantize y x y x
# dequantize y x refusal y x
# hint n a b refusal difference
# smooth n sum mean
# gap n sum mean
# frame header refusal record, fields and elements in the order of include/refmvs.h:
#   header order_hint_n_bits width height n_ref_frames tip sb128 tmvp_sample_step use_ref_frame_mvs
#     has_bothside_refs tip_frame_mode tip_reference*2 frame_offset ref_poc*7 (ref_poc*7 refcnt)*7 rp_ref*7
#   record width height n_ref_frames sb128 tmvp_sample_step tip_frame_mode tip_reference*2 tip_delta
#     tip_sf*2 ref_flip rp_ref*7 ref_sign*7 pocdiff*7 abspocdiff*7 mfmv_mask use_ref_frame_mvs n_mfmvs
#     (reference tgt dir ref2cur ref2ref*7 ref2idx*7 ref2sf0*7 ref2sf1*7)*4"
        )
    }

    /// The edges, then random cases up to so many lines, none twice.
    fn kind<C>(
        &mut self,
        lines: usize,
        edges: Vec<C>,
        line: impl Fn(C) -> String,
        mut random: impl FnMut(&mut Rng) -> C,
    ) -> io::Result<()> {
        let mut seen = HashSet::new();
        let mut edges = edges.into_iter();
        loop {
            let case = match edges.next() {
                Some(edge) => edge,
                None if seen.len() >= lines => return Ok(()),
                None => random(&mut self.rng),
            };
            let text = line(case);
            if seen.insert(text.clone()) {
                writeln!(self.out, "{text}")?;
            }
        }
    }
}

fn vector(answer: Answer<[i32; 2]>) -> String {
    let [y, x] = answer.unwrap_or_default();
    format!("{} {y} {x}", answer.err().unwrap_or(0))
}

fn project(case: [i32; 6]) -> String {
    let [y, x, num, den, min, max] = case;
    let answer = vector(expected::project(case));
    format!("project {y} {x} {num} {den} {min} {max} {answer}")
}

fn scale(case: [i32; 3]) -> String {
    let [y, x, sf] = case;
    format!("scale {y} {x} {sf} {}", vector(expected::scale(case)))
}

fn quantize([y, x]: [i32; 2]) -> String {
    let [qy, qx] = expected::quantize([y, x]);
    format!("quantize {y} {x} {qy} {qx}")
}

fn dequantize([y, x]: [i8; 2]) -> String {
    format!(
        "dequantize {y} {x} {}",
        vector(expected::dequantize([y, x]))
    )
}

fn hint((n, a, b): (u32, u8, u8)) -> String {
    let answer = expected::hint(n, a, b);
    let (number, d) = (answer.err().unwrap_or(0), answer.unwrap_or(0));
    format!("hint {n} {a} {b} {number} {d}")
}

fn smooth((n, sum): (i32, i32)) -> String {
    let mean = reference::smooth_mean(n as usize, sum);
    format!("smooth {n} {sum} {mean}")
}

fn gap((n, sum): (i32, i32)) -> String {
    format!("gap {n} {sum} {}", reference::gap_mean(n as usize, sum))
}

fn frame(header: Header) -> String {
    let answer = expected::setup(&header);
    let record = fields::frame(&answer.unwrap_or_default());
    format!(
        "frame {} {} {}",
        fields::text(fields::header(&header)),
        answer.err().unwrap_or(0),
        fields::text(record.into_iter().flat_map(|(_, numbers)| numbers))
    )
}

fn project_edges() -> Vec<[i32; 6]> {
    let (min, max) = (i32::MIN, i32::MAX);
    let mut all = vec![[100, -100, 1, 3, -65_535, 65_535]];
    for v in cases::components() {
        all.push([v, 3, 1, 2, -65_535, 65_535]);
        all.push([-3, v, -1, 2, min, max]);
    }
    all.extend(
        cases::numerators()
            .iter()
            .map(|&n| [1_001, -7, n, 2, min, max]),
    );
    all.extend(
        cases::denominators()
            .iter()
            .map(|&d| [1_001, -7, 1, d, min, max]),
    );
    all.extend(cases::BOUNDS.map(|(low, high)| [3, -5, 31, 1, low, high]));
    all
}

fn scale_edges() -> Vec<[i32; 3]> {
    let mut all = vec![[1, -1, 8_192]];
    for v in cases::components() {
        all.push([v, 3, 8_192]);
        all.push([-3, v, -24_576]);
    }
    for sf in cases::factors() {
        all.push([3, -5, sf]);
        all.push([65_535, -65_535, sf]);
    }
    all
}

fn quantize_edges() -> Vec<[i32; 2]> {
    let edges = cases::code_edges();
    let positive = edges.iter().filter(|&&v| v > 0);
    let mut all: Vec<[i32; 2]> = positive.map(|&v| [v, v / 2 - v]).collect();
    for v in cases::pack_extremes() {
        all.push([v, 0]);
        all.push([-33, v]);
    }
    all.extend([[33, 63], [64, 2_047], [2_048, 0], [0, 0]]);
    all
}

fn dequantize_edges() -> Vec<[i8; 2]> {
    // 3 is odd, so x runs through all bytes too, and is -128 where y is.
    let all_bytes = (i8::MIN..=i8::MAX).map(|y| [y, y.wrapping_mul(3)]);
    let mut all: Vec<[i8; 2]> = all_bytes.collect();
    for other in [-127, -1, 0, 1, 127] {
        all.push([-128, other]);
        all.push([other, -128]);
    }
    all
}

fn hint_edges() -> Vec<(u32, u8, u8)> {
    let mut all = vec![(4, 1, 15), (8, 128, 0)];
    for n in 0..=8u32 {
        let (last, half) = (((1u32 << n) - 1) as u8, ((1u32 << n) / 2) as u8);
        for other in [0, 1, half.saturating_sub(1), half, last, 128, 255] {
            all.push((n, other, 0));
            all.push((n, 0, other));
        }
    }
    for n in [9, 10, 31, 32, 33, 255, 256, 1 << 31, u32::MAX] {
        all.extend([(n, 0, 0), (n, 5, 3), (n, 0, 255)]);
    }
    all
}

fn frame_edges() -> Vec<Header> {
    let traps = cases::setup::traps().into_iter().map(|trap| trap.header);
    let past = cases::setup::past_limits().into_iter();
    traps
        .chain(cases::setup::at_limits())
        .chain(past.map(|(_, header)| header))
        .chain(cases::setup::refused_pairs())
        .collect()
}

fn random_bytes(rng: &mut Rng) -> [i8; 2] {
    [rng.word() as i8, rng.word() as i8]
}

fn random_hint(rng: &mut Rng) -> (u32, u8, u8) {
    let n = rng.within(0, 8) as u32;
    (n, rng.word() as u8, rng.word() as u8)
}

/// Small sums, sums about a half, and the largest.
fn sum_edges(n: i32, limit: i32) -> Vec<(i32, i32)> {
    let mut sums: Vec<i32> = (0..=10).filter(|&sum| sum <= n * limit).collect();
    for whole in [5, 1_000, limit - 1] {
        let half = n * whole + n / 2;
        sums.extend([half - 1, half, half + 1]);
    }
    sums.extend([n * limit - 1, n * limit]);
    let sums = cases::both_signs(&sums);
    sums.into_iter().map(|sum| (n, sum)).collect()
}
