//! The library against the expected answers: numbers answered, and every element of lent buffers.
use std::fmt::Debug;
use std::time::{Duration, Instant};

use crate::cases;
use crate::entry::{self, Header, OrderHint, Setup};
use crate::expected::{self, Answer};
use crate::fields;
use crate::rng::Rng;

const RANDOM_CASES: usize = 1_000_000;
const PRINTED_DIFFERENCES: u64 = 10;
const PROGRESS: Duration = Duration::from_secs(10);

// A buffer lies between guards, so that writes outside of it show.
const GUARD: usize = 3;
const LENT: usize = 2 * GUARD + 2;

trait Element: Copy + Default + PartialEq + Debug {
    fn of(word: u64) -> Self;
}

impl Element for i8 {
    fn of(word: u64) -> Self {
        word as i8
    }
}

impl Element for i32 {
    fn of(word: u64) -> Self {
        word as i32
    }
}

struct Comparison {
    rng: Rng,
    kind: &'static str,
    cases: u64,
    refused: u64,
    total: u64,
    differences: u64,
    last_line: Instant,
}

/// Compares all kinds, and tells whether everything agreed.
pub fn run(seed: u64) -> bool {
    let mut comparison = Comparison {
        rng: Rng::new(seed),
        kind: "",
        cases: 0,
        refused: 0,
        total: 0,
        differences: 0,
        last_line: Instant::now(),
    };
    comparison.kind("dequantize", Comparison::all_bytes);
    comparison.kind("quantize", Comparison::all_packings);
    comparison.kind("project", Comparison::all_projections);
    comparison.kind("scale", Comparison::all_scalings);
    comparison.kind("hint", Comparison::all_hints);
    comparison.kind("setup", Comparison::all_setups);
    let Comparison {
        total, differences, ..
    } = comparison;
    println!("compare: {total} cases, {differences} differences");
    differences == 0
}

impl Comparison {
    fn kind(&mut self, name: &'static str, cases: impl FnOnce(&mut Self)) {
        let before = self.differences;
        (self.kind, self.cases, self.refused) = (name, 0, 0);
        cases(self);
        let agreed = self.cases - (self.differences - before);
        println!(
            "{name}: {agreed} of {} cases agreed ({} of the cases are refusals)",
            self.cases, self.refused
        );
        self.total += self.cases;
    }

    /// One case: `call` answers a number and writes N elements, or refuses and writes none.
    fn check<T: Element, const N: usize>(
        &mut self,
        input: impl Debug,
        expected: Answer<[T; N]>,
        call: impl FnOnce(*mut T) -> u32,
    ) {
        let pattern = self.rng.word();
        let before: [T; LENT] =
            std::array::from_fn(|i| T::of(pattern.rotate_left(8 * i as u32 + 1)));
        let mut lent = before;
        let number = call(lent[GUARD..].as_mut_ptr());

        let mut wanted = before;
        if let Ok(answer) = expected {
            wanted[GUARD..GUARD + N].copy_from_slice(&answer);
        }
        let wanted_number = expected.err().unwrap_or(0);
        self.count(wanted_number);
        if number != wanted_number || lent != wanted {
            self.difference(|| {
                format!("{input:?}: library {number} {lent:?}, expected {wanted_number} {wanted:?}")
            });
        }
    }

    fn count(&mut self, number: u32) {
        self.cases += 1;
        self.refused += u64::from(number != 0);
        if self.cases.is_multiple_of(1 << 16) && self.last_line.elapsed() > PROGRESS {
            eprintln!("{}: {} cases so far", self.kind, self.cases);
            self.last_line = Instant::now();
        }
    }

    fn difference(&mut self, text: impl FnOnce() -> String) {
        self.differences += 1;
        if self.differences <= PRINTED_DIFFERENCES {
            println!("{} {}", self.kind, text());
        }
    }

    fn project(&mut self, case: [i32; 6]) {
        let [y, x, num, den, min, max] = case;
        self.check(case, expected::project(case), |out| unsafe {
            entry::refmvs_mv_projection(y, x, num, den, min, max, out)
        });
    }

    fn scale(&mut self, case: [i32; 3]) {
        let [y, x, sf] = case;
        self.check(case, expected::scale(case), |out| unsafe {
            entry::refmvs_scale_mv(y, x, sf, out)
        });
    }

    fn quantize(&mut self, case: [i32; 2]) {
        let [y, x] = case;
        self.check(case, Ok(expected::quantize(case)), |out| unsafe {
            entry::refmvs_quantize_mv(y, x, out)
        });
    }

    fn dequantize(&mut self, case: [i8; 2]) {
        let [y, x] = case;
        self.check(case, expected::dequantize(case), |out| unsafe {
            entry::refmvs_dequantize_mv(y, x, out)
        });
    }

    fn hint(&mut self, n: u32, a: u8, b: u8) {
        let expected = expected::hint(n, a, b).map(|d| [d]);
        let (poc0, poc1) = (OrderHint { value: a }, OrderHint { value: b });
        self.check((n, a, b), expected, |out| unsafe {
            entry::refmvs_get_poc_diff(n, poc0, poc1, out)
        });
    }

    fn setup(&mut self, header: Header) -> Setup {
        let wanted = match expected::setup(&header) {
            Ok(frame) => Setup::accepted(frame),
            Err(number) => Setup::refused(number),
        };
        let setup = unsafe { entry::refmvs_init_frame(header) };
        self.count(wanted.refusal);
        if setup != wanted {
            self.difference(|| setup_difference(&header, &setup, &wanted));
        }
        wanted
    }

    fn all_bytes(&mut self) {
        for y in i8::MIN..=i8::MAX {
            for x in i8::MIN..=i8::MAX {
                self.dequantize([y, x]);
            }
        }
    }

    fn all_packings(&mut self) {
        for v in -2_200..=2_200 {
            self.quantize([v, 0]);
            self.quantize([0, v]);
        }
        for edges in [cases::code_edges(), cases::pack_extremes()] {
            for &y in &edges {
                for &x in &edges {
                    self.quantize([y, x]);
                }
            }
        }
        for _ in 0..RANDOM_CASES {
            let case = cases::random_pack(&mut self.rng);
            self.quantize(case);
        }
    }

    fn all_projections(&mut self) {
        self.projections_by_ratio();
        self.projections_by_pair();
        for _ in 0..RANDOM_CASES {
            let case = cases::random_project(&mut self.rng);
            self.project(case);
        }
    }

    /// Every ratio with all bounds, each component in both places, paired in turn.
    fn projections_by_ratio(&mut self) {
        let components = cases::components();
        let mut turn = 0;
        for num in cases::numerators() {
            for den in cases::denominators() {
                for (min, max) in cases::BOUNDS {
                    turn += 1;
                    for (i, &y) in components.iter().enumerate() {
                        let x = components[(i + turn) % components.len()];
                        self.project([y, x, num, den, min, max]);
                    }
                }
            }
        }
    }

    /// Every pair of components, with a few ratios and all bounds.
    fn projections_by_pair(&mut self) {
        let components = cases::components();
        for (num, den) in [(1, 1), (-1, 2), (1, 3), (31, 1), (-31, 31), (2, 7)] {
            for (min, max) in cases::BOUNDS {
                for &y in &components {
                    for &x in &components {
                        self.project([y, x, num, den, min, max]);
                    }
                }
            }
        }
    }

    fn all_scalings(&mut self) {
        let components = cases::components();
        for sf in cases::factors() {
            for &y in &components {
                for &x in &components {
                    self.scale([y, x, sf]);
                }
            }
        }
        for _ in 0..RANDOM_CASES {
            let case = cases::random_scale(&mut self.rng);
            self.scale(case);
        }
    }

    fn all_hints(&mut self) {
        for n in (0..=16).chain([31, 32, 33, 64, 255, 256, 1 << 31, u32::MAX]) {
            for a in 0..=255 {
                for b in 0..=255 {
                    self.hint(n, a, b);
                }
            }
        }
    }
    fn all_setups(&mut self) {
        self.setup_traps();
        self.setup_refusals();
        for _ in 0..RANDOM_CASES {
            let header = cases::setup::random(&mut self.rng);
            let refusal = self.setup(header).refusal;
            assert_eq!(refusal, 0, "a random header is refused: {header:?}");
        }
        for _ in 0..RANDOM_CASES / 16 {
            let header = cases::setup::random_refused(&mut self.rng);
            self.setup(header);
        }
    }

    /// Every trap as it is, with all hint bits and slot counts, and with all choices of planes.
    fn setup_traps(&mut self) {
        for cases::setup::Trap {
            name,
            header,
            shows,
        } in cases::setup::traps()
        {
            let wanted = self.setup(header);
            let shown = wanted.refusal == 0 && shows(&wanted.frame);
            assert!(shown, "no trap: {name}: {wanted:?}");
            for order_hint_n_bits in 0..=9 {
                for n_ref_frames in 0..=8 {
                    self.setup(Header {
                        order_hint_n_bits,
                        n_ref_frames,
                        ..header
                    });
                }
            }
            for planes in 0..128u8 {
                let rp_ref = std::array::from_fn(|slot| planes >> slot & 1);
                self.setup(Header { rp_ref, ..header });
            }
        }
    }

    /// At each limit, past it, and refused for two or more reasons.
    fn setup_refusals(&mut self) {
        let accepted = cases::setup::at_limits().into_iter();
        let accepted = accepted.map(|header| (0, header));
        let refused = cases::setup::past_limits().into_iter();
        let refused = refused.chain(cases::setup::refused_twice());
        for (number, header) in accepted.chain(refused) {
            let refusal = self.setup(header).refusal;
            assert_eq!(refusal, number, "not the scope's refusal: {header:?}");
        }
    }
}

/// The header as the list has it, both numbers, and the fields that differ.
fn setup_difference(header: &Header, setup: &Setup, wanted: &Setup) -> String {
    let mut text = format!(
        "{}: library {}, expected {}",
        fields::text(fields::header(header)),
        setup.refusal,
        wanted.refusal
    );
    let pairs = fields::frame(&setup.frame).into_iter();
    let pairs = pairs.zip(fields::frame(&wanted.frame));
    for ((name, ours), (_, theirs)) in pairs.filter(|(ours, theirs)| ours != theirs) {
        text += &format!("; {name} {ours:?}, expected {theirs:?}");
    }
    text
}
