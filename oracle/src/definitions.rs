//! The definitions' own text beside the published functions: that the interpreter reads it rightly.
use std::fmt::Debug;
use std::time::Instant;

use crate::antt::{self, Machine, Own, Value};
use crate::cases;
use crate::entry::{Header, OrderHint};
use crate::expected::{self, Answer};
use crate::reference;
use crate::rng::Rng;
use crate::values;

const CASES: usize = 4_000;
const HEADERS: usize = 5_000;
const PRINTED_DIFFERENCES: u64 = 10;

struct Check {
    machine: Machine,
    rng: Rng,
    differences: u64,
}

/// Compares all kinds, and tells whether everything agreed.
pub fn run(seed: u64) -> bool {
    antt::with_stack(move || {
        let machine = match antt::load(&antt::crates(), Own::Native) {
            Ok(machine) => machine,
            Err(fault) => {
                println!("definitions: {fault}");
                return false;
            }
        };
        let mut check = Check {
            machine,
            rng: Rng::new(seed),
            differences: 0,
        };
        check.kind("mv_projection", CASES, Check::project);
        check.kind("scale_mv", CASES, Check::scale);
        check.kind("packed", CASES, Check::pack);
        check.kind("unpacked", CASES, Check::unpack);
        check.kind("poc_diff", CASES, Check::hint);
        check.kind("smoothed", CASES, Check::smooth);
        check.kind("gap_mean", CASES, Check::gap);
        check.kind("setup_of", HEADERS, |check| {
            let header = cases::setup::random(&mut check.rng);
            check.setup(header);
        });
        check.kind("setup_of, refused", HEADERS / 4, |check| {
            let header = cases::setup::random_refused(&mut check.rng);
            check.setup(header);
        });
        let mut traps = cases::setup::traps().into_iter();
        check.kind("setup_of, traps", traps.len(), |check| {
            let trap = traps.next().unwrap();
            check.setup(trap.header);
        });
        println!("definitions: {} differences", check.differences);
        check.differences == 0
    })
}

impl Check {
    fn kind(&mut self, name: &str, count: usize, mut case: impl FnMut(&mut Self)) {
        let (before, start, steps) = (self.differences, Instant::now(), self.machine.steps);
        for _ in 0..count {
            case(self);
        }
        let (time, steps) = (start.elapsed(), self.machine.steps - steps);
        println!(
            "{name}: {} of {count} cases agreed, {:.2} s, {:.1} million steps a second",
            count as u64 - (self.differences - before),
            time.as_secs_f64(),
            steps as f64 / time.as_secs_f64() / 1e6
        );
    }

    fn compare<T: PartialEq + Debug>(&mut self, input: impl Debug, got: T, wanted: T) {
        if got != wanted {
            self.differences += 1;
            if self.differences <= PRINTED_DIFFERENCES {
                println!("{input:?}: definition {got:?}, expected {wanted:?}");
            }
        }
    }

    fn call(&mut self, name: &str, arguments: Vec<Value>) -> Value {
        self.machine.call_by_name(name, arguments)
    }

    fn vector(&self, [y, x]: [i32; 2]) -> Value {
        values::vector(&self.machine.program.names, y, x)
    }

    /// A `Said` of vectors: a vector, or the refusal's number beside zeros.
    fn said(&self, said: Value) -> Answer<[i32; 2]> {
        let names = &self.machine.program.names;
        let vector = values::vector_of(names, names.field(&said, "vector"));
        match names.field(&said, "refusal").int() {
            0 => Ok(vector),
            number => {
                assert_eq!(vector, [0, 0]);
                Err(number as u32)
            }
        }
    }

    fn project(&mut self) {
        let case = cases::random_project(&mut self.rng);
        let [y, x, rest @ ..] = case;
        let mut arguments = vec![self.vector([y, x])];
        arguments.extend(rest.map(|n| Value::Int(n.into())));
        let said = self.call("mv.Projection.mv_projection", arguments);
        self.compare(case, self.said(said), expected::project(case));
    }

    fn scale(&mut self) {
        let case = cases::random_scale(&mut self.rng);
        let [y, x, factor] = case;
        let arguments = vec![self.vector([y, x]), Value::Int(factor.into())];
        let said = self.call("mv.Projection.scale_mv", arguments);
        self.compare(case, self.said(said), expected::scale(case));
    }

    fn pack(&mut self) {
        let case = cases::random_pack(&mut self.rng);
        let packed = self.call("mv.Packing.packed", vec![self.vector(case)]);
        let packed = values::vector_of(&self.machine.program.names, packed);
        self.compare(case, packed, expected::quantize(case).map(i32::from));
    }

    fn unpack(&mut self) {
        let word = self.rng.word();
        let case = match self.rng.one_in(8) {
            true => [-128, word as i8],
            false => [word as i8, (word >> 8) as i8],
        };
        let said = self.call(
            "mv.Packing.unpacked",
            vec![self.vector(case.map(i32::from))],
        );
        self.compare(case, self.said(said), expected::dequantize(case));
    }

    fn hint(&mut self) {
        let n = self.rng.within(0, 9) as u32;
        let word = self.rng.word();
        let (a, b) = (word as u8, (word >> 8) as u8);
        let names = &self.machine.program.names;
        let [first, second] = [a, b].map(|value| values::hint(names, OrderHint { value }));
        let said = self.call(
            "env.Hints.poc_diff",
            vec![Value::Int(n.into()), first, second],
        );
        let names = &self.machine.program.names;
        let number = names.field(&said, "refusal").int();
        let diff = names.field(&said, "diff").int() as i32;
        let got = if number == 0 {
            Ok(diff)
        } else {
            Err(number as u32)
        };
        self.compare((n, a, b), got, expected::hint(n, a, b));
    }

    fn mean(&mut self, name: &str, n: i32, sum: i32) -> i32 {
        let arguments = vec![Value::Int(n.into()), Value::Int(sum.into())];
        self.call(name, arguments).int() as i32
    }

    fn smooth(&mut self) {
        let n = self.rng.within(1, 5);
        let sum = self.rng.within(-n * 2_047, n * 2_047);
        let got = self.mean("mv.Averages.smoothed", n, sum);
        self.compare((n, sum), got, reference::smooth_mean(n as usize, sum));
    }

    fn gap(&mut self) {
        let n = self.rng.within(1, 4);
        let sum = self.rng.within(-n * 65_535, n * 65_535);
        let got = self.mean("mv.Averages.gap_mean", n, sum);
        self.compare((n, sum), got, reference::gap_mean(n as usize, sum));
    }

    fn setup(&mut self, header: Header) {
        let argument = values::header(&self.machine.program.names, &header);
        let said = self.call("frame.Frame.setup_of", vec![argument]);
        let names = &self.machine.program.names;
        let number = names.field(&said, "refusal").int() as u32;
        let frame = values::frame_of(names, names.field(&said, "frame"));
        let wanted = expected::setup(&header);
        let wanted = (wanted.err().unwrap_or(0), wanted.unwrap_or_default());
        self.compare(header, (number, frame), wanted);
    }
}
