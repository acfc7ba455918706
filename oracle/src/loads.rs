//! The load's definition, run from its own text, beside the published load: every cell of the store.
use std::collections::BTreeMap;
use std::fs;
use std::io;
use std::panic::{self, AssertUnwindSafe};
use std::time::{Duration, Instant};

use crate::antt::{self, Machine, Own, Value};
use crate::cases::directed::{self, Directed};
use crate::cases::load::{self as cases, Case};
use crate::expected;
use crate::kept::{self, Kept, What};
use crate::load::{Call, MAP_PLANES, SLOTS, Store};
use crate::reference::{self, EMPTY_Y};
use crate::rng::Rng;
use crate::values;

const PRINTED_DIFFERENCES: u64 = 10;
const PROGRESS: Duration = Duration::from_secs(30);
/// One call in so many is also run without the owners' tests.
const UNGUARDED: u64 = 8;

/// So many calls of a case are made to be refused.
const BROKEN: usize = 2;

const ANSWER: &str = "load.Calls.answer";
const LOAD: &str = "load.Calls.load";
const UNGUARDED_LOAD: &str = "load.Calls.load_unguarded";

#[derive(Clone, Copy, PartialEq)]
pub enum Sides {
    Both,
    /// Both, with no definition carried out by the interpreter: slow, so small frames alone.
    Clauses,
    /// The published load alone.
    Published,
}

struct Loads {
    machine: Option<Machine>,
    counts: BTreeMap<&'static str, u64>,
    cases: u64,
    calls: u64,
    cells: u64,
    differences: u64,
    definition: Duration,
    published: Duration,
}

/// Directed cases and then random ones, of which each has a seed of its own. Tells whether all agreed.
/// Definitions that cannot be read are a fault, and no difference; so in all of these.
pub fn run(seed: u64, count: u64, sides: Sides) -> io::Result<bool> {
    antt::with_stack(move || {
        let mut loads = Loads::new(sides)?;
        for Directed { name, case, shows } in directed::all() {
            let after = loads.case(name, case);
            let (call, store) = after;
            assert!(
                shows(&call, &store),
                "not the case it is meant to be: {name}"
            );
        }
        let (mut rng, mut last) = (Rng::new(seed), Instant::now());
        for done in 0..count {
            let mut seed = rng.word();
            while sides == Sides::Clauses && !small(seed) {
                seed = rng.word();
            }
            loads.random(seed);
            if last.elapsed() > PROGRESS {
                eprintln!("loads: {done} cases so far");
                last = Instant::now();
            }
        }
        Ok(loads.report())
    })
}

/// A machine that knows the load.
fn with_load(machine: Machine) -> Result<Machine, String> {
    let mut needed = [ANSWER, LOAD, UNGUARDED_LOAD].iter();
    match needed.find(|name| machine.program.code(name).is_none()) {
        Some(name) => Err(format!("there is no definition {name}")),
        None => Ok(machine),
    }
}

/// Whether the case has a small store.
fn small(seed: u64) -> bool {
    let geometry = cases::random(seed).calls[0].geometry();
    geometry.side == 8 && geometry.stride == 32 && geometry.wide <= 24
}

/// The random case of this seed, with its calls printed.
pub fn one(seed: u64) -> io::Result<bool> {
    antt::with_stack(move || {
        let mut loads = Loads::new(Sides::Both)?;
        for call in &cases::random(seed).calls {
            println!("{}", cases::text(call));
        }
        loads.random(seed);
        Ok(loads.report())
    })
}

/// The loads of a kept list. Tells whether the list, the definition and the published load agree.
pub fn kept(file: &str) -> io::Result<bool> {
    let text = fs::read_to_string(file)?;
    antt::with_stack(move || {
        let mut loads = Loads::new(Sides::Both)?;
        let mut last = None;
        kept::read_only(&text, What::Loads, |kept| loads.kept(kept, &mut last))?;
        Ok(loads.report())
    })
}

impl Loads {
    fn new(sides: Sides) -> io::Result<Self> {
        let own = match sides {
            Sides::Clauses => Own::Clauses,
            _ => Own::Native,
        };
        let machine = match sides {
            Sides::Published => None,
            _ => {
                let machine = antt::load(&antt::crates(), own).and_then(with_load);
                Some(machine.map_err(io::Error::other)?)
            }
        };
        Ok(Self {
            machine,
            counts: BTreeMap::new(),
            cases: 0,
            calls: 0,
            cells: 0,
            differences: 0,
            definition: Duration::ZERO,
            published: Duration::ZERO,
        })
    }

    fn random(&mut self, seed: u64) {
        let name = format!("--case {seed}");
        let case = cases::random(seed);
        let mut rng = Rng::new(!seed);
        for _ in 0..BROKEN {
            let (call, store) = cases::broken(&mut rng, &case);
            self.refuse(&name, &call, &store);
        }
        self.case(&name, case);
    }

    /// The definition's answer against the scope's table.
    fn refuse(&mut self, name: &str, call: &Call, store: &Store) {
        self.answer(name, call, store, expected::load_refusal(call, store));
    }

    /// The definition's answer against the wanted one.
    fn answer(&mut self, name: &str, call: &Call, store: &Store, wanted: u32) {
        self.count(
            match wanted {
                9 => "refused with 9",
                10 => "refused with 10",
                11 => "refused with 11",
                12 => "refused with 12",
                _ => "changed and yet accepted",
            },
            true,
        );
        let Some(machine) = &mut self.machine else {
            return;
        };
        let names = &machine.program.names;
        let arguments = vec![values::call(names, call), values::store(names, store)];
        let answer = machine.call_by_name(ANSWER, arguments).int();
        if answer != i64::from(wanted) {
            let text = cases::text(call);
            self.difference(|| format!("{name}: answer {answer}, wanted {wanted}: {text}"));
        }
    }

    /// A call of a kept list. `last` is the call before it that was accepted.
    fn kept(&mut self, kept: Kept, last: &mut Option<Call>) {
        let name = format!("line {}", kept.line);
        if kept.first {
            self.cases += 1;
            *last = None;
        }
        if kept.answer != 0 {
            self.answer(&name, &kept.call, &kept.before, kept.answer);
            if kept.before != kept.after {
                self.difference(|| format!("{name}: a refused call changes the store"));
            }
            return;
        }
        let mut store = kept.before.clone();
        self.calls += 1;
        if self.publish(&name, &kept.call, &mut store) && store != kept.after {
            self.difference(|| format!("{name}: not what the published load leaves"));
        }
        self.look(&kept.call, &kept.before, &kept.after);
        let beside =
            |last: &Call| last.rows.0 == kept.call.rows.0 && kept.call.columns.1 <= last.columns.0;
        let earlier = last.as_ref().is_some_and(beside);
        self.count("tile left of the one loaded before it", earlier);
        self.define(&name, 0, &kept.call, &kept.before, &kept.after);
        *last = Some(kept.call);
    }

    /// The calls one after the other; answers the last call and the store after it.
    fn case(&mut self, name: &str, case: Case) -> (Call, Store) {
        self.cases += 1;
        let mut store = case.store.clone();
        for (n, call) in case.calls.iter().enumerate() {
            let before = store.clone();
            let refusal = expected::load_refusal(call, &before);
            assert_eq!(refusal, 0, "{name}: a case outside of the scope");
            if !self.publish(name, call, &mut store) {
                break;
            }
            self.calls += 1;
            self.look(call, &before, &store);
            self.define(name, n, call, &before, &store);
        }
        if case.one_row && case.calls.len() > 1 {
            self.in_order(name, &case, &store);
        }
        (case.calls.last().unwrap().clone(), store)
    }

    fn publish(&mut self, name: &str, call: &Call, store: &mut Store) -> bool {
        let start = Instant::now();
        let run = AssertUnwindSafe(|| reference::load_tmvs(call, store));
        let ran = panic::catch_unwind(run).is_ok();
        self.published += start.elapsed();
        if !ran {
            self.difference(|| format!("{name}: the published load breaks: {}", cases::text(call)));
        }
        ran
    }

    /// Tiles without a common column leave the same store in the order of their columns.
    fn in_order(&mut self, name: &str, case: &Case, after: &Store) {
        self.count("lists of one superblock row also run by columns", true);
        let mut calls = case.calls.clone();
        calls.sort_by_key(|call| call.columns.0);
        let mut store = case.store.clone();
        for call in &calls {
            reference::load_tmvs(call, &mut store);
        }
        if store != *after {
            self.difference(|| format!("{name}: the published load depends on the tiles' order"));
        }
    }

    fn define(&mut self, name: &str, n: usize, call: &Call, before: &Store, after: &Store) {
        let unguarded = self.calls.is_multiple_of(UNGUARDED);
        let Some(machine) = &mut self.machine else {
            return;
        };
        let start = Instant::now();
        let names = &machine.program.names;
        let arguments = vec![values::call(names, call), values::store(names, before)];
        let answer = machine.call_by_name(ANSWER, arguments.clone()).int();
        let loaded = machine.call_by_name(LOAD, arguments.clone());
        let other = unguarded.then(|| machine.call_by_name(UNGUARDED_LOAD, arguments));
        self.definition += start.elapsed();
        if answer != 0 {
            self.difference(|| {
                format!(
                    "{name}, call {n}: refused with {answer}: {}",
                    cases::text(call)
                )
            });
        }
        self.compare(name, n, call, (before, after), &loaded, "");
        if let Some(other) = other {
            self.count("calls also run without owners", true);
            self.compare(name, n, call, (before, after), &other, ", without owners");
        }
    }

    fn compare(
        &mut self,
        name: &str,
        n: usize,
        call: &Call,
        (before, after): (&Store, &Store),
        loaded: &Value,
        how: &str,
    ) {
        let machine = self.machine.as_ref().unwrap();
        let before = before.lists();
        let mut texts = Vec::new();
        let mut cells = 0;
        for (list, (field, wanted)) in after.lists().into_iter().enumerate() {
            let got = machine.program.names.field(loaded, field).int_items();
            cells += wanted.len() as u64;
            if got.len() != wanted.len() {
                texts.push(format!("{field} has {} elements", got.len()));
                continue;
            }
            let pairs = got.iter().zip(&wanted).enumerate();
            let mut differing = pairs.filter(|(_, (got, wanted))| got != wanted);
            if let Some((at, (got, wanted))) = differing.next() {
                let more = differing.count();
                let was = before[list].1[at];
                let place = place(call, field, at);
                texts.push(format!(
                    "{field} {place}: was {was}, definition {got}, published {wanted}, and {more} more"
                ));
            }
        }
        self.cells += cells;
        if !texts.is_empty() {
            self.difference(|| {
                let texts = texts.join("; ");
                format!("{name}, call {n}{how}: {texts}: {}", cases::text(call))
            });
        }
    }

    fn difference(&mut self, text: impl FnOnce() -> String) {
        self.differences += 1;
        if self.differences <= PRINTED_DIFFERENCES {
            println!("{}", text());
        }
    }

    fn count(&mut self, what: &'static str, holds: bool) {
        *self.counts.entry(what).or_default() += u64::from(holds);
    }

    /// What the call has exercised.
    fn look(&mut self, call: &Call, before: &Store, after: &Store) {
        let g = call.geometry();
        let setup = &call.setup;
        let seen = Seen::new(call, before, after);
        let two = g.step == 2;
        let tip = setup.tip_frame_mode != 0;
        self.count("superblock code 0", setup.sb128 == 0);
        self.count("superblock code 1", setup.sb128 == 1);
        self.count("superblock code 2", setup.sb128 == 2);
        self.count("step 1", !two);
        self.count("step 2", two);
        self.count("row mode", !call.whole_frame);
        self.count("whole-frame mode", call.whole_frame);
        self.count("trajectories on", call.traj);
        self.count("trajectories off", !call.traj);
        self.count("hole filling on", call.holes);
        self.count("hole filling off", !call.holes);
        self.count("TIP", tip);
        self.count("TIP off", !tip);
        self.count("W odd", g.wide % 2 == 1);
        self.count("H odd", g.high % 2 == 1);
        self.count("store with something left in the tile", seen.stale);
        self.count(
            "TIP, holes filled and smoothed",
            tip && call.holes && seen.vectors > 0,
        );
        self.count("TIP distance below 0", tip && setup.tip.delta < 0);
        self.count(
            "last row partial",
            call.rows.1 > g.high || call.rows.0 + g.side > g.high,
        );
        self.count("row end past the frame", call.rows.1 > g.high);
        self.count("tile is not the whole row", call.columns != (0, g.wide));
        self.count("vectors in the field after the load", seen.vectors > 0);
        self.count("rows above changed", seen.above);
        self.count(
            "trajectories in the tile",
            call.traj && seen.trajectories > 0,
        );
        self.count("maps in the tile", call.traj && seen.maps);
        self.count(
            "trajectories past 2,047 (second half)",
            call.traj && seen.long,
        );
        self.count("field gap filled in column W", two && seen.column_field);
        self.count("trajectory gap filled in column W", two && seen.column_traj);
        self.count("field gap filled in row H", two && seen.row_field);
        self.count("trajectory gap filled in row H", two && seen.row_traj);
        self.count(
            "trajectory gaps with trajectories off",
            two && !call.traj && seen.traj_changed,
        );
        let buffers = before.field_y.len() > g.field(call.whole_frame);
        self.count(
            "buffers longer than stated",
            buffers || call.planes.len() > g.planes(),
        );
        if tip && call.holes {
            let mut without = before.clone();
            let plain = Call {
                holes: false,
                ..call.clone()
            };
            reference::load_tmvs(&plain, &mut without);
            self.count("holes or smoothing changed the field", without != *after);
        }
    }

    fn report(&self) -> bool {
        for (what, count) in &self.counts {
            println!("{count:>9}  {what}");
        }
        let rate = |time: Duration| self.calls as f64 / time.as_secs_f64().max(1e-9);
        if let Some(machine) = &self.machine {
            println!(
                "the definition: {:.0} calls a second, {:.1} million steps a second",
                rate(self.definition),
                machine.steps as f64 / self.definition.as_secs_f64().max(1e-9) / 1e6
            );
        }
        println!(
            "the published load: {:.0} calls a second",
            rate(self.published)
        );
        println!(
            "loads: {} cases, {} calls, {} elements compared, {} differences",
            self.cases, self.calls, self.cells, self.differences
        );
        self.differences == 0
    }
}

/// What of the store a load has changed.
#[derive(Default)]
struct Seen {
    stale: bool,
    vectors: usize,
    trajectories: usize,
    maps: bool,
    long: bool,
    above: bool,
    column_field: bool,
    column_traj: bool,
    row_field: bool,
    row_traj: bool,
    traj_changed: bool,
}

impl Seen {
    fn new(call: &Call, before: &Store, after: &Store) -> Self {
        let g = call.geometry();
        let mut seen = Self::default();
        let (first, last) = call.columns;
        let last_column = last == g.wide && g.wide < g.stride;
        let bottom = call.bottom();
        let row_h = bottom == g.high && bottom < call.rows.0 + g.side;
        let field = |y: usize, x: usize| call.offset() + (y - call.rows.0) * g.stride + x;
        let changed = |at: usize| {
            before.field_y[at] != after.field_y[at] || before.field_x[at] != after.field_x[at]
        };
        for y in call.rows.0..bottom {
            for x in first..last {
                seen.stale |= before.field_y[field(y, x)] != EMPTY_Y;
                seen.vectors += usize::from(after.field_y[field(y, x)] != EMPTY_Y);
            }
            seen.column_field |= last_column && changed(field(y, g.wide));
        }
        if row_h && field(bottom, first) < before.field_y.len() {
            seen.row_field |= (first..last).any(|x| changed(field(bottom, x)));
        }
        if !call.whole_frame {
            seen.above = (0..3 * g.stride).any(changed);
        }
        for slot in 0..SLOTS {
            let at = |y: usize, x: usize| slot * g.plane() + y % g.side * g.stride + x;
            let changed = |at: usize| {
                before.traj_y[at] != after.traj_y[at] || before.traj_x[at] != after.traj_x[at]
            };
            for y in call.rows.0..bottom {
                for x in first..last {
                    let at = at(y, x);
                    let (vy, vx) = (after.traj_y[at], after.traj_x[at]);
                    seen.stale |= before.traj_y[at] != EMPTY_Y;
                    seen.trajectories += usize::from(vy != EMPTY_Y);
                    seen.long |= vy != EMPTY_Y && vy.abs().max(vx.abs()) > 2_047;
                    seen.traj_changed |= changed(at);
                    let maps = (0..MAP_PLANES).map(|k| k * SLOTS * g.plane() + at);
                    seen.maps |= maps.into_iter().any(|at| after.map_y[at] != -128);
                }
                seen.column_traj |= last_column && changed(at(y, g.wide));
            }
            if row_h {
                seen.row_traj |= (first..last).any(|x| changed(at(bottom, x)));
            }
        }
        seen
    }
}

/// Where a list's element stands.
fn place(call: &Call, field: &str, at: usize) -> String {
    let g = call.geometry();
    let (row, column) = (at / g.stride, at % g.stride);
    match field {
        "field_y" | "field_x" | "field_ref" => format!("{at} (row {row}, column {column})"),
        _ => {
            let (plane, row) = (row / g.side, row % g.side);
            let (k, slot) = (plane / SLOTS, plane % SLOTS);
            format!("{at} (plane {k}, slot {slot}, row {row}, column {column})")
        }
    }
}
