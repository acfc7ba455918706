//! The kept list of loads and passes: written with the published Rust's answers, and read with no knowledge but its format.
use std::collections::BTreeMap;
use std::io::{self, BufWriter, Write};
use std::rc::Rc;

use crate::answers::SOURCE;
use crate::cases;
use crate::cases::load::Case;
use crate::entry::Frame;
use crate::expected;
use crate::fields::{self, Number};
use crate::load::{BLOCK_BYTES, Call, STORE_LISTS, Store};
use crate::reference;

/// The store's lists, then the planes.
const LISTS: usize = STORE_LISTS + 1;
const PLANES: usize = STORE_LISTS;
/// Equal elements are written as one value from so many on.
const EQUAL: usize = 4;
/// A line has no more values than this.
const VALUES: usize = 64;
/// A `set` line goes on over so many elements that it need not set.
const BRIDGE: usize = 3;

type Lists = [Vec<i64>; LISTS];

/// Elements from a place on: the values again and again, up to the count.
#[derive(Debug, PartialEq)]
struct Run {
    from: usize,
    count: usize,
    values: Vec<i64>,
}

// ---- writing

pub fn write(seed: u64) -> io::Result<()> {
    let mut out = BufWriter::new(io::stdout().lock());
    let all = cases::kept::all(seed);
    write!(out, "{}", head(seed))?;
    writeln!(out, "# The longest lists: {}", fields::text(longest(&all)))?;
    for (n, (name, case)) in all.iter().enumerate() {
        write!(out, "# {name}\n{}", case_text(n + 1, case))?;
    }
    out.flush()
}

fn head(seed: u64) -> String {
    format!(
        "# Loads, what the published load leaves in the store, and the scope's refusals, for the program replay_loads.
# Made by `oracle/run loads --keep --seed {seed}` from {SOURCE}.
# A word and decimal numbers, one space between two; `#` starts a comment line.
# Eight lists: 0 field y, 1 field x, 2 field reference bytes, 3 trajectories y, 4 trajectories x, 5 maps y,
# 6 maps x, 7 planes. A reader keeps them, and of 0 to 6 a second copy: what is wanted. The lines:
# case n length*8: case n begins; its lists have these lengths, and every element is 0, wanted ones too
# setup record: the setup of the calls that follow; its numbers are those of a `frame` line's record:
#   width height n_ref_frames sb128 tmvp_sample_step tip_frame_mode tip_reference*2 tip_delta tip_sf*2
#     ref_flip rp_ref*7 ref_sign*7 pocdiff*7 abspocdiff*7 mfmv_mask use_ref_frame_mvs n_mfmvs
#     (reference tgt dir ref2cur ref2ref*7 ref2idx*7 ref2sf0*7 ref2sf1*7)*4
# set list from count value..: in the list and in the wanted one, count elements from that place on get the
#   values, again and again in their order (at most {VALUES} values on a line)
# call mode trajectories holes column_start column_end row_start row_end answer: a load with this setup, lent
#   all eight lists whole; mode 0 row, 1 whole-frame; answer 0, or the refusal's number
# changed list from count value..: as set, in the wanted list alone; these are exactly the elements that the
#   call leaves different from what they were
# check n: the call changed n elements in all, and now lists 0 to 6 equal the wanted ones, every element
"
    )
}

/// Each list's greatest length: what a reader needs room for.
fn longest(all: &[(String, Case)]) -> [Number; LISTS] {
    let mut most = [0; LISTS];
    for (_, case) in all {
        for (most, list) in most.iter_mut().zip(lists(case)) {
            *most = (*most).max(list.len() as Number);
        }
    }
    most
}

fn lists(case: &Case) -> Vec<Vec<i64>> {
    let store = case.store.lists().map(|(_, list)| list).into_iter();
    store.chain([wide(&case.calls[0].planes)]).collect()
}

fn line(word: &str, numbers: impl IntoIterator<Item = Number>) -> String {
    format!("{word} {}\n", fields::text(numbers))
}

fn run_line(word: &str, list: usize, run: &Run) -> String {
    let place = [list, run.from, run.count].map(|n| n as Number);
    let values = run.values.iter().map(|&n| n.into());
    line(word, place.into_iter().chain(values))
}

fn run_lines(word: &str, list: usize, runs: &[Run]) -> String {
    runs.iter().map(|run| run_line(word, list, run)).collect()
}

/// All lines of a case. Its calls have planes of one length.
fn case_text(n: usize, case: &Case) -> String {
    let (mut store, mut lists) = (case.store.clone(), lists(case));
    let lengths = lists.iter().map(|list| list.len() as Number);
    let mut text = line("case", [n as Number].into_iter().chain(lengths));
    for (at, list) in lists.iter().enumerate() {
        text += &run_lines("set", at, &contents(list, period(at)));
    }
    let (mut setup, mut planes) = (None, lists.swap_remove(PLANES));
    for call in &case.calls {
        if setup != Some(call.setup) {
            let record = fields::frame(&call.setup).into_iter();
            text += &line("setup", record.flat_map(|(_, numbers)| numbers));
            setup = Some(call.setup);
        }
        let now = wide(&call.planes);
        text += &run_lines("set", PLANES, &differing(&planes, &now, BRIDGE));
        planes = now;
        text += &call_text(call, &mut store);
    }
    text
}

fn wide(planes: &[i8]) -> Vec<i64> {
    planes.iter().map(|&byte| byte.into()).collect()
}

/// Planes are blocks of six bytes, and most blocks are alike.
fn period(list: usize) -> usize {
    if list == PLANES { BLOCK_BYTES } else { 1 }
}

/// The call, its answer and what it changes; the store is what it leaves.
fn call_text(call: &Call, store: &mut Store) -> String {
    let before = store.clone();
    let answer = expected::load_refusal(call, store);
    if answer == 0 {
        reference::load_tmvs(call, store);
    }
    let numbers = cases::load::numbers(call).map(|n| n as Number).into_iter();
    line("call", numbers.chain([answer.into()])) + &changes_text(&before, store)
}

/// A pass with its numbers, of a case of its own: what it makes of the store before it is the store after it.
pub fn pass_text(n: usize, pass: [i64; PASS_NUMBERS], call: &Call, stores: [&Store; 2]) -> String {
    let [before, after] = stores;
    let lists = before.lists().map(|(_, list)| list);
    let lengths = lists.iter().map(|list| list.len() as Number).chain([0]);
    let mut text = line("case", [n as Number].into_iter().chain(lengths));
    for (at, list) in lists.iter().enumerate() {
        text += &run_lines("set", at, &contents(list, 1));
    }
    let record = fields::frame(&call.setup).into_iter();
    text += &line("setup", record.flat_map(|(_, numbers)| numbers));
    let numbers = cases::load::numbers(call).map(|n| n as Number).into_iter();
    text += &line("pass", pass.map(Number::from).into_iter().chain(numbers));
    text + &changes_text(before, after)
}

fn changes_text(before: &Store, after: &Store) -> String {
    let (mut text, mut changed) = (String::new(), 0);
    let pairs = before.lists().into_iter().zip(after.lists());
    for (list, ((_, before), (_, after))) in pairs.enumerate() {
        let runs = differing(&before, &after, 0);
        changed += runs.iter().map(|run| run.count).sum::<usize>();
        text += &run_lines("changed", list, &runs);
    }
    text + &line("check", [changed as Number])
}

/// Runs that make the list of zeros: what most of it is, then the rest.
fn contents(list: &[i64], period: usize) -> Vec<Run> {
    let mut counts = BTreeMap::new();
    for chunk in list.chunks_exact(period) {
        *counts.entry(chunk).or_insert(0) += 1;
    }
    let Some((most, _)) = counts.into_iter().max_by_key(|&(_, count)| count) else {
        return Vec::new();
    };
    let fill = Run {
        from: 0,
        count: list.len(),
        values: most.to_vec(),
    };
    let mut filled = vec![0; list.len()];
    fill.put(&mut filled);
    let rest = differing(&filled, list, BRIDGE);
    let fill = most.iter().any(|&n| n != 0).then_some(fill);
    fill.into_iter().chain(rest).collect()
}

/// The elements of `after` that differ; no more than `bridge` equal ones in a row are among them.
fn differing(before: &[i64], after: &[i64], bridge: usize) -> Vec<Run> {
    let places: Vec<usize> = (0..after.len())
        .filter(|&at| before[at] != after[at])
        .collect();
    let mut runs = Vec::new();
    for places in places.chunk_by(|a, b| b - a <= bridge + 1) {
        let (first, last) = (places[0], places[places.len() - 1]);
        split(first, &after[first..=last], &mut runs);
    }
    runs
}

/// Neighbours as few short lines: many equal ones in one run, the others value by value.
fn split(from: usize, values: &[i64], runs: &mut Vec<Run>) {
    let (start, mut at) = (runs.len(), from);
    for same in values.chunk_by(|a, b| a == b) {
        let count = same.len();
        let room = runs[start..].last().is_some_and(|last| {
            last.count == last.values.len() && last.count + count <= VALUES && count < EQUAL
        });
        match runs.last_mut() {
            Some(last) if room => {
                last.values.extend(same);
                last.count += count;
            }
            _ => runs.push(Run {
                from: at,
                count,
                values: if count < EQUAL { same } else { &same[..1] }.to_vec(),
            }),
        }
        at += count;
    }
}

impl Run {
    fn put(&self, list: &mut [i64]) {
        let values = self.values.iter().cycle();
        let cells = list[self.from..self.from + self.count].iter_mut();
        cells.zip(values).for_each(|(cell, value)| *cell = *value);
    }
}

// ---- reading

/// A call or a pass of the list, and what the list says of it.
pub struct Kept {
    /// The call's line.
    pub line: usize,
    /// It is the first one of its case.
    pub first: bool,
    pub call: Call,
    /// The pass with its numbers, where no whole load is kept.
    pub pass: Option<[i64; PASS_NUMBERS]>,
    pub before: Store,
    pub answer: u32,
    pub after: Store,
}

/// Of a `pass` line, before the numbers of the call.
pub const PASS_NUMBERS: usize = 7;

/// A call whose changes are being read.
struct Begun {
    line: usize,
    call: Call,
    pass: Option<[i64; PASS_NUMBERS]>,
    answer: u32,
    before: Lists,
}

/// What the lines have said so far.
struct Reader {
    /// Also after a call: what a call leaves is the list's word, so that one difference is found once.
    lists: Lists,
    setup: Option<Frame>,
    first: bool,
    call: Option<Begun>,
    /// Elements that `changed` lines have named.
    changed: usize,
}

/// What a list is read for.
#[derive(Clone, Copy, PartialEq)]
pub enum What {
    Loads,
    Passes,
}

/// Hands over the loads of the list, or the passes, and leaves out the others. A list that has none is a fault.
pub fn read_only(text: &str, what: What, mut each: impl FnMut(Kept)) -> io::Result<()> {
    let mut some = false;
    read(text, |kept| {
        if kept.pass.is_some() == (what == What::Passes) {
            some = true;
            each(kept);
        }
    })?;
    match (some, what) {
        (true, _) => Ok(()),
        (false, What::Loads) => Err(io::Error::other("the list has no load")),
        (false, What::Passes) => Err(io::Error::other("the list has no pass")),
    }
}

/// Hands over each call and each pass of the list. A line that is none of the format is a fault.
fn read(text: &str, mut each: impl FnMut(Kept)) -> io::Result<()> {
    let mut reader = Reader {
        lists: Default::default(),
        setup: None,
        first: true,
        call: None,
        changed: 0,
    };
    for (n, line) in text.lines().enumerate() {
        if line.is_empty() || line.starts_with('#') {
            continue;
        }
        let kept = reader.line(n + 1, line);
        let kept = kept.map_err(|fault| io::Error::other(format!("line {}: {fault}", n + 1)))?;
        kept.into_iter().for_each(&mut each);
    }
    match reader.call {
        Some(_) => Err(io::Error::other("the last call has no check")),
        None => Ok(()),
    }
}

type Read<T> = Result<T, &'static str>;

impl Reader {
    /// A line may end a call.
    fn line(&mut self, n: usize, line: &str) -> Read<Option<Kept>> {
        let (word, numbers) = line.split_once(' ').ok_or("no numbers")?;
        let numbers: Result<Vec<i64>, _> = numbers.split(' ').map(str::parse).collect();
        let numbers = numbers.map_err(|_| "not a number")?;
        match (word, self.call.is_some()) {
            ("case", false) => self.case(&numbers)?,
            ("setup", false) => self.setup = Some(fields::frame_of(&numbers).ok_or("no record")?),
            ("set", false) => self.put(&numbers, LISTS)?,
            ("call", false) => self.begin(n, None, &numbers)?,
            ("pass", false) => self.begin_pass(n, &numbers)?,
            ("changed", true) => self.changed(&numbers)?,
            ("check", true) => return self.check(&numbers).map(Some),
            _ => return Err("not a line that may stand here"),
        }
        Ok(None)
    }

    fn case(&mut self, numbers: &[i64]) -> Read<()> {
        let lengths = numbers.get(1..).ok_or("no lengths")?;
        let lists: Option<Vec<Vec<i64>>> = lengths
            .iter()
            .map(|&n| usize::try_from(n).ok().map(|n| vec![0; n]))
            .collect();
        let lists = lists.and_then(|lists| lists.try_into().ok());
        self.lists = lists.ok_or("not eight lengths")?;
        (self.setup, self.first) = (None, true);
        Ok(())
    }

    /// A run goes into its list, which is one of the first `lists`.
    fn put(&mut self, numbers: &[i64], lists: usize) -> Read<()> {
        let (list, run) = run_of(numbers).ok_or("no run of values")?;
        let cells = self.lists[..lists].get_mut(list).ok_or("no such list")?;
        if run.from + run.count > cells.len() {
            return Err("past the list's end");
        }
        run.put(cells);
        Ok(())
    }

    fn begin_pass(&mut self, n: usize, numbers: &[i64]) -> Read<()> {
        let (&pass, call) = numbers.split_first_chunk().ok_or("no pass")?;
        self.begin(n, Some(pass), &[call, &[0]].concat())
    }

    fn begin(
        &mut self,
        line: usize,
        pass: Option<[i64; PASS_NUMBERS]>,
        numbers: &[i64],
    ) -> Read<()> {
        let numbers: Option<Vec<usize>> = numbers.iter().map(|&n| n.try_into().ok()).collect();
        let Some(&[mode, traj, holes, left, right, top, bottom, answer]) = numbers.as_deref()
        else {
            return Err("not the numbers of a call");
        };
        let planes: Result<Vec<i8>, _> = self.lists[PLANES].iter().map(|&n| n.try_into()).collect();
        let call = Call {
            setup: self.setup.ok_or("no setup")?,
            whole_frame: mode != 0,
            traj: traj != 0,
            holes: holes != 0,
            columns: (left, right),
            rows: (top, bottom),
            planes: Rc::new(planes.map_err(|_| "a plane has signed bytes")?),
        };
        self.call = Some(Begun {
            line,
            call,
            pass,
            answer: answer as u32,
            before: self.lists.clone(),
        });
        self.changed = 0;
        Ok(())
    }

    fn changed(&mut self, numbers: &[i64]) -> Read<()> {
        self.put(numbers, STORE_LISTS)?;
        self.changed += numbers[2] as usize;
        Ok(())
    }

    fn check(&mut self, numbers: &[i64]) -> Read<Kept> {
        let begun = self.call.take().ok_or("no call")?;
        let before = begun.before;
        let pairs = before.iter().flatten().zip(self.lists.iter().flatten());
        let changed = pairs.filter(|(before, after)| before != after).count();
        if numbers != [changed as i64] || self.changed != changed {
            return Err("not the number of elements that are changed");
        }
        let store = |lists: &Lists| {
            let store: &[Vec<i64>; STORE_LISTS] = lists.first_chunk().unwrap();
            Store::of_lists(store).ok_or("an element does not fit its list")
        };
        let (first, after) = (self.first, store(&self.lists)?);
        self.first = false;
        Ok(Kept {
            line: begun.line,
            first,
            call: begun.call,
            pass: begun.pass,
            before: store(&before)?,
            answer: begun.answer,
            after,
        })
    }
}

fn run_of(numbers: &[i64]) -> Option<(usize, Run)> {
    let (&[list, from, count], values) = numbers.split_first_chunk()?;
    let run = Run {
        from: from.try_into().ok()?,
        count: count.try_into().ok()?,
        values: values.to_vec(),
    };
    let some = (1..=run.count.min(VALUES)).contains(&run.values.len());
    some.then_some((list.try_into().ok()?, run))
}

#[cfg(test)]
mod tests {
    use super::*;

    #[test]
    fn runs_make_the_list_again() {
        let list = [5, 5, 0, 5, 5, 5, 5, 7, 7, 7, 7, 7, 1, 2, 2, 3, 5];
        let mut made = vec![0; list.len()];
        for run in contents(&list, 1) {
            run.put(&mut made);
        }
        assert_eq!(made, list);
        let run = |from, count, values: &[i64]| Run {
            from,
            count,
            values: values.to_vec(),
        };
        let runs = differing(&[0; 9], &[0, 3, 3, 4, 4, 4, 4, 5, 0], 0);
        let wanted = [run(1, 2, &[3, 3]), run(3, 4, &[4]), run(7, 1, &[5])];
        assert_eq!(runs, wanted);
    }

    #[test]
    fn a_case_is_read_as_it_was_written() {
        for (name, case) in cases::kept::all(1).iter().step_by(9) {
            let (mut store, mut calls) = (case.store.clone(), case.calls.iter());
            let read = read(&case_text(1, case), |kept| {
                let call = calls.next().unwrap();
                assert_eq!(format!("{:?}", kept.call), format!("{call:?}"), "{name}");
                assert_eq!(kept.before, store, "{name}");
                store = kept.after;
            });
            read.unwrap();
            assert!(calls.next().is_none(), "{name}");
        }
    }

    #[test]
    fn a_list_is_read_for_one_of_two() {
        let setup = format!("setup 8 8 0 0 1{}\n", " 0".repeat(166));
        let case = format!("case 1 2 0 0 0 0 0 0 0\n{setup}");
        let load = format!("{case}call 0 0 0 0 1 0 1 11\ncheck 0\n");
        let pass = format!("{case}pass 3{} 1 0 1\ncheck 0\n", " 0".repeat(10));
        let count = |text: &str, what| {
            let mut n = 0;
            read_only(text, what, |_| n += 1).map(|()| n).ok()
        };
        let both = format!("{load}{pass}{load}");
        assert_eq!(count(&both, What::Loads), Some(2));
        assert_eq!(count(&both, What::Passes), Some(1));
        assert_eq!(count(&load, What::Passes), None);
        assert_eq!(count(&pass, What::Loads), None);
    }

    #[test]
    fn what_is_no_list_is_a_fault() {
        let setup = format!("setup 8 8 0 0 1{}\n", " 0".repeat(166));
        let case = format!("case 1 2 0 0 0 0 0 0 0\n{setup}");
        let call = "call 0 0 0 0 1 0 1 11\n";
        for (text, good) in [
            (format!("{case}set 0 0 2 3\n{call}check 0\n"), true),
            (format!("{case}set 0 0 3 3\n{call}check 0\n"), false),
            (format!("{case}set 8 0 1 3\n{call}check 0\n"), false),
            (format!("{case}set 0 0 1 3 4\n{call}check 0\n"), false),
            (format!("{case}{call}changed 0 1 1 3\ncheck 1\n"), true),
            (format!("{case}{call}changed 0 1 1 3\ncheck 0\n"), false),
            (format!("{case}{call}changed 0 1 1 0\ncheck 1\n"), false),
            (format!("{case}{call}changed 7 0 1 0\ncheck 0\n"), false),
            (format!("{case}{call}"), false),
            (format!("{case}check 0\n"), false),
        ] {
            assert_eq!(read(&text, |_| {}).is_ok(), good, "{text}");
        }
    }
}
