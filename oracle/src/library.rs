//! The library's load beside the published one: answers, and every element of the store after each call of a list.
use std::io;
use std::panic::{self, AssertUnwindSafe};
use std::time::{Duration, Instant};

use crate::cases::load::{self as cases, Case};
use crate::cases::{directed, kept};
use crate::entry;
use crate::expected;
use crate::load::{Call, Store};
use crate::reference;
use crate::rng::Rng;

const PRINTED_DIFFERENCES: u64 = 10;
const PROGRESS: Duration = Duration::from_secs(30);
/// Calls of a case that may be refused, on a store of their own or among the others.
const BROKEN: usize = 2;
/// One load in so many is of a frame of real size.
const REAL_SIZE: u64 = 200;

#[derive(Default)]
struct Library {
    loads: u64,
    refused: [u64; 4],
    lists: u64,
    real: u64,
    elements: u64,
    differences: u64,
}

/// Directed, kept and refused cases, then random ones until so many loads have been made. Tells whether all agreed.
pub fn run(seed: u64, count: u64) -> io::Result<bool> {
    let mut library = Library::default();
    for directed in directed::all() {
        library.case(directed.name, directed.case);
    }
    for (name, case) in kept::all(1) {
        library.case(&name, case);
    }
    let (mut rng, mut last) = (Rng::new(seed), Instant::now());
    while library.loads < count {
        library.random(rng.word());
        if last.elapsed() > PROGRESS {
            eprintln!("library: {} loads so far", library.loads);
            last = Instant::now();
        }
    }
    Ok(library.report())
}

impl Library {
    fn random(&mut self, seed: u64) {
        let mut rng = Rng::new(!seed);
        let real = rng.one_in(REAL_SIZE);
        let mut case = match real {
            true => cases::real_size(seed),
            false => cases::random(seed),
        };
        self.real += u64::from(real);
        let name = format!("seed {seed}");
        for _ in 0..BROKEN {
            let (call, store) = cases::broken(&mut rng, &case);
            if store == case.store {
                let at = rng.word() as usize % (case.calls.len() + 1);
                case.calls.insert(at, call);
                // A list with calls of another setup or tile is compared call by call alone.
                case.one_row &= expected::load_refusal(&case.calls[at], &store) != 0;
            } else {
                self.call(&name, &call, &mut store.clone());
            }
        }
        self.case(&name, case);
    }

    /// The calls one after the other; of one superblock row, the plain run besides.
    fn case(&mut self, name: &str, case: Case) {
        let mut store = case.store.clone();
        for call in &case.calls {
            self.call(name, call, &mut store);
        }
        if case.one_row && case.calls.len() > 1 {
            self.lists += 1;
            if store != plain_run(&case) {
                self.difference(|| println!("{name}: the list's store is not the plain run's"));
            }
        }
    }

    /// Both loads of the store, which is then the published one's.
    fn call(&mut self, name: &str, call: &Call, store: &mut Store) {
        let wanted = expected::load_refusal(call, store);
        let before = store.clone();
        let mut got = store.clone();
        let answer = entry::load_tmvs(call, &mut got);
        self.loads += 1;
        self.elements += store.elements();
        if wanted == 0 {
            let run = AssertUnwindSafe(|| reference::load_tmvs(call, store));
            if panic::catch_unwind(run).is_err() {
                *store = before;
                let text = cases::text(call);
                self.difference(|| println!("{name}: the published load breaks: {text}"));
                return;
            }
        } else {
            self.refused[wanted as usize - 9] += 1;
        }
        if answer != wanted || got != *store {
            let text = cases::text(call);
            let same = got == *store;
            self.difference(|| {
                println!("{name}: answer {answer}, wanted {wanted}, store same {same}: {text}")
            });
        }
    }

    fn difference(&mut self, print: impl FnOnce()) {
        self.differences += 1;
        if self.differences <= PRINTED_DIFFERENCES {
            print();
        }
    }

    fn report(&self) -> bool {
        for (number, count) in (9..).zip(self.refused) {
            println!("{count:>9}  refused with {number}");
        }
        println!("{:>9}  lists compared with the plain run", self.lists);
        println!("{:>9}  cases of 1080p and 4K", self.real);
        println!(
            "library: {} loads, {} elements compared, {} differences",
            self.loads, self.elements, self.differences
        );
        self.differences == 0
    }
}

/// 01 "The plain run": the calls that are accepted on the starting store, by start column.
fn plain_run(case: &Case) -> Store {
    let accepted = case.calls.iter();
    let mut accepted: Vec<&Call> = accepted
        .filter(|call| expected::load_refusal(call, &case.store) == 0)
        .collect();
    accepted.sort_by_key(|call| call.columns.0);
    let mut store = case.store.clone();
    for call in accepted {
        reference::load_tmvs(call, &mut store);
    }
    store
}
