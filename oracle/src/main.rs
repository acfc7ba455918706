//! The library beside the published Rust.
use std::io;
use std::process::ExitCode;

use oracle::{args, compare, frames, library, passes, unpack};

const USAGE: &str = "usage: oracle compare [--seed N]
       oracle library LOADS [--seed N]
       oracle passes COUNT [--seed N]
       oracle passes --keep [--seed N]
       oracle passes --kept FILE
       oracle frames write DIR COUNT [--seed N]
       oracle frames compare PROGRAM COUNT [--seed N]
       oracle frames sample > FILE
       oracle frames show [text | picture] < FILE
       oracle unpack < BYTES
       oracle bytes COUNT [--seed N]";

/// What to do. None where the arguments are wrong.
fn run(args: &[String]) -> Option<io::Result<bool>> {
    let (name, rest) = args.split_first()?;
    match (name.as_str(), rest) {
        ("compare", _) => Some(Ok(compare::run(args::seed(rest)?))),
        ("library", [count, rest @ ..]) => {
            let count = count.parse().ok()?;
            Some(library::run(args::seed(rest)?, count))
        }
        ("passes", [keep, rest @ ..]) if keep == "--keep" => {
            Some(passes::keep(args::seed(rest)?).map(|()| true))
        }
        ("passes", [kept, file]) if kept == "--kept" => Some(passes::kept(file)),
        ("passes", [count, rest @ ..]) => {
            let count = count.parse().ok()?;
            Some(Ok(passes::run(args::seed(rest)?, count)))
        }
        ("frames", [word, rest @ ..]) => frames(word, rest),
        ("unpack", []) => Some(unpack::run().map(|()| true)),
        ("bytes", [count, rest @ ..]) => {
            let count = count.parse().ok()?;
            Some(unpack::write_random(args::seed(rest)?, count).map(|()| true))
        }
        _ => None,
    }
}

fn frames(word: &str, rest: &[String]) -> Option<io::Result<bool>> {
    match (word, rest) {
        ("write", [folder, count, rest @ ..]) => {
            let count = count.parse().ok()?;
            let written = frames::write(args::seed(rest)?, folder.as_ref(), count);
            Some(written.map(|()| true))
        }
        ("compare", [program, count, rest @ ..]) => {
            let count = count.parse().ok()?;
            Some(frames::compare(args::seed(rest)?, program, count))
        }
        ("sample", []) => Some(frames::sample().map(|()| true)),
        ("show", words) => Some(frames::show(words).map(|()| true)),
        _ => None,
    }
}

fn main() -> ExitCode {
    args::main(USAGE, run)
}
