//! The definitions beside the published Rust, and the lists that are kept: all that needs no library.
use std::io;
use std::process::ExitCode;

use oracle::loads::{self, Sides};
use oracle::{answers, antt, args, definitions, kept};

const USAGE: &str = "usage: definitions definitions [--seed N]
       definitions definitions --natives
       definitions loads COUNT [--seed N]
       definitions loads --clauses COUNT [--seed N]
       definitions loads --published COUNT [--seed N]
       definitions loads --case N
       definitions loads --keep [--seed N]
       definitions loads --kept FILE
       definitions answers [--seed N]";

/// What to do. None where the arguments are wrong.
fn run(args: &[String]) -> Option<io::Result<bool>> {
    let (name, rest) = args.split_first()?;
    match (name.as_str(), rest) {
        ("answers", _) => Some(answers::write(args::seed(rest)?).map(|()| true)),
        ("definitions", [natives]) if natives == "--natives" => {
            print!("{}", antt::natives::text());
            Some(Ok(true))
        }
        ("definitions", _) => Some(Ok(definitions::run(args::seed(rest)?))),
        ("loads", [keep, rest @ ..]) if keep == "--keep" => {
            Some(kept::write(args::seed(rest)?).map(|()| true))
        }
        ("loads", [kept, file]) if kept == "--kept" => Some(loads::kept(file)),
        ("loads", [case, seed]) if case == "--case" => Some(loads::one(seed.parse().ok()?)),
        ("loads", [published, count, rest @ ..]) if published == "--published" => {
            let count = count.parse().ok()?;
            Some(loads::run(args::seed(rest)?, count, Sides::Published))
        }
        ("loads", [clauses, count, rest @ ..]) if clauses == "--clauses" => {
            let count = count.parse().ok()?;
            Some(loads::run(args::seed(rest)?, count, Sides::Clauses))
        }
        ("loads", [count, rest @ ..]) => {
            let count = count.parse().ok()?;
            Some(loads::run(args::seed(rest)?, count, Sides::Both))
        }
        _ => None,
    }
}

fn main() -> ExitCode {
    args::main(USAGE, run)
}
