//! What the programs share: their one option, and how they end.
use std::io;
use std::process::ExitCode;

/// The seed of `[--seed N]`, 1 where it is not given; none for any other arguments.
pub fn seed(args: &[String]) -> Option<u64> {
    match args {
        [] => Some(1),
        [name, value] if name == "--seed" => value.parse().ok(),
        _ => None,
    }
}

/// Runs a program: 0 where both sides agree, 1 where they differ, 2 for wrong arguments and for errors.
pub fn main(usage: &str, run: fn(&[String]) -> Option<io::Result<bool>>) -> ExitCode {
    let args: Vec<String> = std::env::args().skip(1).collect();
    match run(&args) {
        None => {
            eprintln!("{usage}");
            ExitCode::from(2)
        }
        Some(Err(error)) => {
            eprintln!("oracle: {error}");
            ExitCode::from(2)
        }
        Some(Ok(agreed)) => ExitCode::from(u8::from(!agreed)),
    }
}
