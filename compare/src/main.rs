//! Holds libokv.a and okvstep to the answers of the Rust as document 02 changes them, and text_compare of libtext_c.a to
//! Rust's own order of bytes:
//!
//! - `compare`: at least 300,000 calls on fixed seeds, and comparisons of texts beside them; `compare SEED CALLS`: so many
//!   from this seed on, where few calls do not reach all that must come;
//! - `compare lines FILE`: the lines that okvstep must print for these frames, by these answers;
//! - `compare sample FOLDER`: the data file of calls and these answers for the program `replay`.
mod actions;
mod aim;
mod call;
mod counts;
mod damage;
mod decode;
mod encode;
mod expiry;
mod held;
mod library;
mod limits;
mod okvstep;
mod oracle;
mod permit;
mod reserved;
mod rng;
mod runs;
mod sample;
mod shrink;
mod states;
mod texts;
mod values;

use std::path::Path;
use std::process::ExitCode;

const SEED: u64 = 1;
const CALLS: u64 = 300_000;

fn main() -> ExitCode {
    let args: Vec<String> = std::env::args().skip(1).collect();
    let args: Vec<&str> = args.iter().map(String::as_str).collect();
    let numbers: Option<Vec<u64>> = args.iter().map(|arg| arg.parse().ok()).collect();
    let good = match (&args[..], numbers.as_deref()) {
        ([], _) => runs::play(SEED, CALLS),
        (_, Some([seed, calls])) => runs::play(*seed, *calls),
        (["lines", file], _) => {
            let input = std::fs::read(file).unwrap_or_else(|error| panic!("{file}: {error}"));
            print!("{}", okvstep::lines(&input));
            true
        }
        (["sample", folder], _) => {
            sample::write(Path::new(folder)).unwrap_or_else(|error| panic!("{folder}: {error}"))
        }
        _ => {
            eprintln!("compare, compare SEED CALLS, compare lines FILE or compare sample FOLDER");
            false
        }
    };
    if good {
        ExitCode::SUCCESS
    } else {
        ExitCode::FAILURE
    }
}
