//! Writes what the second engine gives for small random tables as equations over the definitions
//! of crate `model`, for the checker to compute, and prints how many there are. Arguments: the file
//! to write and a seed; and `false` for one equation alone, with a wrong figure.

mod cases;
mod equations;
mod plans;
mod sequences;

use cases::Case;
use std::process::ExitCode;
use std::{env, fs};

fn main() -> ExitCode {
    let arguments: Vec<String> = env::args().skip(1).collect();
    let (file, seed, truth) = match &arguments[..] {
        [file, seed] => (file, seed.parse(), true),
        [file, seed, wrong] if wrong == "false" => (file, seed.parse(), false),
        _ => return usage(),
    };
    let Ok(seed) = seed else {
        return usage();
    };
    let mut equations: Vec<_> = cases::all(seed).iter().map(Case::equation).collect();
    if !truth {
        equations.truncate(1);
        equations[0].falsify();
    }
    if let Err(error) = fs::write(file, equations::module(&equations)) {
        eprintln!("{file}: {error}");
        return ExitCode::FAILURE;
    }
    println!("{}", equations.len());
    ExitCode::SUCCESS
}

fn usage() -> ExitCode {
    eprintln!("usage: definition_tests FILE SEED [false]");
    ExitCode::from(2)
}
