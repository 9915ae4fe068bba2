//! Compares what the program `line` writes with the second engine, byte for byte, on named,
//! random and damaged tables. Arguments: the path of `line`, and a seed.
//!
//! It fails too if a situation that it is for was never met.

mod expected;
mod situations;

use comparison::{Case, Counts, Program, Tally, random_table};
use expected::Engine;
use std::env;
use std::io::{self, ErrorKind, Write};
use std::process::{Command, ExitCode, Output, Stdio};

const PROGRAM: Program = Program {
    name: "line_tests",
    random: random_table,
    each: 2_000,
    situations: situations::all,
    others: Tally::default,
};

fn main() -> ExitCode {
    let arguments: Vec<String> = env::args().skip(1).collect();
    let [line, seed] = &arguments[..] else {
        eprintln!("usage: line_tests LINE SEED");
        return ExitCode::from(2);
    };
    let Ok(seed) = seed.parse() else {
        eprintln!("not a seed: {seed}");
        return ExitCode::from(2);
    };
    let compared = PROGRAM.compare(seed, || {
        let mut engine = Engine::new();
        move |case: &Case, counts: &mut Counts| compare_one(line, &mut engine, case, counts)
    });
    comparison::exit_code(compared.map_err(|error| io::Error::other(format!("{line}: {error}"))))
}

/// Compares one table; gives both outputs if they differ.
fn compare_one(
    line: &str,
    engine: &mut Engine,
    case: &Case,
    counts: &mut Counts,
) -> io::Result<Option<String>> {
    let expected = engine.lines(case, counts);
    let given = run_line(line, &case.bytes)?;
    let same = given.stdout == expected.as_bytes();
    if same && given.status.success() && given.stderr.is_empty() {
        return Ok(None);
    }
    Ok(Some(format!(
        "expected:\n{expected}\ngiven, {}:\n{}\nerrors:\n{}",
        given.status,
        String::from_utf8_lossy(&given.stdout),
        String::from_utf8_lossy(&given.stderr)
    )))
}

/// Runs `line` on a table. It may end before it has read all.
fn run_line(line: &str, table: &[u8]) -> io::Result<Output> {
    let mut child = Command::new(line)
        .stdin(Stdio::piped())
        .stdout(Stdio::piped())
        .stderr(Stdio::piped())
        .spawn()?;
    let input = child.stdin.take();
    let written = input.map_or(Ok(()), |mut input| input.write_all(table));
    let output = child.wait_with_output()?;
    match written {
        Err(error) if error.kind() != ErrorKind::BrokenPipe => Err(error),
        _ => Ok(output),
    }
}
