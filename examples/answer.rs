use roskavel::{Answer, answer, log_bytes, scratch_bytes};
use std::{env, fs, io};

fn main() -> io::Result<()> {
    let path = env::args().nth(1).unwrap_or("tables/T".to_string());
    let table = fs::read(path)?;
    let mut log = vec![0; log_bytes(2_000)]; // holds 2,000 transitions
    let mut scratch = vec![0; scratch_bytes(log.len())];
    match answer(&table, &mut log, &mut scratch) {
        Answer::Reachable { steps, .. } => println!("reachable, steps {steps}"),
        Answer::Unreachable { .. } => println!("unreachable"),
        Answer::Refused(refusal) => println!("refused: {refusal}"),
    }
    Ok(())
}
