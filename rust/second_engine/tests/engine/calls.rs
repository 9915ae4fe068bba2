//! The engine's calls with buffers that held anything before.

use second_engine::{Answer, Run, WALK_SCRATCH, Walk, answer, run, scratch_needed, walk};
use tables::Rng;

/// Bytes that held anything before.
pub fn junk(rng: &mut Rng, length: usize) -> Vec<u8> {
    let mut bytes = vec![0; length];
    rng.fill(&mut bytes);
    bytes
}

pub fn junk_page(rng: &mut Rng, length: usize) -> Vec<u16> {
    (0..length).map(|_| rng.draw() as u16).collect()
}

/// An answer call with enough scratch; gives the log too.
pub fn answered(table: &[u8], log_length: usize) -> (Answer, Vec<u8>) {
    let mut rng = Rng::new(log_length as u64);
    let mut log = junk(&mut rng, log_length);
    let mut scratch = vec![0xA5; scratch_needed(log_length)];
    let given = answer(table, &mut log, &mut scratch);
    check_scratch(
        &scratch,
        matches!(given, Answer::Refused(r) if r.number < 10),
    );
    (given, log)
}

/// A run call with enough scratch; gives the log and the page too.
pub fn ran(table: &[u8], log_length: usize, page_length: usize) -> (Run, Vec<u8>, Vec<u16>) {
    let mut rng = Rng::new(log_length as u64);
    let mut log = junk(&mut rng, log_length);
    let mut page = junk_page(&mut rng, page_length);
    let mut scratch = vec![0xA5; scratch_needed(log_length)];
    let given = run(table, &mut log, &mut scratch, &mut page);
    check_scratch(&scratch, matches!(given, Run::Refused(r) if r.number < 10));
    (given, log, page)
}

/// A walk call with enough scratch; gives the pile too.
pub fn walked(table: &[u8], rules: &[u16], pile_length: usize) -> (Walk, Vec<u8>) {
    let mut pile = vec![0xA5; pile_length];
    let mut scratch = vec![0xA5; WALK_SCRATCH];
    let given = walk(table, rules, &mut pile, &mut scratch);
    let untouched = matches!(given, Walk::Refused { refusal, .. } if refusal.number < 10);
    check_scratch(&scratch, untouched);
    (given, pile)
}

/// The scratch is as it was after refusals 1 to 9, and zero later.
fn check_scratch(scratch: &[u8], untouched: bool) {
    let expected = if untouched { 0xA5 } else { 0 };
    assert!(scratch.iter().all(|&byte| byte == expected));
}

/// The records' bytes, then zeros.
pub fn log_of(records: &[u8], log_length: usize) -> Vec<u8> {
    let mut log = records.to_vec();
    log.resize(log_length, 0);
    log
}

/// Prints the seed of a random table when a test on it fails.
pub struct Seed(pub u64);

impl Seed {
    pub fn rng(&self) -> Rng {
        Rng::new(self.0)
    }
}

impl Drop for Seed {
    fn drop(&mut self) {
        if std::thread::panicking() {
            println!("seed {}", self.0);
        }
    }
}
