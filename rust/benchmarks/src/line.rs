//! The program `line` on tables from files.

use crate::measure::Options;
use crate::sheet::{Sheet, counted};
use std::fs;
use std::path::Path;

/// The instructions of the program with each table as its input, in all and without those that it
/// has with an empty input, which are its start and end.
pub fn print_tables(options: &Options, program: &str, tables: &[&str]) {
    let with = |input: &[u8]| options.collected(program.into(), &[], input);
    let empty = with(&[]);
    println!("line: instructions of the program by valgrind");
    println!("an empty input, start and end alone: {}", counted(empty));
    let headings = ["table", "instructions", "without start and end"];
    let sheet = Sheet::new(options.form, &headings);
    for table in tables {
        let whole = with(&fs::read(table).expect("a table"));
        let less = whole.zip(empty).map(|(whole, empty)| whole - empty);
        let name = Path::new(table).file_name().unwrap_or_default();
        let name = name.to_string_lossy().into_owned();
        sheet.row(&[name, counted(whole), counted(less)]);
    }
}
