//! Sheets of figures: in columns, or as Markdown for docs/SPEED.md.

/// How a sheet is printed.
#[derive(Clone, Copy)]
pub enum Form {
    Columns,
    Markdown,
}

/// The width of the first column, which has names, and the least of the others.
const NAMES: usize = 40;
const FIGURES: usize = 14;

/// A sheet whose headings are printed.
pub struct Sheet {
    form: Form,
    widths: Vec<usize>,
}

impl Sheet {
    pub fn new(form: Form, headings: &[&str]) -> Sheet {
        let (first, others) = headings.split_first().expect("a heading");
        let mut widths = vec![NAMES.max(first.len())];
        widths.extend(others.iter().map(|heading| FIGURES.max(heading.len() + 2)));
        let sheet = Sheet { form, widths };
        sheet.row(headings);
        if let Form::Markdown = form {
            println!("|{}", "---|".repeat(headings.len()));
        }
        sheet
    }

    pub fn row(&self, cells: &[impl AsRef<str>]) {
        let cells: Vec<&str> = cells.iter().map(AsRef::as_ref).collect();
        match self.form {
            Form::Markdown => println!("| {} |", cells.join(" | ")),
            Form::Columns => {
                let (first, others) = cells.split_first().expect("a cell");
                print!("{first:width$}", width = self.widths[0]);
                for (cell, width) in others.iter().zip(&self.widths[1..]) {
                    print!("{cell:>width$}");
                }
                println!();
            }
        }
    }
}

/// A count with a comma before each three of its digits.
pub fn count(number: u64) -> String {
    let digits = number.to_string();
    let mut text = String::new();
    for (place, digit) in digits.chars().enumerate() {
        if place > 0 && (digits.len() - place).is_multiple_of(3) {
            text.push(',');
        }
        text.push(digit);
    }
    text
}

/// A count by valgrind, or nothing without it.
pub fn counted(number: Option<u64>) -> String {
    number.map_or(String::new(), count)
}

pub fn milliseconds(time: f64) -> String {
    format!("{time:.3} ms")
}
