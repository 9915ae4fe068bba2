//! A table's bytes are read back as the table.

use tables::random::{self, Shape};
use tables::{Rng, Table, bench, damage, named};

#[test]
fn bytes_are_read_back() {
    let mut tables = vec![named::t(), named::smallest(), damage::sound()];
    tables.extend(bench::all().into_iter().map(|(_, table)| table));
    let shapes = [Shape::TINY, Shape::DENSE, Shape::MIDDLE, Shape::LARGE].iter();
    tables.extend(shapes.map(|shape| random::table(&mut Rng::new(1), shape)));
    for table in tables {
        assert_eq!(Table::read(&table.bytes()), table);
    }
}
