//! The tables that the repository ships are those that the programs of this workspace test.

use std::fs;
use tables::{Table, bench, named};

#[test]
fn shipped_tables_are_the_tested_ones() {
    let tables: [(&str, Table); 14] = [
        ("T", named::t()),
        ("T-without-rule-2", named::t_without_rule_2()),
        ("T-at-goal", named::t_at_goal()),
        ("re-entry", named::re_entry()),
        ("staying", named::staying(1)),
        ("doubling-3", named::doubling(3)),
        ("doubling-19", named::doubling(19)),
        ("doubling-20", named::doubling(20)),
        ("idle-station", named::idle_station()),
        ("spread-word", named::spread_word()),
        ("six-written", named::six_written()),
        ("2000-records", bench::wide(2_000, 5)),
        ("1500-rounds", bench::slow(187, 4)),
        ("full", bench::full_table()),
    ];
    let place = concat!(env!("CARGO_MANIFEST_DIR"), "/../../tables");
    for (name, table) in &tables {
        let bytes = fs::read(format!("{place}/{name}")).expect("a shipped table");
        assert_eq!(bytes, table.bytes(), "{name}");
    }
    let shipped = fs::read_dir(place).expect("the shipped tables").count();
    assert_eq!(shipped, tables.len());
}
