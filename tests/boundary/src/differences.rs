//! What two sets of tables do not have in common, in words.

use oracle::limits::TABLES;
use oracle::Tables;

pub const TABLE_NAMES: [&str; TABLES] = [
    "names",
    "values",
    "clause starts",
    "literals",
    "occurrence starts",
    "occurrences",
    "true counts",
    "break counts",
    "uncovered list",
    "places",
    "marks",
];

/// Entries told of each table; the others are counted.
const TOLD: usize = 4;

/// A line for each table that differs; nothing where none does.
pub fn differences(expected: &Tables, found: &Tables) -> String {
    let tables = expected.all().into_iter().zip(found.all());
    let named = TABLE_NAMES.into_iter().zip(tables);
    named
        .filter(|(_, (expected, found))| expected != found)
        .map(|(name, (expected, found))| difference(name, expected, found))
        .collect()
}

/// One table's line: its length or its first differing entries, with both values.
pub fn difference(name: &str, expected: &[u64], found: &[u64]) -> String {
    if expected.len() != found.len() {
        let lengths = (expected.len(), found.len());
        return format!(
            "\n  {name}: length {} expected, {} found",
            lengths.0, lengths.1
        );
    }
    let differing: Vec<usize> = (0..expected.len())
        .filter(|entry| expected[*entry] != found[*entry])
        .collect();
    let told: Vec<String> = differing
        .iter()
        .take(TOLD)
        .map(|entry| {
            format!(
                "entry {entry}: {} expected, {} found",
                expected[*entry], found[*entry]
            )
        })
        .collect();
    let more = differing.len() - told.len();
    format!("\n  {name}: {} (and {more} more)", told.join("; "))
}

/// The first entries of a table are these.
pub fn begins(table: &[u64], entries: &[u64]) {
    assert_eq!(table[..entries.len()], *entries);
}

#[cfg(test)]
mod tests {
    use super::*;
    use oracle::Limits;

    #[test]
    fn equal_tables_have_no_difference() {
        let tables = Tables::zeros(&Limits::NARROW);
        assert_eq!(differences(&tables, &tables.clone()), "");
    }

    #[test]
    fn a_difference_tells_table_entry_and_both_values() {
        let expected = Tables::zeros(&Limits::NARROW);
        let mut found = expected.clone();
        found.places[17] = 3;
        found.names.push(9);
        assert_eq!(
            differences(&expected, &found),
            "\n  names: length 2048 expected, 2049 found\n  places: entry 17: 0 expected, 3 found (and 0 more)"
        );
    }
}
