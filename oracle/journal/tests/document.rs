//! Document 01's journal, and its number 5.

use journal::replay;

fn answer(journal: &str) -> String {
    String::from_utf8(replay(journal.as_bytes())).expect("ASCII")
}

const CASE: &str = "\
C 2 1000 1 1
10 A
20 F 0 0
30 F 0 0
500 A
1030 A
1040 S 1 1
1050 S 2 1
";

const GIVES: &str = "\
G 0 0 0 0 0 0 0
N 0 0 0 0 0
N 2 1 0 0 1030
B 530 2 1 0 0 1030
G 2 1 1 2 1 0 1030
N 1 2 1 0 1030
N 0 3 0 0 1030
";

#[test]
fn the_case() {
    assert_eq!(answer(CASE), GIVES);
}

/// A header, and failures of generation 0 at these readings.
fn failures(header: &str, readings: impl Iterator<Item = u64>) -> String {
    let lines = readings.map(|reading| format!("{reading} F 0 0\n"));
    format!("{header}\n{}", lines.collect::<String>())
}

#[test]
fn the_smallest_journal_with_number_5() {
    let readings = [99_999].into_iter().chain((1..=4096).map(|i| 20 * i));
    let journal = failures("W 3 10 1000 1 1", readings);
    let counted = "N 0 0 0 0 0\n".repeat(4096);
    assert_eq!(answer(&journal), counted.clone() + "E 5 0 0 0 0 0\n");
    let on = journal + "81920 F 1 0\n100010 F 0 0\n100010 F 0 0\n";
    let ends = "E 5 0 0 0 0 0\nN 0 0 0 0 0\nN 0 0 0 0 0\nN 0 0 0 0 0\n";
    assert_eq!(answer(&on), counted + ends, "the run goes on");
}

#[test]
fn number_5_where_the_rust_opens() {
    let readings = [9999].into_iter().chain(1..=4095).chain([0]);
    let journal = failures("W 4096 0 1 1 1", readings);
    let expected = "N 0 0 0 0 0\n".repeat(4096) + "E 5 0 0 0 0 0\n";
    assert_eq!(answer(&journal), expected);
}
