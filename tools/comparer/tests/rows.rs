//! The rows are those that README.md names, and the same in each run.

use std::collections::HashSet;

use comparer::families::Family;
use comparer::question::{Entry, Line, Question, Row, read_line};
use comparer::rows::Sink;

/// Keeps all rows and counts the questions.
#[derive(Default)]
struct Keeper {
    rows: Vec<(Vec<u8>, Vec<u8>)>,
    questions: Vec<Question>,
}

impl Sink for Keeper {
    fn row(&mut self, row: Row<'_>) {
        self.rows.push((row.kinds.to_vec(), row.types.to_vec()));
    }

    fn ask(&mut self, question: Question) {
        self.questions.push(question);
    }
}

fn keep(family: Family, random_rows: u64, seed: u64) -> Keeper {
    let mut keeper = Keeper::default();
    for part in family.parts(random_rows) {
        part.run(seed, &mut keeper);
    }
    keeper
}

#[test]
fn short_rows_are_all_rows_of_up_to_three_tokens() {
    let keeper = keep(Family::Short, 0, 1);
    let distinct: HashSet<&Vec<u8>> = keeper.rows.iter().map(|row| &row.0).collect();
    assert_eq!(distinct.len(), 1 + 62 + 62 * 62 + 62 * 62 * 62);
    assert_eq!(distinct.len(), keeper.rows.len());
    // By five entries, from each cursor, EndOfSource's place included.
    let questions: usize = keeper.rows.iter().map(|row| 5 * row.0.len()).sum();
    assert_eq!(keeper.questions.len(), questions);
}

#[test]
fn rows_of_value_types_have_each_at_each_place() {
    let keeper = keep(Family::ValueTypes, 0, 1);
    let distinct: HashSet<&(Vec<u8>, Vec<u8>)> = keeper.rows.iter().collect();
    assert_eq!(distinct.len(), 1 + 35 + 35 * 35 + 35 * 35 * 35);
}

#[test]
fn random_rows_depend_on_the_seed_alone() {
    let once = keep(Family::Damaged, 10_000, 1);
    let again = keep(Family::Damaged, 10_000, 1);
    let other = keep(Family::Damaged, 10_000, 2);
    assert!(once.rows == again.rows && once.questions == again.questions);
    assert_ne!(once.rows, other.rows);
}

#[test]
fn lines_are_read_as_they_are_written() {
    let row = Row {
        kinds: &[53, 20, 0],
        types: &[0, 14, 0],
    };
    let question = Question {
        cursor: 1,
        base: 2,
        flags: 3,
        start: 2,
        word_kind: 51,
        ..Question::new(Entry::Word, 9)
    };
    let line = Line(row, question).to_string();
    assert_eq!(line, "4 1 2 3 2 51 351400 000e00 9");
    let (kinds, types, read) = read_line(&line).expect("a line");
    assert_eq!(
        (&kinds[..], &types[..], read),
        (row.kinds, row.types, question)
    );
    for (line, why) in [
        ("4 1 2 3 2 51 351400 000e00", "this one has 8"),
        ("5 1 2 3 2 51 351400 000e00 9", "ENTRY is 5"),
        ("4 x 2 3 2 51 351400 000e00 9", "CURSOR is `x`"),
        ("4 1 2 3 2 256 351400 000e00 9", "WORDKIND is `256`"),
        ("4 1 2 3 2 51 35140 000e00 9", "KINDS is `35140`"),
        ("4 1 2 3 2 51 351400 +1+1+1 9", "TYPES is `+1+1+1`"),
        ("4 1 2 3 2 51 351400 000e00 131077", "SLOTS is 131077"),
    ] {
        let error = read_line(line).expect_err("no question");
        assert!(error.contains(why), "{error}");
    }
}
