//! What a program that tells why is asked of a capture: records by their numbers, numbers of no record, and what is no number.

use crate::brief::Printed;

/// What a question is about: a record with that verdict or refusal, a number of no record, an argument that is bad.
pub const SORTS: [&str; 12] = ["v0", "v1", "v2", "v3", "v4", "v5", "v6", "R4", "R5", "R6", "none", "bad"];

pub struct Question {
    pub sort: &'static str,
    pub arguments: Vec<String>,
    /// What has to be on standard output, in brief.
    pub wanted: String,
    /// Whether standard error has a line.
    pub complaint: bool,
}

/// No number at all, 0, signs, blanks, and more digits than 19.
const BAD: [&[&str]; 12] = [
    &[""],
    &["0"],
    &["0000000000000000000"],
    &["x"],
    &["-1"],
    &["+1"],
    &["1x"],
    &[" 1"],
    &["1\n"],
    &["10000000000000000000"],
    &["00000000000000000001"],
    &["1", "2"],
];

/// Of what was printed on the capture: the first record and the last one, the last one of each sort, one past the end, the
/// largest number there is, one with as many zeros as there can be, and what is bad.
pub fn questions(printed: &Printed) -> Vec<Question> {
    let records = printed.records.len();
    let last_of = |sort: &&str| printed.records.iter().rposition(|(of, _)| of == *sort).map(|index| index + 1);
    let mut numbers: Vec<usize> = SORTS.iter().filter_map(last_of).chain([1, records, records + 1]).collect();
    numbers.sort_unstable();
    numbers.dedup();
    let known = numbers.iter().filter(|number| **number > 0).map(|number| about(printed, *number, number.to_string()));
    let zeros = about(printed, records.max(1), format!("{:019}", records.max(1)));
    let largest = about(printed, usize::MAX, "9".repeat(19));
    let bad = BAD.iter().map(|words| Question {
        sort: "bad",
        arguments: words.iter().map(|word| word.to_string()).collect(),
        wanted: String::new(),
        complaint: true,
    });
    known.chain([zeros, largest]).chain(bad).collect()
}

/// About the record with this number, as it is written.
fn about(printed: &Printed, number: usize, written: String) -> Question {
    let record = printed.records.get(number - 1);
    let block: Vec<&str> = record.iter().map(|(_, brief)| &brief[..]).collect();
    Question {
        sort: record.map_or("none", |(sort, _)| SORTS.into_iter().find(|known| known == sort).unwrap_or("none")),
        arguments: vec![written],
        wanted: printed.with_last_lines(&block),
        complaint: record.is_none(),
    }
}
