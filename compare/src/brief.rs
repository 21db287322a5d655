//! What a printing program and a program that tells why have to agree on, in brief: of each record its number, its verdict or
//! refusal and, if it was dropped, its count; then what the printing program prints last.

/// What is looked for in a printing program's lines.
pub struct Printed<'a> {
    /// Of each record that was read whole, in order: v or R with the number, and the first line of its block in brief.
    pub records: Vec<(String, String)>,
    /// The line of refusal 7 or 8 and the last line.
    pub last_lines: Vec<&'a str>,
}

impl Printed<'_> {
    pub fn of(printed: &str) -> Printed<'_> {
        let mut found = Printed { records: Vec::new(), last_lines: Vec::new() };
        for line in printed.lines() {
            match line.split(' ').collect::<Vec<_>>()[..] {
                ["end", ..] | [_, "R", "7" | "8"] => found.last_lines.push(line),
                [_, "R", refusal] => found.records.push((format!("R{refusal}"), line.into())),
                [number, verdict @ ("5" | "6"), count, _] => {
                    found.records.push((format!("v{verdict}"), format!("{number} {verdict} {count}")));
                }
                [number, verdict, ..] => found.records.push((format!("v{verdict}"), format!("{number} {verdict}"))),
                _ => found.last_lines.push(line),
            }
        }
        found
    }

    /// These blocks in brief, then the last lines.
    pub fn with_last_lines(&self, blocks: &[&str]) -> String {
        blocks.iter().chain(&self.last_lines).map(|line| format!("{line}\n")).collect()
    }

    /// What has to be told where no record is asked for.
    pub fn dropped(&self) -> String {
        let is_dropped = |sort: &str| sort == "v5" || sort == "v6";
        let blocks: Vec<&str> = self.records.iter().filter(|(sort, _)| is_dropped(sort)).map(|(_, brief)| &brief[..]).collect();
        self.with_last_lines(&blocks)
    }
}

/// A dropped record's first line has so many words before the facts.
pub const BEFORE_FACTS: usize = 13;

/// The same of what a program that tells why put out. Sentences are left out, and of the first line of a block that reports a
/// fact all but three words.
pub fn brief(told: &str) -> String {
    let in_brief = |line: &str| match line.split(' ').collect::<Vec<_>>() {
        words if words.len() > BEFORE_FACTS => words[..3].join(" ") + "\n",
        _ => format!("{line}\n"),
    };
    told.lines().filter(|line| !is_sentence(line)).map(in_brief).collect()
}

/// Sentences are indented, first lines and last ones are not.
pub fn is_sentence(line: &str) -> bool {
    line.starts_with("  ")
}

/// The first block: its first line and its sentences.
pub fn first_block(told: &str) -> String {
    let first_line = told.split_inclusive('\n').take(1);
    let sentences = told.split_inclusive('\n').skip(1).take_while(|line| is_sentence(line));
    first_line.chain(sentences).collect()
}
