//! The table: a row for each seed, family or file, their totals, and whether the seeds show enough for their agreement to
//! mean anything.

use crate::counts::Counts;
use crate::finding::{Columns, Finding};
use std::io::{self, Write};

#[derive(Default)]
pub struct Report {
    passed: usize,
    failed: usize,
}

/// A line of standard output. Where nobody reads it any more, nothing is lost but the line.
fn say(line: &str) {
    let _ = writeln!(io::stdout(), "{}", line.trim_end());
}

impl Report {
    pub fn new<C: Columns>() -> Report {
        say(&format!("{:<20} {:<6} {:>8} {:>8} {:>9}{}", "", "order", "captures", "records", "bytes", C::heading()));
        Report::default()
    }

    pub fn add<C: Columns>(&mut self, name: &str, order: &str, finding: &Finding<C>) {
        let outcome = finding.difference.as_ref().map_or("ok".into(), |difference| format!("DIFFERS: {difference}"));
        row(name, order, finding, &outcome);
        self.score(finding.difference.is_none());
    }

    /// `lacking` is what the captures should have shown and did not; `shown` is said where nothing lacks.
    pub fn add_vacuity(&mut self, lacking: &[String], shown: &str) {
        for lack in lacking {
            say(&format!("VACUOUS: {lack}"));
        }
        if lacking.is_empty() {
            say(&format!("not vacuous: {shown}"));
        }
        self.score(lacking.is_empty());
    }

    fn score(&mut self, passed: bool) {
        self.passed += usize::from(passed);
        self.failed += usize::from(!passed);
    }

    /// The last line; true when nothing failed.
    pub fn finish(self) -> bool {
        say(&format!("{} passed, {} failed", self.passed, self.failed));
        self.failed == 0
    }
}

/// The number of records is that of the lines which tell of one: what was printed, not what was made.
pub fn row<C: Columns>(name: &str, order: &str, finding: &Finding<C>, outcome: &str) {
    let (captures, bytes, records) = (finding.captures, finding.bytes, finding.counts.lines());
    say(&format!("{name:<20} {order:<6} {captures:>8} {records:>8} {bytes:>9}{} {outcome}", finding.counts.cells()));
}

pub const SHOWN_BY_VERDICTS: &str = "v0 to v6, R4 to R8 and replaced addresses were seen, v2, v3, v4 and v6 in every seed";

/// A seed's main capture is whole, so each of its records has a line, and in each machines are credited, fresh and blocked.
pub fn lacking_in_seed(seed: u64, records: usize, main: &Counts) -> Vec<String> {
    let missing = main.missing().into_iter().filter(|name| ["v2", "v3", "v4", "v6"].contains(name));
    let mut lacking: Vec<String> = missing.map(|name| format!("seed {seed} has no {name}")).collect();
    if main.lines() != records {
        lacking.push(format!("seed {seed} has lines for {} of {records} records", main.lines()));
    }
    lacking
}

/// Refusal 7 is left to the damaged captures; all else has to come from seeds.
pub fn lacking_together(seeds: &Counts, damaged: &Counts) -> Vec<String> {
    let in_seeds = seeds.missing().into_iter().filter(|name| *name != "R7");
    let in_damaged = damaged.missing().into_iter().filter(|name| *name == "R7");
    let mut lacking: Vec<String> = in_seeds.chain(in_damaged).map(|name| format!("no {name} was seen")).collect();
    if seeds.unknown + damaged.unknown > 0 {
        lacking.push(format!("{} lines have no known form", seeds.unknown + damaged.unknown));
    }
    lacking
}
