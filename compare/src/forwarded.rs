//! Holds two forwarding programs against each other, against what must come out of them, and what came out against two
//! printing programs.

use crate::damage::Specimen;
use crate::differ::{differing, differing_byte};
use crate::expected::expected;
use crate::finding::{Examiner, Finding};
use crate::flow::Flow;
use crate::judge::Judge;
use crate::run::{run, run_and_hear};

/// The paths of the four programs.
pub struct Forwarders<'a> {
    pub forwarded: &'a str,
    pub second_forwarded: &'a str,
    pub verdicts: &'a str,
    pub second: &'a str,
}

impl Examiner for Forwarders<'_> {
    type Counts = Flow;

    fn examine(&self, specimen: &Specimen) -> Result<Finding<Flow>, String> {
        let first = run_and_hear(self.forwarded, &[], &specimen.bytes)?;
        let second = run_and_hear(self.second_forwarded, &[], &specimen.bytes)?;
        let printed = run(self.second, &specimen.bytes)?.stdout;
        let flow = Flow::of(&specimen.bytes, &printed, &first.stdout);
        let written = Specimen { what: "read again".into(), bytes: first.stdout.clone() };
        let read_again = Judge { first: self.verdicts, second: self.second }.examine(&written)?.difference;
        let difference = match expected(&specimen.bytes, &printed) {
            Ok(expected) => differing(&first, &second, "between the two", differing_byte)
                .or(differing(&first, &expected, "against what must come out", differing_byte))
                .or(read_again),
            Err(misfit) => Some(format!("SECOND's lines do not fit: {misfit}")),
        };
        Ok(Finding::of(specimen, flow, difference))
    }
}
