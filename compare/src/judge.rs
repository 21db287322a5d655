//! Holds what two verdict-printing programs print on a capture against each other.

use crate::counts::Counts;
use crate::damage::Specimen;
use crate::differ::differing_line;
use crate::finding::{Examiner, Finding};
use crate::run::run;
use std::process::Output;

/// The paths of the two programs.
pub struct Judge<'a> {
    pub first: &'a str,
    pub second: &'a str,
}

impl Examiner for Judge<'_> {
    /// What the first program printed.
    type Counts = Counts;

    fn examine(&self, specimen: &Specimen) -> Result<Finding<Counts>, String> {
        let first = run(self.first, &specimen.bytes)?;
        let second = run(self.second, &specimen.bytes)?;
        Ok(Finding::of(specimen, Counts::of(&first.stdout), difference(&first, &second)))
    }
}

/// Two programs that break down in the same way don't agree either: none may be killed, and the last line has to be there.
fn difference(first: &Output, second: &Output) -> Option<String> {
    if first.stdout != second.stdout {
        return Some(differing_line(&first.stdout, &second.stdout));
    }
    if first.status != second.status || first.status.code().is_none() {
        return Some(format!("{} against {}", first.status, second.status));
    }
    let ended = String::from_utf8_lossy(&first.stdout).lines().last().is_some_and(|line| line.starts_with("end "));
    (!ended).then_some("neither prints the last line".into())
}
