//! Holds two programs that tell why a record was dropped against each other, and against what a printing program prints.

use crate::blocks::Blocks;
use crate::brief::{brief, first_block, Printed};
use crate::damage::Specimen;
use crate::differ::{differing, differing_line};
use crate::finding::{Examiner, Finding};
use crate::questions::{questions, Question};
use crate::run::{run, run_and_hear};
use std::process::Output;

/// The paths of the three programs.
pub struct Whys<'a> {
    pub why: &'a str,
    pub second_why: &'a str,
    pub verdicts: &'a str,
}

/// The same programs, which are asked for records, too.
pub struct Asked<'a>(pub Whys<'a>);

impl Examiner for Whys<'_> {
    type Counts = Blocks;

    fn examine(&self, specimen: &Specimen) -> Result<Finding<Blocks>, String> {
        let (printed, told, difference) = self.unasked(&specimen.bytes)?;
        Ok(Finding::of(specimen, Blocks::of(&specimen.bytes, &printed, &told), difference))
    }
}

impl Examiner for Asked<'_> {
    type Counts = Blocks;

    fn examine(&self, specimen: &Specimen) -> Result<Finding<Blocks>, String> {
        let (printed, told, mut difference) = self.0.unasked(&specimen.bytes)?;
        let mut blocks = Blocks::of(&specimen.bytes, &printed, &told);
        for question in questions(&Printed::of(&printed)) {
            let found = self.0.ask(&question, &told, &specimen.bytes)?;
            difference = difference.or(found.map(|found| format!("asked {:?}, {found}", question.arguments)));
            blocks.add_asked(question.sort);
        }
        Ok(Finding::of(specimen, blocks, difference))
    }
}

impl Whys<'_> {
    /// Without an argument: what VERDICTS prints, what WHY puts out, and the first difference.
    fn unasked(&self, capture: &[u8]) -> Result<(String, String, Option<String>), String> {
        let printed = text(&run(self.verdicts, capture)?.stdout);
        let (output, difference) = self.both(&[], capture)?;
        let misfit = misfit(&output, &Printed::of(&printed).dropped(), false);
        Ok((printed, text(&output.stdout), difference.or(misfit)))
    }

    /// The first difference. The block of a dropped record is the one that it has among those of all of them.
    fn ask(&self, question: &Question, unasked: &str, capture: &[u8]) -> Result<Option<String>, String> {
        let (output, difference) = self.both(&question.arguments, capture)?;
        let misfit = misfit(&output, &question.wanted, question.complaint);
        let is_dropped = ["v5", "v6"].contains(&question.sort);
        let is_another = is_dropped && !unasked.contains(&first_block(&text(&output.stdout)));
        let another = is_another.then_some("its block is another one than without an argument".into());
        Ok(difference.or(misfit).or(another))
    }

    /// What WHY does, and where SECOND_WHY does something else.
    fn both(&self, arguments: &[String], capture: &[u8]) -> Result<(Output, Option<String>), String> {
        let first = run_and_hear(self.why, arguments, capture)?;
        let second = run_and_hear(self.second_why, arguments, capture)?;
        let difference = differing(&first, &second, "between the two", differing_line);
        Ok((first, difference))
    }
}

fn text(output: &[u8]) -> String {
    String::from_utf8_lossy(output).into_owned()
}

/// Two programs that go wrong in the same way don't agree either: in brief, WHY has to put out what is wanted, with a line on
/// standard error if there is something to complain of, and status 0.
fn misfit(output: &Output, wanted: &str, complaint: bool) -> Option<String> {
    let (told, said) = (brief(&text(&output.stdout)), text(&output.stderr));
    if told != wanted {
        return Some(format!("against VERDICTS, in brief: {}", differing_line(told.as_bytes(), wanted.as_bytes())));
    }
    if said.lines().count() != usize::from(complaint) || !said.is_empty() && !said.ends_with('\n') {
        return Some(format!("standard error has {said:?}"));
    }
    (!output.status.success()).then(|| output.status.to_string())
}
