//! The captures that are examined, and in what order: those of the seeds, the damaged ones, those in which all is forwarded,
//! and files.

use crate::capture::ORDERS;
use crate::damage::{self, Specimen};
use crate::finding::{Examiner, Finding};
use crate::report::Report;
use crate::run::two_at_a_time;
use crate::traffic;

/// How many seeds, and how many records the main capture of each has.
pub struct Amount {
    pub seeds: u64,
    pub records: usize,
}

/// All of the seeds' captures as one, and what was counted in each seed's main capture.
pub struct FromSeeds<C> {
    pub sum: Finding<C>,
    pub mains: Vec<(u64, C)>,
}

/// Two seeds are examined at once.
pub fn seeds<E: Examiner>(examiner: &E, amount: &Amount, report: &mut Report) -> Result<FromSeeds<E::Counts>, String> {
    let mut from_seeds = FromSeeds { sum: Finding::default(), mains: Vec::new() };
    for first in (1..=amount.seeds).step_by(2) {
        let pair: Vec<u64> = (first..=amount.seeds).take(2).collect();
        let findings = two_at_a_time(&pair, |seed| one_seed(examiner, *seed, amount.records));
        for (seed, finding) in pair.iter().zip(findings) {
            let (finding, main) = finding?;
            report.add(&format!("seed {seed}"), &traffic::order_of(*seed).to_string(), &finding);
            from_seeds.sum = from_seeds.sum.with(finding);
            from_seeds.mains.push((*seed, main));
        }
    }
    Ok(from_seeds)
}

/// A main capture, then bad ends.
fn one_seed<E: Examiner>(examiner: &E, seed: u64, records: usize) -> Result<(Finding<E::Counts>, E::Counts), String> {
    let order = traffic::order_of(seed);
    let bytes = traffic::main_capture(seed, records, order).bytes;
    let mut finding = examiner.examine(&Specimen { what: "main capture".into(), bytes })?;
    let main = finding.counts.clone();
    for specimen in damage::bad_ends(seed, order) {
        finding = finding.with(examiner.examine(&specimen)?);
    }
    Ok((finding, main))
}

pub fn damaged<E: Examiner>(examiner: &E, report: &mut Report) -> Result<Finding<E::Counts>, String> {
    let mut sum = Finding::default();
    for order in ORDERS {
        for (name, specimens) in [("prefixes", damage::prefixes(order)), ("changed bytes", damage::changed_bytes(order))] {
            sum = sum.with(family(examiner, name, &order.to_string(), &specimens, report)?);
        }
    }
    Ok(sum)
}

/// A row for captures that belong together. Two are examined at once.
pub fn family<E: Examiner>(
    examiner: &E,
    name: &str,
    order: &str,
    specimens: &[Specimen],
    report: &mut Report,
) -> Result<Finding<E::Counts>, String> {
    let mut sum = Finding::default();
    for finding in two_at_a_time(specimens, |specimen| examiner.examine(specimen)) {
        sum = sum.with(finding?);
    }
    report.add(name, order, &sum);
    Ok(sum)
}

pub fn files<E: Examiner>(examiner: &E, files: &[&str], report: &mut Report) -> Result<(), String> {
    for file in files {
        let bytes = std::fs::read(file).map_err(|error| format!("cannot read {file}: {error}"))?;
        let finding = examiner.examine(&Specimen { what: "whole file".into(), bytes })?;
        report.add(file, "-", &finding);
    }
    Ok(())
}
