//! Makes captures from seeds and holds what programs do with them against each other: the commands.

mod blocks;
mod brief;
mod capture;
mod counts;
mod damage;
mod differ;
mod expected;
mod finding;
mod flow;
mod forwarded;
mod frames;
mod judge;
mod passing;
mod questions;
mod random;
mod report;
mod run;
mod traffic;
mod unread;
mod walk;
mod why;

use blocks::Blocks;
use capture::{Order, ORDERS};
use counts::Counts;
use damage::Specimen;
use finding::Examiner;
use flow::Flow;
use forwarded::Forwarders;
use judge::Judge;
use report::Report;
use std::io::{self, Write};
use std::process::ExitCode;
use walk::Amount;
use why::{Asked, Whys};

const USAGE: &str = "usage:
  compare make SEED RECORDS [little|big]
  compare all FIRST SECOND [--seeds N] [--records N]
  compare one FIRST SECOND FILE..
  compare forwarded FORWARDED SECOND_FORWARDED VERDICTS SECOND [--seeds N] [--records N]
  compare forwarded-one FORWARDED SECOND_FORWARDED VERDICTS SECOND FILE..
  compare why WHY SECOND_WHY VERDICTS [--seeds N] [--records N]
  compare why-one WHY SECOND_WHY VERDICTS FILE..";

/// Status 0 when all passed, 1 when something failed, 2 when the command could not be carried out.
fn main() -> ExitCode {
    let words: Result<Vec<String>, _> = std::env::args_os().skip(1).map(|word| word.into_string()).collect();
    let outcome = match words {
        Ok(words) => carry_out(&words.iter().map(String::as_str).collect::<Vec<_>>()),
        Err(word) => Err(format!("{word:?} is not text")),
    };
    match outcome {
        Ok(true) => ExitCode::SUCCESS,
        Ok(false) => ExitCode::from(1),
        Err(message) => {
            let _ = writeln!(io::stderr(), "compare: {message}");
            ExitCode::from(2)
        }
    }
}

fn carry_out(words: &[&str]) -> Result<bool, String> {
    match words {
        ["make", seed, records] => make(number(seed)?, record_count(records)?, None),
        ["make", seed, records, order] => make(number(seed)?, record_count(records)?, Some(byte_order(order)?)),
        ["all", first, second, options @ ..] => all(&Judge { first, second }, &amount(options, 20_000)?),
        ["one", first, second, files @ ..] if !files.is_empty() => one(&Judge { first, second }, files),
        ["forwarded", forwarded, second_forwarded, verdicts, second, options @ ..] => {
            forwarded_all(&Forwarders { forwarded, second_forwarded, verdicts, second }, &amount(options, 20_000)?)
        }
        ["forwarded-one", forwarded, second_forwarded, verdicts, second, files @ ..] if !files.is_empty() => {
            one(&Forwarders { forwarded, second_forwarded, verdicts, second }, files)
        }
        ["why", why, second_why, verdicts, options @ ..] => {
            why_all(&Asked(Whys { why, second_why, verdicts }), &amount(options, 5_000)?)
        }
        ["why-one", why, second_why, verdicts, files @ ..] if !files.is_empty() => {
            one(&Asked(Whys { why, second_why, verdicts }), files)
        }
        _ => Err(USAGE.into()),
    }
}

fn number(word: &str) -> Result<u64, String> {
    word.parse().map_err(|_| format!("{word:?} is not a number\n{USAGE}"))
}

fn byte_order(word: &str) -> Result<Order, String> {
    let named = ORDERS.into_iter().find(|order| order.to_string() == word);
    named.ok_or(format!("{word:?} is neither little nor big\n{USAGE}"))
}

/// Captures are made in memory, which sets a limit.
fn record_count(word: &str) -> Result<usize, String> {
    match number(word)? {
        count @ 0..=10_000_000 => Ok(count as usize),
        _ => Err(format!("{word} records are too many: 10000000 is the most")),
    }
}

/// Twelve seeds with so many records, unless the options say something else.
fn amount(options: &[&str], records: usize) -> Result<Amount, String> {
    let mut amount = Amount { seeds: 12, records };
    for option in options.chunks(2) {
        match option {
            ["--seeds", count] => amount.seeds = number(count)?,
            ["--records", count] => amount.records = record_count(count)?,
            _ => return Err(USAGE.into()),
        }
    }
    Ok(amount)
}

fn make(seed: u64, records: usize, order: Option<Order>) -> Result<bool, String> {
    let capture = traffic::main_capture(seed, records, order.unwrap_or(traffic::order_of(seed)));
    io::stdout().write_all(&capture.bytes).map_err(|error| format!("cannot write the capture: {error}"))?;
    Ok(true)
}

fn all(judge: &Judge, amount: &Amount) -> Result<bool, String> {
    let mut report = Report::new::<Counts>();
    let from_seeds = walk::seeds(judge, amount, &mut report)?;
    let damaged = walk::damaged(judge, &mut report)?;
    let in_seed = |(seed, main): &(u64, Counts)| report::lacking_in_seed(*seed, amount.records, main);
    let mut lacking: Vec<String> = from_seeds.mains.iter().flat_map(in_seed).collect();
    lacking.extend(report::lacking_together(&from_seeds.sum.counts, &damaged.counts));
    report::row("totals", "", &from_seeds.sum.with(damaged), "");
    report.add_vacuity(&lacking, report::SHOWN_BY_VERDICTS);
    Ok(report.finish())
}

/// The same captures, and those in which all is forwarded.
fn forwarded_all(forwarders: &Forwarders, amount: &Amount) -> Result<bool, String> {
    let mut report = Report::new::<Flow>();
    let from_seeds = walk::seeds(forwarders, amount, &mut report)?.sum;
    let damaged = walk::damaged(forwarders, &mut report)?;
    let [little, big] = ORDERS
        .map(|order| walk::family(forwarders, "all forwarded", &order.to_string(), &passing::captures(order), &mut report));
    let passing = little?;
    let mut lacking = flow::lacking_where_all_is_forwarded(&passing);
    let sum = from_seeds.with(damaged).with(passing).with(big?);
    lacking.extend(flow::lacking_together(&sum.counts));
    report::row("totals", "", &sum, "");
    report.add_vacuity(&lacking, flow::SHOWN_BY_FLOW);
    Ok(report.finish())
}

/// Without an argument on all captures; asked for records on those of the seeds, and on some that end too soon.
fn why_all(asked: &Asked, amount: &Amount) -> Result<bool, String> {
    let mut report = Report::new::<Blocks>();
    let from_seeds = walk::seeds(asked, amount, &mut report)?;
    let seeds = from_seeds.sum.counts.clone();
    let mut sum = from_seeds.sum.with(walk::damaged(&asked.0, &mut report)?);
    for order in ORDERS {
        let some: Vec<Specimen> = damage::prefixes(order).into_iter().step_by(60).collect();
        sum = sum.with(walk::family(asked, "asked, prefixes", &order.to_string(), &some, &mut report)?);
    }
    report::row("totals", "", &sum, "");
    let mut lacking = blocks::lacking(&seeds, &sum.counts);
    lacking.extend(blocks::lacking_odd_openings(&from_seeds.mains, amount.records));
    report.add_vacuity(&lacking, blocks::SHOWN_BY_BLOCKS);
    Ok(report.finish())
}

fn one<E: Examiner>(examiner: &E, files: &[&str]) -> Result<bool, String> {
    let mut report = Report::new::<E::Counts>();
    walk::files(examiner, files, &mut report)?;
    Ok(report.finish())
}
