//! What K4's program puts out for a record: a first line for scripts, then sentences for operators.

use std::net::Ipv4Addr;

use crate::gateway::Verdict;
use crate::header::Kind;
use crate::refusal::Refusal;
use crate::sides::Decided;
use crate::why::{Dropped, Explanation};

/// The facts' names in the first line, in the order of `Facts`.
const FACTS: [&str; 4] = ["count", "plant-mark", "cell-mark", "kind"];

/// The block of a record with this number and second.
pub fn block(number: u64, second: u32, why: &Result<Explanation, Refusal>) -> String {
    let lines = match why {
        Ok(Explanation::Dropped(dropped)) => dropped_lines(number, second, dropped),
        Ok(Explanation::Forwarded(verdict)) => {
            vec![format!("{number} {}", *verdict as u8), forwarded_sentence(*verdict)]
        }
        Err(refusal) => vec![refusal.line(number), refused_sentence(*refusal)],
    };
    lines.into_iter().map(|line| line + "\n").collect()
}

fn dropped_lines(number: u64, second: u32, dropped: &Dropped) -> Vec<String> {
    let mut lines = vec![
        first_line(number, second, dropped),
        sent_sentence(second, dropped),
        ours_sentence(dropped),
    ];
    lines.extend(verdict_sentences(dropped));
    lines.push("  Any one of these alone would have let it through:".into());
    lines.extend(reported(dropped, fact_sentences(dropped)));
    lines
}

/// Those of four that belong to facts which are reported.
fn reported(dropped: &Dropped, of_facts: [String; 4]) -> impl Iterator<Item = String> {
    let is_reported = dropped.reported;
    of_facts.into_iter().zip(is_reported).filter(|(_, is)| *is).map(|(text, _)| text)
}

fn first_line(number: u64, second: u32, dropped: &Dropped) -> String {
    let Dropped { ends, facts, .. } = dropped;
    let port = |port: Option<u16>| port.map_or("-".to_string(), |port| port.to_string());
    let mut words = vec![
        number.to_string(),
        (dropped.verdict as u8).to_string(),
        facts.count.to_string(),
        dropped.threshold.to_string(),
        second.to_string(),
        dotted(ends.source),
        port(ends.source_port),
        dotted(ends.destination),
        port(ends.destination_port),
        ends.protocol.to_string(),
        name(facts.kind).to_lowercase(),
        dropped.cell_entry.number.to_string(),
        dropped.plant_entry.number.to_string(),
    ];
    words.extend(reported(dropped, FACTS.map(String::from)));
    words.join(" ")
}

fn dotted(address: u32) -> String {
    Ipv4Addr::from(address).to_string()
}

fn name(kind: Kind) -> &'static str {
    match kind {
        Kind::Udp => "UDP",
        Kind::Opening => "opening",
        Kind::SynAck => "SYN+ACK",
        Kind::Closing => "closing",
        Kind::Plain => "plain",
    }
}

fn sent_sentence(second: u32, dropped: &Dropped) -> String {
    let ends = &dropped.ends;
    let end = |address, port: Option<u16>| match port {
        Some(port) => format!("{} port {port}", dotted(address)),
        None => dotted(address),
    };
    let what = match dropped.facts.kind {
        Kind::Udp => "a UDP packet",
        Kind::Opening => "an opening (TCP SYN without ACK)",
        Kind::SynAck => "an answering TCP packet (SYN+ACK)",
        Kind::Closing => "a closing TCP packet (FIN or RST)",
        Kind::Plain => "a plain packet",
    };
    let from = end(ends.source, ends.source_port);
    let to = end(ends.destination, ends.destination_port);
    format!("  {from} sent {what} to {to} at second {second}.")
}

fn ours_sentence(dropped: &Dropped) -> String {
    let by = |list, decided: &Decided| {
        let (address, length) = decided.entry;
        format!("entry {} of the {list} list, {}/{length}", decided.number, dotted(address))
    };
    let (cell, plant) = (by("cell", &dropped.cell_entry), by("plant", &dropped.plant_entry));
    format!("  It is ours by {cell}, and {plant}.")
}

fn verdict_sentences(dropped: &Dropped) -> [String; 2] {
    let (dropped_as, because) = match (dropped.verdict, dropped.facts.plant_mark) {
        (Verdict::Blocked, false) => (
            "blocked",
            "From a blocked machine only answers to the plant go through, and the plant-to-cell \
             mark of this connection is not set.",
        ),
        (Verdict::Blocked, true) => (
            "blocked",
            "The plant-to-cell mark of this connection is set, but from a blocked machine UDP and \
             openings do not go through even so.",
        ),
        _ => (
            "hygiene, not as blocked",
            "It answers or closes a connection, and this connection has neither mark.",
        ),
    };
    let (source, count) = (dotted(dropped.ends.source), dropped.facts.count);
    let counted = format!("the count of {source} is {count}, and T is {}", dropped.threshold);
    [format!("  It was dropped as {dropped_as}: {counted}."), format!("  {because}")]
}

/// What would have let it through, in the order of `Facts`.
fn fact_sentences(dropped: &Dropped) -> [String; 4] {
    let kinds = dropped.facts.passing_kinds(dropped.threshold);
    let names: Vec<&str> = kinds.into_iter().map(name).collect();
    [
        format!("  - the count: below {}", dropped.threshold),
        "  - the plant-to-cell mark: set (the plant has spoken on this connection lately, other than to close it)".into(),
        "  - the cell-to-plant mark: set (the cell was let through on this connection lately, other than to close it)"
            .into(),
        format!("  - the kind: {}", either(&names)),
    ]
}

/// With commas, and "or" before the last.
fn either(names: &[&str]) -> String {
    match names {
        [most @ .., last] if !most.is_empty() => format!("{} or {last}", most.join(", ")),
        _ => names.concat(),
    }
}

fn forwarded_sentence(verdict: Verdict) -> String {
    let how = match verdict {
        Verdict::NotOurs => ": it is no IPv4 packet between the cell and the plant",
        Verdict::NothingCounted => ", and nothing was counted",
        Verdict::CreditOfOne => ", with a credit of one",
        Verdict::CreditOfTwo => ", with a credit of two",
        _ => " as a fresh contact",
    };
    format!("  It was forwarded{how} (verdict {}).", verdict as u8)
}

fn refused_sentence(refusal: Refusal) -> String {
    let why = match refusal {
        Refusal::TimeBeforeClock => "its time is before the clock",
        Refusal::HeaderEndsTooSoon => "its header bytes end too soon",
        _ => "it has no IPv4 header that can be read",
    };
    format!("  It was refused, and not judged: {why} (refusal {}).", refusal.number())
}
