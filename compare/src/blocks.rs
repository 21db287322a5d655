//! What a program that tells why put out, counted: blocks of dropped records by verdict, kind and the facts reported, among them
//! those of odd openings, and the runs in which it was asked something.

use crate::brief::{is_sentence, BEFORE_FACTS};
use crate::counts::Counts;
use crate::finding::Columns;
use crate::frames;
use crate::questions::SORTS;
use crate::traffic;
use crate::unread::Unread;
use std::collections::BTreeMap;

/// Facts that can be reported together, with the verdict and the kinds of packet for which they can be. The letters of a column
/// are c count, p plant-mark, m cell-mark, k kind.
struct Together {
    column: &'static str,
    verdict: &'static str,
    kinds: &'static [&'static str],
    facts: &'static [&'static str],
}

const TOGETHER: [Together; 5] = [
    Together { column: "5pmk", verdict: "5", kinds: &["syn+ack", "closing"], facts: &["plant-mark", "cell-mark", "kind"] },
    Together { column: "6c", verdict: "6", kinds: &["udp", "opening"], facts: &["count"] },
    Together { column: "6cp", verdict: "6", kinds: &["syn+ack", "closing", "plain"], facts: &["count", "plant-mark"] },
    Together { column: "6p", verdict: "6", kinds: &["syn+ack", "closing"], facts: &["plant-mark"] },
    Together { column: "6ck", verdict: "6", kinds: &["udp", "opening"], facts: &["count", "kind"] },
];

/// What a blocked machine's openings report where the plant's mark is set.
const WITH_PLANT_MARK: &str = "6ck";

#[derive(Clone, Default)]
pub struct Blocks {
    /// The printing program's lines on the same captures.
    pub printed: Counts,
    /// Blocks of dropped records, by column and kind.
    seen: BTreeMap<(&'static str, &'static str), usize>,
    /// Those in column `WITH_PLANT_MARK` of an opening with FIN or RST beside SYN: what K5's tester sent.
    odd: usize,
    /// First lines that report what cannot be reported.
    unknown: usize,
    /// Runs with arguments, by the sort of question.
    asked: BTreeMap<&'static str, usize>,
}

impl Blocks {
    /// Of one capture; what was asked is added later.
    pub fn of(capture: &[u8], printed: &str, told: &str) -> Blocks {
        let mut blocks = Blocks { printed: Counts::of(printed.as_bytes()), ..Blocks::default() };
        let mut numbered = (1..).zip(frames_of(capture));
        for line in told.lines().filter(|line| !is_sentence(line)) {
            let words: Vec<&str> = line.split(' ').collect();
            if words.len() >= BEFORE_FACTS {
                let frame = numbered.find(|(number, _)| words[0].parse() == Ok(*number)).map(|(_, frame)| frame);
                blocks.add_first_line(&words, frame.is_some_and(frames::is_odd_opening));
            }
        }
        blocks
    }

    fn add_first_line(&mut self, words: &[&str], is_odd_opening: bool) {
        let (verdict, kind, facts) = (words[1], words[10], &words[BEFORE_FACTS..]);
        let together = TOGETHER.iter().find(|known| known.verdict == verdict && known.facts == facts);
        let kind_and_column = together.and_then(|known| {
            let kind = known.kinds.iter().find(|possible| **possible == kind)?;
            Some((known.column, *kind))
        });
        match kind_and_column {
            Some(key) => {
                *self.seen.entry(key).or_default() += 1;
                self.odd += usize::from(is_odd_opening && key == (WITH_PLANT_MARK, "opening"));
            }
            None => self.unknown += 1,
        }
    }

    pub fn add_asked(&mut self, sort: &'static str) {
        *self.asked.entry(sort).or_default() += 1;
    }

    /// How many blocks are in a column, of any kind.
    fn in_column(&self, column: &str) -> usize {
        self.seen.iter().filter(|((seen, _), _)| *seen == column).map(|(_, blocks)| blocks).sum()
    }

    fn with_verdict(&self, verdict: &str) -> usize {
        TOGETHER.iter().filter(|known| known.verdict == verdict).map(|known| self.in_column(known.column)).sum()
    }

    /// Each column's name, width and number.
    fn columns(&self) -> Vec<(&'static str, usize, usize)> {
        let mut columns = vec![("v5", 8, self.with_verdict("5")), ("v6", 8, self.with_verdict("6"))];
        columns.extend(TOGETHER.iter().map(|known| (known.column, 8, self.in_column(known.column))));
        columns.push(("odd", 8, self.odd));
        columns.push(("R7", 5, self.printed.seen("R7")));
        columns.push(("R8", 5, self.printed.seen("R8")));
        columns.push(("asked", 8, self.asked.values().sum()));
        columns
    }
}

fn frames_of(capture: &[u8]) -> impl Iterator<Item = &[u8]> {
    let mut unread = Unread::of(capture);
    std::iter::from_fn(move || unread.record().map(|(_, frame)| frame))
}

impl Columns for Blocks {
    fn heading() -> String {
        Blocks::default().columns().iter().map(|(name, width, _)| format!(" {name:>width$}")).collect()
    }

    fn cells(&self) -> String {
        self.columns().iter().map(|(_, width, number)| format!(" {number:>width$}")).collect()
    }

    fn add(&mut self, more: &Blocks) {
        self.printed.add(&more.printed);
        for (key, blocks) in &more.seen {
            *self.seen.entry(*key).or_default() += blocks;
        }
        for (sort, runs) in &more.asked {
            *self.asked.entry(*sort).or_default() += runs;
        }
        self.odd += more.odd;
        self.unknown += more.unknown;
    }

    fn lines(&self) -> usize {
        self.printed.lines()
    }
}

pub const SHOWN_BY_BLOCKS: &str =
    "seeds show all facts that can be reported together, with every kind, and many odd openings from blocked machines where the \
     plant's mark is set; v0 to v6, R4 to R6 and what is not there were asked for; R7 and R8 were seen";

/// A seed whose theme they are has at least one odd opening in so many records.
const RECORDS_PER_ODD_OPENING: usize = 25;

/// What the seeds' main captures, of so many records each, lack of odd openings. Some seed has to dwell on them.
pub fn lacking_odd_openings(mains: &[(u64, Blocks)], records: usize) -> Vec<String> {
    let wanted = (records / RECORDS_PER_ODD_OPENING).max(1);
    let dwelling: Vec<_> = mains.iter().filter(|(seed, _)| traffic::dwells_on_odd_openings(*seed)).collect();
    if dwelling.is_empty() {
        return vec!["no seed dwells on odd openings".into()];
    }
    let few = dwelling.into_iter().filter(|(_, main)| main.odd < wanted);
    few.map(|(seed, main)| format!("seed {seed} has {} odd openings, and not {wanted}", main.odd)).collect()
}

/// What can be reported has to come from seeds, and so has every sort of question; refusal 7 is left to the damaged captures.
pub fn lacking(seeds: &Blocks, all: &Blocks) -> Vec<String> {
    let mut lacking = Vec::new();
    for Together { column, kinds, .. } in &TOGETHER {
        let missing = kinds.iter().filter(|kind| !seeds.seen.contains_key(&(*column, **kind)));
        lacking.extend(missing.map(|kind| format!("no seed has {column} with kind {kind}")));
    }
    let not_asked = SORTS.iter().filter(|sort| !seeds.asked.contains_key(**sort));
    lacking.extend(not_asked.map(|sort| format!("no seed was asked for {sort}")));
    let unseen = ["R7", "R8"].into_iter().filter(|name| all.printed.seen(name) == 0);
    lacking.extend(unseen.map(|name| format!("no {name} was seen")));
    let unknown = all.unknown + all.printed.unknown;
    if unknown > 0 {
        lacking.push(format!("{unknown} lines have no known form"));
    }
    lacking
}
