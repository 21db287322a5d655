//! What a program printed, counted: lines by verdict (v) and by refusal (R), and lines that name a replaced address.

use crate::finding::Columns;

const NAMES: [&str; 13] = ["v0", "v1", "v2", "v3", "v4", "v5", "v6", "R4", "R5", "R6", "R7", "R8", "replaced"];
const REPLACED: usize = 12;

#[derive(Clone, Default)]
pub struct Counts {
    /// In the order of `NAMES`.
    seen: [usize; NAMES.len()],
    /// Lines of no form that document 01 knows.
    pub unknown: usize,
}

impl Counts {
    pub fn of(output: &[u8]) -> Counts {
        let mut counts = Counts::default();
        for line in String::from_utf8_lossy(output).lines() {
            counts.add_line(&line.split(' ').collect::<Vec<_>>());
        }
        counts
    }

    fn add_line(&mut self, words: &[&str]) {
        let name = match words {
            ["end", _, _] => return,
            [_, "R", refusal] => format!("R{refusal}"),
            [_, verdict, _, _] => format!("v{verdict}"),
            _ => "none".into(),
        };
        match NAMES.iter().position(|known| *known == name) {
            Some(index) => {
                self.seen[index] += 1;
                self.seen[REPLACED] += usize::from(words.len() == 4 && words[3] != "-");
            }
            None => self.unknown += 1,
        }
    }

    /// How many of one name.
    pub fn seen(&self, name: &str) -> usize {
        NAMES.iter().zip(self.seen).filter(|(known, _)| **known == name).map(|(_, seen)| seen).sum()
    }

    /// The names of which nothing was seen.
    pub fn missing(&self) -> Vec<&'static str> {
        NAMES.into_iter().filter(|name| self.seen(name) == 0).collect()
    }
}

impl Columns for Counts {
    fn heading() -> String {
        in_columns(NAMES.map(String::from))
    }

    fn cells(&self) -> String {
        in_columns(self.seen.map(|seen| seen.to_string()))
    }

    fn add(&mut self, more: &Counts) {
        for (sum, part) in self.seen.iter_mut().zip(more.seen) {
            *sum += part;
        }
        self.unknown += more.unknown;
    }

    fn lines(&self) -> usize {
        self.seen[..REPLACED].iter().sum()
    }
}

/// Refusals are fewer than the rest.
fn in_columns(cells: [String; NAMES.len()]) -> String {
    let column = |(cell, name): (&String, &str)| format!(" {cell:>0$}", if name.starts_with('R') { 5 } else { 8 });
    cells.iter().zip(NAMES).map(column).collect()
}
