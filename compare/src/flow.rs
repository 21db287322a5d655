//! What went into a forwarding program and what came out, counted.

use crate::counts::Counts;
use crate::finding::{Columns, Finding};

#[derive(Clone, Default)]
pub struct Flow {
    /// The printing program's lines on what went in.
    pub printed: Counts,
    pub records_out: usize,
    pub bytes_out: usize,
    /// Captures in big-endian order whose header is good: they come out in the other order.
    pub big: usize,
    /// Captures that came back byte for byte; nothing for nothing doesn't count.
    pub same: usize,
}

impl Flow {
    /// Of one capture.
    pub fn of(input: &[u8], printed: &[u8], output: &[u8]) -> Flow {
        let printed = Counts::of(printed);
        let records_out = ["v0", "v1", "v2", "v3", "v4"].map(|name| printed.seen(name)).iter().sum();
        let big = usize::from(input.starts_with(&[0xa1]) && printed.seen("R7") == 0);
        Flow { printed, records_out, bytes_out: output.len(), big, same: usize::from(input == output && !input.is_empty()) }
    }

    /// Each column's name, width and number.
    fn columns(&self) -> [(&'static str, usize, usize); 9] {
        let seen = |name| self.printed.seen(name);
        [
            ("out", 8, self.records_out),
            ("bytes out", 9, self.bytes_out),
            ("v5", 8, seen("v5")),
            ("v6", 8, seen("v6")),
            ("refused", 8, seen("R4") + seen("R5") + seen("R6")),
            ("R7", 5, seen("R7")),
            ("R8", 5, seen("R8")),
            ("big", 8, self.big),
            ("same", 8, self.same),
        ]
    }
}

impl Columns for Flow {
    fn heading() -> String {
        Flow::default().columns().map(|(name, width, _)| format!(" {name:>width$}")).concat()
    }

    fn cells(&self) -> String {
        self.columns().map(|(_, width, number)| format!(" {number:>width$}")).concat()
    }

    fn add(&mut self, more: &Flow) {
        self.printed.add(&more.printed);
        self.records_out += more.records_out;
        self.bytes_out += more.bytes_out;
        self.big += more.big;
        self.same += more.same;
    }

    fn lines(&self) -> usize {
        self.printed.lines()
    }
}

pub const SHOWN_BY_FLOW: &str =
    "v5, v6, refused records, R7, R8 and big-endian captures were seen, and all little-endian captures came back where all is forwarded";

/// No column may be empty.
pub fn lacking_together(all: &Flow) -> Vec<String> {
    let unseen = all.columns().into_iter().filter(|(_, _, number)| *number == 0);
    let mut lacking: Vec<String> = unseen.map(|(name, _, _)| format!("nothing was seen of: {name}")).collect();
    if all.printed.unknown > 0 {
        lacking.push(format!("{} lines have no known form", all.printed.unknown));
    }
    lacking
}

/// In little-endian order and with the header that a capture writer writes, such captures come back byte for byte.
pub fn lacking_where_all_is_forwarded(little: &Finding<Flow>) -> Vec<String> {
    let (same, captures) = (little.counts.same, little.captures);
    (same != captures).then(|| format!("{same} of {captures} captures came back, where all is forwarded")).into_iter().collect()
}
