//! Refusal numbers, those that the programs can meet. Their settings, table sizes and side lists are
//! fixed and good, so 1, 2 and 3 never arise; they write where there is always room, so 9 does not.

#[derive(Clone, Copy, Debug, PartialEq, Eq)]
pub enum Refusal {
    /// "the time is before the gateway's clock"
    TimeBeforeClock = 4,
    /// "the header bytes end too soon"
    HeaderEndsTooSoon = 5,
    /// "the IP version isn't 4, header length below 5 words, or total length below header length"
    BadHeader = 6,
    /// "capture header: short, magic not a1b2c3d4 in either byte order, version not 2.4, or link
    /// type not 1"
    BadCapture = 7,
    /// "capture record cut off, or over 2,048 captured bytes"; the writer gives it, too, "above
    /// 2,048 bytes"
    BadRecord = 8,
}

impl Refusal {
    pub fn number(self) -> u8 {
        self as u8
    }

    /// "A refusal prints the number, R and the refusal."
    pub fn line(self, record_number: u64) -> String {
        format!("{record_number} R {}", self.number())
    }
}
