//! The gateway: settings, clock, slots, lines and verdict.
//!
//! Nothing is swept when the clock moves. A slot keeps the second at which a packet was last
//! forwarded on it, an entry the second at which its count was last written; ages and counts are
//! worked out from the multiples passed since. The clock never goes back, and the multiples passed
//! from a to b and from b to c add up to those passed from a to c, so this is what the sweeps give.

use crate::cipher;
use crate::header::{self, Kind};
use crate::refusal::Refusal;
use crate::sides::{Decided, Side, Sides};

pub struct Settings {
    /// T, 1 to 255.
    pub threshold: i64,
    /// Cmin, -1,000 to 0.
    pub floor: i64,
    /// Dmiss, 1 to 3,600 seconds.
    pub dmiss: u32,
    /// Dconn, 1 to 62 minutes.
    pub dconn: u32,
    /// "Eight 32-bit round keys, free."
    pub keys: [u32; 8],
}

impl Settings {
    /// "T 10, Cmin -20, Dmiss 60, Dconn 10, keys all zero.", and document 02's K2: "the factory T
    /// becomes 5."
    pub const FACTORY: Settings =
        Settings { threshold: 5, floor: -20, dmiss: 60, dconn: 10, keys: [0; 8] };
}

#[derive(Clone, Copy, Debug, PartialEq, Eq)]
pub enum Verdict {
    NotOurs = 0,
    NothingCounted = 1,
    CreditOfOne = 2,
    CreditOfTwo = 3,
    FreshContact = 4,
    Hygiene = 5,
    Blocked = 6,
}

impl Verdict {
    /// 5 and 6 are "dropped"; document 02's K1: "Verdict 0 counts as forwarded".
    pub fn is_forwarded(self) -> bool {
        !matches!(self, Verdict::Hygiene | Verdict::Blocked)
    }
}

/// "The answer holds the verdict, the address's count after it, and the replaced address, if any".
#[derive(Clone, Copy, Debug, PartialEq, Eq)]
pub struct Answer {
    pub verdict: Verdict,
    pub count: Option<i64>,
    pub replaced: Option<u32>,
}

impl Answer {
    /// "Verdict 0 has no count."
    pub const NOT_OURS: Answer = Answer { verdict: Verdict::NotOurs, count: None, replaced: None };
}

/// "plant to cell seen" and "cell to plant seen". "With neither bit it is cold".
#[derive(Clone, Copy, Debug, PartialEq, Eq)]
pub struct Marks {
    pub plant_to_cell: bool,
    pub cell_to_plant: bool,
}

const COLD: Marks = Marks { plant_to_cell: false, cell_to_plant: false };

#[derive(Clone, Copy, Debug, PartialEq, Eq)]
struct Slot {
    marks: Marks,
    last_forwarded: u32,
}

/// A way that is not empty. A line's ways fill from the lowest and never empty again.
struct Entry {
    address: u32,
    count: i64,
    written: u32,
}

impl Entry {
    /// "Each multiple of Dmiss passed lowers each positive count by 1. Several at once add up."
    fn count_at(&self, dmiss: u32, now: u32) -> i64 {
        if self.count > 0 {
            let passed = multiples_passed(dmiss, self.written, now);
            0.max(self.count - i64::from(passed))
        } else {
            self.count
        }
    }
}

/// A packet of ours, and what it meets at its second.
#[derive(Clone, Copy, Debug, PartialEq, Eq)]
pub struct Met {
    pub from: Side,
    pub kind: Kind,
    /// The entries of the side lists that decided on its two ends.
    pub cell_entry: Decided,
    pub plant_entry: Decided,
    pub marks: Marks,
    /// The count of the cell address.
    pub count: i64,
    cell: u32,
    slot: usize,
    line: usize,
}

/// What a verdict does to the packet's slot.
#[derive(Clone, Copy, Debug, PartialEq, Eq)]
enum OnSlot {
    Untouched,
    AgeZero,
    AgeZeroAndOwnSet,
}

pub struct Gateway {
    settings: Settings,
    sides: Sides,
    clock: u32,
    slots: Vec<Slot>,
    lines: Vec<Vec<Entry>>,
}

/// "A multiple is passed when it is above the old clock and not above the new time". The new time
/// is never below the old one.
fn multiples_passed(of: u32, old: u32, new: u32) -> u32 {
    (new / of).saturating_sub(old / of)
}

impl Gateway {
    /// "A cold start takes settings, tables and a time; it writes 0 to every record and tag and
    /// -32,768 to every count, sets the clock". The settings and sizes are to be in their ranges.
    pub fn cold_start(
        settings: Settings,
        sides: Sides,
        records: usize,
        lines: usize,
        time: u32,
    ) -> Gateway {
        let slots = vec![Slot { marks: COLD, last_forwarded: time }; records];
        let lines = (0..lines).map(|_| Vec::new()).collect();
        Gateway { settings, sides, clock: time, slots, lines }
    }

    /// "and also by a call with a time alone".
    pub fn time(&mut self, time: u32) -> Result<(), Refusal> {
        if time < self.clock {
            return Err(Refusal::TimeBeforeClock);
        }
        self.clock = time;
        Ok(())
    }

    /// A packet at a time, from the first byte of its IP header on.
    pub fn packet(&mut self, time: u32, given: &[u8]) -> Result<Answer, Refusal> {
        let met = self.met(time, given)?;
        // "Clock, before every packet that isn't refused, ours or not".
        self.clock = time;
        let Some(Met { from, kind, mut marks, count, cell, slot, line, .. }) = met else {
            return Ok(Answer::NOT_OURS);
        };

        let (verdict, on_slot) = judge_met(from, self.settings.threshold, count, marks, kind);
        if on_slot == OnSlot::AgeZeroAndOwnSet {
            match from {
                Side::Plant => marks.plant_to_cell = true,
                Side::Cell => marks.cell_to_plant = true,
            }
        }
        if on_slot != OnSlot::Untouched {
            self.slots[slot] = Slot { marks, last_forwarded: time };
        }

        // "The cell address's count becomes the larger of Cmin and count-1 for 2, the same with
        // count-2 for 3, and count+1 for 4. Only these write an entry."
        let floor = self.settings.floor;
        let (count, replaced) = match verdict {
            Verdict::CreditOfOne => self.write(line, cell, floor.max(count - 1)),
            Verdict::CreditOfTwo => self.write(line, cell, floor.max(count - 2)),
            Verdict::FreshContact => self.write(line, cell, count + 1),
            _ => (count, None),
        };
        Ok(Answer { verdict, count: Some(count), replaced })
    }

    /// What a packet meets at a time, or nothing if it isn't ours. It is refused as the packet
    /// would be; nothing is written, not even the clock.
    pub fn met(&self, time: u32, given: &[u8]) -> Result<Option<Met>, Refusal> {
        // Refusal 4: "the time is before the gateway's clock".
        if time < self.clock {
            return Err(Refusal::TimeBeforeClock);
        }
        let packet = header::read(given)?;

        // "A packet is ours when one end is cell and the other plant." "The port is the plant
        // end's".
        let Some(source) = self.sides.decided(packet.source) else { return Ok(None) };
        let Some(destination) = self.sides.decided(packet.destination) else { return Ok(None) };
        let (plant_entry, cell_entry, plant, cell, port) = match (source.side, destination.side) {
            (Side::Plant, Side::Cell) => {
                (source, destination, packet.source, packet.destination, packet.source_port)
            }
            (Side::Cell, Side::Plant) => {
                (destination, source, packet.destination, packet.source, packet.destination_port)
            }
            _ => return Ok(None),
        };
        let slot = cipher::slot(&self.settings.keys, plant, cell, port, self.slots.len());
        let line = cipher::line(&self.settings.keys, cell, self.lines.len());
        let (from, kind) = (source.side, packet.kind);
        let (marks, count) = (self.marks(slot, time), self.count(line, cell, time));
        Ok(Some(Met { from, kind, cell_entry, plant_entry, marks, count, cell, slot, line }))
    }

    /// T.
    pub fn threshold(&self) -> i64 {
        self.settings.threshold
    }

    /// A slot's marks at a time that is not before the clock. "Each minute boundary passed adds 1
    /// to the age of each marked record; a record whose age is then over Dconn becomes 0"; "minute
    /// boundaries are multiples of 60"; "Each forwarded packet of ours makes the age 0, but for the
    /// untouched case."
    fn marks(&self, slot: usize, now: u32) -> Marks {
        let Slot { marks, last_forwarded } = self.slots[slot];
        let age = multiples_passed(60, last_forwarded, now);
        if age > self.settings.dconn {
            COLD
        } else {
            marks
        }
    }

    /// An address's count at such a time. "without one its count is 0".
    fn count(&self, line: usize, address: u32, now: u32) -> i64 {
        let entry = self.lines[line].iter().find(|entry| entry.address == address);
        entry.map_or(0, |entry| entry.count_at(self.settings.dmiss, now))
    }

    /// Writes an address's count, and hands it back with the replaced address, if any.
    fn write(&mut self, line: usize, address: u32, count: i64) -> (i64, Option<u32>) {
        let (dmiss, now) = (self.settings.dmiss, self.clock);
        let entry = Entry { address, count, written: now };
        let ways = &mut self.lines[line];
        if let Some(present) = ways.iter_mut().find(|entry| entry.address == address) {
            *present = entry;
            return (count, None);
        }
        // "An absent address takes the lowest empty way,"
        if ways.len() < 4 {
            ways.push(entry);
            return (count, None);
        }
        // "else the way with the smallest count, lowest on a tie." (min_by_key hands back the
        // first of several smallest ones.)
        let smallest = ways.iter_mut().min_by_key(|entry| entry.count_at(dmiss, now));
        (count, smallest.map(|way| std::mem::replace(way, entry).address))
    }
}

/// The verdict on a packet, by T and what it meets.
pub fn verdict(from: Side, threshold: i64, count: i64, marks: Marks, kind: Kind) -> Verdict {
    judge_met(from, threshold, count, marks, kind).0
}

/// The same, and what the verdict does to the slot.
fn judge_met(
    from: Side,
    threshold: i64,
    count: i64,
    marks: Marks,
    kind: Kind,
) -> (Verdict, OnSlot) {
    // "It is blocked when its count is at least T".
    let blocked = count >= threshold;
    // ""Own" and "other" mean the mark of the packet's direction and of the reverse one."
    let (own, other) = match from {
        Side::Plant => (marks.plant_to_cell, marks.cell_to_plant),
        Side::Cell => (marks.cell_to_plant, marks.plant_to_cell),
    };
    judge(from, blocked, own, other, kind)
}

/// The verdicts, in the order of their sentences. "2, 3 and 4 set own. Each forwarded packet of
/// ours makes the age 0, but for the untouched case. Dropped packets alter neither table."
fn judge(from: Side, blocked: bool, own: bool, other: bool, kind: Kind) -> (Verdict, OnSlot) {
    use Kind::{Closing, Opening, SynAck, Udp};
    use OnSlot::{AgeZero, AgeZeroAndOwnSet, Untouched};
    use Side::{Cell, Plant};
    use Verdict::{Blocked, CreditOfOne, CreditOfTwo, FreshContact, Hygiene, NothingCounted};

    match (from, blocked, own, other, kind) {
        // "From the plant. Own set: 1."
        (Plant, _, true, _, _) => (NothingCounted, AgeZero),
        // "Only other set: closing 1 with no new mark,"
        (Plant, _, false, true, Closing) => (NothingCounted, AgeZero),
        // "else 3."
        (Plant, _, false, true, _) => (CreditOfTwo, AgeZeroAndOwnSet),
        // "Neither: 1; closing leaves the record untouched,"
        (Plant, _, false, false, Closing) => (NothingCounted, Untouched),
        // "else own is set."
        (Plant, _, false, false, _) => (NothingCounted, AgeZeroAndOwnSet),

        // "From the cell, not blocked. Own set: 1."
        (Cell, false, true, _, _) => (NothingCounted, AgeZero),
        // "Only other set: closing 1 with no new mark,"
        (Cell, false, false, true, Closing) => (NothingCounted, AgeZero),
        // "else 2."
        (Cell, false, false, true, _) => (CreditOfOne, AgeZeroAndOwnSet),
        // "Neither: closing or SYN+ACK 5,"
        (Cell, false, false, false, Closing | SynAck) => (Hygiene, Untouched),
        // "else 4."
        (Cell, false, false, false, _) => (FreshContact, AgeZeroAndOwnSet),

        // "From the cell, blocked. Other unset: 6."
        (Cell, true, _, false, _) => (Blocked, Untouched),
        // "Other set, UDP or opening: 6."
        (Cell, true, _, true, Udp | Opening) => (Blocked, Untouched),
        // "Else own set or closing: 1,"
        (Cell, true, true, true, _) => (NothingCounted, AgeZero),
        (Cell, true, _, true, Closing) => (NothingCounted, AgeZero),
        // "otherwise 2."
        (Cell, true, _, true, _) => (CreditOfOne, AgeZeroAndOwnSet),
    }
}

#[cfg(test)]
mod tests;
