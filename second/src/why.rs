//! K4, "Why was it dropped?": which of four facts kept a packet from being forwarded. Each is tried
//! with every value it may take, through the gateway's own verdicts.

use std::ops::RangeInclusive;

use crate::gateway::{self, Gateway, Marks, Verdict};
use crate::header::{self, Ends, Kind};
use crate::refusal::Refusal;
use crate::sides::{Decided, Side};

/// "four facts: the address's count, the plant-to-cell mark, the cell-to-plant mark, the kind of
/// packet", of a packet from the cell.
#[derive(Clone, Copy, Debug, PartialEq, Eq)]
pub struct Facts {
    pub count: i64,
    pub plant_mark: bool,
    pub cell_mark: bool,
    pub kind: Kind,
}

/// The counts that an entry may hold: signed 16 bits without -32,768, which stands for an empty
/// entry. The count of an absent address, 0, is one of them.
pub const COUNTS: RangeInclusive<i64> = -32_767..=32_767;

/// The values of a mark.
pub const MARK: [bool; 2] = [false, true];

/// "The kind's values are UDP, opening, SYN+ACK, closing and plain."
pub const KINDS: [Kind; 5] = [Kind::Udp, Kind::Opening, Kind::SynAck, Kind::Closing, Kind::Plain];

impl Facts {
    /// The verdict on a packet from the cell of which these are the facts.
    pub fn verdict(&self, threshold: i64) -> Verdict {
        let marks = Marks { plant_to_cell: self.plant_mark, cell_to_plant: self.cell_mark };
        gateway::verdict(Side::Cell, threshold, self.count, marks, self.kind)
    }

    fn is_forwarded(&self, threshold: i64) -> bool {
        self.verdict(threshold).is_forwarded()
    }

    /// The kinds with which the packet would have been forwarded, all else being the same.
    pub fn passing_kinds(&self, threshold: i64) -> Vec<Kind> {
        let passes = |kind: &Kind| Facts { kind: *kind, ..*self }.is_forwarded(threshold);
        KINDS.into_iter().filter(passes).collect()
    }
}

/// The verdict on a packet from the cell, and whether each of its facts is reported, in the order
/// of `Facts`: "exactly if changing it alone, to some value it may take, would have had the packet
/// forwarded." Of a packet that is forwarded none is: "Verdicts 0 to 4 get the verdict alone."
pub fn of_facts(threshold: i64, facts: Facts) -> (Verdict, [bool; 4]) {
    let verdict = facts.verdict(threshold);
    if verdict.is_forwarded() {
        return (verdict, [false; 4]);
    }
    let passes = |changed: Facts| changed.is_forwarded(threshold);
    let count = COUNTS.into_iter().any(|count| passes(Facts { count, ..facts }));
    let plant_mark = MARK.into_iter().any(|plant_mark| passes(Facts { plant_mark, ..facts }));
    let cell_mark = MARK.into_iter().any(|cell_mark| passes(Facts { cell_mark, ..facts }));
    let kind = KINDS.into_iter().any(|kind| passes(Facts { kind, ..facts }));
    (verdict, [count, plant_mark, cell_mark, kind])
}

#[derive(Clone, Copy, Debug, PartialEq, Eq)]
pub enum Explanation {
    /// "Verdicts 0 to 4 get the verdict alone."
    Forwarded(Verdict),
    Dropped(Dropped),
}

/// Of a packet from the cell with verdict 5 or 6.
#[derive(Clone, Copy, Debug, PartialEq, Eq)]
pub struct Dropped {
    pub verdict: Verdict,
    pub ends: Ends,
    /// "the count and T", the count among the facts that it met.
    pub facts: Facts,
    pub threshold: i64,
    /// Whether each fact is reported, in the order of `Facts`.
    pub reported: [bool; 4],
    /// "the entries of the side lists that decided": the cell list's on the source address, the
    /// plant list's on the destination address.
    pub cell_entry: Decided,
    pub plant_entry: Decided,
}

/// Why a packet would be dropped at a time, if it would. "The tool judges by the tables as they
/// would stand at the packet's second and leaves them untouched. It is refused exactly as the
/// packet would be."
pub fn explain(gateway: &Gateway, time: u32, given: &[u8]) -> Result<Explanation, Refusal> {
    let Some(met) = gateway.met(time, given)? else {
        return Ok(Explanation::Forwarded(Verdict::NotOurs));
    };
    let threshold = gateway.threshold();
    let verdict = gateway::verdict(met.from, threshold, met.count, met.marks, met.kind);
    if verdict.is_forwarded() {
        return Ok(Explanation::Forwarded(verdict));
    }
    // No packet from the plant is dropped, so this one is from the cell.
    let Marks { plant_to_cell: plant_mark, cell_to_plant: cell_mark } = met.marks;
    let facts = Facts { count: met.count, plant_mark, cell_mark, kind: met.kind };
    let (verdict, reported) = of_facts(threshold, facts);
    let ends = header::ends(given)?;
    let (cell_entry, plant_entry) = (met.cell_entry, met.plant_entry);
    Ok(Explanation::Dropped(Dropped {
        verdict,
        ends,
        facts,
        threshold,
        reported,
        cell_entry,
        plant_entry,
    }))
}

#[cfg(test)]
mod tests {
    use super::*;
    use crate::gateway::{Answer, Settings};
    use crate::samples::{ip, tcp, udp, CELL, PLANT};
    use crate::sides::{Entry, Sides};

    /// Each row has a verdict and the facts that are reported for the kinds UDP, opening, SYN+ACK,
    /// closing, plain; c count, p plant-to-cell mark, m cell-to-plant mark, k kind.
    struct Row {
        blocked: bool,
        plant_mark: bool,
        cell_mark: bool,
        cells: [&'static str; 5],
    }

    const fn row(blocked: bool, marks: [bool; 2], cells: [&'static str; 5]) -> Row {
        Row { blocked, plant_mark: marks[0], cell_mark: marks[1], cells }
    }

    /// All 40 cells of packets from the cell, by the sentences of document 01. From a machine that
    /// is not blocked, SYN+ACK and closing packets on a cold slot are dropped: either mark lets them
    /// through, and so does another kind, which is a fresh contact; no count does. From a blocked
    /// one nothing goes through without the plant's mark, nor UDP and openings with it. A lower
    /// count lets through whatever goes through unblocked, the plant's mark all but UDP and
    /// openings, another kind only where the plant's mark is set.
    const ROWS: [Row; 8] = [
        row(false, [false, false], ["4", "4", "5pmk", "5pmk", "4"]),
        row(false, [true, false], ["2", "2", "2", "1", "2"]),
        row(false, [false, true], ["1", "1", "1", "1", "1"]),
        row(false, [true, true], ["1", "1", "1", "1", "1"]),
        row(true, [false, false], ["6c", "6c", "6p", "6p", "6cp"]),
        row(true, [true, false], ["6ck", "6ck", "2", "1", "2"]),
        row(true, [false, true], ["6c", "6c", "6cp", "6cp", "6cp"]),
        row(true, [true, true], ["6ck", "6ck", "1", "1", "1"]),
    ];

    /// A verdict and what is reported, in the letters of the rows.
    fn letters(verdict: Verdict, reported: [bool; 4]) -> String {
        let facts = "cpmk".chars().zip(reported).filter(|(_, is)| *is).map(|(letter, _)| letter);
        (verdict as u8).to_string().chars().chain(facts).collect()
    }

    #[test]
    fn every_cell_by_its_facts() {
        for threshold in [1, 10, 255] {
            for Row { blocked, plant_mark, cell_mark, cells } in ROWS {
                let counts = match blocked {
                    true => [threshold, threshold + 1, 32_767],
                    false => [threshold - 1, -20, -32_767],
                };
                for (kind, cell) in KINDS.into_iter().zip(cells) {
                    for count in counts {
                        let facts = Facts { count, plant_mark, cell_mark, kind };
                        let (verdict, reported) = of_facts(threshold, facts);
                        assert_eq!(letters(verdict, reported), cell, "T {threshold}, {facts:?}");
                        let is_dropped = reported.contains(&true);
                        assert_eq!(is_dropped, !verdict.is_forwarded(), "T {threshold}, {facts:?}");
                    }
                }
            }
        }
    }

    #[test]
    fn the_kinds_that_would_have_passed() {
        let facts = Facts { count: 10, plant_mark: true, cell_mark: false, kind: Kind::Udp };
        assert_eq!(facts.passing_kinds(10), [Kind::SynAck, Kind::Closing, Kind::Plain]);
        let facts = Facts { count: 9, plant_mark: false, cell_mark: false, kind: Kind::Closing };
        assert_eq!(facts.passing_kinds(10), [Kind::Udp, Kind::Opening, Kind::Plain]);
        let facts = Facts { count: 10, ..facts };
        assert_eq!(facts.passing_kinds(10), []);
    }

    const SETTINGS: Settings = Settings { threshold: 10, ..Settings::FACTORY };

    fn started(time: u32) -> Gateway {
        Gateway::cold_start(SETTINGS, Sides::PROGRAM, 4096, 256, time)
    }

    fn judged(gateway: &mut Gateway, time: u32, packet: &[u8]) -> Answer {
        match gateway.packet(time, packet) {
            Ok(answer) => answer,
            Err(refusal) => panic!("refused by {}", refusal.number()),
        }
    }

    fn dropped(gateway: &Gateway, time: u32, packet: &[u8]) -> Dropped {
        match explain(gateway, time, packet) {
            Ok(Explanation::Dropped(dropped)) => dropped,
            other => panic!("not dropped: {other:?}"),
        }
    }

    /// From the cell to PLANT, all on the slot of port 0.
    fn packet_of(kind: Kind) -> Vec<u8> {
        match kind {
            Kind::Udp => udp(CELL, PLANT),
            Kind::Opening => flagged(2),
            Kind::SynAck => flagged(18),
            Kind::Closing => flagged(4),
            Kind::Plain => flagged(16),
        }
    }

    fn flagged(flags: u8) -> Vec<u8> {
        tcp((CELL, 40_000), (PLANT, 0), flags)
    }

    /// CELL blocked or not, and the marks on that slot, by packets at second 100.
    fn brought_about(row: &Row) -> Gateway {
        let mut gateway = started(100);
        if row.cell_mark {
            judged(&mut gateway, 100, &udp(CELL, PLANT));
        }
        if row.plant_mark {
            judged(&mut gateway, 100, &udp(PLANT, CELL));
        }
        let wanted = if row.blocked { 10 } else { 9 };
        for other in 1.. {
            let answer = judged(&mut gateway, 100, &udp(CELL, PLANT + other));
            if answer.count == Some(wanted) {
                break;
            }
        }
        gateway
    }

    #[test]
    fn every_cell_by_packets() {
        for row in ROWS {
            for (kind, cell) in KINDS.into_iter().zip(row.cells) {
                let mut gateway = brought_about(&row);
                let packet = packet_of(kind);
                let why = explain(&gateway, 101, &packet);
                assert_eq!(why, explain(&gateway, 101, &packet));
                let answer = judged(&mut gateway, 101, &packet);
                match why {
                    Ok(Explanation::Dropped(why)) => {
                        let Row { plant_mark, cell_mark, .. } = row;
                        let count = if row.blocked { 10 } else { 9 };
                        assert_eq!(why.facts, Facts { count, plant_mark, cell_mark, kind });
                        assert_eq!(answer.count, Some(count));
                        assert_eq!(letters(why.verdict, why.reported), cell);
                        assert_eq!(why.threshold, 10);
                    }
                    Ok(Explanation::Forwarded(verdict)) => {
                        assert_eq!(letters(verdict, [false; 4]), cell);
                        assert_eq!(answer.verdict, verdict);
                    }
                    Err(refusal) => panic!("refused by {}", refusal.number()),
                }
            }
        }
    }

    /// Document 02's K5: "TCP SYN without ACK is opening, so 2, 3, 6 and 7 are"; "Verdicts and K4's
    /// tool follow".
    #[test]
    fn an_odd_opening_is_explained_as_an_opening() {
        for row in ROWS {
            let gateway = brought_about(&row);
            for flags in [3, 6, 7] {
                let told = explain(&gateway, 101, &flagged(flags));
                assert_eq!(told, explain(&gateway, 101, &packet_of(Kind::Opening)), "{flags}");
                if row.blocked {
                    let why = dropped(&gateway, 101, &flagged(flags));
                    let reported = if row.plant_mark { "6ck" } else { "6c" };
                    assert_eq!(why.facts.kind, Kind::Opening, "{flags}");
                    assert_eq!(letters(why.verdict, why.reported), reported, "{flags}");
                }
            }
        }
    }

    #[test]
    fn from_the_plant_and_not_ours() {
        let told = |gateway: &Gateway, packet: &[u8]| explain(gateway, 100, packet);
        let forwarded = |verdict| Ok(Explanation::Forwarded(verdict));
        for row in ROWS {
            let gateway = brought_about(&row);
            // A closing packet from the plant is forwarded without a count, whatever it meets.
            let closing = tcp((PLANT, 0), (CELL, 9), 17);
            assert_eq!(told(&gateway, &closing), forwarded(Verdict::NothingCounted));
            let verdict = match (row.plant_mark, row.cell_mark) {
                (false, true) => Verdict::CreditOfTwo,
                _ => Verdict::NothingCounted,
            };
            assert_eq!(told(&gateway, &udp(PLANT, CELL)), forwarded(verdict));
            assert_eq!(told(&gateway, &udp(CELL, CELL)), forwarded(Verdict::NotOurs));
            assert_eq!(told(&gateway, &udp(PLANT, PLANT)), forwarded(Verdict::NotOurs));
            assert_eq!(told(&gateway, &udp(CELL, 0x0B00_0000)), forwarded(Verdict::NotOurs));
            assert_eq!(told(&gateway, &udp(0x0B00_0000, PLANT)), forwarded(Verdict::NotOurs));
        }
    }

    #[test]
    fn refused_exactly_as_the_packet_would_be() {
        let mut gateway = started(100);
        let good = udp(CELL, PLANT);
        let bad = [0x55; 20];
        for (time, packet) in [
            (99, &good[..]),
            (99, &good[..27]),
            (99, &bad[..]),
            (100, &good[..27]),
            (100, &good[..19]),
            (100, &[]),
            (100, &bad[..]),
            (100, &bad[..19]),
        ] {
            let refusal = explain(&gateway, time, packet).err();
            assert!(refusal.is_some());
            assert_eq!(refusal, gateway.packet(time, packet).err());
        }
        assert_eq!(explain(&gateway, 99, &bad), Err(Refusal::TimeBeforeClock));
        assert_eq!(explain(&gateway, 100, &bad), Err(Refusal::BadHeader));
        assert_eq!(explain(&gateway, 100, &good[..27]), Err(Refusal::HeaderEndsTooSoon));
    }

    /// Asking for a later second shows counts that have come down and marks that are gone, and it
    /// leaves the clock where it is.
    #[test]
    fn as_the_tables_would_stand_at_the_packet_s_second() {
        let row = &ROWS[7];
        let mut gateway = brought_about(row);
        let opening = packet_of(Kind::Opening);
        let told = |time| dropped(&gateway, time, &opening).facts;
        let blocked = Facts { count: 10, plant_mark: true, cell_mark: true, kind: Kind::Opening };
        assert_eq!(told(100), blocked);
        assert_eq!(told(119), blocked);
        // At 120 the count is 9; eleven minutes on the marks are gone.
        let forwarded = |verdict| Ok(Explanation::Forwarded(verdict));
        assert_eq!(explain(&gateway, 120, &opening), forwarded(Verdict::NothingCounted));
        assert_eq!(explain(&gateway, 719, &opening), forwarded(Verdict::NothingCounted));
        assert_eq!(explain(&gateway, 720, &opening), forwarded(Verdict::FreshContact));
        let closing = packet_of(Kind::Closing);
        assert_eq!(explain(&gateway, 659, &closing), forwarded(Verdict::NothingCounted));
        let hygiene = dropped(&gateway, 720, &closing);
        let cold = Facts { count: 0, plant_mark: false, cell_mark: false, kind: Kind::Closing };
        assert_eq!((hygiene.verdict, hygiene.facts), (Verdict::Hygiene, cold));
        // The clock is still at 100, and so are the tables.
        assert_eq!(told(100), blocked);
        assert_eq!(judged(&mut gateway, 100, &opening).verdict, Verdict::Blocked);
    }

    #[test]
    fn ends_and_entries() {
        const CELLS: &[Entry] = &[(0x0A00_0000, 8), (0x0A00_00FF, 24), (0x0A00_0000, 24)];
        const PLANTS: &[Entry] = &[(0xC0A8_0200, 24), (0xC0A8_FFFF, 16)];
        let sides = Sides { cell: CELLS, plant: PLANTS };
        let gateway = Gateway::cold_start(SETTINGS, sides, 4096, 256, 100);
        let why = dropped(&gateway, 100, &tcp((CELL, 40_000), (PLANT, 80), 20));
        let ends = Ends {
            source: CELL,
            source_port: Some(40_000),
            destination: PLANT,
            destination_port: Some(80),
            protocol: 6,
        };
        assert_eq!(why.ends, ends);
        let by = |side, number, entry| Decided { side, number, entry };
        assert_eq!(why.cell_entry, by(Side::Cell, 2, (0x0A00_00FF, 24)));
        assert_eq!(why.plant_entry, by(Side::Plant, 2, (0xC0A8_FFFF, 16)));
        let why = dropped(&gateway, 100, &tcp((0x0AFF_0000, 1), (PLANT, 80), 18));
        assert_eq!(why.cell_entry, by(Side::Cell, 1, (0x0A00_0000, 8)));
    }

    /// A later fragment is plain, whatever its protocol.
    #[test]
    fn a_later_fragment() {
        let mut gateway = brought_about(&ROWS[4]);
        let mut fragment = udp(CELL, PLANT);
        fragment[7] = 1;
        let why = dropped(&gateway, 100, &fragment);
        assert_eq!((why.facts.kind, why.ends.source_port), (Kind::Plain, None));
        assert_eq!(letters(why.verdict, why.reported), "6cp");
        let other = ip(1, CELL, PLANT, &[]);
        let why = dropped(&gateway, 100, &other);
        assert_eq!((why.facts.kind, why.ends.destination_port), (Kind::Plain, None));
        assert_eq!(judged(&mut gateway, 100, &other).verdict, Verdict::Blocked);
    }
}
