use super::*;
use crate::samples::{ip, tcp, udp};

const CELL: u32 = 0x0A00_0001;
const PLANT: u32 = 0xC0A8_0001;
const NEITHER: Marks = COLD;
const PLANT_SEEN: Marks = Marks { plant_to_cell: true, cell_to_plant: false };
const CELL_SEEN: Marks = Marks { plant_to_cell: false, cell_to_plant: true };
const BOTH: Marks = Marks { plant_to_cell: true, cell_to_plant: true };

fn started(settings: Settings, lines: usize, time: u32) -> Gateway {
    Gateway::cold_start(settings, crate::sides::Sides::PROGRAM, 4096, lines, time)
}

fn factory(time: u32) -> Gateway {
    started(Settings::FACTORY, 256, time)
}

/// A gateway with T 5 in which CELL has a count, and marks on its slot with PLANT and port 0.
fn preset(count: i64, marks: Marks, time: u32) -> Gateway {
    let mut gateway = started(Settings { threshold: 5, ..Settings::FACTORY }, 256, time);
    set_count(&mut gateway, CELL, count);
    set_marks(&mut gateway, marks);
    gateway
}

fn set_count(gateway: &mut Gateway, address: u32, count: i64) {
    let line = cipher::line(&gateway.settings.keys, address, gateway.lines.len());
    gateway.write(line, address, count);
}

fn count_of(gateway: &Gateway, address: u32) -> i64 {
    let line = cipher::line(&gateway.settings.keys, address, gateway.lines.len());
    gateway.count(line, address, gateway.clock)
}

fn the_slot(gateway: &Gateway) -> usize {
    cipher::slot(&gateway.settings.keys, PLANT, CELL, 0, gateway.slots.len())
}

fn set_marks(gateway: &mut Gateway, marks: Marks) {
    let slot = the_slot(gateway);
    gateway.slots[slot] = Slot { marks, last_forwarded: gateway.clock };
}

fn marks_of(gateway: &Gateway) -> Marks {
    gateway.marks(the_slot(gateway), gateway.clock)
}

/// Verdict, count and replaced address of a packet.
fn judged(gateway: &mut Gateway, time: u32, packet: &[u8]) -> (u8, Option<i64>, Option<u32>) {
    match gateway.packet(time, packet) {
        Ok(answer) => (answer.verdict as u8, answer.count, answer.replaced),
        Err(refusal) => panic!("refused by {}", refusal.number()),
    }
}

fn told(verdict: u8, count: i64) -> (u8, Option<i64>, Option<u32>) {
    (verdict, Some(count), None)
}

/// The source and destination of a packet between PLANT and CELL.
fn ends(from: Side) -> (u32, u32) {
    match from {
        Side::Plant => (PLANT, CELL),
        Side::Cell => (CELL, PLANT),
    }
}

/// A TCP packet between them, on the slot of port 0.
fn flagged(from: Side, flags: u8) -> Vec<u8> {
    let (source, destination) = ends(from);
    tcp((source, 0), (destination, 0), flags)
}

/// What a packet at second 9 is told, and the count and the slot that it leaves where CELL had this
/// count and the slot these marks at second 7.
fn outcome(count: i64, marks: Marks, packet: &[u8]) -> ((u8, Option<i64>, Option<u32>), i64, Slot) {
    let mut gateway = preset(count, marks, 7);
    let answer = judged(&mut gateway, 9, packet);
    (answer, count_of(&gateway, CELL), gateway.slots[the_slot(&gateway)])
}

#[test]
fn bench_examples_7_to_9_and_12() {
    assert_eq!(judged(&mut preset(4, NEITHER, 7), 7, &udp(CELL, PLANT)), told(4, 5));
    assert_eq!(judged(&mut preset(5, NEITHER, 7), 7, &udp(CELL, PLANT)), told(6, 5));
    assert_eq!(judged(&mut preset(-19, CELL_SEEN, 7), 7, &udp(PLANT, CELL)), told(3, -20));
    let plain = ip(1, CELL, PLANT, &[]);
    assert_eq!(judged(&mut preset(5, PLANT_SEEN, 7), 7, &plain), told(2, 4));
}

#[test]
fn bench_example_10() {
    for (count, from, to, expected) in
        [(3, 59, 60, 2), (3, 60, 119, 3), (3, 0, 600, 0), (-4, 59, 60, -4), (-4, 0, 600, -4)]
    {
        let mut gateway = factory(from);
        set_count(&mut gateway, CELL, count);
        gateway.clock = to;
        assert_eq!(count_of(&gateway, CELL), expected, "{count} from {from} to {to}");
    }
}

#[test]
fn bench_example_11() {
    let mut gateway = factory(0);
    set_marks(&mut gateway, BOTH);
    for (clock, marks) in [(540, BOTH), (600, BOTH), (659, BOTH), (660, NEITHER)] {
        gateway.clock = clock;
        assert_eq!(marks_of(&gateway), marks, "at {clock}");
    }
}

/// All 80 cells. Each row has the kinds plain, UDP, opening, SYN+ACK, closing; first the verdicts,
/// then what becomes of the slot: o own set and age 0, a age 0 alone, . untouched.
#[test]
fn verdict_cells() {
    let rows = [
        (Side::Plant, false, NEITHER, "11111", "oooo."),
        (Side::Plant, false, PLANT_SEEN, "11111", "aaaaa"),
        (Side::Plant, false, CELL_SEEN, "33331", "ooooa"),
        (Side::Plant, false, BOTH, "11111", "aaaaa"),
        (Side::Plant, true, NEITHER, "11111", "oooo."),
        (Side::Plant, true, PLANT_SEEN, "11111", "aaaaa"),
        (Side::Plant, true, CELL_SEEN, "33331", "ooooa"),
        (Side::Plant, true, BOTH, "11111", "aaaaa"),
        (Side::Cell, false, NEITHER, "44455", "ooo.."),
        (Side::Cell, false, PLANT_SEEN, "22221", "ooooa"),
        (Side::Cell, false, CELL_SEEN, "11111", "aaaaa"),
        (Side::Cell, false, BOTH, "11111", "aaaaa"),
        (Side::Cell, true, NEITHER, "66666", "....."),
        (Side::Cell, true, PLANT_SEEN, "26621", "o..oa"),
        (Side::Cell, true, CELL_SEEN, "66666", "....."),
        (Side::Cell, true, BOTH, "16611", "a..aa"),
    ];
    for (from, blocked, marks, verdicts, slots) in rows {
        for (column, (verdict, on_slot)) in verdicts.bytes().zip(slots.bytes()).enumerate() {
            let (source, destination) = ends(from);
            let packet = match column {
                0 => flagged(from, 16),
                1 => udp(source, destination),
                2 => flagged(from, 2),
                3 => flagged(from, 18),
                _ => flagged(from, 4),
            };
            let before = if blocked { 5 } else { 4 };
            let after = match verdict {
                b'2' => before - 1,
                b'3' => before - 2,
                b'4' => before + 1,
                _ => before,
            };
            let own_set = match from {
                Side::Plant => Marks { plant_to_cell: true, ..marks },
                Side::Cell => Marks { cell_to_plant: true, ..marks },
            };
            let slot = match on_slot {
                b'o' => Slot { marks: own_set, last_forwarded: 9 },
                b'a' => Slot { marks, last_forwarded: 9 },
                _ => Slot { marks, last_forwarded: 7 },
            };
            assert_eq!(
                outcome(before, marks, &packet),
                (told(verdict - b'0', after), after, slot),
                "{from:?} {blocked} {marks:?} {column}"
            );
        }
    }
}

/// SYN+FIN, SYN+RST and SYN+FIN+RST, of document 02's K5: alone, with PSH, with URG and with both.
const ODD_OPENINGS: [u8; 12] = [3, 6, 7, 11, 14, 15, 35, 38, 39, 43, 46, 47];

/// K5: "A tester's SYN+FIN from a blocked machine on a slot with the plant's mark passed as plain".
#[test]
fn an_odd_opening_from_a_blocked_machine_is_dropped() {
    for (marks, answer_to_ack) in [(PLANT_SEEN, told(2, 4)), (BOTH, told(1, 5))] {
        for flags in ODD_OPENINGS {
            let mut gateway = preset(5, marks, 7);
            assert_eq!(judged(&mut gateway, 9, &flagged(Side::Cell, flags)), told(6, 5), "{flags}");
            assert_eq!(count_of(&gateway, CELL), 5);
            let slot = Slot { marks, last_forwarded: 7 };
            assert_eq!(gateway.slots[the_slot(&gateway)], slot);
            // An ACK behind it is judged as if it had not been there.
            assert_eq!(judged(&mut gateway, 9, &flagged(Side::Cell, 16)), answer_to_ack);
        }
        // "18 stays SYN+ACK; 19, 22 and 23 stay plain."
        for flags in [16, 18, 19, 22, 23] {
            let (answer, ..) = outcome(5, marks, &flagged(Side::Cell, flags));
            assert_eq!(answer, answer_to_ack, "{flags}");
        }
    }
}

/// No verdict but that one tells openings and plain packets apart, so all else is as before K5.
#[test]
fn an_odd_opening_elsewhere_is_judged_as_a_plain_packet() {
    let any_marks = [NEITHER, PLANT_SEEN, CELL_SEEN, BOTH];
    for (from, count, slots) in [
        (Side::Plant, 4, &any_marks[..]),
        (Side::Plant, 5, &any_marks[..]),
        (Side::Cell, 4, &any_marks[..]),
        (Side::Cell, 5, &[NEITHER, CELL_SEEN]),
    ] {
        for marks in slots {
            let plain = outcome(count, *marks, &flagged(from, 16));
            for flags in ODD_OPENINGS {
                let odd = outcome(count, *marks, &flagged(from, flags));
                assert_eq!(odd, plain, "{from:?} {count} {marks:?} {flags}");
            }
        }
    }
}

#[test]
fn a_udp_fragment_is_plain_when_blocked() {
    let mut fragment = udp(CELL, PLANT);
    fragment[7] = 1;
    assert_eq!(judged(&mut preset(5, PLANT_SEEN, 7), 7, &fragment), told(2, 4));
    assert_eq!(judged(&mut preset(5, PLANT_SEEN, 7), 7, &udp(CELL, PLANT)), told(6, 5));
}

/// Examples 4 to 6 on a gateway: keys all zero, then first key 1 and rest 0.
#[test]
fn keys_reach_slot_and_line() {
    const FFFF: &[crate::sides::Entry] = &[(0xFFFF_FFFF, 32)];
    const ZERO: &[crate::sides::Entry] = &[(0, 32)];
    let contacted = |first_key, cell, plant| {
        let mut settings = Settings::FACTORY;
        settings.keys[0] = first_key;
        let sides = Sides { cell, plant };
        let mut gateway = Gateway::cold_start(settings, sides, 4096, 256, 0);
        assert_eq!(judged(&mut gateway, 0, &udp(cell[0].0, plant[0].0)), told(4, 1));
        let slot = gateway.slots.iter().position(|slot| slot.marks == CELL_SEEN);
        let line = gateway.lines.iter().position(|line| !line.is_empty());
        (slot, line)
    };
    assert_eq!(contacted(0, FFFF, ZERO), (Some(2457), Some(153)));
    assert_eq!(contacted(1, FFFF, ZERO).1, Some(255));
    assert_eq!(contacted(1, ZERO, FFFF).0, Some(4095));
}

#[test]
fn the_port_is_the_plant_end_s() {
    let mut gateway = factory(0);
    assert_eq!(judged(&mut gateway, 0, &tcp((CELL, 1000), (PLANT, 80), 2)), told(4, 1));
    // Another cell port is the same slot, another plant port is not.
    assert_eq!(judged(&mut gateway, 0, &tcp((CELL, 1001), (PLANT, 80), 2)), told(1, 1));
    assert_eq!(judged(&mut gateway, 0, &tcp((CELL, 1000), (PLANT, 81), 2)), told(4, 2));
    assert_eq!(judged(&mut gateway, 0, &tcp((PLANT, 81), (CELL, 80), 18)), told(3, 0));
}

#[test]
fn refusal_4_and_the_clock() {
    let mut gateway = factory(100);
    let good = udp(CELL, PLANT);
    // 4 stands before 5 and 6.
    assert_eq!(gateway.packet(99, &good), Err(Refusal::TimeBeforeClock));
    assert_eq!(gateway.packet(99, &[]), Err(Refusal::TimeBeforeClock));
    // Packets that are refused leave the clock alone; packets that aren't ours move it.
    assert_eq!(gateway.packet(200, &good[..27]), Err(Refusal::HeaderEndsTooSoon));
    assert_eq!(gateway.packet(200, &[0; 20]), Err(Refusal::BadHeader));
    assert_eq!(judged(&mut gateway, 100, &good), told(4, 1));
    assert_eq!(judged(&mut gateway, 101, &udp(CELL, CELL)), (0, None, None));
    assert_eq!(judged(&mut gateway, 102, &udp(PLANT, PLANT)), (0, None, None));
    assert_eq!(judged(&mut gateway, 103, &udp(PLANT, 0x0B00_0000)), (0, None, None));
    assert_eq!(gateway.packet(102, &good), Err(Refusal::TimeBeforeClock));
    assert_eq!(judged(&mut gateway, u32::MAX, &good), told(4, 1));
    assert_eq!(gateway.packet(u32::MAX - 1, &good), Err(Refusal::TimeBeforeClock));
}

#[test]
fn dropped_packets_do_not_write_and_an_absent_address_has_count_0() {
    let mut gateway = factory(0);
    let reset = tcp((CELL, 80), (PLANT, 80), 4);
    assert_eq!(judged(&mut gateway, 0, &reset), told(5, 0));
    assert_eq!(judged(&mut gateway, 0, &udp(PLANT, CELL)), told(1, 0));
    assert!(gateway.lines.iter().all(|line| line.is_empty()));
    // With Cmin 0 a credit of one writes 0, and that is an entry all the same.
    let mut gateway = started(Settings { floor: 0, ..Settings::FACTORY }, 1, 0);
    assert_eq!(judged(&mut gateway, 0, &udp(PLANT, CELL)), told(1, 0));
    assert_eq!(judged(&mut gateway, 0, &udp(CELL, PLANT)), told(2, 0));
    assert_eq!(gateway.lines[0].len(), 1);
}

#[test]
fn replacement_takes_the_smallest_count_and_the_lowest_way_on_a_tie() {
    // One line, so that all addresses meet in it.
    let filled = |counts: [i64; 4]| {
        let mut gateway = started(Settings::FACTORY, 1, 59);
        for (way, count) in counts.into_iter().enumerate() {
            set_count(&mut gateway, CELL + 1 + way as u32, count);
        }
        gateway
    };
    let fresh = udp(CELL, PLANT);
    let addresses = |gateway: &Gateway| -> Vec<u32> {
        gateway.lines[0].iter().map(|entry| entry.address - CELL).collect()
    };
    // Counts, time, way taken. At second 60 each positive count has come down by 1, so that
    // 3 1 2 0 are 2 0 1 0, and at 240 they are all 0.
    for (counts, time, way) in [
        ([3, 1, 2, 1], 59, 1),
        ([2, 2, 2, 2], 59, 0),
        ([0, -1, -1, -2], 59, 3),
        ([3, 1, 2, 0], 59, 3),
        ([3, 1, 2, 0], 60, 1),
        ([3, 1, 2, 1], 240, 0),
        ([3, 1, -1, 1], 240, 2),
    ] {
        let mut gateway = filled(counts);
        let replaced = CELL + 1 + way as u32;
        assert_eq!(judged(&mut gateway, time, &fresh), (4, Some(1), Some(replaced)), "{counts:?}");
        let mut expected = vec![1, 2, 3, 4];
        expected[way] = 0;
        assert_eq!(addresses(&gateway), expected);
        // The replaced address has no entry now; the new one's next fresh contact counts on.
        assert_eq!(count_of(&gateway, replaced), 0);
        assert_eq!(judged(&mut gateway, time, &udp(CELL, PLANT + 1)), told(4, 2));
    }
}

#[test]
fn ageing_at_and_over_dconn_by_one_jump_and_by_many() {
    let fresh = udp(CELL, PLANT);
    let not_ours = udp(CELL, CELL);
    for many in [false, true] {
        // From second 59 to 659 ten minute boundaries are passed, to 660 eleven.
        for (time, verdict) in [(659, 1), (660, 4)] {
            let mut gateway = factory(59);
            assert_eq!(judged(&mut gateway, 59, &fresh), told(4, 1));
            if many {
                for minute in 1..=10 {
                    assert_eq!(judged(&mut gateway, minute * 60, &not_ours), (0, None, None));
                }
            }
            assert_eq!(judged(&mut gateway, time, &fresh).0, verdict);
        }
    }
    // Forwarded packets keep the slot live, dropped ones do not. At T 1 UDP from the cell is
    // blocked as long as its count is 1, with Dmiss 3,600 here for the first hour.
    let settings = Settings { threshold: 1, dmiss: 3600, ..Settings::FACTORY };
    let mut gateway = started(settings, 256, 0);
    assert_eq!(judged(&mut gateway, 0, &fresh), told(4, 1));
    assert_eq!(judged(&mut gateway, 600, &fresh), told(6, 1));
    assert_eq!(judged(&mut gateway, 660, &udp(PLANT, CELL)), told(1, 1));
    assert_eq!(marks_of(&gateway), PLANT_SEEN);
    // A closing packet on the live slot, ten minutes on, keeps it for another ten.
    let mut closing = tcp((PLANT, 0), (CELL, 0), 4);
    assert_eq!(judged(&mut gateway, 1260, &closing), told(1, 1));
    assert_eq!(judged(&mut gateway, 1860, &fresh), told(6, 1));
    assert_eq!(marks_of(&gateway), PLANT_SEEN);
    // Eleven minutes on it is cold, and a closing packet from the plant does not wake it.
    assert_eq!(judged(&mut gateway, 1920, &closing), told(1, 1));
    assert_eq!(marks_of(&gateway), NEITHER);
    closing = tcp((CELL, 0), (PLANT, 0), 4);
    assert_eq!(judged(&mut gateway, 3600, &closing), told(5, 0));
    assert_eq!(marks_of(&gateway), NEITHER);
    // After a cold spell a new mark stands alone.
    assert_eq!(judged(&mut gateway, 3600, &fresh), told(4, 1));
    assert_eq!(marks_of(&gateway), CELL_SEEN);
}

#[test]
fn dconn_62_and_dconn_1() {
    for (dconn, last_live) in [(62, 62 * 60 + 59), (1, 119)] {
        let mut gateway = started(Settings { dconn, ..Settings::FACTORY }, 256, 0);
        set_marks(&mut gateway, BOTH);
        gateway.clock = last_live;
        assert_eq!(marks_of(&gateway), BOTH);
        gateway.clock = last_live + 1;
        assert_eq!(marks_of(&gateway), NEITHER);
    }
}

#[test]
fn decay_over_jumps() {
    let own = udp(CELL, PLANT);
    let mut gateway = factory(59);
    for plant in 0..3 {
        let count = i64::from(plant) + 1;
        assert_eq!(judged(&mut gateway, 59, &udp(CELL, PLANT + plant)), told(4, count));
    }
    assert_eq!(judged(&mut gateway, 60, &own), told(1, 2));
    assert_eq!(judged(&mut gateway, 119, &own), told(1, 2));
    assert_eq!(judged(&mut gateway, 120, &own), told(1, 1));
    // Six multiples at once stop at 0, and a new contact counts on from there.
    assert_eq!(judged(&mut gateway, 480, &own), told(1, 0));
    assert_eq!(judged(&mut gateway, 480, &udp(CELL, PLANT + 3)), told(4, 1));
    // A credit of two makes it -1, and no multiple brings that further down.
    assert_eq!(judged(&mut gateway, 480, &udp(PLANT, CELL)), told(3, -1));
    assert_eq!(judged(&mut gateway, 1000, &own), told(1, -1));
    // Dmiss 7: from 6 to 20 the multiples 7 and 14 are passed; at 21 the third.
    let mut gateway = started(Settings { dmiss: 7, ..Settings::FACTORY }, 256, 6);
    set_count(&mut gateway, CELL, 9);
    assert_eq!(judged(&mut gateway, 20, &udp(PLANT, CELL)), told(1, 7));
    assert_eq!(judged(&mut gateway, 21, &udp(PLANT, CELL)), told(1, 6));
}

#[test]
fn blocked_at_t_and_released_by_decay() {
    let mut gateway = factory(0);
    for plant in 0..5 {
        let count = i64::from(plant) + 1;
        assert_eq!(judged(&mut gateway, 0, &udp(CELL, PLANT + plant)), told(4, count));
    }
    assert_eq!(judged(&mut gateway, 59, &udp(CELL, PLANT + 5)), told(6, 5));
    assert_eq!(judged(&mut gateway, 60, &udp(CELL, PLANT + 5)), told(4, 5));
    assert_eq!(judged(&mut gateway, 60, &udp(CELL, PLANT + 6)), told(6, 5));
}
