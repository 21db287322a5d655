//! Why a packet is dropped (document 02, K4), as the archive tells it: beside the second program, which tries every value of every fact,
//! and beside the archive's own judge, which has to give the verdict that is told and to forward the packet where a reported fact is
//! changed. A store to what may only be read ends the tests with a fault, signal 11, as in `quiet`.

use crate::against_second::{address, both, bytes_of, later, list, packet};
use crate::calls;
use crate::quiet::Records;
use crate::random::Random;
use second::cipher;
use second::header::Kind;
use second::samples::{self, CELL, PLANT};
use second::sides::Decided;
use second::why::{self, Facts, KINDS, MARK};
use spritgrommet::raw::{self, Placing, PlainAnswer, PlainReason};
use spritgrommet::{winner, Answer, Dropped, Entry, Gateway, Limits, Reason, Refusal, Settings, Side, Verdict};
use std::collections::{BTreeMap, BTreeSet};

/// The count of an entry that is empty.
const EMPTY: i16 = -32_768;

/// No entry of a side list, and the only ones of `calls::CELL` and `calls::PLANT`.
const NONE: Entry = Entry { number: 0, address: 0, prefix: 0 };
const OF_CELL: Entry = Entry { number: 1, address: 0x0A00_0000, prefix: 8 };
const OF_PLANT: Entry = Entry { number: 1, address: 0xC0A8_0000, prefix: 16 };

/// All that the archive's functions are lent, or a copy of it.
#[derive(Clone, Debug, PartialEq, Eq)]
struct Lent {
    limits: Limits,
    placing: Placing,
    cell: Vec<u8>,
    plant: Vec<u8>,
    records: Vec<u8>,
    tags: Vec<u32>,
    counts: Vec<i16>,
    clock: u32,
}

impl Lent {
    fn why(&self, time: u32, packet: &[u8]) -> PlainReason {
        let Lent { limits, placing, cell, plant, records, tags, counts, clock } = self;
        raw::why(*placing, cell, plant, records, tags, counts, clock, *limits, time, packet)
    }

    fn why_frame(&self, time: u32, frame: &[u8]) -> PlainReason {
        let Lent { limits, placing, cell, plant, records, tags, counts, clock } = self;
        raw::why_frame(*placing, cell, plant, records, tags, counts, clock, *limits, time, frame)
    }

    fn judge(&mut self, time: u32, packet: &[u8]) -> PlainAnswer {
        let Lent { limits, placing, cell, plant, records, tags, counts, clock } = self;
        raw::judge(*placing, cell, plant, records, tags, counts, clock, *limits, time, packet)
    }

    fn judge_frame(&mut self, time: u32, frame: &[u8]) -> PlainAnswer {
        let Lent { limits, placing, cell, plant, records, tags, counts, clock } = self;
        raw::judge_frame(*placing, cell, plant, records, tags, counts, clock, *limits, time, frame)
    }

    /// A copy, after a time has passed.
    fn passed(&self, time: u32) -> Lent {
        let mut copy = self.clone();
        let Lent { limits, placing, records, tags, counts, clock, .. } = &mut copy;
        assert_eq!(raw::pass(*placing, records, tags, counts, clock, *limits, time), 0);
        copy
    }
}

const SECOND: u32 = 59;
const RECORDS: usize = 64;
const LINES: usize = 4;

/// A packet from CELL to PLANT, and what it meets.
#[derive(Clone, Copy, Debug)]
struct Scene {
    /// The count of CELL's entry, or EMPTY where it has none.
    entry: i16,
    plant_mark: bool,
    cell_mark: bool,
    age: u8,
    kind: Kind,
    /// Its destination port, where it is TCP.
    port: u16,
}

impl Scene {
    /// Every choice of marks and kind with each of these counts.
    fn all(entries: &[i16], age: u8, port: u16) -> Vec<Scene> {
        let mut scenes = Vec::new();
        for &entry in entries {
            for plant_mark in MARK {
                for cell_mark in MARK {
                    scenes.extend(KINDS.map(|kind| Scene { entry, plant_mark, cell_mark, age, kind, port }));
                }
            }
        }
        scenes
    }

    fn facts(&self) -> Facts {
        let count = if self.entry == EMPTY { 0 } else { self.entry.into() };
        Facts { count, plant_mark: self.plant_mark, cell_mark: self.cell_mark, kind: self.kind }
    }

    /// The facts at a time at or after SECOND.
    fn facts_at(&self, settings: Settings, time: u32) -> Facts {
        let passed = |of: u32| i64::from(time / of - SECOND / of);
        let now = self.facts();
        let lives = passed(60) == 0 || i64::from(self.age) + passed(60) <= settings.limits.dconn.into();
        let lowered = 0.max(now.count - passed(settings.limits.dmiss.into()));
        Facts {
            count: if now.count > 0 { lowered } else { now.count },
            plant_mark: now.plant_mark && lives,
            cell_mark: now.cell_mark && lives,
            kind: self.kind,
        }
    }

    fn packet(&self) -> Vec<u8> {
        let of_tcp = |flags| samples::tcp((CELL, 40_000), (PLANT, self.port), flags);
        match self.kind {
            Kind::Udp => samples::udp(CELL, PLANT),
            Kind::Opening => of_tcp(2),
            Kind::SynAck => of_tcp(18),
            Kind::Closing => of_tcp(20),
            Kind::Plain => of_tcp(16),
        }
    }

    /// What is lent at SECOND. All other records have the marks that this one has not, CELL's entry is the third of its line, behind an
    /// empty one with its tag, and in the other lines its tag has other counts.
    fn lent(&self, settings: Settings) -> Lent {
        let marks = u8::from(self.plant_mark) << 7 | u8::from(self.cell_mark) << 6;
        let port = if self.kind == Kind::Udp { 0 } else { self.port };
        let mut records = vec![marks ^ 192; RECORDS];
        records[cipher::slot(&settings.keys, PLANT, CELL, port, RECORDS)] = marks | self.age;
        let tag = cipher::e(&settings.keys, CELL) / LINES as u32;
        let (mut tags, mut counts) = (vec![tag; 4 * LINES], [300, -7].repeat(2 * LINES));
        let first = 4 * cipher::line(&settings.keys, CELL, LINES);
        tags[first..first + 4].copy_from_slice(&[tag ^ 1, tag, tag, tag ^ 2]);
        counts[first..first + 4].copy_from_slice(&[300, EMPTY, self.entry, -7]);
        let (cell, plant) = (calls::CELL.to_vec(), calls::PLANT.to_vec());
        let (limits, placing) = (settings.limits, calls::placing(settings));
        Lent { limits, placing, cell, plant, records, tags, counts, clock: SECOND }
    }

    /// Whether the judge forwards the packet.
    fn passes(&self, settings: Settings) -> bool {
        is_forwarded(self.lent(settings).judge(SECOND, &self.packet()))
    }

    /// Whether the judge forwards the packet with some count that an entry may hold, or without an entry.
    fn passes_with_some_count(&self, settings: Settings) -> bool {
        let (mut lent, packet) = (self.lent(settings), self.packet());
        let place = 4 * cipher::line(&settings.keys, CELL, LINES) + 2;
        (i16::MIN..=i16::MAX).any(|count| {
            lent.counts[place] = count;
            is_forwarded(lent.judge(SECOND, &packet))
        })
    }
}

fn is_forwarded(answer: PlainAnswer) -> bool {
    assert_eq!(answer.refusal, 0);
    (1..=4).contains(&answer.verdict)
}

/// Factory settings but for T, and keys of its own for each T.
fn settings_with(threshold: u16) -> Settings {
    let random = &mut Random(threshold.into());
    Settings::factory().with_threshold(threshold).with_keys(std::array::from_fn(|_| random.word()))
}

/// Counts of both sides of T, a negative one, and none.
fn entries_around(threshold: u16) -> [i16; 7] {
    let t = threshold as i16;
    [t - 1, t, t + 1, i16::MAX, -3, -32_767, EMPTY]
}

/// A refusal or a verdict, and nothing beside it.
fn alone(refusal: u8, verdict: u8) -> PlainReason {
    PlainReason {
        refusal,
        verdict,
        kind: 0,
        plant_mark: false,
        cell_mark: false,
        count: 0,
        threshold: 0,
        by_count: false,
        by_plant_mark: false,
        by_cell_mark: false,
        by_kind: false,
        cell_entry: NONE,
        plant_entry: NONE,
    }
}

/// An entry that decided, as the second program tells it.
fn entry_of(Decided { number, entry: (address, prefix), .. }: Decided) -> Entry {
    Entry { number, address, prefix: prefix as u8 }
}

/// A dropped packet in plain numbers, for lists of one entry. Kinds are numbered in document 02's order.
fn of_drop(verdict: second::gateway::Verdict, threshold: i64, facts: Facts, reported: [bool; 4]) -> PlainReason {
    let [by_count, by_plant_mark, by_cell_mark, by_kind] = reported;
    PlainReason {
        refusal: 0,
        verdict: verdict as u8,
        kind: KINDS.iter().position(|kind| *kind == facts.kind).expect("one of the five") as u8,
        plant_mark: facts.plant_mark,
        cell_mark: facts.cell_mark,
        count: facts.count as i16,
        threshold: threshold as u16,
        by_count,
        by_plant_mark,
        by_cell_mark,
        by_kind,
        cell_entry: OF_CELL,
        plant_entry: OF_PLANT,
    }
}

/// What the second program tells of facts, for lists of one entry.
fn by_facts(threshold: u16, facts: Facts) -> PlainReason {
    let (verdict, reported) = why::of_facts(threshold.into(), facts);
    if verdict.is_forwarded() {
        return alone(0, verdict as u8);
    }
    of_drop(verdict, threshold.into(), facts, reported)
}

/// What the second program tells of a packet.
fn expected(told: Result<why::Explanation, second::refusal::Refusal>) -> PlainReason {
    match told {
        Err(refusal) => alone(refusal.number(), 0),
        Ok(why::Explanation::Forwarded(verdict)) => alone(0, verdict as u8),
        Ok(why::Explanation::Dropped(why::Dropped {
            verdict, threshold, facts, reported, cell_entry, plant_entry, ..
        })) => {
            let (cell_entry, plant_entry) = (entry_of(cell_entry), entry_of(plant_entry));
            PlainReason { cell_entry, plant_entry, ..of_drop(verdict, threshold, facts, reported) }
        }
    }
}

/// What the wrapper tells, in plain numbers again.
fn told(reason: Result<Reason, Refusal>) -> PlainReason {
    match reason {
        Err(Refusal(number)) => alone(number, 0),
        Ok(Reason::Forwarded(verdict)) => alone(0, verdict as u8),
        Ok(Reason::Dropped(Dropped {
            verdict,
            kind,
            plant_mark,
            cell_mark,
            count,
            threshold,
            reported,
            cell_entry,
            plant_entry,
        })) => PlainReason {
            refusal: 0,
            verdict: verdict as u8,
            kind: kind as u8,
            plant_mark,
            cell_mark,
            count,
            threshold,
            by_count: reported.count,
            by_plant_mark: reported.plant_mark,
            by_cell_mark: reported.cell_mark,
            by_kind: reported.kind,
            cell_entry,
            plant_entry,
        },
    }
}

/// Which facts are reported: count, plant-to-cell mark, cell-to-plant mark, kind.
fn reported(reason: &PlainReason) -> [bool; 4] {
    [reason.by_count, reason.by_plant_mark, reason.by_cell_mark, reason.by_kind]
}

/// Every cell of the verdicts on packets from the cell: what is told is what the second program tells and what the judge does, and asking
/// changes nothing.
#[test]
fn every_cell() {
    let (mut cells, mut dropped) = (BTreeSet::new(), BTreeSet::new());
    for threshold in [1, 5, 10, 255] {
        let settings = settings_with(threshold);
        for scene in Scene::all(&entries_around(threshold), 7, 80) {
            let (lent, packet, facts) = (scene.lent(settings), scene.packet(), scene.facts());
            let before = lent.clone();
            let reason = lent.why(SECOND, &packet);
            assert_eq!(lent, before);
            assert_eq!(reason, by_facts(threshold, facts), "{settings:?} {scene:?}");
            let mut after = lent.clone();
            let answer = after.judge(SECOND, &packet);
            assert_eq!((answer.refusal, answer.verdict), (0, reason.verdict));
            let cell = (facts.count >= threshold.into(), scene.plant_mark, scene.cell_mark, scene.kind as u8);
            cells.insert(cell);
            if !is_forwarded(answer) {
                assert_eq!(answer.count, reason.count);
                assert_eq!(after, before);
                assert!(reported(&reason).contains(&true));
                dropped.insert(cell);
            }
        }
    }
    assert_eq!((cells.len(), dropped.len()), (40, 16));
}

/// The kinds of FIN 1, SYN 2, RST 4, PSH 8 and ACK 16 in all 32 ways, by the number that they make: o opening, s SYN+ACK, c closing, p plain.
/// Document 02, K5: "TCP SYN without ACK is opening, so 2, 3, 6 and 7 are; 18 stays SYN+ACK; 19, 22 and 23 stay plain." PSH is ignored.
const BY_FLAGS: &[u8; 32] = b"pcoocpoopcoocpoopcspcppppcspcppp";

/// Every byte of flags, from a blocked machine: the kind that is told where no mark is set, and every kind is dropped; and where the plant's
/// is, K5's tester's SYN+FIN and all other openings are dropped and change nothing, and the rest passes.
#[test]
fn every_byte_of_flags() {
    let settings = settings_with(5);
    for flags in 0..=255 {
        let packet = samples::tcp((CELL, 40_000), (PLANT, 80), flags);
        let kind = match BY_FLAGS[usize::from(flags % 32)] {
            b'o' => Kind::Opening,
            b's' => Kind::SynAck,
            b'c' => Kind::Closing,
            _ => Kind::Plain,
        };
        let scene = Scene { entry: 5, plant_mark: false, cell_mark: false, age: 0, kind, port: 80 };
        assert_eq!(scene.lent(settings).why(SECOND, &packet), by_facts(5, scene.facts()), "{flags}");
        let marked = Scene { plant_mark: true, ..scene };
        let before = marked.lent(settings);
        let (mut after, reason) = (before.clone(), before.why(SECOND, &packet));
        let answer = after.judge(SECOND, &packet);
        assert_eq!((reason.verdict, is_forwarded(answer)), (answer.verdict, kind != Kind::Opening), "{flags}");
        if kind == Kind::Opening {
            assert_eq!((answer.verdict, answer.count, reported(&reason)), (6, 5, [true, false, false, true]), "{flags}");
            assert_eq!(after, before);
        }
    }
}

/// A fact is reported exactly if the judge itself forwards the packet with some other value of it. Where the port is 0 a packet of another
/// kind meets the same tables; where it is not, its record is the one at its own slot.
#[test]
fn each_fact_changed_alone() {
    let mut dropped = 0;
    for (threshold, port) in [(1, 0), (5, 0), (5, 80), (255, 502)] {
        let settings = settings_with(threshold);
        for scene in Scene::all(&entries_around(threshold), 3, port) {
            let lent = scene.lent(settings);
            let reason = lent.why(SECOND, &scene.packet());
            let kinds = KINDS.map(|kind| Scene { kind, ..scene });
            assert!(port != 0 || kinds.iter().all(|changed| changed.lent(settings) == lent));
            if scene.passes(settings) {
                assert_eq!(reported(&reason), [false; 4]);
                continue;
            }
            let passing = [
                scene.passes_with_some_count(settings),
                MARK.iter().any(|&plant_mark| Scene { plant_mark, ..scene }.passes(settings)),
                MARK.iter().any(|&cell_mark| Scene { cell_mark, ..scene }.passes(settings)),
                kinds.iter().any(|changed| changed.passes(settings)),
            ];
            assert_eq!(reported(&reason), passing, "{settings:?} {scene:?}");
            dropped += 1;
        }
    }
    // Of seven counts three are blocked, with fourteen cells each that are dropped, and four are not, with two.
    assert_eq!(dropped, 4 * (3 * 14 + 4 * 2));
}

/// What is told at a later time is what the judge does then, and what is told of tables for which that time has passed.
#[test]
fn at_a_later_second() {
    let mut changes = BTreeSet::new();
    for (dmiss, dconn, threshold) in [(7, 10, 5), (60, 10, 5), (61, 10, 2), (1, 62, 255), (3_600, 1, 1)] {
        let settings = settings_with(threshold).with_dmiss(dmiss).with_dconn(dconn);
        // What the second program tells of facts is kept: it tries 65,535 counts for it.
        let mut kept = BTreeMap::new();
        // The last ages that are over Dconn after no boundary, after one and after two, and one that is not.
        for age in [dconn + 1, dconn, dconn - 1, dconn.saturating_sub(2)] {
            for scene in Scene::all(&[threshold as i16 + 2, threshold as i16, EMPTY], age, 80) {
                let (lent, packet) = (scene.lent(settings), scene.packet());
                // Each second over the boundaries 60 and 120, two hours in one jump and a little more, and the last second of all.
                for time in (SECOND..=125).chain([SECOND + 7_200, 7_300, u32::MAX]) {
                    let reason = lent.why(time, &packet);
                    let facts = scene.facts_at(settings, time);
                    let key = (facts.count, facts.plant_mark, facts.cell_mark, facts.kind as u8);
                    let by_second = kept.entry(key).or_insert_with(|| by_facts(threshold, facts));
                    assert_eq!(reason, *by_second, "at {time}: {settings:?} {scene:?}");
                    let passed = lent.passed(time);
                    assert_eq!(passed.why(time, &packet), reason);
                    let mut after = lent.clone();
                    let answer = after.judge(time, &packet);
                    assert_eq!((answer.refusal, answer.verdict), (0, reason.verdict));
                    if !is_forwarded(answer) {
                        assert_eq!(answer.count, reason.count);
                        assert_eq!(after, passed);
                    }
                    changes.insert((lent.why(SECOND, &packet).verdict, reason.verdict));
                }
            }
        }
    }
    // By time alone a drop becomes a pass, a pass a drop, and one drop the other.
    for change in [(6, 4), (6, 5), (6, 1), (1, 5), (2, 5), (1, 6), (2, 6)] {
        assert!(changes.contains(&change), "{change:?} of {changes:?}");
    }
}

/// Settings, sizes, lists, times and headers, good and bad, in every choice: refused as the judge refuses, by the number that is first in
/// order, and the number alone is told.
#[test]
fn refused_as_the_packet_is() {
    let good = settings_with(5);
    let settings = [
        (0, good),
        (1, good.with_threshold(0)),
        (1, good.with_threshold(256)),
        (1, good.with_floor(-1_001)),
        (1, good.with_floor(1)),
        (1, good.with_dmiss(0)),
        (1, good.with_dmiss(3_601)),
        (1, good.with_dconn(0)),
        (1, good.with_dconn(63)),
    ];
    let sizes = [
        (0, [16, 4, 4]),
        (0, [32, 16, 16]),
        (2, [0, 4, 4]),
        (2, [8, 4, 4]),
        (2, [17, 4, 4]),
        (2, [16, 0, 0]),
        (2, [16, 3, 3]),
        (2, [16, 12, 12]),
        (2, [16, 8, 4]),
        (2, [16, 4, 8]),
    ];
    let lists = [
        (0, calls::CELL.to_vec()),
        (0, calls::CELL.repeat(64)),
        (3, calls::CELL[..4].to_vec()),
        (3, calls::CELL.repeat(65)),
        (3, [10, 0, 0, 0, 33].to_vec()),
    ];
    let changed = |at: usize, value: u8| {
        let mut packet = samples::tcp((CELL, 40_000), (PLANT, 80), 18);
        packet[at] = value;
        packet
    };
    let packets = [
        (0, changed(0, 0x45)),
        (5, vec![]),
        (5, changed(0, 0x65)[..19].to_vec()),
        (6, changed(0, 0x65)),
        (6, changed(0, 0x44)),
        (6, changed(3, 19)),
        (5, changed(0, 0x46)[..23].to_vec()),
        (5, changed(3, 39)),
        (5, changed(0, 0x45)[..39].to_vec()),
        (5, samples::udp(CELL, PLANT)[..27].to_vec()),
    ];
    let (mut numbers, placing) = (BTreeSet::new(), calls::placing(good));
    for (by_settings, Settings { limits, .. }) in settings {
        for (by_sizes, [records, tags, counts]) in sizes {
            for (by_list, list) in &lists {
                let (records, tags, counts) = (vec![0; records], vec![0; tags], vec![EMPTY; counts]);
                let plant = calls::PLANT.to_vec();
                let lent = Lent { limits, placing, cell: list.clone(), plant, records, tags, counts, clock: SECOND };
                // The bad list may be the other one, too.
                let swapped = Lent { cell: calls::CELL.to_vec(), plant: list.clone(), ..lent.clone() };
                for (by_time, time) in [(0, SECOND), (0, 200), (4, SECOND - 1)] {
                    for (by_header, packet) in &packets {
                        let by = [by_settings, by_sizes, *by_list, by_time, *by_header];
                        let number = by.into_iter().find(|number| *number != 0).unwrap_or(0);
                        numbers.insert(number);
                        for lent in [&lent, &swapped] {
                            refused_alike(lent, time, packet, number);
                        }
                    }
                }
            }
        }
    }
    assert_eq!(numbers, (0..=6).collect());
}

/// A packet, and a frame with it, are refused by the judge and by the question why with this number, or by neither.
fn refused_alike(lent: &Lent, time: u32, packet: &[u8], number: u8) {
    let frame = samples::ethernet(packet);
    let (short, mut other) = (&frame[..13], frame.clone());
    other[13] = 6;
    type Both = (fn(&Lent, u32, &[u8]) -> PlainReason, fn(&mut Lent, u32, &[u8]) -> PlainAnswer);
    let (by_packet, by_frame): (Both, Both) = ((Lent::why, Lent::judge), (Lent::why_frame, Lent::judge_frame));
    // A frame that is too short or carries something else does not reach the gateway, whatever else is wrong.
    for ((why, judge), bytes, number) in
        [(by_packet, packet, number), (by_frame, &frame, number), (by_frame, short, 5), (by_frame, &other, 0)]
    {
        let (reason, answer) = (why(lent, time, bytes), judge(&mut lent.clone(), time, bytes));
        assert_eq!((reason.refusal, answer.refusal), (number, number), "at {time}: {lent:?} {bytes:?}");
        assert_eq!(reason.verdict, answer.verdict);
        if number != 0 || answer.verdict == 0 {
            assert_eq!(reason, alone(number, 0));
        }
    }
}

/// K2's incident: twelve machines of the plant greet 10.0.0.1, which answers them two hours later, when their marks are gone.
#[test]
fn the_incident() {
    let mut gateway = calls::start(Settings::factory(), 4_096, 256).expect("good settings and sizes");
    let plants = (PLANT..).take(12);
    for plant in plants.clone() {
        assert_eq!(gateway.why(100, &samples::udp(plant, CELL)), Ok(Reason::Forwarded(Verdict::Uncounted)));
        gateway.judge(100, &samples::udp(plant, CELL)).expect("not refused");
    }
    for (number, plant) in (1..).zip(plants) {
        let packet = samples::udp(CELL, plant);
        let why = gateway.why(7_300, &packet);
        let Answer { verdict, count, .. } = gateway.judge(7_300, &packet).expect("not refused");
        if number <= 5 {
            assert_eq!((verdict, count), (Verdict::FreshContact, Some(number)));
            assert_eq!(why, Ok(Reason::Forwarded(verdict)));
        } else {
            assert_eq!((verdict, count), (Verdict::Blocked, Some(5)));
            let Ok(Reason::Dropped(why)) = why else { panic!("{why:?}") };
            let Dropped { threshold, reported, .. } = why;
            assert_eq!((why.verdict, why.kind, why.count, threshold), (verdict, spritgrommet::Kind::Udp, 5, 5));
            assert_eq!(reported, spritgrommet::Facts { count: true, plant_mark: false, cell_mark: false, kind: false });
            assert_eq!((why.plant_mark, why.cell_mark, why.cell_entry, why.plant_entry), (false, false, OF_CELL, OF_PLANT));
        }
    }
}

/// One gateway of each, from a seed, over so many calls: why is asked before each packet. Adds to how often each choice of facts was
/// reported with each verdict.
fn run(seed: u64, calls: u32, met: &mut BTreeMap<(u8, [bool; 4]), u32>) {
    let random = &mut Random(seed);
    let (mut gateway, mut second) = both(random);
    for call in 0..calls {
        let time = later(random, gateway.clock());
        let packet = packet(random);
        let before = gateway.clone();
        let why = gateway.why(time, &packet);
        assert_eq!(gateway.why_frame(time, &samples::ethernet(&packet)), why);
        assert_eq!(gateway, before);
        let reason = told(why);
        assert_eq!(reason, expected(why::explain(&second, time, &packet)), "seed {seed}, call {call}");
        match gateway.judge(time, &packet) {
            Err(refusal) => assert_eq!(why, Err(refusal)),
            Ok(Answer { verdict, count, .. }) => {
                assert_eq!((reason.refusal, reason.verdict), (0, verdict as u8));
                if verdict.is_dropped() {
                    assert_eq!(count, Some(reason.count));
                    *met.entry((reason.verdict, reported(&reason))).or_default() += 1;
                }
            }
        }
        // The second one goes on beside it; `against_second` holds their answers against each other.
        let _ = second.packet(time, &packet);
    }
}

#[test]
fn the_same_reasons() {
    let mut met = BTreeMap::new();
    for seed in 1_000..1_100 {
        run(seed, 2_000, &mut met);
    }
    // Each choice that there is was met: of count, plant-to-cell mark, cell-to-plant mark and kind.
    let choices = [(5, "pmk"), (6, "c"), (6, "ck"), (6, "cp"), (6, "p")];
    let choices = choices.map(|(verdict, letters)| (verdict, ['c', 'p', 'm', 'k'].map(|letter| letters.contains(letter))));
    assert_eq!(met.keys().copied().collect::<BTreeSet<_>>(), choices.into());
    assert!(met.values().all(|times| 50 < *times), "{met:?}");
}

/// An entry of a list by its number, from 1, and none by 0: its five bytes as they stand there.
fn entry_at(list: &[u8], number: usize) -> Entry {
    let Some(before) = number.checked_sub(1) else { return NONE };
    let [a, b, c, d, prefix] = list[5 * before..5 * number] else { unreachable!("five bytes") };
    Entry { number, address: u32::from_be_bytes([a, b, c, d]), prefix }
}

/// The entries that are told are those that `winner` names, wherever in their lists they stand, with the address and the prefix length that
/// stand there.
#[test]
fn the_entries_that_decided() {
    let cell = [(0x0A00_0000, 8), (0x0A01_0000, 16), (0x0A01_02FF, 24), (0x0A01_0200, 24), (0x0A01_0203, 32)];
    let plant = [(0, 0), (0xC0A8_0000, 16), (0xC0A8_0000, 16), (0x0A01_0200, 24), (0xC0A8_0180, 25)];
    let by = |list: &[(u32, u32)], number: usize| {
        let (address, prefix) = list[number - 1];
        Entry { number, address, prefix: prefix as u8 }
    };
    let (of_cell, of_plant) = (bytes_of(&cell), bytes_of(&plant));
    let gateway = Gateway::cold_start(Settings::factory(), &of_cell, &of_plant, 16, 1, 0).expect("good settings and sizes");
    for (source, cell_entry) in [(0x0A00_0001, 1), (0x0A01_0001, 2), (0x0A01_0201, 3), (0x0A01_0203, 5)] {
        for (destination, plant_entry) in [(0xFFFF_FFFF, 1), (0xC0A8_0101, 2), (0xC0A8_01FF, 5)] {
            assert_eq!(winner(&of_cell, &of_plant, source), Some((Side::Cell, cell_entry)));
            assert_eq!(winner(&of_cell, &of_plant, destination), Some((Side::Plant, plant_entry)));
            let reason = told(gateway.why(0, &samples::tcp((source, 1), (destination, 2), 18)));
            assert_eq!(reason.verdict, 5);
            assert_eq!((reason.cell_entry, reason.plant_entry), (by(&cell, cell_entry), by(&plant, plant_entry)));
        }
    }
    let (random, mut later_entries) = (&mut Random(7), 0);
    for _ in 0..2_000 {
        let (cell, plant) = (bytes_of(list(random)), bytes_of(list(random)));
        let gateway = Gateway::cold_start(Settings::factory(), &cell, &plant, 16, 1, 0).expect("good settings and sizes");
        for _ in 0..20 {
            let (source, destination) = (address(random), address(random));
            let reason = told(gateway.why(0, &samples::tcp((source, 1), (destination, 2), 18)));
            let ends = (winner(&cell, &plant, source), winner(&cell, &plant, destination));
            let (verdict, entries) = match ends {
                (Some((Side::Cell, of_cell)), Some((Side::Plant, of_plant))) => (5, (of_cell, of_plant)),
                (Some((Side::Plant, _)), Some((Side::Cell, _))) => (1, (0, 0)),
                _ => (0, (0, 0)),
            };
            let entries_there = (entry_at(&cell, entries.0), entry_at(&plant, entries.1));
            assert_eq!((reason.verdict, (reason.cell_entry, reason.plant_entry)), (verdict, entries_there));
            later_entries += u32::from(entries.0 > 1 && entries.1 > 1);
        }
    }
    assert!(500 < later_entries, "{later_entries}");
}

/// Tables and clock stand in pages that may only be read.
#[test]
#[rustfmt::skip]
fn nothing_is_stored_to() {
    let settings = settings_with(5);
    for scene in Scene::all(&[7, 5, EMPTY], 10, 80) {
        let lent = scene.lent(settings);
        let tags: Vec<u8> = lent.tags.iter().flat_map(|tag| tag.to_ne_bytes()).collect();
        let counts: Vec<u8> = lent.counts.iter().flat_map(|count| count.to_ne_bytes()).collect();
        let pages = Records::after(0, &[&lent.clock.to_ne_bytes()[..], &tags, &counts, &lent.records].concat());
        pages.only_read(0..pages.pages());
        let (clock, rest) = pages.values().split_at(4);
        let (tags, rest) = rest.split_at(tags.len());
        let (counts, records) = rest.split_at(counts.len());
        for (time, packet) in [(SECOND, scene.packet()), (60, scene.packet()), (7_300, scene.packet()), (7_300, vec![])] {
            // SAFETY: each length is its table's, and each table starts at a multiple of its elements' size.
            let reason = unsafe {
                raw::spritgrommet_why(
                    lent.placing, lent.cell.as_ptr(), lent.cell.len(), lent.plant.as_ptr(), lent.plant.len(),
                    records.as_ptr(), records.len(), tags.as_ptr().cast(), lent.tags.len(), counts.as_ptr().cast(),
                    lent.counts.len(), clock.as_ptr().cast(), lent.limits, time, packet.as_ptr(), packet.len(),
                )
            };
            assert_eq!(reason, lent.why(time, &packet));
        }
    }
}
