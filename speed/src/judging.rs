//! Table 2: judging a million packets in memory, beside two plain gateways that give the same answers; and what long side lists
//! cost.

use crate::each_call::EachCall;
use crate::ours::{self, Caller};
use crate::plain;
use crate::stopwatch::{commas, head, in_turn, ratio, row, timed, Figures};
use crate::trace::{Mix, Trace, KINDS, MIXED, START};
use std::hint::black_box;
use std::time::Duration;

pub const NAMES: [&str; 3] = ["ours", "plain Rust", "plain Rust, tests each call"];
const PACKETS: usize = 1_000_000;
/// Records and lines.
const SIZES: [(usize, usize); 2] = [(4_096, 256), (1_048_576, 65_536)];
/// Packets a second at gigabit line rate and minimum frame size.
const LINE_RATE: f64 = 1_488_095.0;

const NOTES: &str = "\
    A million packets one behind the other in memory, not in a cache when their turn comes; 250 a second, so that 66 or 67 \
    minute boundaries are passed. Before each round the tables are started cold, outside of the timed part, and so are \
    warm. All programs gave the same verdict, count and replaced address for every packet and the same tables and clock at \
    the end. Each is called once a packet. Ours is lent everything at each call, and tests settings, sizes and both side \
    lists each time. Plain Rust owns its tables and made these tests once, when it also turned the lists into sorted \
    masks. Plain Rust that tests each call is the same program, but is lent what ours is lent, tests what ours tests, and \
    keeps nothing.";
const LIST_NOTES: &str = "\
    The mixed packets, 4,096 records, ns a packet. Besides the one entry that decides, each list has entries of 24 bits \
    that hold no address of the trace; in the plain program's sorted list they come first.";

/// What an answer says, for comparing: refusal, verdict, count, replaced address.
pub type Told = (u8, u8, i16, Option<u32>);
/// What a program leaves behind: records, tags, counts, clock.
pub type Left<'a> = (&'a [u8], &'a [u32], &'a [i16], u32);

pub trait Judge {
    type Answer;
    fn cold_start(&mut self, time: u32);
    /// Judges a packet, from its IP header on, that comes at a time.
    fn judge(&mut self, time: u32, packet: &[u8]) -> Self::Answer;
    /// Apart from `judge`, so that it is not timed.
    fn told(answer: Self::Answer) -> Told;
    fn left(&self) -> Left<'_>;
}

/// A side list of so many entries: /24 that hold nothing, and last the one that decides.
fn side_list(entries: u8, other: [u8; 2], decides: [u8; 5]) -> Vec<u8> {
    let mut list: Vec<u8> = (1..entries).flat_map(|k| [other[0], other[1], k, 0, 24]).collect();
    list.extend(decides);
    list
}

/// Those of NAMES, with the same settings, sizes and lists.
struct Programs {
    ours: Caller,
    plain: plain::Gateway,
    each_call: EachCall,
}

impl Programs {
    fn new(entries: u8, sizes: (usize, usize)) -> Programs {
        let cell = side_list(entries, [172, 16], [10, 0, 0, 0, 8]);
        let plant = side_list(entries, [198, 18], [192, 168, 0, 0, 16]);
        // Else a test of what the compiler knows would cost nothing.
        let (settings, (records, lines)) = black_box((ours::settings(), sizes));
        let [ours, each_call] = [(); 2].map(|_| Caller::new(settings, &cell, &plant, records, lines));
        let plain = plain::Gateway::new(settings, &cell, &plant, records, lines);
        let Ok(plain) = plain else { panic!("the plain gateway was refused") };
        Programs { ours, plain, each_call: EachCall(each_call) }
    }

    /// Stops where one differs from ours. Answers how many packets got each verdict.
    fn compare(&mut self, trace: &Trace) -> [usize; 7] {
        let told = all_told(trace, &mut self.ours);
        require_same(trace, &told, &self.ours, &mut self.plain);
        require_same(trace, &told, &self.ours, &mut self.each_call);
        let mut verdicts = [0; 7];
        told.iter().for_each(|told| verdicts[usize::from(told.1)] += 1);
        verdicts
    }

    fn race(&mut self, trace: &Trace) -> Vec<Figures> {
        let Programs { ours, plain, each_call } = self;
        in_turn(&mut [&mut || judge_all(trace.packets(), ours), &mut || judge_all(trace.packets(), plain), &mut || {
            judge_all(trace.packets(), each_call)
        }])
    }
}

fn all_told<J: Judge>(trace: &Trace, program: &mut J) -> Vec<Told> {
    program.cold_start(START);
    trace.packets().map(|(time, packet)| J::told(program.judge(time, packet))).collect()
}

fn require_same(trace: &Trace, told: &[Told], ours: &Caller, other: &mut impl Judge) {
    let differs = all_told(trace, other).iter().zip(told).position(|(other, ours)| other != ours);
    assert_eq!(differs, None, "the answers to this packet differ");
    assert!(other.left() == ours.left(), "the tables or clocks differ at the end");
}

/// Stops unless the plain program that tests each call refuses what ours does.
fn compare_refusals() {
    let spoils: [fn(&mut Caller); 18] = [
        |lent| lent.settings.limits.threshold = 0,
        |lent| lent.settings.limits.threshold = 256,
        |lent| lent.settings.limits.floor = -1001,
        |lent| lent.settings.limits.floor = 1,
        |lent| lent.settings.limits.dmiss = 0,
        |lent| lent.settings.limits.dmiss = 3601,
        |lent| lent.settings.limits.dconn = 0,
        |lent| lent.settings.limits.dconn = 63,
        |lent| lent.records.truncate(8),
        |lent| lent.records.truncate(48),
        |lent| lent.records.resize(1 << 21, 0),
        |lent| lent.tags.truncate(512),
        |lent| (lent.tags.truncate(2), lent.counts.truncate(2)).0,
        |lent| (lent.tags.resize(1 << 21, 0), lent.counts.resize(1 << 21, 0)).0,
        |lent| lent.cell.push(0),
        |lent| lent.plant.resize(5 * 65, 0),
        |lent| lent.plant[4] = 33,
        |lent| lent.clock = START + 1,
    ];
    for (number, spoil) in spoils.iter().enumerate() {
        let Programs { mut ours, mut each_call, .. } = Programs::new(1, SIZES[0]);
        spoil(&mut ours);
        spoil(&mut each_call.0);
        let told = Caller::told(ours.judge(START, &[0; 20]));
        assert!(told.0 < 5 && told == EachCall::told(each_call.judge(START, &[0; 20])), "refusal {number} differs");
    }
}

fn judge_all<'a>(packets: impl Iterator<Item = (u32, &'a [u8])>, program: &mut impl Judge) -> Duration {
    program.cold_start(START);
    timed(|| {
        for (time, packet) in packets {
            black_box(program.judge(time, packet));
        }
    })
}

/// So many of 40,000 packets by one of the programs, for counting instructions.
pub fn judge_some(mix: Mix, program: usize, packets: usize) {
    let trace = Trace::made(mix, 40_000);
    let packets = trace.packets().take(packets);
    let Programs { mut ours, mut plain, mut each_call } = Programs::new(1, SIZES[0]);
    match program {
        0 => judge_all(packets, &mut ours),
        1 => judge_all(packets, &mut plain),
        _ => judge_all(packets, &mut each_call),
    };
}

fn put_kind(mix: Mix) {
    let trace = Trace::made(mix, PACKETS);
    for size in SIZES {
        let mut programs = Programs::new(1, size);
        let verdicts = programs.compare(&trace);
        eprintln!("{}, {} records: verdicts 0 to 6 {verdicts:?}", mix.name, size.0);
        let figures = programs.race(&trace);
        for (name, other) in NAMES.iter().zip(&figures) {
            let rate = other.a_second(PACKETS);
            let share = format!("{:.0} %", 100.0 * rate / LINE_RATE);
            let records = commas(size.0 as f64);
            row(&[mix.name, &records, name, &commas(rate), &other.each(PACKETS), &share, &ratio(figures[0], *other)]);
        }
    }
}

pub fn put_tables() {
    compare_refusals();
    let columns = ["traffic", "records", "program", "packets a second", "ns a packet", "of gigabit line rate", "ratio"];
    head("2. Judging a packet", NOTES, &columns);
    KINDS.into_iter().for_each(put_kind);
    let columns = ["entries in each", NAMES[0], NAMES[1], "ratio", NAMES[2], "ratio"];
    head("2b. The length of the side lists", LIST_NOTES, &columns);
    let trace = Trace::made(MIXED, PACKETS);
    for entries in [1, 4, 16, 64] {
        let mut programs = Programs::new(entries, SIZES[0]);
        programs.compare(&trace);
        let figures = programs.race(&trace);
        let [ours, plain, each_call] = [0, 1, 2].map(|program| figures[program].each(PACKETS));
        let [of_plain, of_each_call] = [1, 2].map(|program| ratio(figures[0], figures[program]));
        row(&[entries.to_string(), ours, plain, of_plain, each_call, of_each_call]);
    }
}
