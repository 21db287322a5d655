//! Table 3: a minute boundary over all records.

use crate::ours::{self, Caller};
use crate::plain;
use crate::stopwatch::{commas, head, in_turn_by, ratio, row, timed};
use crate::trace::Random;
use std::hint::black_box;
use std::sync::LazyLock;

pub const LARGEST: usize = 1_048_576;
/// Records, and how many percent of them are marked.
const TABLES: [(usize, u32); 7] =
    [(16, 20), (4_096, 20), (65_536, 20), (LARGEST, 0), (LARGEST, 1), (LARGEST, 20), (LARGEST, 100)];
/// Small tables stand one behind the other in so many bytes, so that a round is long enough to be timed.
const BYTES: usize = 65_536;
/// Boundaries that each table passes in a round.
const MINUTES: u32 = 16;
/// The bytes that memory takes at a time, and the records that a plain loop stores to or leaves alone together.
const LINE: usize = 64;
const PART: usize = 128;
/// Whose limits and placing are lent. Made once; a round pays for one look at it, in all programs alike.
static CALLER: LazyLock<Caller> =
    LazyLock::new(|| Caller::new(ours::settings().with_dmiss(3_600).with_dconn(62), &[], &[], 16, 1));
const NOTES: &str = "\
    Each table passes 16 boundaries in a round, one to a call. Before the round, outside of the timed part, so many of its \
    records are marked at random with ages 0 to 62, the rest are 0; so the tables are warm. Of the marked ones a quarter \
    expire during the round. Tables below 65,536 records stand one behind the other in so many bytes, and are gone over in \
    turn. Dconn 62, Dmiss 3,600, one line of entries. Plain Rust stores to every record, as ours did before K3, when it was a \
    tenth faster than ours from 4,096 records on; by parts, which is a loop alone, it leaves 128 of them alone where all are \
    0, and stores to all of the others. Both are called too, once a table. memcpy copies the same bytes elsewhere, warm as \
    well.";

/// Who takes a table over a boundary.
pub const PROGRAMS: [(&str, fn(&mut [u8])); 3] =
    [("ours", pass_ours), ("plain Rust", pass_plain), ("plain Rust, by parts", pass_by_parts)];

pub fn marked(records: usize, percent: u32) -> Vec<u8> {
    let mut random = Random(3);
    let mut record = || match random.below(100) < percent {
        true => 64 * (1 + random.below(3) as u8) + random.below(63) as u8,
        false => 0,
    };
    (0..records).map(|_| record()).collect()
}

/// One minute boundary over lent tables by the proved gateway.
fn pass_ours(records: &mut [u8]) {
    let (mut tags, mut counts, mut clock) = ([0; 4], [i16::MIN; 4], 0);
    let (limits, placing) = black_box((CALLER.settings.limits, CALLER.placing));
    black_box(ours::pass(placing, records, &mut tags, &mut counts, &mut clock, limits, 60));
}

/// The same by the plain program, called as ours is.
#[inline(never)]
fn pass_plain(records: &mut [u8]) {
    let (mut counts, mut clock) = ([[i16::MIN; 4]], black_box(0));
    plain::pass(black_box(&CALLER.settings.limits), records, &mut counts, &mut clock, black_box(60));
    black_box(clock);
}

/// And by a plain loop that leaves a part alone in which all are 0.
#[inline(never)]
fn pass_by_parts(records: &mut [u8]) {
    let (minutes, dconn) = black_box((1, CALLER.settings.limits.dconn));
    let (parts, rest) = records.as_chunks_mut::<PART>();
    for part in parts.iter_mut().filter(|part| part.iter().fold(0, |all, record| all | record) != 0) {
        plain::sweep(part, minutes, dconn);
    }
    plain::sweep(rest, minutes, dconn);
}

/// A table that starts where a line of memory does.
pub struct Lined {
    room: Vec<u8>,
    from: usize,
    length: usize,
}

impl Lined {
    pub fn of(records: &[u8]) -> Lined {
        let room = vec![0; records.len() + LINE];
        let from = room.as_ptr().align_offset(LINE);
        let mut lined = Lined { room, from, length: records.len() };
        lined.records().copy_from_slice(records);
        lined
    }

    pub fn records(&mut self) -> &mut [u8] {
        &mut self.room[self.from..self.from + self.length]
    }
}

fn go_over(table: &mut [u8], records: usize, mut pass: impl FnMut(&mut [u8])) {
    for _ in 0..MINUTES {
        table.chunks_exact_mut(records).for_each(&mut pass);
    }
}

fn put_rows((records, percent): (usize, u32)) {
    let before = marked(BYTES.max(records), percent);
    let mut tables = PROGRAMS.map(|_| Lined::of(&before));
    let (mut source, mut copy) = (Lined::of(&before), Lined::of(&before[..records]));
    let figures = in_turn_by(PROGRAMS.len() + 1, |which| match PROGRAMS.get(which) {
        Some((_, pass)) => {
            let table = tables[which].records();
            table.copy_from_slice(&before);
            timed(|| go_over(table, records, pass))
        }
        None => timed(|| go_over(source.records(), records, |from| black_box(copy.records()).copy_from_slice(from))),
    });
    let [ours, others @ ..] = &mut tables;
    assert!(others.iter_mut().all(|other| other.records() == ours.records()), "the records differ after {MINUTES} minutes");
    let swept = before.len() * MINUTES as usize;
    for (name, other) in PROGRAMS.map(|(name, _)| name).iter().chain(&["memcpy"]).zip(&figures) {
        let gigabytes = format!("{:.1}", other.a_second(swept) / 1e9);
        row(&[
            &commas(records as f64),
            &format!("{percent} %"),
            *name,
            &other.each(swept),
            &gigabytes,
            &ratio(figures[0], *other),
        ]);
    }
}

/// One boundary over so many of two large tables, by one of the programs, for counting. None is gone over twice, as its
/// records would expire; and both are made, so that making them falls out.
pub fn sweep_some(percent: u32, program: usize, tables: usize) {
    let mut both = Lined::of(&marked(BYTES, percent).repeat(2 * LARGEST / BYTES));
    both.records().chunks_exact_mut(LARGEST).take(tables).for_each(PROGRAMS[program].1);
    black_box(both.records());
}

pub fn put_table() {
    head("3. A minute boundary", NOTES, &["records", "marked", "program", "ns a record", "GB a second", "ratio"]);
    TABLES.into_iter().for_each(put_rows);
}
