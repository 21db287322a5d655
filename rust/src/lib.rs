//! The proved gateway, for programs in Rust: a safe wrapper over the archives that `tools/archives` proves and writes.
//! Nothing is decided here; include/spritgrommet.h says what each call does in the documents' words.
//!
//! Run that command, and then in a program's Cargo.toml `spritgrommet = { path = ".../rust" }`. The archives are looked for in
//! target/staticlib, or in the folder that SPRITGROMMET_LIB names. `cargo test` here needs them too.

mod capture;
pub mod raw;

use std::error::Error;
use std::fmt;

pub use capture::{Capture, CaptureWriter, Record};
pub use raw::{decrypt, encrypt, Entry, Limits, Settings, Tally};

/// A setting outside its range (`Limits`) is refused by 1. Settings are made from the factory's, by what differs:
/// `Settings::factory().with_threshold(10)`.
impl Settings {
    /// The factory settings: T 5, Cmin -20, Dmiss 60, Dconn 10, keys all zero.
    #[must_use]
    pub fn factory() -> Settings {
        raw::factory()
    }

    /// The same with other round keys.
    #[must_use]
    pub fn with_keys(self, keys: [u32; 8]) -> Settings {
        Settings { keys, ..self }
    }

    /// The same with another T.
    #[must_use]
    pub fn with_threshold(self, threshold: u16) -> Settings {
        Settings { limits: Limits { threshold, ..self.limits }, ..self }
    }

    /// The same with another Cmin.
    #[must_use]
    pub fn with_floor(self, floor: i16) -> Settings {
        Settings { limits: Limits { floor, ..self.limits }, ..self }
    }

    /// The same with another Dmiss.
    #[must_use]
    pub fn with_dmiss(self, dmiss: u16) -> Settings {
        Settings { limits: Limits { dmiss, ..self.limits }, ..self }
    }

    /// The same with another Dconn.
    #[must_use]
    pub fn with_dconn(self, dconn: u8) -> Settings {
        Settings { limits: Limits { dconn, ..self.limits }, ..self }
    }
}

/// The number of a refusal, 1 to 9.
#[derive(Clone, Copy, Debug, PartialEq, Eq)]
pub struct Refusal(pub u8);

impl fmt::Display for Refusal {
    fn fmt(&self, out: &mut fmt::Formatter) -> fmt::Result {
        write!(out, "refused by {}", self.0)
    }
}

impl Error for Refusal {}

/// The verdicts, by their words in document 01.
#[derive(Clone, Copy, Debug, PartialEq, Eq)]
pub enum Verdict {
    NotOurs = 0,
    Uncounted = 1,
    CreditOfOne = 2,
    CreditOfTwo = 3,
    FreshContact = 4,
    Hygiene = 5,
    Blocked = 6,
}

impl Verdict {
    const ALL: [Verdict; 7] = [
        Verdict::NotOurs,
        Verdict::Uncounted,
        Verdict::CreditOfOne,
        Verdict::CreditOfTwo,
        Verdict::FreshContact,
        Verdict::Hygiene,
        Verdict::Blocked,
    ];

    /// Whether the packet is to be dropped. One that is not ours is not the gateway's to judge.
    pub fn is_dropped(self) -> bool {
        matches!(self, Verdict::Hygiene | Verdict::Blocked)
    }
}

/// The answer to a packet: its verdict, the cell address's count after it, and the address that lost its entry to this packet's.
#[derive(Clone, Copy, Debug, PartialEq, Eq)]
pub struct Answer {
    pub verdict: Verdict,
    /// None for verdict 0.
    pub count: Option<i16>,
    pub replaced: Option<u32>,
}

/// The kinds of packet, by their words in documents 01 and 02.
#[derive(Clone, Copy, Debug, PartialEq, Eq)]
pub enum Kind {
    Udp = 0,
    /// TCP SYN without ACK, whatever else is set.
    Opening = 1,
    SynAck = 2,
    /// FIN or RST, alone or with ACK.
    Closing = 3,
    Plain = 4,
}

impl Kind {
    const ALL: [Kind; 5] = [Kind::Udp, Kind::Opening, Kind::SynAck, Kind::Closing, Kind::Plain];
}

/// Why a packet is dropped, if it is.
#[derive(Clone, Copy, Debug, PartialEq, Eq)]
pub enum Reason {
    /// The verdict alone, 0 to 4. One that is not ours counts as forwarded.
    Forwarded(Verdict),
    Dropped(Dropped),
}

/// A packet from the cell that is dropped, by what it meets at its second.
#[derive(Clone, Copy, Debug, PartialEq, Eq)]
pub struct Dropped {
    /// Hygiene or blocked.
    pub verdict: Verdict,
    pub kind: Kind,
    /// Whether its connection record has the plant-to-cell mark.
    pub plant_mark: bool,
    /// Whether its connection record has the cell-to-plant mark.
    pub cell_mark: bool,
    /// Its cell address's count.
    pub count: i16,
    /// T.
    pub threshold: u16,
    pub reported: Facts,
    /// The entry of the cell list that decided on its source address.
    pub cell_entry: Entry,
    /// The entry of the plant list that decided on its destination address.
    pub plant_entry: Entry,
}

/// Whether each of four facts is reported: exactly if changing it alone, to some value it may take, would have had the packet forwarded.
/// At least one is.
#[derive(Clone, Copy, Debug, PartialEq, Eq)]
pub struct Facts {
    pub count: bool,
    pub plant_mark: bool,
    pub cell_mark: bool,
    pub kind: bool,
}

fn unless_refused(refusal: u8) -> Result<(), Refusal> {
    if refusal == 0 {
        Ok(())
    } else {
        Err(Refusal(refusal))
    }
}

fn answer_of(plain: raw::PlainAnswer) -> Result<Answer, Refusal> {
    unless_refused(plain.refusal)?;
    let verdict = Verdict::ALL[usize::from(plain.verdict)];
    let count = (verdict != Verdict::NotOurs).then_some(plain.count);
    let replaced = (plain.replaced == 1).then_some(plain.address);
    Ok(Answer { verdict, count, replaced })
}

fn reason_of(plain: raw::PlainReason) -> Result<Reason, Refusal> {
    unless_refused(plain.refusal)?;
    let verdict = Verdict::ALL[usize::from(plain.verdict)];
    if !verdict.is_dropped() {
        return Ok(Reason::Forwarded(verdict));
    }
    let reported =
        Facts { count: plain.by_count, plant_mark: plain.by_plant_mark, cell_mark: plain.by_cell_mark, kind: plain.by_kind };
    Ok(Reason::Dropped(Dropped {
        verdict,
        kind: Kind::ALL[usize::from(plain.kind)],
        plant_mark: plain.plant_mark,
        cell_mark: plain.cell_mark,
        count: plain.count,
        threshold: plain.threshold,
        reported,
        cell_entry: plain.cell_entry,
        plant_entry: plain.plant_entry,
    }))
}

impl Tally {
    /// The tally before the first answer. Each total stops at 4,294,967,295.
    pub fn empty() -> Tally {
        Tally { totals: [0; 7] }
    }

    /// Adds an answer's verdict to its total. A refusal adds nothing.
    pub fn add(&mut self, answer: &Result<Answer, Refusal>) {
        let Ok(answer) = answer else { return };
        let plain = raw::PlainAnswer { refusal: 0, verdict: answer.verdict as u8, count: 0, replaced: 0, address: 0 };
        raw::tally(self, plain);
    }
}

/// Whose list has the entry that decides on an address.
#[derive(Clone, Copy, Debug, PartialEq, Eq)]
pub enum Side {
    Cell,
    Plant,
}

/// The entry of two side lists that decides on an address: whose list has it, and its number there, from 1.
pub fn winner(cell: &[u8], plant: &[u8], address: u32) -> Option<(Side, usize)> {
    let winner = raw::winner(cell, plant, address);
    match winner.side {
        1 => Some((Side::Cell, winner.number)),
        2 => Some((Side::Plant, winner.number)),
        _ => None,
    }
}

/// The largest tables that there may be. More is not asked of the allocator, and refused as no table at all is.
const MOST_RECORDS: usize = 1_048_576;
const MOST_LINES: usize = 262_144;

/// A gateway that owns its tables.
#[derive(Clone, Debug, PartialEq, Eq)]
pub struct Gateway {
    limits: Limits,
    /// As the start answered it.
    placing: raw::Placing,
    cell: Vec<u8>,
    plant: Vec<u8>,
    records: Vec<u8>,
    tags: Vec<u32>,
    counts: Vec<i16>,
    clock: u32,
}

impl Gateway {
    /// Starts cold at a time, with so many records and lines. Side lists have entries of five bytes: an address, most significant byte
    /// first, then a prefix length. Refused by 1 and 2; a bad list is refused by 3 with each packet. The gateway runs on the keys of these
    /// settings from then on. A refused start makes no gateway.
    pub fn cold_start(
        settings: Settings,
        cell: &[u8],
        plant: &[u8],
        records: usize,
        lines: usize,
        time: u32,
    ) -> Result<Gateway, Refusal> {
        let fits = records <= MOST_RECORDS && lines <= MOST_LINES;
        let (records, entries) = if fits { (records, 4 * lines) } else { (0, 0) };
        let (cell, plant) = (cell.to_vec(), plant.to_vec());
        let (mut records, mut tags, mut counts, mut clock) = (vec![0; records], vec![0; entries], vec![0; entries], 0);
        let started = raw::cold_start(settings, &mut records, &mut tags, &mut counts, &mut clock, time);
        unless_refused(started.refusal)?;
        let (limits, placing) = (settings.limits, started.placing);
        Ok(Gateway { limits, placing, cell, plant, records, tags, counts, clock })
    }

    /// The gateway's clock: the time of the start, or of the last time or packet that reached it.
    pub fn clock(&self) -> u32 {
        self.clock
    }

    /// Passes a time, with no packet. Refused by 4 where it is before the clock.
    pub fn pass(&mut self, time: u32) -> Result<(), Refusal> {
        let Gateway { limits, placing, records, tags, counts, clock, .. } = self;
        unless_refused(raw::pass(*placing, records, tags, counts, clock, *limits, time))
    }

    /// Judges a packet, from its IPv4 header on, that comes at a time. Refused by 3 to 6.
    pub fn judge(&mut self, time: u32, packet: &[u8]) -> Result<Answer, Refusal> {
        let Gateway { limits, placing, cell, plant, records, tags, counts, clock } = self;
        answer_of(raw::judge(*placing, cell, plant, records, tags, counts, clock, *limits, time, packet))
    }

    /// Judges what an Ethernet frame that comes at a time carries. One under 14 bytes is refused by 5, and an EtherType other than 0x0800
    /// gets verdict 0; neither reaches the gateway.
    pub fn judge_frame(&mut self, time: u32, frame: &[u8]) -> Result<Answer, Refusal> {
        let Gateway { limits, placing, cell, plant, records, tags, counts, clock } = self;
        answer_of(raw::judge_frame(*placing, cell, plant, records, tags, counts, clock, *limits, time, frame))
    }

    /// Why a packet, from its IPv4 header on, that comes at a time is dropped, if it is. To be asked before the packet is judged: the
    /// answer is about the tables as they would stand at that second. Refused exactly as the packet would be; nothing is changed.
    pub fn why(&self, time: u32, packet: &[u8]) -> Result<Reason, Refusal> {
        let Gateway { limits, placing, cell, plant, records, tags, counts, clock } = self;
        reason_of(raw::why(*placing, cell, plant, records, tags, counts, clock, *limits, time, packet))
    }

    /// Why what an Ethernet frame that comes at a time carries is dropped, if it is: as for a packet, with the refusal or the verdict that
    /// `judge_frame` would answer.
    pub fn why_frame(&self, time: u32, frame: &[u8]) -> Result<Reason, Refusal> {
        let Gateway { limits, placing, cell, plant, records, tags, counts, clock } = self;
        reason_of(raw::why_frame(*placing, cell, plant, records, tags, counts, clock, *limits, time, frame))
    }
}
