//! A plain gateway of the same scheme, from documents 01 and 02, written for speed in the usual Rust way: it owns its tables, tests
//! settings, sizes and side lists once, when it is made, and works with masks and shifts. `each_call` shares its parts.

use crate::cipher::{decrypt, encrypt};
use crate::judging::{Judge, Left, Told};
use crate::ours::{Limits, Settings};
use std::cmp::Reverse;

const EMPTY: i16 = i16::MIN;
const PLANT_SEEN: u8 = 128;
const CELL_SEEN: u8 = 64;

#[derive(Clone, Copy, PartialEq)]
pub enum Side {
    Cell,
    Plant,
}

#[derive(Clone, Copy, PartialEq)]
enum Kind {
    Udp,
    Opening,
    SynAck,
    Closing,
    Plain,
}

/// Each stands at its number.
#[derive(Clone, Copy, PartialEq)]
pub enum Verdict {
    NotOurs,
    Uncounted,
    CreditOfOne,
    CreditOfTwo,
    FreshContact,
    Hygiene,
    Blocked,
}

#[derive(Clone, Copy)]
pub struct Answer {
    pub verdict: Verdict,
    pub count: i16,
    pub replaced: Option<u32>,
}

pub const NOT_OURS: Answer = Answer { verdict: Verdict::NotOurs, count: 0, replaced: None };

pub fn limits_fit(limits: &Limits) -> bool {
    (1..=255).contains(&limits.threshold)
        && (-1000..=0).contains(&limits.floor)
        && (1..=3600).contains(&limits.dmiss)
        && (1..=62).contains(&limits.dconn)
}

pub fn sizes_fit(records: usize, lines: usize) -> bool {
    let fit = (16..=1 << 20).contains(&records) && (1..=1 << 18).contains(&lines);
    fit && records.is_power_of_two() && lines.is_power_of_two()
}

/// The entries of a side list, if it is one.
pub fn entries_of(list: &[u8]) -> Option<&[[u8; 5]]> {
    let (entries, rest) = list.as_chunks();
    let fits = rest.is_empty() && entries.len() <= 64 && entries.iter().all(|entry: &[u8; 5]| entry[4] <= 32);
    fits.then_some(entries)
}

/// An entry of either side list, ready to be compared with an address.
struct Net {
    mask: u32,
    net: u32,
    side: Side,
}

/// Both lists as one: longest prefix first, and the cell's before the plant's, so that the first that holds an address wins.
fn nets(cell: &[u8], plant: &[u8]) -> Option<Vec<Net>> {
    let mut nets = Vec::new();
    for (list, side) in [(cell, Side::Cell), (plant, Side::Plant)] {
        for entry in entries_of(list)? {
            let mask = (u64::MAX << (32 - entry[4])) as u32;
            nets.push(Net { mask, net: four(entry, 0) & mask, side });
        }
    }
    nets.sort_by_key(|net| Reverse(net.mask));
    Some(nets)
}

fn two(bytes: &[u8], at: usize) -> u16 {
    u16::from_be_bytes([bytes[at], bytes[at + 1]])
}

pub fn four(bytes: &[u8], at: usize) -> u32 {
    u32::from_be_bytes([bytes[at], bytes[at + 1], bytes[at + 2], bytes[at + 3]])
}

pub struct Header {
    source: u32,
    destination: u32,
    source_port: u16,
    destination_port: u16,
    kind: Kind,
}

fn kind_of(flags: u8) -> Kind {
    match flags & 0x17 {
        2 | 3 | 6 | 7 => Kind::Opening,
        18 => Kind::SynAck,
        1 | 4 | 17 | 20 => Kind::Closing,
        _ => Kind::Plain,
    }
}

/// The headers, or the refusal of the time or of them. Only TCP has ports that matter.
#[inline(always)]
pub fn read(clock: u32, time: u32, packet: &[u8]) -> Result<Header, u8> {
    if time < clock {
        return Err(4);
    }
    let ip: &[u8; 20] = packet.first_chunk().ok_or(5)?;
    let (length, total) = (usize::from(ip[0] & 15) * 4, usize::from(two(ip, 2)));
    if ip[0] >> 4 != 4 || length < 20 || total < length {
        return Err(6);
    }
    let rest = packet[..packet.len().min(total)].get(length..).ok_or(5)?;
    let is_later = two(ip, 6) & 0x1fff != 0;
    let (source_port, destination_port, kind) = match ip[9] {
        6 if !is_later => {
            let tcp: &[u8; 20] = rest.first_chunk().ok_or(5)?;
            (two(tcp, 0), two(tcp, 2), kind_of(tcp[13]))
        }
        17 if !is_later => {
            rest.first_chunk::<8>().ok_or(5)?;
            (0, 0, Kind::Udp)
        }
        _ => (0, 0, Kind::Plain),
    };
    Ok(Header { source: four(ip, 12), destination: four(ip, 16), source_port, destination_port, kind })
}

/// A packet between cell and plant.
pub struct Ours {
    from: Side,
    cell: u32,
    plant: u32,
    port: u16,
    kind: Kind,
}

impl Header {
    #[inline(always)]
    pub fn ours(self, side_of: impl Fn(u32) -> Option<Side>) -> Option<Ours> {
        let Header { source, destination, source_port, destination_port, kind } = self;
        match (side_of(source)?, side_of(destination)?) {
            (from @ Side::Cell, Side::Plant) => {
                Some(Ours { from, cell: source, plant: destination, port: destination_port, kind })
            }
            (from @ Side::Plant, Side::Cell) => Some(Ours { from, cell: destination, plant: source, port: source_port, kind }),
            _ => None,
        }
    }
}

/// Ages each record by so many minute boundaries, one or more.
pub fn sweep(records: &mut [u8], minutes: u32, dconn: u8) {
    let minutes = minutes.min(64) as u8;
    for record in records {
        let is_kept = *record >= CELL_SEEN && (*record & 63) + minutes <= dconn;
        *record = if is_kept { *record + minutes } else { 0 };
    }
}

fn decay(counts: &mut [[i16; 4]], points: u32) {
    let points = points.min(i16::MAX as u32) as i16;
    for count in counts.as_flattened_mut() {
        *count = if *count > 0 { (*count - points).max(0) } else { *count };
    }
}

/// Passes a time that is not before the clock.
#[inline]
pub fn pass(limits: &Limits, records: &mut [u8], counts: &mut [[i16; 4]], clock: &mut u32, time: u32) {
    if time == *clock {
        return;
    }
    let dmiss = u32::from(limits.dmiss);
    let (minutes, points) = (time / 60 - *clock / 60, time / dmiss - *clock / dmiss);
    if minutes > 0 {
        sweep(records, minutes, limits.dconn);
    }
    if points > 0 {
        decay(counts, points);
    }
    *clock = time;
}

/// What a packet of ours is judged by, all of it tested before.
pub struct Tables<'a> {
    pub limits: &'a Limits,
    pub keys: &'a [u32; 8],
    pub records: &'a mut [u8],
    pub tags: &'a mut [[u32; 4]],
    pub counts: &'a mut [[i16; 4]],
}

impl Tables<'_> {
    #[inline(always)]
    pub fn judge(self, Ours { from, cell, plant, port, kind }: Ours) -> Answer {
        let (limits, keys) = (self.limits, self.keys);
        let word = encrypt(keys, encrypt(keys, encrypt(keys, plant) ^ cell) ^ u32::from(port));
        let record = &mut self.records[word as usize & (self.records.len() - 1)];
        let (placed, line_bits) = (encrypt(keys, cell), self.tags.len().trailing_zeros());
        let (line, tag) = (placed as usize & (self.tags.len() - 1), placed >> line_bits);
        let (tags, counts) = (&mut self.tags[line], &mut self.counts[line]);
        let way = (0..4).find(|&way| tags[way] == tag && counts[way] != EMPTY);
        let count = way.map_or(0, |way| counts[way]);

        let is_blocked = i32::from(count) >= i32::from(limits.threshold);
        let verdict = verdict_of(from, is_blocked, *record, kind);
        *record = record_after(from, verdict, kind, *record);
        let count = match verdict {
            Verdict::CreditOfOne => (count - 1).max(limits.floor),
            Verdict::CreditOfTwo => (count - 2).max(limits.floor),
            Verdict::FreshContact => count + 1,
            _ => return Answer { verdict, count, replaced: None },
        };
        let replaced = write(tags, counts, tag, way, count);
        Answer { verdict, count, replaced: replaced.map(|old| decrypt(keys, old << line_bits | line as u32)) }
    }
}

/// Writes an entry into its own way, else the lowest empty one, else that of the smallest count, whose tag is replaced.
fn write(tags: &mut [u32; 4], counts: &mut [i16; 4], tag: u32, own: Option<usize>, count: i16) -> Option<u32> {
    // An empty way has the smallest count of all, and the first of several is taken.
    let way = own.unwrap_or_else(|| (1..4).fold(0, |best, way| if counts[way] < counts[best] { way } else { best }));
    let is_replaced = own.is_none() && counts[way] != EMPTY;
    let old = std::mem::replace(&mut tags[way], tag);
    counts[way] = count;
    is_replaced.then_some(old)
}

fn verdict_of(from: Side, is_blocked: bool, record: u8, kind: Kind) -> Verdict {
    let (plant_seen, cell_seen) = (record & PLANT_SEEN != 0, record & CELL_SEEN != 0);
    if from == Side::Plant {
        return match (plant_seen, cell_seen) {
            (false, true) if kind != Kind::Closing => Verdict::CreditOfTwo,
            _ => Verdict::Uncounted,
        };
    }
    if is_blocked {
        return match kind {
            _ if !plant_seen => Verdict::Blocked,
            Kind::Udp | Kind::Opening => Verdict::Blocked,
            Kind::Closing => Verdict::Uncounted,
            _ if cell_seen => Verdict::Uncounted,
            _ => Verdict::CreditOfOne,
        };
    }
    match (cell_seen, plant_seen, kind) {
        (true, _, _) | (false, true, Kind::Closing) => Verdict::Uncounted,
        (false, true, _) => Verdict::CreditOfOne,
        (false, false, Kind::Closing | Kind::SynAck) => Verdict::Hygiene,
        (false, false, _) => Verdict::FreshContact,
    }
}

/// The age becomes 0 and own is set, but for what document 01 leaves alone.
fn record_after(from: Side, verdict: Verdict, kind: Kind, record: u8) -> u8 {
    let marks = record & (PLANT_SEEN | CELL_SEEN);
    let own = if from == Side::Plant { PLANT_SEEN } else { CELL_SEEN };
    match verdict {
        Verdict::Hygiene | Verdict::Blocked => record,
        Verdict::Uncounted if marks != 0 => marks,
        Verdict::Uncounted if kind == Kind::Closing => record,
        _ => marks | own,
    }
}

pub struct Gateway {
    settings: Settings,
    nets: Vec<Net>,
    records: Vec<u8>,
    tags: Vec<[u32; 4]>,
    counts: Vec<[i16; 4]>,
    clock: u32,
}

impl Gateway {
    /// Or the refusal. It is to be started cold before its first packet.
    pub fn new(settings: Settings, cell: &[u8], plant: &[u8], records: usize, lines: usize) -> Result<Gateway, u8> {
        if !limits_fit(&settings.limits) {
            return Err(1);
        }
        if !sizes_fit(records, lines) {
            return Err(2);
        }
        let nets = nets(cell, plant).ok_or(3)?;
        let (records, tags, counts) = (vec![0; records], vec![[0; 4]; lines], vec![[EMPTY; 4]; lines]);
        Ok(Gateway { settings, nets, records, tags, counts, clock: 0 })
    }
}

impl Judge for Gateway {
    type Answer = Result<Answer, u8>;

    fn cold_start(&mut self, time: u32) {
        self.records.fill(0);
        self.tags.fill([0; 4]);
        self.counts.fill([EMPTY; 4]);
        self.clock = time;
    }

    /// Called, as ours is, and never inlined.
    #[inline(never)]
    fn judge(&mut self, time: u32, packet: &[u8]) -> Result<Answer, u8> {
        let header = read(self.clock, time, packet)?;
        pass(&self.settings.limits, &mut self.records, &mut self.counts, &mut self.clock, time);
        let side_of = |address| self.nets.iter().find(|net| address & net.mask == net.net).map(|net| net.side);
        let Some(ours) = header.ours(side_of) else { return Ok(NOT_OURS) };
        let Gateway { settings: Settings { keys, limits }, records, tags, counts, .. } = self;
        Ok(Tables { limits, keys, records, tags, counts }.judge(ours))
    }

    fn told(answer: Result<Answer, u8>) -> Told {
        told(answer)
    }

    fn left(&self) -> Left<'_> {
        (&self.records, self.tags.as_flattened(), self.counts.as_flattened(), self.clock)
    }
}

pub fn told(answer: Result<Answer, u8>) -> Told {
    answer.map_or_else(|number| (number, 0, 0, None), |told| (0, told.verdict as u8, told.count, told.replaced))
}
