//! Damaged captures: ends for refusal 8, every prefix of a small capture, and each of its first bytes changed.

use crate::capture::{Capture, Order};
use crate::frames::{self, Packet, Side, ACK, SYN, TCP, UDP};
use crate::random::Random;
use crate::traffic;

/// A capture, and words for what it is.
pub struct Specimen {
    pub what: String,
    pub bytes: Vec<u8>,
}

const CAPTURE_HEADER: usize = 24;
const RECORD_HEADER: usize = 16;

/// Short captures from the seed that end in a record cut off, or in one of over 2,048 captured bytes.
pub fn bad_ends(seed: u64, order: Order) -> Vec<Specimen> {
    let cut = (seed % 15) as usize;
    let ends = [
        ("record header cut off", 60, 1 + cut),
        ("record body cut off", 60, RECORD_HEADER + [0, 1, 59][cut % 3]),
        ("2,049 captured bytes", 2_049, usize::MAX),
        ("4,294,967,295 captured bytes", u32::MAX, usize::MAX),
    ];
    ends.map(|(what, captured, kept)| Specimen { what: what.into(), bytes: bad_end(seed, order, captured, kept) }).into()
}

/// Whole records, then one that promises `captured` bytes, with records behind it, so that a program which believes it can go
/// on. `kept` bytes are kept of the promise and what is behind it.
fn bad_end(seed: u64, order: Order, captured: u32, kept: usize) -> Vec<u8> {
    let mut capture = traffic::make(seed.wrapping_add(6_000), 40, order);
    let good = capture.bytes.len();
    capture.record_header([u32::MAX, 0, captured, captured]);
    capture.bytes.extend(&traffic::make(seed.wrapping_add(6_006), 40, order).bytes[CAPTURE_HEADER..]);
    capture.bytes.truncate(good.saturating_add(kept));
    capture.bytes
}

pub fn prefixes(order: Order) -> Vec<Specimen> {
    let whole = small_capture(order).bytes;
    let prefix = |length| Specimen { what: format!("first {length} bytes"), bytes: whole[..length].into() };
    (0..=whole.len()).map(prefix).collect()
}

/// The capture's header and whole first record, each byte in turn with one bit flipped, as 0 and as 255.
pub fn changed_bytes(order: Order) -> Vec<Specimen> {
    let whole = small_capture(order).bytes;
    let mut changed = Vec::new();
    for place in 0..CAPTURE_HEADER + RECORD_HEADER + FIRST_FRAME {
        let byte = whole[place];
        for value in (0..8).map(|bit| byte ^ 1 << bit).chain([0, 255]).filter(|value| *value != byte) {
            let mut bytes = whole.clone();
            bytes[place] = value;
            changed.push(Specimen { what: format!("byte {place} set from {byte} to {value}"), bytes });
        }
    }
    changed
}

/// The first frame is cut to its Ethernet, IP and TCP headers.
const FIRST_FRAME: usize = 54;

/// Six mixed records. The counts of the later ones tell how the first was judged. Its second has the top bit set, so that one
/// changed bit makes a leap of 2^31 seconds.
fn small_capture(order: Order) -> Capture {
    let second = 0x9000_0000;
    let mut random = Random(0);
    let mut capture = Capture::new(order, &mut random);
    let opening = Packet::opening(0x0a01_0203, 0xc0a8_0405, TCP, 80);
    let mut first = opening.frame(&mut random);
    first.truncate(FIRST_FRAME);
    let mut arp = random.bytes(42);
    arp[12..14].copy_from_slice(&[0x08, 0x06]);
    let answer = Packet { from: Side::Plant, flags: SYN | ACK, ..opening };
    let question = Packet { protocol: UDP, header_words: 7, ..opening };
    let last = Packet { flags: ACK, ..opening };
    let [answer, question, last] = [answer, question, last].map(|packet| frames::usual(packet, &mut random));
    let frames = [(0, first), (0, answer), (1, arp), (2, question), (2, vec![0; 10]), (60, last)];
    for (later, frame) in frames {
        capture.record(second + later, &frame, &mut random);
    }
    capture
}
