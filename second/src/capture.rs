//! Classic pcap captures, version 2.4: read in either byte order, written in one.

use crate::refusal::Refusal;

#[derive(Clone, Copy)]
enum ByteOrder {
    Big,
    Little,
}

impl ByteOrder {
    fn word(self, bytes: [u8; 4]) -> u32 {
        match self {
            ByteOrder::Big => u32::from_be_bytes(bytes),
            ByteOrder::Little => u32::from_le_bytes(bytes),
        }
    }

    fn half(self, bytes: [u8; 2]) -> u16 {
        match self {
            ByteOrder::Big => u16::from_be_bytes(bytes),
            ByteOrder::Little => u16::from_le_bytes(bytes),
        }
    }
}

/// "the same seconds, microseconds, original lengths and bytes".
#[derive(Clone, Copy, Debug, PartialEq, Eq)]
pub struct Record<'a> {
    pub second: u32,
    pub microsecond: u32,
    pub original: u32,
    pub frame: &'a [u8],
}

/// A record has at most so many captured bytes.
const MOST_CAPTURED: usize = 2048;

/// How a written capture starts: "pcap 2.4, little-endian, link type 1", "zone 0, accuracy 0 and
/// snap length 2,048".
#[rustfmt::skip]
pub const HEADER: [u8; 24] = [
    0xd4, 0xc3, 0xb2, 0xa1, 2, 0, 4, 0, // The magic and the version,
    0, 0, 0, 0, 0, 0, 0, 0, // zone and accuracy,
    0, 8, 0, 0, 1, 0, 0, 0, // snap length and link type.
];

impl Record<'_> {
    /// The record as it stands in a written capture. Refusal 8, "which the writer gives above 2,048
    /// bytes".
    pub fn written(&self) -> Result<Vec<u8>, Refusal> {
        if self.frame.len() > MOST_CAPTURED {
            return Err(Refusal::BadRecord);
        }
        let captured = self.frame.len() as u32;
        let words = [self.second, self.microsecond, captured, self.original];
        let mut bytes: Vec<u8> = words.into_iter().flat_map(u32::to_le_bytes).collect();
        bytes.extend(self.frame);
        Ok(bytes)
    }
}

/// A capture whose header was good, and the bytes that are still to be read.
pub struct Capture<'a> {
    order: ByteOrder,
    rest: &'a [u8],
}

impl<'a> Capture<'a> {
    /// Refusal 7: "capture header: short, magic not a1b2c3d4 in either byte order, version not
    /// 2.4, or link type not 1".
    pub fn open(bytes: &'a [u8]) -> Result<Capture<'a>, Refusal> {
        let Some((h, rest)) = bytes.split_first_chunk::<24>() else {
            return Err(Refusal::BadCapture);
        };
        let order = match [h[0], h[1], h[2], h[3]] {
            [0xa1, 0xb2, 0xc3, 0xd4] => ByteOrder::Big,
            [0xd4, 0xc3, 0xb2, 0xa1] => ByteOrder::Little,
            _ => return Err(Refusal::BadCapture),
        };
        let major = order.half([h[4], h[5]]);
        let minor = order.half([h[6], h[7]]);
        let link_type = order.word([h[20], h[21], h[22], h[23]]);
        if (major, minor) != (2, 4) || link_type != 1 {
            return Err(Refusal::BadCapture);
        }
        Ok(Capture { order, rest })
    }

    /// The next record, or nothing at the end of the capture. Refusal 8: "capture record cut off,
    /// or over 2,048 captured bytes".
    pub fn next_record(&mut self) -> Option<Result<Record<'a>, Refusal>> {
        if self.rest.is_empty() {
            return None;
        }
        let Some((h, body)) = self.rest.split_first_chunk::<16>() else {
            return Some(Err(Refusal::BadRecord));
        };
        let word = |at| self.order.word([h[at], h[at + 1], h[at + 2], h[at + 3]]);
        let [second, microsecond, captured, original] = [0, 4, 8, 12].map(word);
        if captured as usize > MOST_CAPTURED {
            return Some(Err(Refusal::BadRecord));
        }
        let Some((frame, rest)) = body.split_at_checked(captured as usize) else {
            return Some(Err(Refusal::BadRecord));
        };
        self.rest = rest;
        Some(Ok(Record { second, microsecond, original, frame }))
    }
}

#[cfg(test)]
mod tests {
    use super::*;
    use crate::samples::capture;

    fn opens(bytes: &[u8]) -> bool {
        match Capture::open(bytes) {
            Ok(_) => true,
            Err(refusal) => {
                assert_eq!(refusal, Refusal::BadCapture);
                false
            }
        }
    }

    #[test]
    fn refusal_7() {
        for little in [false, true] {
            let good = capture(little, &[]);
            assert!(opens(&good));
            assert!(!opens(&good[..23]));
            assert!(!opens(&[]));
            // Zone, accuracy and snap length (bytes 8 to 19) are not judged, all others are.
            for at in 0..24 {
                let mut other = good.clone();
                other[at] ^= 1;
                assert_eq!(opens(&other), (8..20).contains(&at), "byte {at}");
            }
            // The low bytes of the version: 2.4 alone is good.
            let (major, minor) = if little { (4, 6) } else { (5, 7) };
            for version in [(1, 4), (3, 4), (2, 3), (2, 5), (2, 4)] {
                let mut other = good.clone();
                (other[major], other[minor]) = version;
                assert_eq!(opens(&other), version == (2, 4), "{version:?}");
            }
            let mut nanoseconds = good.clone();
            let magic: [u8; 4] = [0xa1, 0xb2, 0x3c, 0x4d];
            for (at, byte) in magic.iter().enumerate() {
                nanoseconds[if little { 3 - at } else { at }] = *byte;
            }
            assert!(!opens(&nanoseconds));
        }
        // The magic in one order, the rest in the other.
        let mut mixed = capture(true, &[]);
        mixed[..4].reverse();
        assert!(!opens(&mixed));
    }

    #[test]
    fn refusal_8() {
        let told = |bytes: &[u8]| {
            let mut capture = Capture::open(bytes).ok()?;
            capture.next_record().map(|r| r.map(|r| (r.second, r.frame.len())))
        };
        for little in [false, true] {
            assert_eq!(told(&capture(little, &[])), None);
            let good = capture(little, &[(0x0102_0304, vec![7; 2048])]);
            assert_eq!(told(&good), Some(Ok((0x0102_0304, 2048))));
            assert_eq!(told(&good[..good.len() - 1]), Some(Err(Refusal::BadRecord)));
            let empty = capture(little, &[(9, vec![])]);
            assert_eq!(told(&empty), Some(Ok((9, 0))));
            assert_eq!(told(&empty[..39]), Some(Err(Refusal::BadRecord)));
            assert_eq!(told(&empty[..25]), Some(Err(Refusal::BadRecord)));
            let over = capture(little, &[(9, vec![7; 2049])]);
            assert_eq!(told(&over), Some(Err(Refusal::BadRecord)));
            assert_eq!(told(&over[..40]), Some(Err(Refusal::BadRecord)));
        }
    }

    /// The bytes as one literal, so that neither the reader nor `samples` vouches for the writer.
    #[test]
    fn a_written_capture() {
        let record =
            Record { second: 0x0102_0304, microsecond: 5, original: 0xA0B0_C0D0, frame: &[7, 8] };
        #[rustfmt::skip]
        let bytes = [
            0xd4, 0xc3, 0xb2, 0xa1, 2, 0, 4, 0, 0, 0, 0, 0, 0, 0, 0, 0, 0, 8, 0, 0, 1, 0, 0, 0,
            4, 3, 2, 1, 5, 0, 0, 0, 2, 0, 0, 0, 0xd0, 0xc0, 0xb0, 0xa0, 7, 8,
        ];
        assert_eq!(
            record.written().map(|record| [&HEADER[..], &record].concat()),
            Ok(bytes.to_vec())
        );
    }

    #[test]
    fn reading_what_was_written() {
        for length in [0, 1, 60, 2047, 2048] {
            let frame: Vec<u8> = (0..length).map(|at| at as u8).collect();
            let record =
                Record { second: u32::MAX, microsecond: 1_999_999, original: 3, frame: &frame };
            let written = record.written().map(|record| [&HEADER[..], &record].concat());
            let Ok(bytes) = written else { panic!("{length} bytes are refused") };
            let Ok(mut capture) = Capture::open(&bytes) else { panic!("the header is refused") };
            assert_eq!(capture.next_record(), Some(Ok(record)));
            assert_eq!(capture.next_record(), None);
        }
        let over = Record { second: 0, microsecond: 0, original: 0, frame: &[0; 2049] };
        assert_eq!(over.written(), Err(Refusal::BadRecord));
    }
}
