//! Captures that lie in memory, read and written: the header, and then the records in turn.

use crate::raw;
use crate::Refusal;

/// A record of a capture, with the bytes of its frame.
#[derive(Clone, Copy, Debug, PartialEq, Eq)]
pub struct Record<'a> {
    pub seconds: u32,
    pub microseconds: u32,
    pub original: u32,
    pub frame: &'a [u8],
}

/// A capture whose header is read. It hands out its records; after a refusal by 8 there are no more.
pub struct Capture<'a> {
    bytes: &'a [u8],
    cursor: raw::Cursor,
    ended: bool,
}

impl<'a> Capture<'a> {
    /// Reads a capture's header. Refused by 7.
    pub fn open(bytes: &'a [u8]) -> Result<Capture<'a>, Refusal> {
        let opening = raw::open(bytes);
        crate::unless_refused(opening.refusal)?;
        Ok(Capture { bytes, cursor: opening.cursor, ended: false })
    }
}

impl<'a> Iterator for Capture<'a> {
    type Item = Result<Record<'a>, Refusal>;

    fn next(&mut self) -> Option<Self::Item> {
        if self.ended {
            return None;
        }
        let next = raw::next(self.bytes, self.cursor);
        self.ended = next.whole == 0;
        if let Err(refusal) = crate::unless_refused(next.refusal) {
            return Some(Err(refusal));
        }
        if self.ended {
            return None;
        }
        let raw::Record { seconds, microseconds, original, from, end, .. } = next.record;
        self.cursor.at = end;
        Some(Ok(Record { seconds, microseconds, original, frame: &self.bytes[from..end] }))
    }
}

/// Writes a capture into lent room: little-endian pcap 2.4, link type 1. What is refused writes nothing.
pub struct CaptureWriter<'a> {
    room: &'a mut [u8],
    next: usize,
}

impl<'a> CaptureWriter<'a> {
    /// Writes a capture's header at the front of the room. Refused by 9 where it has no room there.
    pub fn put_header(room: &'a mut [u8]) -> Result<CaptureWriter<'a>, Refusal> {
        let written = raw::put_header(room, 0);
        crate::unless_refused(written.refusal)?;
        Ok(CaptureWriter { room, next: written.next })
    }

    /// Writes a record behind those before it. Refused by 8 where its frame has more than 2,048 bytes, and then by 9 where it has no room.
    pub fn put_record(&mut self, record: &Record) -> Result<(), Refusal> {
        let Record { seconds, microseconds, original, frame } = *record;
        let written = raw::put_record(self.room, self.next, seconds, microseconds, original, frame);
        crate::unless_refused(written.refusal)?;
        self.next = written.next;
        Ok(())
    }

    /// The capture as far as it is written.
    pub fn written(&self) -> &[u8] {
        &self.room[..self.next]
    }
}
