//! A capture's records in turn, by a reading that has nothing to do with any program's.

use crate::capture::Order;

pub struct Unread<'a> {
    order: Order,
    pub bytes: &'a [u8],
}

impl<'a> Unread<'a> {
    /// All records of a capture. Where its byte order is neither, it has no record that is read.
    pub fn of(capture: &'a [u8]) -> Unread<'a> {
        let order = if capture.starts_with(&[0xa1]) { Order::Big } else { Order::Little };
        Unread { order, bytes: capture.get(24..).unwrap_or(&[]) }
    }

    /// The four words of a record's header, in their order, and its captured bytes.
    pub fn record(&mut self) -> Option<([u32; 4], &'a [u8])> {
        let header = self.bytes.get(..16)?;
        let mut words = [0; 4];
        for (word, bytes) in words.iter_mut().zip(header.chunks(4)) {
            let bytes = bytes.try_into().ok()?;
            *word = if self.order == Order::Big { u32::from_be_bytes(bytes) } else { u32::from_le_bytes(bytes) };
        }
        let end = 16_usize.checked_add(words[2] as usize)?;
        let frame = self.bytes.get(16..end)?;
        self.bytes = &self.bytes[end..];
        Some((words, frame))
    }
}
