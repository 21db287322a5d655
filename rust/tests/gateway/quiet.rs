//! What a minute boundary does not store to (document 02, K3): records that do not differ afterwards stand in pages of memory that may only
//! be read. A store to such a page ends the tests with a fault, signal 11; with `-- --test-threads=1 --nocapture` the last
//! test named is the one.

use crate::calls::placing;
use second::samples;
use spritgrommet::{raw, Settings};
use std::ffi::c_void;
use std::ops::Range;
use std::ptr::null_mut;

const PAGE: usize = 4_096;
const READ: i32 = 1;
const WRITE: i32 = 2;
const PRIVATE_AND_OF_NO_FILE: i32 = 0x22;

extern "C" {
    fn mmap(start: *mut c_void, length: usize, access: i32, kind: i32, file: i32, offset: i64) -> *mut c_void;
    fn mprotect(start: *mut c_void, length: usize, access: i32) -> i32;
    fn munmap(start: *mut c_void, length: usize) -> i32;
}

/// Whole pages of memory, and a connection table in them.
pub struct Records {
    room: *mut c_void,
    bytes: usize,
    start: *mut u8,
    length: usize,
}

impl Records {
    /// A table that starts so many bytes after its first page does.
    pub fn after(skipped: usize, records: &[u8]) -> Records {
        let bytes = (skipped + records.len()).next_multiple_of(PAGE);
        // SAFETY: new memory, as long as what is skipped and the records, or longer.
        let room = unsafe { mmap(null_mut(), bytes, READ | WRITE, PRIVATE_AND_OF_NO_FILE, -1, 0) };
        assert_ne!(room as isize, -1, "no memory was to be had");
        // SAFETY: all of them lie in that memory.
        let start = unsafe { room.byte_add(skipped).cast::<u8>() };
        unsafe { start.copy_from_nonoverlapping(records.as_ptr(), records.len()) };
        Records { room, bytes, start, length: records.len() }
    }

    /// From now on these pages may only be read.
    pub fn only_read(&self, pages: Range<usize>) {
        assert!(pages.end * PAGE <= self.bytes);
        // SAFETY: the pages are this table's own.
        let done = unsafe { mprotect(self.room.byte_add(pages.start * PAGE), pages.len() * PAGE, READ) };
        assert_eq!(done, 0, "the pages could not be protected");
    }

    pub fn pages(&self) -> usize {
        self.bytes / PAGE
    }

    pub fn values(&self) -> &[u8] {
        // SAFETY: the table's own memory, which may always be read.
        unsafe { std::slice::from_raw_parts(self.start, self.length) }
    }

    /// Passes a time alone, with factory settings and one line of entries.
    fn pass(&self, old: u32, new: u32) {
        let (mut tags, mut counts, mut clock) = ([0; 4], [i16::MIN; 4], old);
        let (tags, counts, settings) = (tags.as_mut_ptr(), counts.as_mut_ptr(), Settings::factory());
        let (limits, placing) = (settings.limits, placing(settings));
        // SAFETY: each length is its table's; that nothing is stored to what may only be read is what is tested.
        let refusal =
            unsafe { raw::spritgrommet_pass(placing, self.start, self.length, tags, 4, counts, 4, &mut clock, limits, new) };
        assert_eq!((refusal, clock), (0, new));
    }

    /// The same by a packet that is not ours.
    #[rustfmt::skip]
    fn judge(&self, old: u32, new: u32) {
        let (mut tags, mut counts, mut clock) = ([0; 4], [i16::MIN; 4], old);
        let (packet, settings) = (samples::udp(0x0A00_0001, 0x0A00_0002), Settings::factory());
        // SAFETY: as above; no side list has an entry.
        let answer = unsafe {
            raw::spritgrommet_judge(
                placing(settings), [].as_ptr(), 0, [].as_ptr(), 0, self.start, self.length, tags.as_mut_ptr(), 4,
                counts.as_mut_ptr(), 4, &mut clock, settings.limits, new, packet.as_ptr(), packet.len(),
            )
        };
        assert_eq!((answer.refusal, answer.verdict, clock), (0, 0, new));
    }
}

impl Drop for Records {
    fn drop(&mut self) {
        // SAFETY: the memory that `after` got, and nothing leads there any more.
        unsafe { munmap(self.room, self.bytes) };
    }
}

/// Records that differ after one boundary, and what they are then: with a mark or both, and without one but with an age.
const DIFFERING: [(u8, u8); 5] = [(64, 65), (128 + 9, 128 + 10), (192 + 10, 0), (63, 0), (1, 0)];

#[test]
fn records_that_are_zero_are_not_stored_to() {
    for size in (4..=20).map(|exponent| 1 << exponent) {
        let records = Records::after(0, &vec![0; size]);
        records.only_read(0..records.pages());
        for (old, new) in [(59, 60), (100, 7_300)] {
            records.pass(old, new);
            records.judge(old, new);
        }
        assert!(records.values().iter().all(|&record| record == 0));
    }
}

#[test]
fn only_pages_with_a_record_that_differs_are_stored_to() {
    // Every third page has one record that differs, each at another place.
    let (mut before, mut after) = (vec![0; 1_048_576], vec![0; 1_048_576]);
    for (number, page) in (0..before.len() / PAGE).step_by(3).enumerate() {
        let slot = page * PAGE + number * (PAGE - 1) / 85;
        (before[slot], after[slot]) = DIFFERING[number % 5];
    }
    let records = Records::after(0, &before);
    for page in (0..records.pages()).filter(|page| page % 3 != 0) {
        records.only_read(page..page + 1);
    }
    records.pass(59, 60);
    assert!(records.values() == after);
}

/// A table with an edge in it: on one side all records are 0, on the other every so manieth differs, the one at the edge among them. And the
/// same table one boundary later.
fn table_with_edge(size: usize, edge: usize, zeros_first: bool, every: usize) -> (Vec<u8>, Vec<u8>) {
    let from_edge = |slot: usize| match zeros_first {
        true => slot.checked_sub(edge),
        false => edge.checked_sub(slot + 1),
    };
    let pair = |slot| match from_edge(slot) {
        Some(far) if far % every == 0 => DIFFERING[far / every % DIFFERING.len()],
        _ => (0, 0),
    };
    (0..size).map(pair).unzip()
}

#[test]
fn zeros_beside_records_that_differ_are_not_stored_to() {
    // The edge is where the second page begins, at every place in a part and between two parts. The side with zeros may only be read, so
    // that a sweep which stores to a zero because a neighbour differs does not survive this.
    for (size, step) in [(16, 1), (64, 1), (256, 1), (8_192, 61)] {
        for edge in (1..size.min(PAGE)).step_by(step) {
            for (zeros_first, every) in [1, 2, 3, 50].into_iter().flat_map(|every| [(true, every), (false, every)]) {
                let (before, after) = table_with_edge(size, edge, zeros_first, every);
                let records = Records::after(PAGE - edge, &before);
                records.only_read(if zeros_first { 0..1 } else { 1..records.pages() });
                records.pass(59, 60);
                assert!(records.values() == after, "{size} records, edge at {edge}, {zeros_first}, {every}");
            }
        }
    }
}
