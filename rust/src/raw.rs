//! What the archives export, as it is: structs, and functions over lent memory. Written by tools/boundary from crates/embed_c/src,
//! crates/embed_why_c/src and the sources of their structs. include/spritgrommet.h says what each function does, and what a caller by
//! pointers has to keep to.
#![allow(clippy::too_many_arguments)]

/// The settings that have a range, which every call of a gateway takes. The type of each number is wider than its range, so that a value
/// outside it can be given, and is refused.
#[repr(C)]
#[derive(Clone, Copy, Debug, PartialEq, Eq)]
pub struct Limits {
    /// T, 1 to 255: a cell address is blocked when its count is at least this.
    pub threshold: u16,
    /// Cmin, -1,000 to 0: no credit lowers a count below this.
    pub floor: i16,
    /// Dmiss, 1 to 3,600: at each multiple of so many seconds every positive count falls by one.
    pub dmiss: u16,
    /// Dconn, 1 to 62: a connection record lives over so many minute boundaries.
    pub dconn: u8,
}

/// All settings of a gateway. The keys are free, and a cold start alone takes them: from then on the gateway runs on those of its state.
#[repr(C)]
#[derive(Clone, Copy, Debug, PartialEq, Eq)]
pub struct Settings {
    /// The eight round keys of the address permutation.
    pub keys: [u32; 8],
    pub limits: Limits,
}

/// What places packets in a gateway's tables: it is part of the gateway's state, a start sets it, and no other call changes it.
#[repr(C)]
#[derive(Clone, Copy, Debug, PartialEq, Eq)]
pub struct Placing {
    /// The eight round keys of the address permutation.
    pub keys: [u32; 8],
}

/// The answer to a start: the number of its refusal, or 0 and what places packets in the tables, for the calls that follow.
#[repr(C)]
#[derive(Clone, Copy, Debug, PartialEq, Eq)]
pub struct PlainStarted {
    pub refusal: u8,
    pub placing: Placing,
}

/// The answer to a packet: the number of its refusal, or 0; the verdict, 0 to 6; the cell address's count after it; 1 where an address lost
/// its entry, and that address.
#[repr(C)]
#[derive(Clone, Copy, Debug, PartialEq, Eq)]
pub struct PlainAnswer {
    pub refusal: u8,
    pub verdict: u8,
    pub count: i16,
    pub replaced: u8,
    pub address: u32,
}

/// The winning entry of an address: 1 where it stands in the cell list, 2 in the plant list, 0 where neither holds the address; and its
/// number there, from 1.
#[repr(C)]
#[derive(Clone, Copy, Debug, PartialEq, Eq)]
pub struct PlainWinner {
    pub side: u8,
    pub number: usize,
}

/// A total for each verdict, 0 to 6, by its number.
#[repr(C)]
#[derive(Clone, Copy, Debug, PartialEq, Eq)]
pub struct Tally {
    pub totals: [u32; 7],
}

/// Where the next record starts among the bytes at hand, and the capture's byte order.
#[repr(C)]
#[derive(Clone, Copy, Debug, PartialEq, Eq)]
pub struct Cursor {
    pub at: usize,
    pub big_endian: bool,
}

/// A capture opened: the number of its refusal, or 0 and where the first record starts.
#[repr(C)]
#[derive(Clone, Copy, Debug, PartialEq, Eq)]
pub struct PlainOpening {
    pub refusal: u8,
    pub cursor: Cursor,
}

/// A record: its second and microsecond, how many bytes were captured of how many, and where these stand: from a place up to another, where
/// the next record starts.
#[repr(C)]
#[derive(Clone, Copy, Debug, PartialEq, Eq)]
pub struct Record {
    pub seconds: u32,
    pub microseconds: u32,
    pub captured: usize,
    pub original: u32,
    pub from: usize,
    pub end: usize,
}

/// A record read: the number of its refusal, or 0; 1 where there is a record, and 0 where no byte is left; and the record.
#[repr(C)]
#[derive(Clone, Copy, Debug, PartialEq, Eq)]
pub struct PlainNext {
    pub refusal: u8,
    pub whole: u8,
    pub record: Record,
}

/// A part of a capture written: the number of its refusal, or 0 and the place after it in the room.
#[repr(C)]
#[derive(Clone, Copy, Debug, PartialEq, Eq)]
pub struct PlainWritten {
    pub refusal: u8,
    pub next: usize,
}

/// An entry of a side list by value: its number there, from 1, its address and its prefix length; each 0 where there is none.
#[repr(C)]
#[derive(Clone, Copy, Debug, PartialEq, Eq)]
pub struct Entry {
    pub number: usize,
    pub address: u32,
    pub prefix: u8,
}

/// Why a packet was dropped: the number of its refusal, or 0; the verdict, 0 to 6, which is all of one that is not dropped; its kind, 0
/// UDP, 1 opening, 2 SYN+ACK, 3 closing, 4 plain; the marks and the count that it met, and T; which of the four facts are reported; and the
/// entries that decided on its source, in the cell list, and on its destination, in the plant list.
#[repr(C)]
#[derive(Clone, Copy, Debug, PartialEq, Eq)]
pub struct PlainReason {
    pub refusal: u8,
    pub verdict: u8,
    pub kind: u8,
    pub plant_mark: bool,
    pub cell_mark: bool,
    pub count: i16,
    pub threshold: u16,
    pub by_count: bool,
    pub by_plant_mark: bool,
    pub by_cell_mark: bool,
    pub by_kind: bool,
    pub cell_entry: Entry,
    pub plant_entry: Entry,
}

extern "C" {
    pub fn spritgrommet_factory() -> Settings;
    pub fn spritgrommet_cold_start(
        settings: Settings,
        records: *mut u8,
        records_length: usize,
        tags: *mut u32,
        tags_length: usize,
        counts: *mut i16,
        counts_length: usize,
        clock: *mut u32,
        time: u32,
    ) -> PlainStarted;
    pub fn spritgrommet_pass(
        placing: Placing,
        records: *mut u8,
        records_length: usize,
        tags: *mut u32,
        tags_length: usize,
        counts: *mut i16,
        counts_length: usize,
        clock: *mut u32,
        limits: Limits,
        time: u32,
    ) -> u8;
    pub fn spritgrommet_judge(
        placing: Placing,
        cell: *const u8,
        cell_length: usize,
        plant: *const u8,
        plant_length: usize,
        records: *mut u8,
        records_length: usize,
        tags: *mut u32,
        tags_length: usize,
        counts: *mut i16,
        counts_length: usize,
        clock: *mut u32,
        limits: Limits,
        time: u32,
        packet: *const u8,
        packet_length: usize,
    ) -> PlainAnswer;
    pub fn spritgrommet_judge_frame(
        placing: Placing,
        cell: *const u8,
        cell_length: usize,
        plant: *const u8,
        plant_length: usize,
        records: *mut u8,
        records_length: usize,
        tags: *mut u32,
        tags_length: usize,
        counts: *mut i16,
        counts_length: usize,
        clock: *mut u32,
        limits: Limits,
        time: u32,
        frame: *const u8,
        frame_length: usize,
    ) -> PlainAnswer;
    pub fn spritgrommet_winner(
        cell: *const u8,
        cell_length: usize,
        plant: *const u8,
        plant_length: usize,
        address: u32,
    ) -> PlainWinner;
    pub fn spritgrommet_encrypt(keys: *const [u32; 8], word: u32) -> u32;
    pub fn spritgrommet_decrypt(keys: *const [u32; 8], word: u32) -> u32;
    pub fn spritgrommet_tally(tally: *mut Tally, answer: PlainAnswer);
    pub fn spritgrommet_open(bytes: *const u8, bytes_length: usize) -> PlainOpening;
    pub fn spritgrommet_next(bytes: *const u8, bytes_length: usize, cursor: Cursor) -> PlainNext;
    pub fn spritgrommet_put_header(room: *mut u8, room_length: usize, at: usize) -> PlainWritten;
    pub fn spritgrommet_put_record(
        room: *mut u8,
        room_length: usize,
        at: usize,
        seconds: u32,
        microseconds: u32,
        original: u32,
        frame: *const u8,
        frame_length: usize,
    ) -> PlainWritten;
    pub fn spritgrommet_why(
        placing: Placing,
        cell: *const u8,
        cell_length: usize,
        plant: *const u8,
        plant_length: usize,
        records: *const u8,
        records_length: usize,
        tags: *const u32,
        tags_length: usize,
        counts: *const i16,
        counts_length: usize,
        clock: *const u32,
        limits: Limits,
        time: u32,
        packet: *const u8,
        packet_length: usize,
    ) -> PlainReason;
    pub fn spritgrommet_why_frame(
        placing: Placing,
        cell: *const u8,
        cell_length: usize,
        plant: *const u8,
        plant_length: usize,
        records: *const u8,
        records_length: usize,
        tags: *const u32,
        tags_length: usize,
        counts: *const i16,
        counts_length: usize,
        clock: *const u32,
        limits: Limits,
        time: u32,
        frame: *const u8,
        frame_length: usize,
    ) -> PlainReason;
}

// The same by references in place of pointers.
// SAFETY, of each `unsafe` below: a reference's pointer is aligned and not null, a slice's leads to as many elements as its length says,
// what is lent for writing is lent once, and the archive keeps no pointer when it returns.

/// The factory settings.
#[inline]
pub fn factory() -> Settings {
    // SAFETY: as above.
    unsafe { spritgrommet_factory() }
}

/// Starts cold at a time. The answer is the number of the refusal, or 0, and what places packets in the tables, for the calls that follow.
#[inline]
pub fn cold_start(
    settings: Settings,
    records: &mut [u8],
    tags: &mut [u32],
    counts: &mut [i16],
    clock: &mut u32,
    time: u32,
) -> PlainStarted {
    // SAFETY: as above.
    unsafe {
        spritgrommet_cold_start(
            settings,
            records.as_mut_ptr(),
            records.len(),
            tags.as_mut_ptr(),
            tags.len(),
            counts.as_mut_ptr(),
            counts.len(),
            clock,
            time,
        )
    }
}

/// Passes a time, with no packet. The answer is the number of the refusal, or 0.
#[inline]
pub fn pass(
    placing: Placing,
    records: &mut [u8],
    tags: &mut [u32],
    counts: &mut [i16],
    clock: &mut u32,
    limits: Limits,
    time: u32,
) -> u8 {
    // SAFETY: as above.
    unsafe {
        spritgrommet_pass(
            placing,
            records.as_mut_ptr(),
            records.len(),
            tags.as_mut_ptr(),
            tags.len(),
            counts.as_mut_ptr(),
            counts.len(),
            clock,
            limits,
            time,
        )
    }
}

/// Judges a packet, from its IPv4 header on, that comes at a time. The answer is the refusal, or the verdict with what belongs to it.
#[inline]
pub fn judge(
    placing: Placing,
    cell: &[u8],
    plant: &[u8],
    records: &mut [u8],
    tags: &mut [u32],
    counts: &mut [i16],
    clock: &mut u32,
    limits: Limits,
    time: u32,
    packet: &[u8],
) -> PlainAnswer {
    // SAFETY: as above.
    unsafe {
        spritgrommet_judge(
            placing,
            cell.as_ptr(),
            cell.len(),
            plant.as_ptr(),
            plant.len(),
            records.as_mut_ptr(),
            records.len(),
            tags.as_mut_ptr(),
            tags.len(),
            counts.as_mut_ptr(),
            counts.len(),
            clock,
            limits,
            time,
            packet.as_ptr(),
            packet.len(),
        )
    }
}

/// Judges what an Ethernet frame that comes at a time carries. The answer is as for a packet.
#[inline]
pub fn judge_frame(
    placing: Placing,
    cell: &[u8],
    plant: &[u8],
    records: &mut [u8],
    tags: &mut [u32],
    counts: &mut [i16],
    clock: &mut u32,
    limits: Limits,
    time: u32,
    frame: &[u8],
) -> PlainAnswer {
    // SAFETY: as above.
    unsafe {
        spritgrommet_judge_frame(
            placing,
            cell.as_ptr(),
            cell.len(),
            plant.as_ptr(),
            plant.len(),
            records.as_mut_ptr(),
            records.len(),
            tags.as_mut_ptr(),
            tags.len(),
            counts.as_mut_ptr(),
            counts.len(),
            clock,
            limits,
            time,
            frame.as_ptr(),
            frame.len(),
        )
    }
}

/// The entry of the side lists that decides on an address: whose list has it, and its place there.
#[inline]
pub fn winner(cell: &[u8], plant: &[u8], address: u32) -> PlainWinner {
    // SAFETY: as above.
    unsafe { spritgrommet_winner(cell.as_ptr(), cell.len(), plant.as_ptr(), plant.len(), address) }
}

/// The address permutation E of a word, under eight round keys.
#[inline]
pub fn encrypt(keys: &[u32; 8], word: u32) -> u32 {
    // SAFETY: as above.
    unsafe { spritgrommet_encrypt(keys, word) }
}

/// The inverse of E, of a word, under the same keys.
#[inline]
pub fn decrypt(keys: &[u32; 8], word: u32) -> u32 {
    // SAFETY: as above.
    unsafe { spritgrommet_decrypt(keys, word) }
}

/// Adds an answer's verdict to the tally that is lent. A refusal adds nothing.
#[inline]
pub fn tally(tally: &mut Tally, answer: PlainAnswer) {
    // SAFETY: as above.
    unsafe { spritgrommet_tally(tally, answer) }
}

/// Reads a capture's header. The answer is refusal 7, or where the first record starts.
#[inline]
pub fn open(bytes: &[u8]) -> PlainOpening {
    // SAFETY: as above.
    unsafe { spritgrommet_open(bytes.as_ptr(), bytes.len()) }
}

/// Reads the capture's record at a cursor. The answer is refusal 8, that no byte is left, or the record.
#[inline]
pub fn next(bytes: &[u8], cursor: Cursor) -> PlainNext {
    // SAFETY: as above.
    unsafe { spritgrommet_next(bytes.as_ptr(), bytes.len(), cursor) }
}

/// Writes a capture's header into the room at a place. The answer is refusal 9, or the place of the first record.
#[inline]
pub fn put_header(room: &mut [u8], at: usize) -> PlainWritten {
    // SAFETY: as above.
    unsafe { spritgrommet_put_header(room.as_mut_ptr(), room.len(), at) }
}

/// Writes a record into the room at a place. The answer is refusal 8 or 9, or the place of the next record.
#[inline]
pub fn put_record(room: &mut [u8], at: usize, seconds: u32, microseconds: u32, original: u32, frame: &[u8]) -> PlainWritten {
    // SAFETY: as above.
    unsafe {
        spritgrommet_put_record(room.as_mut_ptr(), room.len(), at, seconds, microseconds, original, frame.as_ptr(), frame.len())
    }
}

/// Why a packet, from its IPv4 header on, that comes at a time is dropped. Tables and clock are only read.
#[inline]
pub fn why(
    placing: Placing,
    cell: &[u8],
    plant: &[u8],
    records: &[u8],
    tags: &[u32],
    counts: &[i16],
    clock: &u32,
    limits: Limits,
    time: u32,
    packet: &[u8],
) -> PlainReason {
    // SAFETY: as above.
    unsafe {
        spritgrommet_why(
            placing,
            cell.as_ptr(),
            cell.len(),
            plant.as_ptr(),
            plant.len(),
            records.as_ptr(),
            records.len(),
            tags.as_ptr(),
            tags.len(),
            counts.as_ptr(),
            counts.len(),
            clock,
            limits,
            time,
            packet.as_ptr(),
            packet.len(),
        )
    }
}

/// Why what an Ethernet frame that comes at a time carries is dropped. Tables and clock are only read.
#[inline]
pub fn why_frame(
    placing: Placing,
    cell: &[u8],
    plant: &[u8],
    records: &[u8],
    tags: &[u32],
    counts: &[i16],
    clock: &u32,
    limits: Limits,
    time: u32,
    frame: &[u8],
) -> PlainReason {
    // SAFETY: as above.
    unsafe {
        spritgrommet_why_frame(
            placing,
            cell.as_ptr(),
            cell.len(),
            plant.as_ptr(),
            plant.len(),
            records.as_ptr(),
            records.len(),
            tags.as_ptr(),
            tags.len(),
            counts.as_ptr(),
            counts.len(),
            clock,
            limits,
            time,
            frame.as_ptr(),
            frame.len(),
        )
    }
}
