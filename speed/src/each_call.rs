//! The plain gateway for a caller who lends everything anew: as it may keep nothing, it tests settings, sizes and side lists at
//! each call, as ours does, and looks addresses up in the bytes of the lists.

use crate::judging::{Judge, Left, Told};
use crate::ours::{Caller, Limits};
use crate::plain::{self, entries_of, four, limits_fit, pass, read, sizes_fit, Answer, Side, Tables, NOT_OURS};

/// The longest prefix that holds the address, plus one; 0 where none does.
fn rank(list: &[[u8; 5]], address: u32) -> u8 {
    let holds = |entry: &[u8; 5]| u64::from(four(entry, 0) ^ address) >> (32 - entry[4]) == 0;
    list.iter().map(|entry| if holds(entry) { entry[4] + 1 } else { 0 }).max().unwrap_or(0)
}

/// Never inlined, and so lent what ours is.
#[inline(never)]
#[rustfmt::skip]
#[allow(clippy::too_many_arguments)]
fn judge(
    limits: &Limits, keys: &[u32; 8], cell: &[u8], plant: &[u8], records: &mut [u8], tags: &mut [u32], counts: &mut [i16],
    clock: &mut u32, time: u32, packet: &[u8],
) -> Result<Answer, u8> {
    if !limits_fit(limits) {
        return Err(1);
    }
    if !tags.len().is_multiple_of(4) || tags.len() != counts.len() || !sizes_fit(records.len(), tags.len() / 4) {
        return Err(2);
    }
    let (cell, plant) = (entries_of(cell).ok_or(3)?, entries_of(plant).ok_or(3)?);
    let side_of = |address| match (rank(cell, address), rank(plant, address)) {
        (0, 0) => None,
        (cell, plant) => Some(if cell >= plant { Side::Cell } else { Side::Plant }),
    };
    let (tags, counts) = (tags.as_chunks_mut().0, counts.as_chunks_mut().0);
    let header = read(*clock, time, packet)?;
    pass(limits, records, counts, clock, time);
    let Some(ours) = header.ours(side_of) else { return Ok(NOT_OURS) };
    Ok(Tables { limits, keys, records, tags, counts }.judge(ours))
}

/// What the caller lends.
pub struct EachCall(pub Caller);

impl Judge for EachCall {
    type Answer = Result<Answer, u8>;

    fn cold_start(&mut self, time: u32) {
        self.0.cold_start(time);
    }

    #[inline]
    fn judge(&mut self, time: u32, packet: &[u8]) -> Result<Answer, u8> {
        let Caller { settings, placing, cell, plant, records, tags, counts, clock } = &mut self.0;
        judge(&settings.limits, &placing.keys, cell, plant, records, tags, counts, clock, time, packet)
    }

    fn told(answer: Result<Answer, u8>) -> Told {
        plain::told(answer)
    }

    fn left(&self) -> Left<'_> {
        self.0.left()
    }
}
