//! Captures in which all is forwarded, because of how they are made and whatever T above 1 is: no machine ever has more than
//! one fresh contact that is unanswered, and no machine of the cell sends on a cold slot but to open.

use crate::capture::{Capture, Order};
use crate::damage::Specimen;
use crate::frames::{self, Packet, Side, TCP};
use crate::random::Random;
use crate::traffic::{cell_address, PLANT, PORTS, PROTOCOLS, SESSION, SIDES};

/// Just outside of either side.
const NEITHER: [u32; 4] = [0x09ff_ffff, 0x0b00_0000, 0xc0a7_ffff, 0xc0a9_0000];

struct Passing {
    random: Random,
    capture: Capture,
    clock: u32,
}

/// From no record to thousands, with headers as a capture writer writes them.
pub fn captures(order: Order) -> Vec<Specimen> {
    let lengths = [0, 1, 2, 30, 400, 3_000, 8_000];
    let specimen = |records: usize| {
        let what = format!("{records} records that are forwarded");
        Specimen { what, bytes: make(records, order).bytes }
    };
    lengths.map(specimen).into()
}

fn make(records: usize, order: Order) -> Capture {
    let mut random = Random(records as u64);
    let clock = random.below(1 << 31);
    let mut passing = Passing { random, capture: Capture::plain(order), clock };
    while passing.capture.records < records {
        let left = records - passing.capture.records;
        match passing.random.below(5) {
            0 => passing.not_ours(),
            1 => passing.another_type(),
            2 => passing.plant_sends(),
            _ => passing.answered_session(left),
        }
        passing.clock += passing.random.pick(&[0, 0, 1, 7, 60, 600, 7_200]);
    }
    passing.capture
}

impl Passing {
    fn put(&mut self, second: u32, frame: &[u8]) {
        self.capture.record(second, frame, &mut self.random);
    }

    /// Few machines, so that they meet again.
    fn connection(&mut self) -> Packet {
        let (cell, plant) = (cell_address(self.random.below(300)), PLANT + self.random.below(20));
        let protocol = self.random.pick(&PROTOCOLS);
        let port = if protocol == TCP { self.random.pick(&PORTS) } else { 0 };
        Packet::opening(cell, plant, protocol, port)
    }

    /// Both ends on one side, or one on neither.
    fn not_ours(&mut self) {
        let on = self.connection();
        let stranger = self.random.pick(&NEITHER);
        let ends = [(on.cell, on.cell ^ 1), (on.plant, on.plant ^ 1), (on.cell, stranger), (stranger, on.plant)];
        let (cell, plant) = self.random.pick(&ends);
        let frame = frames::odd(Packet { cell, plant, ..on }, &mut self.random);
        self.put(self.clock, &frame);
    }

    /// At any time, for it does not reach the gateway; but the first record is the one that sets the clock.
    fn another_type(&mut self) {
        let frame = frames::other_type(self.connection(), &mut self.random);
        let any = self.random.word();
        self.put(if self.capture.records == 0 { self.clock } else { any }, &frame);
    }

    /// What comes from the plant is forwarded, whatever it is.
    fn plant_sends(&mut self) {
        let flags = self.random.word() as u8;
        let packet = Packet { from: Side::Plant, flags, ..self.connection() };
        let frame = frames::odd(packet, &mut self.random);
        self.put(self.clock, &frame);
    }

    /// Opened by either side and answered by the other one before anything else happens. A whole frame each: later fragments
    /// would be on another slot. Where only one record is `left` it comes from the plant, and nothing is unanswered.
    fn answered_session(&mut self, left: usize) {
        let on = self.connection();
        let opener = if left > 1 { self.random.pick(&SIDES) } else { Side::Plant };
        let length = self.random.between(2, 10) as usize;
        for (side, flags) in SESSION.iter().take(length.min(left)) {
            let from = if *side == opener { Side::Cell } else { Side::Plant };
            let frame = frames::usual(Packet { from, flags: *flags, ..on }, &mut self.random);
            self.put(self.clock, &frame);
            self.clock += self.random.below(3);
        }
    }
}
