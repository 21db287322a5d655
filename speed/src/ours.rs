//! The proved gateway's calls that are timed, and memory to lend them. include/spritgrommet.h says what they do.

use crate::judging::{Judge, Left, Told};
use spritgrommet::raw::{self, Placing, PlainAnswer};

pub use spritgrommet::raw::pass;
pub use spritgrommet::{encrypt, Limits, Settings};

/// Keys that are not zero: with zeros some additions would cost nothing.
pub const KEYS: [u32; 8] =
    [0x243f_6a88, 0x85a3_08d3, 0x1319_8a2e, 0x0370_7344, 0xa409_3822, 0x299f_31d0, 0x082e_fa98, 0xec4e_6c89];

/// The settings of bin/verdicts, T 10 among them, but with keys.
pub fn settings() -> Settings {
    Settings::factory().with_threshold(10).with_keys(KEYS)
}

/// The caller's side: all that is lent at each call.
pub struct Caller {
    pub settings: Settings,
    pub placing: Placing,
    pub cell: Vec<u8>,
    pub plant: Vec<u8>,
    pub records: Vec<u8>,
    pub tags: Vec<u32>,
    pub counts: Vec<i16>,
    pub clock: u32,
}

impl Caller {
    /// Started cold at time 0.
    pub fn new(settings: Settings, cell: &[u8], plant: &[u8], records: usize, lines: usize) -> Caller {
        let (cell, plant, mut clock) = (cell.to_vec(), plant.to_vec(), 0);
        let (mut records, mut tags, mut counts) = (vec![0; records], vec![0; 4 * lines], vec![0; 4 * lines]);
        let started = raw::cold_start(settings, &mut records, &mut tags, &mut counts, &mut clock, 0);
        assert_eq!(started.refusal, 0, "the cold start was refused");
        Caller { settings, placing: started.placing, cell, plant, records, tags, counts, clock }
    }
}

impl Judge for Caller {
    type Answer = PlainAnswer;

    fn cold_start(&mut self, time: u32) {
        let Caller { settings, records, tags, counts, clock, .. } = self;
        let started = raw::cold_start(*settings, records, tags, counts, clock, time);
        assert_eq!(started.refusal, 0, "the cold start was refused");
        self.placing = started.placing;
    }

    #[inline]
    fn judge(&mut self, time: u32, packet: &[u8]) -> PlainAnswer {
        let Caller { settings, placing, cell, plant, records, tags, counts, clock } = self;
        raw::judge(*placing, cell, plant, records, tags, counts, clock, settings.limits, time, packet)
    }

    fn told(answer: PlainAnswer) -> Told {
        (answer.refusal, answer.verdict, answer.count, (answer.replaced == 1).then_some(answer.address))
    }

    fn left(&self) -> Left<'_> {
        (&self.records, &self.tags, &self.counts, self.clock)
    }
}
