//! The bytes of a classic pcap capture, version 2.4, in either byte order.

use crate::random::Random;
use std::fmt;
use std::ops::Range;

#[derive(Clone, Copy, Debug, PartialEq)]
pub enum Order {
    Little,
    Big,
}

pub const ORDERS: [Order; 2] = [Order::Little, Order::Big];

impl fmt::Display for Order {
    fn fmt(&self, to: &mut fmt::Formatter) -> fmt::Result {
        to.pad(if *self == Order::Little { "little" } else { "big" })
    }
}

pub struct Capture {
    pub bytes: Vec<u8>,
    pub records: usize,
    order: Order,
}

/// Where a capture's header holds zone, accuracy and snap length.
const DECIDE_NOTHING: Range<usize> = 8..20;

impl Capture {
    /// A capture without records. Zone, accuracy and snap length decide nothing, so they hold junk.
    pub fn new(order: Order, random: &mut Random) -> Capture {
        let mut capture = Capture::plain(order);
        capture.bytes[DECIDE_NOTHING].copy_from_slice(&random.bytes(DECIDE_NOTHING.len()));
        capture
    }

    /// The same with zone 0, accuracy 0 and snap length 2,048: in little-endian order, what a capture writer writes.
    pub fn plain(order: Order) -> Capture {
        let mut capture = Capture { bytes: Vec::new(), records: 0, order };
        capture.put([0xa1, 0xb2, 0xc3, 0xd4]);
        capture.put([0, 2]);
        capture.put([0, 4]);
        for word in [0_u32, 0, 2_048, 1] {
            capture.put(word.to_be_bytes());
        }
        capture
    }

    pub fn with_plain_header(mut self) -> Capture {
        self.bytes[DECIDE_NOTHING].copy_from_slice(&Capture::plain(self.order).bytes[DECIDE_NOTHING]);
        self
    }

    /// A whole record; now and then its original length isn't its captured length.
    pub fn record(&mut self, second: u32, frame: &[u8], random: &mut Random) {
        let captured = frame.len() as u32;
        let original = if random.chance(5) { random.word() } else { captured };
        self.record_header([second, random.word(), captured, original]);
        self.bytes.extend(frame);
        self.records += 1;
    }

    /// Second, microseconds, captured and original length: alone, as at a damaged end.
    pub fn record_header(&mut self, words: [u32; 4]) {
        for word in words {
            self.put(word.to_be_bytes());
        }
    }

    /// A number, given with its most significant byte first.
    fn put<const N: usize>(&mut self, mut number: [u8; N]) {
        if self.order == Order::Little {
            number.reverse();
        }
        self.bytes.extend(number);
    }
}
