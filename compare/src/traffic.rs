//! Traffic from a seed: sessions, scans, crowds and odd frames, and the clock by which they happen.

use crate::capture::{Capture, Order, ORDERS};
use crate::frames::{self, Packet, Side, ACK, FIN, PSH, RST, SYN, TCP, UDP};
use crate::random::Random;
use Side::{Cell, Plant};

const CELL: u32 = 0x0a00_0000; // 10.0.0.0/8
pub const PLANT: u32 = 0xc0a8_0000; // 192.168.0.0/16
pub const SIDES: [Side; 2] = [Cell, Plant];
pub const PORTS: [u16; 8] = [0, 22, 80, 102, 443, 502, 44_818, 65_535];
pub const PROTOCOLS: [u8; 9] = [TCP, TCP, UDP, UDP, UDP, 1, 47, 0, 255];

/// The first and last address of either side, and their neighbours outside it.
const EDGES: [u32; 8] =
    [0x0a00_0000, 0x0aff_ffff, 0x09ff_ffff, 0x0b00_0000, 0xc0a8_0000, 0xc0a8_ffff, 0xc0a7_ffff, 0xc0a9_0000];

/// Flags as they are seen on wires: opening, SYN+ACK, closing, plain; some with those that are ignored.
#[rustfmt::skip]
const SEEN: [u8; 15] = [
    SYN, SYN, SYN | 0xc0, SYN | ACK, SYN | ACK | PSH, FIN, RST, FIN | ACK, RST | ACK, FIN | PSH | ACK,
    ACK, ACK, PSH | ACK, PSH | ACK | 0x20, 0,
];

/// What stands beside SYN in the openings that testers send (document 02, K5).
const BESIDE_SYN: [u8; 3] = [FIN, RST, FIN | RST];

/// None, or some, of the flags that are ignored.
const IGNORED: [u8; 6] = [0, 0, PSH, 0x20, 0xc0, PSH | 0xe0];

/// What passes where those do not: plain, SYN+ACK, and SYN+ACK with something beside it, which is plain.
const NO_OPENINGS: [u8; 5] = [ACK, SYN | ACK, SYN | ACK | FIN, SYN | ACK | RST, SYN | ACK | FIN | RST];

/// A session in full. One opened from the plant has the sides exchanged.
#[rustfmt::skip]
pub const SESSION: [(Side, u8); 10] = [
    (Cell, SYN), (Plant, SYN | ACK), (Cell, ACK), (Cell, PSH | ACK), (Plant, PSH | ACK),
    (Plant, ACK), (Cell, FIN | ACK), (Plant, FIN | ACK), (Cell, ACK), (Plant, RST),
];

/// Seconds around ten minutes, by which a mark is kept or cleared, shorter ones that add up to them, and around two hours.
const LEAPS: [u32; 16] = [120, 240, 300, 420, 540, 599, 599, 600, 600, 601, 659, 660, 661, 7_199, 7_200, 7_201];

/// 63, 64, 256 and 65,536 minutes: what is kept in six, eight or sixteen bits would come round.
const LONG_LEAPS: [u32; 4] = [3_780, 3_840, 15_360, 3_932_160];

/// How many connections are remembered, to be taken up again.
const MEMORY: usize = 300;

/// What a seed dwells on.
struct Theme {
    /// How many cell addresses and plant addresses hold sessions.
    crowd: u32,
    plants: u32,
    /// Weights of the clock's moves, in the order of `Traffic::pass_time`.
    pace: [u32; 6],
    /// Weights of the scenes, in the order of `Traffic::play_scene`.
    scenes: [u32; 12],
}

/// The place of `Traffic::odd_openings` among the scenes.
const ODD_OPENINGS: usize = 11;

/// A seed's theme is the one at its remainder by six: odd frames; every day; a crowd at few plant addresses; scans, and testers'
/// odd openings; pauses; time that almost stands still, over a crowd.
const THEMES: [Theme; 6] = [
    Theme { crowd: 900, plants: 40, pace: [40, 30, 10, 10, 3, 1], scenes: [18, 2, 1, 6, 8, 1, 10, 2, 10, 20, 8, 2] },
    Theme { crowd: 1_500, plants: 60, pace: [30, 30, 15, 15, 3, 0], scenes: [32, 2, 2, 6, 8, 1, 12, 3, 4, 4, 3, 2] },
    Theme { crowd: 6_000, plants: 5, pace: [30, 20, 15, 15, 8, 1], scenes: [16, 2, 12, 4, 8, 1, 8, 3, 2, 2, 2, 2] },
    Theme { crowd: 400, plants: 200, pace: [40, 20, 20, 20, 2, 1], scenes: [10, 2, 1, 14, 20, 4, 8, 2, 2, 2, 2, 30] },
    Theme { crowd: 700, plants: 100, pace: [20, 20, 20, 20, 15, 2], scenes: [20, 2, 1, 6, 10, 4, 14, 16, 2, 2, 2, 2] },
    Theme { crowd: 4_000, plants: 250, pace: [90, 10, 1, 0, 1, 0], scenes: [18, 2, 8, 4, 10, 1, 10, 0, 4, 3, 2, 2] },
];

struct Traffic {
    random: Random,
    theme: &'static Theme,
    capture: Capture,
    wanted: usize,
    clock: u32,
    scanners: [u32; 5],
    /// Connections so far, each as a packet of it; never empty.
    known: Vec<Packet>,
    /// The last of the flag bytes that come in turn.
    turn: u8,
}

fn theme_of(seed: u64) -> &'static Theme {
    &THEMES[(seed % THEMES.len() as u64) as usize]
}

/// Whether a seed's theme plays no scene more often than odd openings.
pub fn dwells_on_odd_openings(seed: u64) -> bool {
    let scenes = theme_of(seed).scenes;
    scenes.iter().max() == Some(&scenes[ODD_OPENINGS])
}

/// Not by parity alone, so that each theme meets both orders.
pub fn order_of(seed: u64) -> Order {
    ORDERS[((seed ^ (seed / 6)) % 2) as usize]
}

/// Its header is the one that a capture writer writes; those of the damaged captures hold junk.
pub fn main_capture(seed: u64, records: usize, order: Order) -> Capture {
    make(seed, records, order).with_plain_header()
}

pub fn make(seed: u64, records: usize, order: Order) -> Capture {
    let mut random = Random(seed);
    let capture = Capture::new(order, &mut random);
    // Any second, but for a seed that starts at 0 and one that meets the last second on its way.
    let clock = match seed % 12 {
        1 => 0,
        7 => u32::MAX.saturating_sub(20 * records as u32),
        _ => random.word(),
    };
    let scanners = [(); 5].map(|_| cell_address(random.word()));
    let theme = theme_of(seed);
    let mut traffic = Traffic { random, theme, capture, wanted: records, clock, scanners, known: Vec::new(), turn: 0 };
    traffic.begin();
    while traffic.capture.records < records {
        traffic.play_scene();
        traffic.pass_time();
    }
    traffic.capture
}

/// The cell's addresses, scattered; numbers below 2^24 name different ones.
pub fn cell_address(number: u32) -> u32 {
    CELL | (number.wrapping_mul(40_503) & 0x00ff_ffff)
}

/// The clock.
impl Traffic {
    /// Between scenes.
    fn pass_time(&mut self) {
        match self.random.weighted(&self.theme.pace) {
            0 => {}
            1 => self.wait(1, 5),
            2 => self.go_to_a_minute(),
            3 => self.wait(20, 180),
            4 => self.leap(&LEAPS),
            _ => self.leap(&LONG_LEAPS),
        }
    }

    fn wait(&mut self, least: u32, most: u32) {
        self.clock = self.clock.saturating_add(self.random.between(least, most));
    }

    fn leap(&mut self, leaps: &[u32]) {
        self.clock = self.clock.saturating_add(self.random.pick(leaps));
    }

    /// To just before, onto, or just after the next multiple of 60.
    fn go_to_a_minute(&mut self) {
        let missing = 60 - self.clock % 60;
        self.wait(missing - 1, missing + 1);
    }
}

/// Records.
impl Traffic {
    /// A record, unless there are enough: then the rest of a scene is lost.
    fn put(&mut self, second: u32, frame: &[u8]) {
        if self.capture.records < self.wanted {
            self.capture.record(second, frame, &mut self.random);
        }
    }

    /// A packet on the connection, now. Inside a scene, time mostly stands still.
    fn send(&mut self, on: Packet, from: Side, flags: u8) {
        let packet = Packet { from, flags, ..on };
        let make = if self.random.chance(6) { frames::odd } else { frames::usual };
        let frame = make(packet, &mut self.random);
        self.put(self.clock, &frame);
        if self.random.chance(10) {
            self.wait(1, 2);
        }
    }

    /// Of any kind. Where the port is 0, every protocol is on the same slot.
    fn send_any(&mut self, on: Packet, from: Side) {
        let protocol = if on.port == 0 { self.random.pick(&PROTOCOLS) } else { on.protocol };
        let flags = self.any_flags();
        self.send(Packet { protocol, ..on }, from, flags);
    }

    /// Mostly as they are seen; else all 256 values in turn.
    fn any_flags(&mut self) -> u8 {
        if self.random.chance(60) {
            return self.random.pick(&SEEN);
        }
        self.turn = self.turn.wrapping_add(1);
        self.turn
    }

    fn any_packet(&mut self) -> Packet {
        let on = self.random.pick(&self.known);
        Packet { from: self.random.pick(&SIDES), flags: self.any_flags(), ..on }
    }
}

/// Connections.
impl Traffic {
    /// Between one of the theme's cell addresses and one of its plant addresses.
    fn usual_connection(&mut self) -> Packet {
        let cell = cell_address(self.random.below(self.theme.crowd));
        let plant = PLANT + self.random.below(self.theme.plants);
        let port = self.random.pick(&PORTS);
        self.connection(cell, plant, port)
    }

    /// From a cell machine to any plant address and port.
    fn stranger(&mut self, cell: u32) -> Packet {
        let plant = PLANT + self.random.below(0x1_0000);
        let port = self.random.word() as u16;
        self.connection(cell, plant, port)
    }

    /// Of three, one isn't TCP, or is TCP with the port that all else has.
    fn connection(&mut self, cell: u32, plant: u32, port: u16) -> Packet {
        let mut new = Packet::opening(cell, plant, TCP, port);
        if self.random.chance(33) {
            (new.protocol, new.port) = (self.random.pick(&PROTOCOLS), 0);
        }
        if self.known.len() < MEMORY {
            self.known.push(new);
        } else {
            self.known[self.random.below(MEMORY as u32) as usize] = new;
        }
        new
    }
}

/// Scenes.
impl Traffic {
    fn play_scene(&mut self) {
        match self.random.weighted(&self.theme.scenes) {
            0 => self.session(),
            1 => self.good_machine(),
            2 => self.crowd(),
            3 => self.scan(),
            4 => self.visit_the_blocked(),
            5 => self.stubborn_scanner(),
            6 => self.old_connections(),
            7 => self.pauses(),
            8 => self.edges(),
            9 => self.odd_frames(),
            ODD_OPENINGS => self.odd_openings(),
            _ => self.back_in_time(),
        }
    }

    /// The gateway starts at the first record's second even where that record is dead: earlier ones are before its clock.
    fn begin(&mut self) {
        self.usual_connection();
        if self.random.chance(50) {
            let frame = frames::dead(self.any_packet(), &mut self.random);
            self.put(self.clock, &frame);
            self.earlier_records();
        }
    }

    /// Opened by either side, broken off anywhere; some are taken up in the middle.
    fn session(&mut self) {
        let on = self.usual_connection();
        let opener = self.random.pick(&SIDES);
        let start = if self.random.chance(75) { 0 } else { self.random.below(9) as usize };
        for (side, flags) in SESSION.iter().skip(start).take(self.random.between(1, 10) as usize) {
            let from = if *side == opener { Cell } else { Plant };
            self.send(on, from, *flags);
        }
    }

    /// Many machines with mostly one contact each, so that lines overflow and equal counts compete for the same way.
    fn crowd(&mut self) {
        for _ in 0..self.random.between(20, 150) {
            let on = self.usual_connection();
            let flags = if self.random.chance(90) { SYN } else { self.any_flags() };
            self.send(on, Cell, flags);
            if self.random.chance(35) {
                self.send(on, Plant, SYN | ACK);
            }
        }
    }

    fn try_stranger(&mut self, scanner: u32) -> Packet {
        let on = self.stranger(scanner);
        self.send(on, Cell, SYN);
        on
    }

    /// Strangers keep silent, refuse or, some of them, answer; then the scanner goes on in every manner.
    fn scan(&mut self) {
        let scanner = self.random.pick(&self.scanners);
        let (percent, answer) = self.random.pick(&[(0, 0), (0, 0), (100, RST), (100, RST | ACK), (15, SYN | ACK)]);
        for _ in 0..self.random.between(12, 30) {
            let on = self.try_stranger(scanner);
            if self.random.chance(percent) {
                self.send(on, Plant, answer);
            }
        }
        for _ in 0..self.random.between(3, 10) {
            let on = self.stranger(scanner);
            self.send_any(on, Cell);
        }
    }

    /// The plant opens towards a blocked machine, which then sends packets of all kinds on that slot. A credit brings it under
    /// T; another stranger gets it blocked again, now with both marks on the slot.
    fn visit_the_blocked(&mut self) {
        let scanner = self.random.pick(&self.scanners);
        for _ in 0..self.random.between(8, 16) {
            self.try_stranger(scanner);
        }
        let mut on = self.stranger(scanner);
        on.port *= self.random.below(2) as u16;
        self.send_any(on, Plant);
        for _ in 0..self.random.between(4, 14) {
            self.send_any(on, Cell);
            if self.random.chance(40) {
                self.try_stranger(scanner);
            }
        }
    }

    /// The plant speaks to a blocked machine, which then opens on that slot, each time with something beside SYN. The first packet
    /// that passes there tells by its verdict whether one of them left a mark, and brings the machine under T; another stranger
    /// gets it blocked again, now with both marks on the slot.
    fn odd_openings(&mut self) {
        let scanner = self.random.pick(&self.scanners);
        for _ in 0..self.random.between(12, 16) {
            self.try_stranger(scanner);
        }
        let on = Packet { protocol: TCP, ..self.stranger(scanner) };
        let spoken = self.random.pick(&[SYN, SYN | FIN, ACK]);
        self.send(on, Plant, spoken);
        for _ in 0..self.random.between(3, 12) {
            let flags = SYN | self.random.pick(&BESIDE_SYN) | self.random.pick(&IGNORED);
            self.send(on, Cell, flags);
            if self.random.chance(15) {
                let flags = self.random.pick(&NO_OPENINGS);
                self.send(on, Cell, flags);
                self.try_stranger(scanner);
            }
        }
    }

    /// Each minute, blocked again, it repeats itself on one slot. Dropped packets keep no mark alive, forwarded ones do.
    fn stubborn_scanner(&mut self) {
        let scanner = self.random.pick(&self.scanners);
        let (opener, flags) = self.random.pick(&[(Cell, SYN), (Plant, SYN), (Plant, RST), (Plant, ACK)]);
        self.go_to_a_minute();
        let on = self.stranger(scanner);
        self.send(on, opener, SYN);
        for minute in 0..13 {
            for _ in 0..if minute == 0 { 12 } else { 2 } {
                self.try_stranger(scanner);
            }
            self.send(on, Cell, flags);
            self.wait(60, 60);
        }
        self.send(on, Cell, ACK);
    }

    /// Its strangers answer, and it answers strangers, until its count lies on the floor.
    fn good_machine(&mut self) {
        let cell = cell_address(self.random.below(5));
        for _ in 0..self.random.between(15, 40) {
            let on = self.stranger(cell);
            let sides = self.random.pick(&[SIDES, [Plant, Cell]]);
            self.send(on, sides[0], SYN);
            self.send(on, sides[1], SYN | ACK);
        }
    }

    fn old_connections(&mut self) {
        for _ in 0..self.random.between(3, 15) {
            let (on, from) = (self.random.pick(&self.known), self.random.pick(&SIDES));
            self.send_any(on, from);
        }
    }

    /// The same connections before and after leaps that start at a minute's edge: are their marks kept, or cleared?
    fn pauses(&mut self) {
        let connections = [(); 6].map(|_| self.random.pick(&self.known));
        for _ in 0..self.random.between(3, 6) {
            self.go_to_a_minute();
            for on in connections {
                let from = self.random.pick(&SIDES);
                self.send_any(on, from);
            }
            self.leap(&LEAPS);
        }
    }

    /// Addresses at the edges of the sides, strangers to both, and pairs from one side.
    fn edges(&mut self) {
        for _ in 0..self.random.between(4, 12) {
            let on = self.usual_connection();
            let [one, other, anyone] = [self.random.pick(&EDGES), self.random.pick(&EDGES), self.random.word()];
            let ends = [one, one, other, other, on.cell, on.plant, anyone];
            let (cell, plant) = (self.random.pick(&ends), self.random.pick(&ends));
            self.send_any(Packet { cell, plant, ..on }, Cell);
        }
    }

    /// A dead frame moves no clock, so its time may lie ahead of the next record's.
    fn odd_frames(&mut self) {
        for _ in 0..self.random.between(2, 5) {
            let dead = frames::dead(self.any_packet(), &mut self.random);
            let ahead = self.random.pick(&[0, 0, 0, 1, 60, 660, 86_400]);
            self.put(self.clock.saturating_add(ahead), &dead);
            let odd = frames::odd(self.any_packet(), &mut self.random);
            self.put(self.clock, &odd);
        }
    }

    /// Not ours, mostly, but it moves the clock, so that what was in time a moment ago is refused by 4.
    fn back_in_time(&mut self) {
        let on = self.random.pick(&self.known);
        let plant = self.random.pick(&[on.plant, on.cell, EDGES[7]]);
        self.wait(1, 2);
        self.send_any(Packet { plant, ..on }, Cell);
        self.earlier_records();
    }

    /// Good or dead: what reaches the gateway is refused by 4.
    fn earlier_records(&mut self) {
        for _ in 0..self.random.between(1, 4) {
            let make = if self.random.chance(75) { frames::usual } else { frames::dead };
            let frame = make(self.any_packet(), &mut self.random);
            let before = self.random.pick(&[1, 1, 59, 60, 3_600, u32::MAX]);
            self.put(self.clock.saturating_sub(before), &frame);
        }
    }
}
