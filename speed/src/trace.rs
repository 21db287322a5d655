//! Made-up traffic, the same from run to run: packets in memory from their IPv4 header on, and the same as a capture.

/// The first second, and how fast time goes on: a million packets take 4,000 seconds and pass 66 or 67 minute boundaries.
pub const START: u32 = 1_700_000_000;
const PACKETS_A_SECOND: usize = 250;

const CELL_HOSTS: u32 = 2_000;
const PLANT_HOSTS: u32 = 1_000;
const SCANNERS: u32 = 16;
/// Connections that are under way at a time.
const FLOWS: usize = 400;

const FIN: u8 = 1;
const SYN: u8 = 2;
const PSH: u8 = 8;
const ACK: u8 = 16;

/// What the traffic is made of: percent of connections and of scans; the rest is not ours.
#[derive(Clone, Copy)]
pub struct Mix {
    pub name: &'static str,
    connections: u32,
    scans: u32,
}

pub const MIXED: Mix = Mix { name: "mixed", connections: 88, scans: 8 };
pub const KINDS: [Mix; 4] = [
    MIXED,
    Mix { name: "sessions and polls", connections: 100, scans: 0 },
    Mix { name: "scans, blocked", connections: 0, scans: 100 },
    Mix { name: "not ours", connections: 0, scans: 0 },
];

/// Numbers that follow from a seed alone (splitmix64).
pub struct Random(pub u64);

impl Random {
    pub fn word(&mut self) -> u32 {
        self.0 = self.0.wrapping_add(0x9e37_79b9_7f4a_7c15);
        let mixed = (self.0 ^ (self.0 >> 30)).wrapping_mul(0xbf58_476d_1ce4_e5b9);
        let mixed = (mixed ^ (mixed >> 27)).wrapping_mul(0x94d0_49bb_1331_11eb);
        (mixed >> 32) as u32
    }

    pub fn below(&mut self, limit: u32) -> u32 {
        self.word() % limit
    }
}

/// The cell's hosts are scattered over 10.0.0.0/8, the plant's are the first of 192.168.0.0/16.
fn cell_host(number: u32) -> u32 {
    0x0a00_0000 | (number.wrapping_mul(40_503) & 0x00ff_ffff)
}

fn plant_host(number: u32) -> u32 {
    0xc0a8_0000 | number
}

/// A TCP session or a series of UDP polls, and how far it has come. `ends` has the opener first.
struct Flow {
    ends: [(u32, u16); 2],
    is_udp: bool,
    at: u32,
    last: u32,
}

impl Flow {
    /// One in eight is UDP, and one in ten is opened by the plant.
    fn new(random: &mut Random) -> Flow {
        let cell = (cell_host(random.below(CELL_HOSTS)), 1024 + random.below(60_000) as u16);
        let port = [80, 102, 443, 502, 4840, 44_818][random.below(6) as usize];
        let plant = (plant_host(random.below(PLANT_HOSTS)), port);
        let ends = if random.below(10) == 0 { [plant, cell] } else { [cell, plant] };
        Flow { ends, is_udp: random.below(8) == 0, at: 0, last: 8 + random.below(40) }
    }

    /// Opens in three, closes in three, and in between one side asks and the other answers.
    fn next(&mut self, random: &mut Random) -> Packet {
        let (flags, turn) = match (self.at, self.last - self.at) {
            (0, _) => (SYN, 0),
            (1, _) => (SYN | ACK, 1),
            (2, _) => (ACK, 0),
            (_, 2) => (FIN | ACK, 0),
            (_, 1) => (FIN | ACK, 1),
            (_, 0) => (ACK, 0),
            (at, _) => (PSH | ACK, (at + 1) as usize % 2),
        };
        let from = if self.is_udp { self.at as usize % 2 } else { turn };
        let data = if self.is_udp || flags & PSH != 0 { 12 + random.below(100) } else { 0 };
        self.at += 1;
        let protocol = if self.is_udp { 17 } else { 6 };
        Packet { from: self.ends[from], to: self.ends[1 - from], protocol, flags, data: data as usize }
    }

    fn is_over(&self) -> bool {
        self.at > self.last
    }
}

struct Packet {
    from: (u32, u16),
    to: (u32, u16),
    protocol: u8,
    flags: u8,
    data: usize,
}

fn scan(random: &mut Random) -> Packet {
    let from = (cell_host(CELL_HOSTS + random.below(SCANNERS)), 40_000);
    let to = (plant_host(random.below(PLANT_HOSTS)), random.word() as u16);
    Packet { from, to, protocol: 6, flags: SYN, data: 0 }
}

/// Inside the cell, inside the plant, or between the cell and the rest of the world.
fn not_ours(random: &mut Random) -> Packet {
    let [cell, other] = [(); 2].map(|_| cell_host(random.below(CELL_HOSTS)));
    let [plant, server] = [(); 2].map(|_| plant_host(random.below(PLANT_HOSTS)));
    let (from, to) = [(cell, other), (plant, server), (0x0808_0808, cell)][random.below(3) as usize];
    Packet { from: (from, 443), to: (to, 50_000), protocol: 6, flags: ACK, data: 40 }
}

/// Packets one after the other in `bytes`, each by its second and where it lies.
pub struct Trace {
    bytes: Vec<u8>,
    packets: Vec<(u32, u32, u32)>,
}

impl Trace {
    pub fn made(mix: Mix, packets: usize) -> Trace {
        let mut random = Random(2026);
        let mut flows: Vec<Flow> = (0..FLOWS).map(|_| Flow::new(&mut random)).collect();
        let mut trace = Trace { bytes: Vec::new(), packets: Vec::with_capacity(packets) };
        for _ in 0..packets {
            let drawn = random.below(100);
            let packet = if drawn < mix.connections {
                let flow = &mut flows[random.below(FLOWS as u32) as usize];
                let packet = flow.next(&mut random);
                if flow.is_over() {
                    *flow = Flow::new(&mut random);
                }
                packet
            } else if drawn < mix.connections + mix.scans {
                scan(&mut random)
            } else {
                not_ours(&mut random)
            };
            trace.put(packet);
        }
        trace
    }

    /// As it comes out of an Ethernet frame: at least 46 bytes, of which the total length may name fewer.
    fn put(&mut self, packet: Packet) {
        let start = self.bytes.len();
        let second = START + (self.packets.len() / PACKETS_A_SECOND) as u32;
        let transport = if packet.protocol == 6 { 20 } else { 8 };
        let total = 20 + transport + packet.data;
        self.bytes.resize(start + total.max(46), 0);
        let bytes = &mut self.bytes[start..];
        bytes[0] = 0x45;
        bytes[2..4].copy_from_slice(&(total as u16).to_be_bytes());
        bytes[8..10].copy_from_slice(&[64, packet.protocol]);
        bytes[12..16].copy_from_slice(&packet.from.0.to_be_bytes());
        bytes[16..20].copy_from_slice(&packet.to.0.to_be_bytes());
        bytes[20..22].copy_from_slice(&packet.from.1.to_be_bytes());
        bytes[22..24].copy_from_slice(&packet.to.1.to_be_bytes());
        if packet.protocol == 6 {
            bytes[32..34].copy_from_slice(&[0x50, packet.flags]);
        } else {
            bytes[24..26].copy_from_slice(&(8 + packet.data as u16).to_be_bytes());
        }
        self.packets.push((second, start as u32, self.bytes.len() as u32));
    }

    /// Each packet's second and its bytes.
    pub fn packets(&self) -> impl Iterator<Item = (u32, &[u8])> {
        self.packets.iter().map(|&(second, start, end)| (second, &self.bytes[start as usize..end as usize]))
    }

    /// The same as a capture: classic pcap, the least significant byte first, Ethernet.
    pub fn capture(&self) -> Vec<u8> {
        let words = |words: &[u32]| words.iter().flat_map(|word| word.to_le_bytes()).collect::<Vec<u8>>();
        let mut capture = words(&[0xa1b2_c3d4, 0x0004_0002, 0, 0, 2_048, 1]);
        for (number, (second, packet)) in self.packets().enumerate() {
            let length = 14 + packet.len() as u32;
            let micros = (number % PACKETS_A_SECOND * (1_000_000 / PACKETS_A_SECOND)) as u32;
            capture.extend(words(&[second, micros, length, length]));
            capture.extend([2, 0, 0, 0, 0, 1, 2, 0, 0, 0, 0, 2, 8, 0]);
            capture.extend(packet);
        }
        capture
    }
}
