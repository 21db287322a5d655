//! The bytes of Ethernet frames: usual ones, odd ones that are still judged, and dead ones that are not.

use crate::random::Random;

pub const TCP: u8 = 6;
pub const UDP: u8 = 17;

pub const FIN: u8 = 1;
pub const SYN: u8 = 2;
pub const RST: u8 = 4;
pub const PSH: u8 = 8;
pub const ACK: u8 = 16;

/// Lengths, in bytes.
const ETHERNET: usize = 14;
const IP: usize = 20;
const LEAST_ON_THE_WIRE: usize = 60;
const MOST_CAPTURED: usize = 2_048;

#[derive(Clone, Copy, PartialEq)]
pub enum Side {
    Cell,
    Plant,
}

/// What decides a line. The cell end's port doesn't, so each frame draws its own.
#[derive(Clone, Copy)]
pub struct Packet {
    pub from: Side,
    pub cell: u32,
    pub plant: u32,
    pub protocol: u8,
    /// The plant end's, if this is TCP.
    pub port: u16,
    pub flags: u8,
    pub fragment_offset: u16,
    pub header_words: u8,
}

impl Packet {
    /// The first packet of a connection from the cell.
    pub fn opening(cell: u32, plant: u32, protocol: u8, port: u16) -> Packet {
        Packet { from: Side::Cell, cell, plant, protocol, port, flags: SYN, fragment_offset: 0, header_words: 5 }
    }

    fn header_length(&self) -> usize {
        4 * usize::from(self.header_words)
    }

    fn transport_length(&self) -> usize {
        match self.protocol {
            TCP => 20,
            UDP => 8,
            _ => 0,
        }
    }

    /// All other bits are junk, so that a program which heeds them shows it: "more fragments" and UDP's ports, too.
    pub fn frame(&self, random: &mut Random) -> Vec<u8> {
        let transport = ETHERNET + self.header_length();
        let payload = random.below(40) as usize;
        let mut frame = random.bytes(transport + self.transport_length() + payload);
        let (from, to) = match self.from {
            Side::Cell => (self.cell, self.plant),
            Side::Plant => (self.plant, self.cell),
        };
        set(&mut frame, 12, &[0x08, 0x00, 0x40 | self.header_words]);
        set_total_length(&mut frame, self.header_length() + self.transport_length() + payload);
        let fragment_flags = random.word() as u16 & 0xe000;
        set(&mut frame, ETHERNET + 6, &(fragment_flags | self.fragment_offset).to_be_bytes());
        set(&mut frame, ETHERNET + 9, &[self.protocol]);
        set(&mut frame, ETHERNET + 12, &from.to_be_bytes());
        set(&mut frame, ETHERNET + 16, &to.to_be_bytes());
        if self.protocol == TCP {
            let plant_end = if self.from == Side::Cell { 2 } else { 0 };
            set(&mut frame, transport + plant_end, &self.port.to_be_bytes());
            set(&mut frame, transport + 13, &[self.flags]);
        }
        frame
    }

    /// That many usable bytes after the IP header: either the total length ends there, or the captured bytes do.
    fn with_usable(&self, usable: usize, random: &mut Random) -> Vec<u8> {
        let length = self.header_length() + usable;
        let mut frame = self.frame(random);
        if random.chance(50) {
            set_total_length(&mut frame, length);
        } else {
            frame.truncate(ETHERNET + length);
        }
        frame
    }
}

/// Whether a frame has an opening with FIN or RST beside SYN, if it has TCP's flags at all.
pub fn is_odd_opening(frame: &[u8]) -> bool {
    let header_length = 4 * usize::from(frame.get(ETHERNET).map_or(0, |first| first & 15));
    let flags = frame.get(ETHERNET + header_length + 13).copied().unwrap_or(0);
    flags & (SYN | ACK) == SYN && flags & (FIN | RST) != 0
}

fn set(frame: &mut [u8], at: usize, bytes: &[u8]) {
    frame[at..at + bytes.len()].copy_from_slice(bytes);
}

fn set_total_length(frame: &mut [u8], length: usize) {
    set(frame, ETHERNET + 2, &(length as u16).to_be_bytes());
}

fn grow(frame: &mut Vec<u8>, length: usize, random: &mut Random) {
    let missing = length.saturating_sub(frame.len());
    frame.extend(random.bytes(missing));
}

/// As most are captured, many with Ethernet's padding.
pub fn usual(packet: Packet, random: &mut Random) -> Vec<u8> {
    let mut frame = packet.frame(random);
    if random.chance(70) {
        grow(&mut frame, LEAST_ON_THE_WIRE, random);
    }
    frame
}

/// Odd, yet the gateway judges it.
pub fn odd(mut packet: Packet, random: &mut Random) -> Vec<u8> {
    packet.header_words = random.pick(&[5, 5, 5, 6, 7, 10, 14, 15]);
    let oddity = random.below(6);
    if oddity == 0 {
        return packet.with_usable(packet.transport_length(), random);
    }
    if oddity == 1 {
        // Plain, with port 0, and in no need of a transport header.
        packet.fragment_offset = random.pick(&[1, 185, 4_096, 8_191]);
        let usable = random.pick(&[0, 1, 7, 8]);
        return packet.with_usable(usable, random);
    }
    let mut frame = packet.frame(random);
    match oddity {
        2 => set_total_length(&mut frame, random.pick(&[1_500, 2_049, 65_535])),
        3 => grow(&mut frame, random.pick(&[MOST_CAPTURED, MOST_CAPTURED, MOST_CAPTURED - 1, 300]), random),
        _ => {}
    }
    frame
}

/// The gateway never judges it: another EtherType keeps it away, or refusal 5 or 6 does. So it moves no clock.
pub fn dead(mut packet: Packet, random: &mut Random) -> Vec<u8> {
    packet.header_words = random.pick(&[5, 5, 5, 6, 8, 15]);
    match random.below(7) {
        0 | 1 => return cut(packet, random),
        2 => return other_type(packet, random),
        3 | 4 => return lying(packet, random),
        5 => packet.protocol = TCP,
        _ => packet.protocol = UDP,
    }
    let enough = packet.transport_length();
    let usable = random.pick(&[enough - 1, enough - 1, enough / 2, 0]);
    packet.with_usable(usable, random)
}

/// Somewhere from its first byte to the last of its IP header.
fn cut(packet: Packet, random: &mut Random) -> Vec<u8> {
    let without_last = ETHERNET + packet.header_length() - 1;
    let length = random.pick(&[0, 1, 7, ETHERNET - 1, ETHERNET, ETHERNET + 1, ETHERNET + IP - 1, without_last]);
    let mut frame = packet.frame(random);
    frame.truncate(length);
    frame
}

/// ARP, IPv6, VLAN, and numbers that a program might take for IPv4's.
pub fn other_type(packet: Packet, random: &mut Random) -> Vec<u8> {
    let mut frame = packet.frame(random);
    let ether_type: u16 = random.pick(&[0x0806, 0x86dd, 0x8100, 0x0801, 0x0900, 0x0008]);
    set(&mut frame, 12, &ether_type.to_be_bytes());
    frame.truncate(random.pick(&[ETHERNET, 42, MOST_CAPTURED]));
    frame
}

/// Refusal 6. Some are cut as well: with 33 bytes 5 comes first, with 34 or 40 it would come after.
fn lying(packet: Packet, random: &mut Random) -> Vec<u8> {
    let mut frame = packet.frame(random);
    match random.below(3) {
        0 => frame[ETHERNET] = 0x40 | random.below(5) as u8,
        1 => frame[ETHERNET] ^= 0x10 << random.below(4),
        _ => set_total_length(&mut frame, random.pick(&[0, IP - 1, packet.header_length() - 1])),
    }
    if random.chance(30) {
        frame.truncate(ETHERNET + random.pick(&[IP - 1, IP, IP + 6]));
    }
    frame
}
