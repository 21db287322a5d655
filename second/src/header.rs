//! Header reading and kinds of packet.

use crate::refusal::Refusal;

#[derive(Clone, Copy, Debug, PartialEq, Eq)]
pub enum Kind {
    Plain,
    Udp,
    Opening,
    SynAck,
    Closing,
}

#[derive(Clone, Copy, Debug, PartialEq, Eq)]
pub struct Packet {
    pub source: u32,
    pub destination: u32,
    pub kind: Kind,
    /// The ports of the two ends "for TCP; otherwise 0".
    pub source_port: u16,
    pub destination_port: u16,
}

/// The two ends of a packet as its headers name them, and its protocol.
#[derive(Clone, Copy, Debug, PartialEq, Eq)]
pub struct Ends {
    pub source: u32,
    pub source_port: Option<u16>,
    pub destination: u32,
    pub destination_port: Option<u16>,
    pub protocol: u8,
}

const TCP: u8 = 6;
const UDP: u8 = 17;

/// Reads the bytes given, from the first byte of the IP header on.
pub fn read(given: &[u8]) -> Result<Packet, Refusal> {
    let (ip, transport) = split(given)?;
    let (kind, source_port, destination_port) = match (offset(ip), ip[9]) {
        // "With fragment offset 0, TCP needs 20 usable bytes after the IP header"
        (0, TCP) => match transport.first_chunk::<20>() {
            None => return Err(Refusal::HeaderEndsTooSoon),
            Some(tcp) => (
                kind_of_tcp(tcp[13]),
                u16::from_be_bytes([tcp[0], tcp[1]]),
                u16::from_be_bytes([tcp[2], tcp[3]]),
            ),
        },
        // "and UDP 8, else 5."
        (0, UDP) if transport.len() < 8 => return Err(Refusal::HeaderEndsTooSoon),
        (0, UDP) => (Kind::Udp, 0, 0),
        // "Other protocols are plain. A fragment with offset above 0 is plain and has port 0."
        _ => (Kind::Plain, 0, 0),
    };
    Ok(Packet {
        source: u32::from_be_bytes([ip[12], ip[13], ip[14], ip[15]]),
        destination: u32::from_be_bytes([ip[16], ip[17], ip[18], ip[19]]),
        kind,
        source_port,
        destination_port,
    })
}

/// The ends of a packet, refused as `read` refuses it. The ports are those that stand in a TCP or
/// UDP header; a later fragment and other protocols have none.
pub fn ends(given: &[u8]) -> Result<Ends, Refusal> {
    let Packet { source, destination, .. } = read(given)?;
    let (ip, transport) = split(given)?;
    let protocol = ip[9];
    let has_ports = offset(ip) == 0 && [TCP, UDP].contains(&protocol);
    let ports = transport.first_chunk::<4>().filter(|_| has_ports);
    Ok(Ends {
        source,
        source_port: ports.map(|p| u16::from_be_bytes([p[0], p[1]])),
        destination,
        destination_port: ports.map(|p| u16::from_be_bytes([p[2], p[3]])),
        protocol,
    })
}

/// The first 20 bytes of the IP header, and the usable bytes behind all of it.
fn split(given: &[u8]) -> Result<(&[u8; 20], &[u8]), Refusal> {
    // "fewer than 20 bytes, 5;"
    let Some(ip) = given.first_chunk::<20>() else {
        return Err(Refusal::HeaderEndsTooSoon);
    };
    // "then 6" - "the IP version isn't 4, header length below 5 words, or total length below
    // header length";
    let version = ip[0] >> 4;
    let header_words = ip[0] & 15;
    let header_length = usize::from(header_words) * 4;
    let total_length = usize::from(u16::from_be_bytes([ip[2], ip[3]]));
    if version != 4 || header_words < 5 || total_length < header_length {
        return Err(Refusal::BadHeader);
    }
    // "then bytes fewer than the header length, 5;"
    if given.len() < header_length {
        return Err(Refusal::HeaderEndsTooSoon);
    }
    // "then transport." "Usable bytes are the smaller of those given and the total length." Both
    // are at least the header length by now.
    let usable = given.len().min(total_length);
    Ok((ip, &given[header_length..usable]))
}

/// The fragment offset.
fn offset(ip: &[u8; 20]) -> u16 {
    u16::from_be_bytes([ip[6], ip[7]]) & 0x1fff
}

/// "its flags are FIN 1, SYN 2, RST 4, ACK 16; PSH, URG, ECE and CWR are ignored."
fn kind_of_tcp(flags: u8) -> Kind {
    let (syn, ack) = (flags & 2 != 0, flags & 16 != 0);
    match flags & (1 + 2 + 4 + 16) {
        // Document 02's K5, in place of document 01's "2 is opening;": "TCP SYN without ACK is
        // opening, so 2, 3, 6 and 7 are;"
        _ if syn && !ack => Kind::Opening,
        // "18 is SYN+ACK;", and K5: "18 stays SYN+ACK;"
        18 => Kind::SynAck,
        // "1, 4, 17 and 20 are closing;"
        1 | 4 | 17 | 20 => Kind::Closing,
        // "every other value is plain.", and K5: "19, 22 and 23 stay plain."
        _ => Kind::Plain,
    }
}

#[cfg(test)]
mod tests {
    use super::*;
    use crate::samples::{ip, tcp, udp};

    const SOON: Result<Kind, Refusal> = Err(Refusal::HeaderEndsTooSoon);
    const BAD: Result<Kind, Refusal> = Err(Refusal::BadHeader);

    fn kind(bytes: &[u8]) -> Result<Kind, Refusal> {
        read(bytes).map(|packet| packet.kind)
    }

    fn with(mut bytes: Vec<u8>, at: usize, value: u8) -> Vec<u8> {
        bytes[at] = value;
        bytes
    }

    #[test]
    fn addresses_and_ports() {
        let told = read(&tcp((0x0A00_0001, 40_000), (0xC0A8_0001, 80), 2));
        let packet = Packet {
            source: 0x0A00_0001,
            destination: 0xC0A8_0001,
            kind: Kind::Opening,
            source_port: 40_000,
            destination_port: 80,
        };
        assert_eq!(told, Ok(packet));
        let told = read(&udp(0x0A00_0001, 0xC0A8_0001));
        let packet = Packet { kind: Kind::Udp, source_port: 0, destination_port: 0, ..packet };
        assert_eq!(told, Ok(packet));
    }

    /// All 256 flag bytes. Each row has a value for ACK 16 and PSH 8, and the kinds with 0 to 7
    /// beside it, for FIN 1, SYN 2 and RST 4. URG 32, ECE 64 and CWR 128 change none of them.
    #[test]
    fn kinds_of_all_flags() {
        use Kind::{Closing, Opening, Plain, SynAck};
        let rows = [
            (0, [Plain, Closing, Opening, Opening, Closing, Plain, Opening, Opening]),
            (8, [Plain, Closing, Opening, Opening, Closing, Plain, Opening, Opening]),
            (16, [Plain, Closing, SynAck, Plain, Closing, Plain, Plain, Plain]),
            (24, [Plain, Closing, SynAck, Plain, Closing, Plain, Plain, Plain]),
        ];
        for (row, kinds) in rows {
            for (column, expected) in (0..).zip(kinds) {
                for ignored in [0, 32, 64, 96, 128, 160, 192, 224] {
                    let flags = row + column + ignored;
                    assert_eq!(kind(&tcp((1, 1), (2, 2), flags)), Ok(expected), "{flags}");
                }
            }
        }
    }

    #[test]
    fn refusals_5_and_6_of_the_ip_header() {
        let good = ip(1, 1, 2, &[]);
        assert_eq!(kind(&good), Ok(Kind::Plain));
        assert_eq!(kind(&good[..19]), SOON);
        assert_eq!(kind(&[]), SOON);
        assert_eq!(kind(&with(good.clone(), 0, 0x35)), BAD);
        assert_eq!(kind(&with(good.clone(), 0, 0x55)), BAD);
        assert_eq!(kind(&with(good.clone(), 0, 0x44)), BAD);
        assert_eq!(kind(&with(good.clone(), 3, 19)), BAD);
        // 5 for under 20 bytes stands before 6, 6 before 5 for a short long header.
        assert_eq!(kind(&with(good.clone(), 0, 0x55)[..19]), SOON);
        assert_eq!(kind(&with(good.clone(), 0, 0x5F)), BAD);
        assert_eq!(kind(&with(good, 0, 0x46)), BAD);
        // A header of six words.
        let six = with(ip(1, 1, 2, &[0; 4]), 0, 0x46);
        assert_eq!(kind(&six), Ok(Kind::Plain));
        assert_eq!(kind(&six[..23]), SOON);
        assert_eq!(kind(&with(six, 3, 23)), BAD);
    }

    #[test]
    fn refusal_5_of_the_transport_header() {
        let full = tcp((1, 1), (2, 2), 2);
        assert_eq!(kind(&full), Ok(Kind::Opening));
        assert_eq!(kind(&full[..39]), SOON);
        assert_eq!(kind(&with(full.clone(), 3, 39)), SOON);
        // Other protocols need nothing, nor do fragments with offset above 0.
        assert_eq!(kind(&with(full.clone(), 9, 1)[..20]), Ok(Kind::Plain));
        assert_eq!(kind(&with(full[..20].to_vec(), 7, 1)), Ok(Kind::Plain));
        // Bytes beyond the total length are not usable; missing bytes beyond those needed are.
        let mut longer = full.clone();
        longer.extend([0; 6]);
        assert_eq!(kind(&with(longer.clone(), 3, 39)), SOON);
        assert_eq!(kind(&with(longer, 2, 5)), Ok(Kind::Opening));

        let full = udp(1, 2);
        assert_eq!(kind(&full), Ok(Kind::Udp));
        assert_eq!(kind(&full[..27]), SOON);
        assert_eq!(kind(&with(full.clone(), 3, 27)), SOON);
        // Offsets 1, 256 and 4,096 make it plain; the three bits before the offset do not.
        assert_eq!(kind(&with(full.clone(), 7, 1)), Ok(Kind::Plain));
        assert_eq!(kind(&with(full.clone(), 6, 1)), Ok(Kind::Plain));
        assert_eq!(kind(&with(full.clone(), 6, 0x10)), Ok(Kind::Plain));
        assert_eq!(kind(&with(full, 6, 0xE0)), Ok(Kind::Udp));
        // With a header of six words the transport header starts four bytes later.
        let six = with(with(ip(6, 1, 2, &[0; 24]), 0, 0x46), 24 + 13, 18);
        assert_eq!(kind(&six), Ok(Kind::SynAck));
        assert_eq!(kind(&six[..43]), SOON);
        let fragment = with(with(tcp((1, 1), (2, 2), 2), 7, 1), 6, 0x20);
        assert_eq!(read(&fragment).map(|p| (p.source_port, p.destination_port)), Ok((0, 0)));
    }
    #[test]
    fn ends_of_packets() {
        let (source, destination) = (0x0A00_0001, 0xC0A8_0001);
        let told = |bytes: &[u8]| {
            ends(bytes).map(|e| {
                assert_eq!((e.source, e.destination), (source, destination));
                (e.source_port, e.destination_port, e.protocol)
            })
        };
        let full = tcp((source, 40_000), (destination, 80), 2);
        assert_eq!(told(&full), Ok((Some(40_000), Some(80), 6)));
        assert_eq!(told(&udp(source, destination)), Ok((Some(40_000), Some(53), 17)));
        assert_eq!(told(&ip(1, source, destination, &[9; 8])), Ok((None, None, 1)));
        assert_eq!(told(&ip(1, source, destination, &[])), Ok((None, None, 1)));
        // A later fragment has none even where its bytes could be taken for ports.
        assert_eq!(told(&with(full.clone(), 7, 1)), Ok((None, None, 6)));
        assert_eq!(told(&with(udp(source, destination), 6, 0x10)), Ok((None, None, 17)));
        // With a header of six words the ports stand four bytes later.
        let six = with(ip(17, source, destination, &[0, 0, 0, 0, 0, 7, 0, 8, 0, 8, 0, 0]), 0, 0x46);
        assert_eq!(told(&six), Ok((Some(7), Some(8), 17)));
        assert_eq!(told(&full[..39]), Err(Refusal::HeaderEndsTooSoon));
        assert_eq!(told(&with(full, 0, 0x44)), Err(Refusal::BadHeader));
    }
}
