//! Packets, frames and captures for the tests.

/// A cell address and a plant address of the program's sides.
pub const CELL: u32 = 0x0A00_0001;
pub const PLANT: u32 = 0xC0A8_0001;

/// An IPv4 packet with a header of five words.
pub fn ip(protocol: u8, source: u32, destination: u32, body: &[u8]) -> Vec<u8> {
    let total = 20 + body.len() as u16;
    let mut bytes = vec![0x45, 0];
    bytes.extend(total.to_be_bytes());
    bytes.extend([0, 0, 0, 0, 64, protocol, 0, 0]);
    bytes.extend(source.to_be_bytes());
    bytes.extend(destination.to_be_bytes());
    bytes.extend(body);
    bytes
}

/// A TCP packet between (address, port) pairs.
pub fn tcp(source: (u32, u16), destination: (u32, u16), flags: u8) -> Vec<u8> {
    let mut body = Vec::new();
    body.extend(source.1.to_be_bytes());
    body.extend(destination.1.to_be_bytes());
    body.extend([0, 0, 0, 0, 0, 0, 0, 0, 0x50, flags, 0, 0, 0, 0, 0, 0]);
    ip(6, source.0, destination.0, &body)
}

/// A UDP packet; its ports are not looked at.
pub fn udp(source: u32, destination: u32) -> Vec<u8> {
    ip(17, source, destination, &[0x9c, 0x40, 0, 53, 0, 8, 0, 0])
}

pub fn ethernet(packet: &[u8]) -> Vec<u8> {
    let mut frame = vec![2, 0, 0, 0, 0, 1, 2, 0, 0, 0, 0, 2, 8, 0];
    frame.extend(packet);
    frame
}

/// "Four records at second 100: 10.0.0.1 port 40000 to 192.168.0.1 port 80 SYN; its SYN+ACK back;
/// the ACK; then UDP 10.0.0.1 to 10.0.0.2."
pub fn session() -> Vec<(u32, Vec<u8>)> {
    let cell = (CELL, 40_000);
    let plant = (PLANT, 80);
    vec![
        (100, ethernet(&tcp(cell, plant, 2))),
        (100, ethernet(&tcp(plant, cell, 18))),
        (100, ethernet(&tcp(cell, plant, 16))),
        (100, ethernet(&udp(CELL, 0x0A00_0002))),
    ]
}

/// A capture of (second, frame) records, with zone 0, accuracy 0 and snap length 2,048.
pub fn capture(little: bool, records: &[(u32, Vec<u8>)]) -> Vec<u8> {
    let word = |w: u32| {
        if little {
            w.to_le_bytes()
        } else {
            w.to_be_bytes()
        }
    };
    let half = |h: u16| {
        if little {
            h.to_le_bytes()
        } else {
            h.to_be_bytes()
        }
    };
    let mut bytes = word(0xa1b2_c3d4).to_vec();
    bytes.extend(half(2));
    bytes.extend(half(4));
    for w in [0, 0, 2048, 1] {
        bytes.extend(word(w));
    }
    for (second, frame) in records {
        for w in [*second, 999_999, frame.len() as u32, frame.len() as u32] {
            bytes.extend(word(w));
        }
        bytes.extend(frame);
    }
    bytes
}
