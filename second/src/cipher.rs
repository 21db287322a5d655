//! Permutation, slot and line.

/// "The eight S-boxes stand as a table of tables".
const S_BOXES: [[u32; 16]; 8] = [
    [3, 8, 15, 1, 10, 6, 5, 11, 14, 13, 4, 2, 7, 0, 9, 12],
    [15, 12, 2, 7, 9, 0, 5, 10, 1, 11, 14, 8, 6, 13, 3, 4],
    [8, 6, 7, 9, 3, 12, 10, 15, 13, 1, 14, 4, 0, 11, 5, 2],
    [0, 15, 11, 8, 12, 9, 6, 3, 13, 1, 2, 4, 10, 7, 5, 14],
    [1, 15, 8, 3, 12, 0, 11, 6, 2, 5, 4, 10, 9, 14, 7, 13],
    [15, 5, 2, 11, 4, 10, 9, 12, 0, 3, 14, 8, 13, 6, 7, 1],
    [7, 2, 12, 5, 8, 4, 6, 11, 14, 9, 1, 13, 15, 3, 10, 0],
    [1, 13, 15, 0, 14, 8, 2, 11, 7, 4, 12, 10, 9, 3, 5, 6],
];

/// "Eight rounds r = 0 to 7: add round key r modulo 2^32; replace each of the eight nibbles by
/// S-box r; rotate left 11."
pub fn e(keys: &[u32; 8], word: u32) -> u32 {
    let mut word = word;
    for (key, s_box) in keys.iter().zip(&S_BOXES) {
        let sum = word.wrapping_add(*key);
        let mut replaced = 0;
        for shift in [0, 4, 8, 12, 16, 20, 24, 28] {
            let nibble = (sum >> shift) & 15;
            replaced |= s_box[nibble as usize] << shift;
        }
        word = replaced.rotate_left(11);
    }
    word
}

/// "Slot: E(E(E(plant address) xor cell address) xor port) modulo the number of records."
pub fn slot(keys: &[u32; 8], plant: u32, cell: u32, port: u16, records: usize) -> usize {
    e(keys, e(keys, e(keys, plant) ^ cell) ^ u32::from(port)) as usize % records
}

/// "With 2^a lines, the line of a cell address is E(address) modulo 2^a". The tag is not needed:
/// "line and tag together name one address", and an entry here holds that address itself.
pub fn line(keys: &[u32; 8], address: u32, lines: usize) -> usize {
    e(keys, address) as usize % lines
}

#[cfg(test)]
mod tests {
    use super::*;

    const ZERO: [u32; 8] = [0; 8];

    #[test]
    fn bench_examples_1_to_6() {
        assert_eq!(e(&ZERO, 0x0000_0000), 0xFFFF_FFFF);
        assert_eq!(e(&ZERO, 0xFFFF_FFFF), 0x9999_9999);
        assert_eq!(e(&ZERO, 0x9999_9999), 0x7777_7777);
        assert_eq!(e(&[1, 0, 0, 0, 0, 0, 0, 0], 0xFFFF_FFFF), 0xFFFF_FFFF);
        assert_eq!(slot(&ZERO, 0, 0xFFFF_FFFF, 0, 4096), 2457);
        assert_eq!(line(&ZERO, 0xFFFF_FFFF, 256), 153);
        assert_eq!(e(&ZERO, 0xFFFF_FFFF) / 256, 10_066_329);
    }

    #[test]
    fn nibbles_keep_their_places_and_the_word_turns_left_by_11() {
        // S0 makes 0x01234567 into 0x38F1A65B, and that rotated left by 11 is 0x8D32D9C7. The
        // negative of it as second key makes 0, and from there the nibbles are all alike:
        // S1(0) F -> F, S2(F) 2 -> 1, S3(1) F -> F, S4(F) D -> E, S5(E) 7 -> B, S6(B) D -> E,
        // S7(E) 5 -> A.
        let second = 0x8D32_D9C7_u32.wrapping_neg();
        let keys = [0, second, 0, 0, 0, 0, 0, 0];
        assert_eq!(e(&keys, 0x0123_4567), 0xAAAA_AAAA);
    }

    #[test]
    fn each_s_box_holds_each_nibble_once() {
        for s_box in &S_BOXES {
            assert_eq!(s_box.iter().fold(0, |seen, n| seen | (1 << n)), 0xFFFF);
        }
    }
}
