//! The address permutation E and its inverse D in plain Rust, for speed: constant tables, lookups by nibble.

type Boxes = [[u8; 16]; 8];

const BOXES: Boxes = [
    [3, 8, 15, 1, 10, 6, 5, 11, 14, 13, 4, 2, 7, 0, 9, 12],
    [15, 12, 2, 7, 9, 0, 5, 10, 1, 11, 14, 8, 6, 13, 3, 4],
    [8, 6, 7, 9, 3, 12, 10, 15, 13, 1, 14, 4, 0, 11, 5, 2],
    [0, 15, 11, 8, 12, 9, 6, 3, 13, 1, 2, 4, 10, 7, 5, 14],
    [1, 15, 8, 3, 12, 0, 11, 6, 2, 5, 4, 10, 9, 14, 7, 13],
    [15, 5, 2, 11, 4, 10, 9, 12, 0, 3, 14, 8, 13, 6, 7, 1],
    [7, 2, 12, 5, 8, 4, 6, 11, 14, 9, 1, 13, 15, 3, 10, 0],
    [1, 13, 15, 0, 14, 8, 2, 11, 7, 4, 12, 10, 9, 3, 5, 6],
];

const INVERSES: Boxes = inverses();

const fn inverses() -> Boxes {
    let mut inverses = [[0; 16]; 8];
    let mut at = 0;
    while at < 128 {
        inverses[at / 16][BOXES[at / 16][at % 16] as usize] = (at % 16) as u8;
        at += 1;
    }
    inverses
}

#[inline(always)]
fn substituted(table: &[u8; 16], word: u32) -> u32 {
    let mut image = 0;
    for shift in (0..32).step_by(4) {
        image |= u32::from(table[(word >> shift & 15) as usize]) << shift;
    }
    image
}

#[inline(always)]
pub fn encrypt_inlined(keys: &[u32; 8], mut word: u32) -> u32 {
    for (key, table) in keys.iter().zip(&BOXES) {
        word = substituted(table, word.wrapping_add(*key)).rotate_left(11);
    }
    word
}

#[inline(never)]
pub fn encrypt(keys: &[u32; 8], word: u32) -> u32 {
    encrypt_inlined(keys, word)
}

#[inline(never)]
pub fn decrypt(keys: &[u32; 8], mut word: u32) -> u32 {
    for (key, table) in keys.iter().zip(&INVERSES).rev() {
        word = substituted(table, word.rotate_right(11)).wrapping_sub(*key);
    }
    word
}

mod c {
    extern "C" {
        pub fn plain_c_encrypt(keys: *const [u32; 8], word: u32) -> u32;
    }
}

/// The same in plain C.
#[inline]
pub fn encrypt_in_c(keys: &[u32; 8], word: u32) -> u32 {
    // SAFETY: it reads the eight keys alone.
    unsafe { c::plain_c_encrypt(keys, word) }
}
