//! Table 1: the address permutation E, one word after the other and over words that do not wait for each other.

use crate::stopwatch::{commas, head, in_turn, ratio, row, timed, Figures};
use crate::trace::Random;
use crate::{cipher, ours};
use std::hint::black_box;
use std::time::Duration;

const WORDS: usize = 4_096;
const PASSES: usize = 64;
const NAMES: [&str; 4] = ["ours", "plain Rust, called", "plain C, called", "plain Rust, inlined"];
const NOTES: &str = "\
    A chain encrypts each answer again, 262,144 times; independent words are 4,096 in an array, warm in the first-level \
    cache, gone over 64 times. Ours and plain C are calls out of Rust and plain Rust is kept from being inlined, so that \
    all three are called once a word; the last row shows what inlining gives plain Rust.";

/// Each answer is the next word.
#[inline(always)]
fn chain(e: impl Fn(u32) -> u32) -> Duration {
    timed(|| {
        black_box((0..WORDS * PASSES).fold(black_box(1), |word, _| e(word)));
    })
}

/// No word waits for another's answer.
#[inline(always)]
fn array(words: &[u32], e: impl Fn(u32) -> u32) -> Duration {
    timed(|| {
        for _ in 0..PASSES {
            black_box(black_box(words).iter().fold(0, |sum, &word| sum ^ e(word)));
        }
    })
}

fn put_rows(way: &str, figures: &[Figures]) {
    for (name, other) in NAMES.iter().zip(figures) {
        let a_second = commas(other.a_second(WORDS * PASSES));
        row(&[*name, way, &other.each(WORDS * PASSES), &a_second, &ratio(figures[0], *other)]);
    }
}

pub fn put_table() {
    let keys = &black_box(ours::KEYS);
    let mut random = Random(1);
    let words: Vec<u32> = (0..WORDS).map(|_| random.word()).collect();
    for &word in &words {
        let e = ours::encrypt(keys, word);
        assert!(e == cipher::encrypt(keys, word) && e == cipher::encrypt_in_c(keys, word), "E of {word} differs");
        assert_eq!(cipher::decrypt(keys, e), word);
    }
    head("1. E, the address permutation", NOTES, &["program", "words", "ns a word", "words a second", "ratio"]);
    let chains = in_turn(&mut [
        &mut || chain(|word| ours::encrypt(keys, word)),
        &mut || chain(|word| cipher::encrypt(keys, word)),
        &mut || chain(|word| cipher::encrypt_in_c(keys, word)),
        &mut || chain(|word| cipher::encrypt_inlined(keys, word)),
    ]);
    put_rows("chain", &chains);
    let arrays = in_turn(&mut [
        &mut || array(&words, |word| ours::encrypt(keys, word)),
        &mut || array(&words, |word| cipher::encrypt(keys, word)),
        &mut || array(&words, |word| cipher::encrypt_in_c(keys, word)),
        &mut || array(&words, |word| cipher::encrypt_inlined(keys, word)),
    ]);
    put_rows("independent", &arrays);
}
