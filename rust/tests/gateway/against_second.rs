//! The compiled gateway beside the second one, over settings, keys, sizes and side lists that the printing program never has: the same
//! answers, call for call.

use crate::random::Random;
use second::gateway::{Gateway as Second, Settings as SecondSettings};
use second::samples;
use second::sides::Sides;
use spritgrommet::{Answer, Gateway, Limits, Refusal, Settings, Tally};

type Entry = (u32, u32);

/// A side list as bytes.
pub fn bytes_of(list: &[Entry]) -> Vec<u8> {
    list.iter().flat_map(|(net, prefix)| net.to_be_bytes().into_iter().chain([*prefix as u8])).collect()
}

/// One of few addresses, so that slots and lines are met again.
pub fn address(random: &mut Random) -> u32 {
    random.below(8) << 29 | random.below(3)
}

/// A list in which short prefixes, long ones and equal ones overlap. It lives as long as the test, since the second program's lists do.
pub fn list(random: &mut Random) -> &'static [Entry] {
    let entry = |random: &mut Random| (address(random), random.pick(&[0, 1, 2, 3, 3, 3, 31, 32]));
    (0..random.below(12)).map(|_| entry(random)).collect::<Vec<_>>().leak()
}

fn settings(random: &mut Random) -> Settings {
    Settings::factory()
        .with_threshold(random.pick(&[1, 2, 3, 5, 10, 255]))
        .with_floor(random.pick(&[0, -1, -2, -20, -1_000]))
        .with_dmiss(random.pick(&[1, 7, 60, 61, 3_600]))
        .with_dconn(random.pick(&[1, 2, 10, 61, 62]))
        .with_keys(std::array::from_fn(|_| random.word()))
}

fn second_settings(settings: &Settings) -> SecondSettings {
    let Settings { keys, limits: Limits { threshold, floor, dmiss, dconn } } = *settings;
    SecondSettings { threshold: threshold.into(), floor: floor.into(), dmiss: dmiss.into(), dconn: dconn.into(), keys }
}

/// One gateway of each, with the same settings, side lists, sizes and start.
pub fn both(random: &mut Random) -> (Gateway, Second) {
    let settings = settings(random);
    let (cell, plant) = (list(random), list(random));
    let (records, lines) = (16 << random.below(8), 1 << random.below(5));
    let start = random.below(100_000);
    let gateway = Gateway::cold_start(settings, &bytes_of(cell), &bytes_of(plant), records, lines, start);
    let gateway = gateway.expect("good settings and sizes");
    let second = Second::cold_start(second_settings(&settings), Sides { cell, plant }, records, lines, start);
    (gateway, second)
}

/// A packet, now and then one that is refused.
pub fn packet(random: &mut Random) -> Vec<u8> {
    let (source, destination) = (address(random), address(random));
    let ports = (random.pick(&[80, 502]), random.pick(&[80, 502]));
    let mut bytes = match random.below(4) {
        0 => samples::udp(source, destination),
        1 => samples::ip(1, source, destination, &[]),
        _ => samples::tcp((source, ports.0), (destination, ports.1), random.word() as u8),
    };
    if random.below(50) == 0 {
        bytes.truncate(random.below(bytes.len() as u32) as usize);
    }
    bytes
}

/// A time: mostly the same second or one soon after, at times a long gap, and now and then one before the clock.
pub fn later(random: &mut Random, clock: u32) -> u32 {
    match random.below(200) {
        0 => clock.wrapping_sub(1),
        1 => clock + random.below(200),
        2 => clock + random.below(5_000),
        _ => clock + random.below(2),
    }
}

fn expected(answer: Result<second::gateway::Answer, second::refusal::Refusal>) -> (u8, u8, Option<i64>, Option<u32>) {
    match answer {
        Ok(answer) => (0, answer.verdict as u8, answer.count, answer.replaced),
        Err(refusal) => (refusal.number(), 0, None, None),
    }
}

fn told(answer: Result<Answer, Refusal>) -> (u8, u8, Option<i64>, Option<u32>) {
    match answer {
        Ok(answer) => (0, answer.verdict as u8, answer.count.map(i64::from), answer.replaced),
        Err(Refusal(number)) => (number, 0, None, None),
    }
}

/// One gateway of each, from a seed, over so many calls. Answers the totals of the verdicts.
fn run(seed: u64, calls: u32) -> [u32; 7] {
    let random = &mut Random(seed);
    let (mut gateway, mut second) = both(random);
    let mut tally = Tally::empty();
    let mut by_hand = [0; 7];
    for call in 0..calls {
        let time = later(random, gateway.clock());
        if random.below(20) == 0 {
            let refusal = second.time(time).map_err(|refusal| Refusal(refusal.number()));
            assert_eq!(gateway.pass(time), refusal, "seed {seed}, call {call}");
            continue;
        }
        let packet = packet(random);
        let answer = gateway.judge(time, &packet);
        tally.add(&answer);
        if let Ok(answer) = answer {
            by_hand[answer.verdict as usize] += 1;
        }
        assert_eq!(told(answer), expected(second.packet(time, &packet)), "seed {seed}, call {call}");
    }
    assert_eq!(tally.totals, by_hand);
    by_hand
}

#[test]
fn the_same_answers() {
    let mut totals = [0; 7];
    for seed in 0..400 {
        for (total, more) in totals.iter_mut().zip(run(seed, 2_000)) {
            *total += more;
        }
    }
    // Each verdict was met, so that the runs try what they are there for.
    assert!(totals.iter().all(|total| 1_000 < *total), "{totals:?}");
}
