//! Each call of the wrapper by itself: refusals, the permutation, side lists, the tally and captures.

use crate::random::Random;
use second::samples;
use spritgrommet::raw::{self, Placing, PlainAnswer};
use spritgrommet::{decrypt, encrypt, winner};
use spritgrommet::{Answer, Capture, CaptureWriter, Gateway, Limits, Record, Refusal, Settings, Side, Tally, Verdict};

pub const CELL: [u8; 5] = [10, 0, 0, 0, 8];
pub const PLANT: [u8; 5] = [192, 168, 0, 0, 16];

pub fn start(settings: Settings, records: usize, lines: usize) -> Result<Gateway, Refusal> {
    Gateway::cold_start(settings, &CELL, &PLANT, records, lines, 100)
}

/// What a start with these settings, which are good, answers for later calls to take.
pub fn placing(settings: Settings) -> Placing {
    let started = raw::cold_start(settings, &mut [0; 16], &mut [0; 4], &mut [0; 4], &mut 0, 0);
    assert_eq!(started.refusal, 0);
    started.placing
}

#[test]
fn factory_settings() {
    let limits = Limits { threshold: 5, floor: -20, dmiss: 60, dconn: 10 };
    let factory = Settings { keys: [0; 8], limits };
    assert_eq!(Settings::factory(), factory);
}

/// The keys that are set are those on which a gateway runs.
#[test]
fn keys_of_a_start() {
    let keys = [1, 2, 3, 4, 5, 6, 7, u32::MAX];
    assert_eq!(placing(Settings::factory().with_keys(keys)), Placing { keys });
}

#[test]
fn refusals_of_a_start() {
    let factory = Settings::factory();
    assert_eq!(start(factory.with_threshold(0), 16, 1), Err(Refusal(1)));
    assert_eq!(start(factory.with_threshold(256), 17, 1), Err(Refusal(1)));
    assert_eq!(start(factory.with_floor(1), 16, 1), Err(Refusal(1)));
    assert_eq!(start(factory.with_dmiss(3_601), 16, 1), Err(Refusal(1)));
    assert_eq!(start(factory.with_dconn(63), 16, 1), Err(Refusal(1)));
    for (records, lines) in [(0, 1), (8, 1), (17, 1), (2_097_152, 1), (16, 0), (16, 3), (16, 524_288), (usize::MAX, usize::MAX)]
    {
        assert_eq!(start(factory, records, lines), Err(Refusal(2)), "{records} records, {lines} lines");
    }
    // The largest tables that there may be.
    assert!(start(factory, 1_048_576, 262_144).is_ok());
}

#[test]
fn a_refused_call_changes_nothing() {
    let mut gateway = start(Settings::factory(), 16, 1).expect("good settings and sizes");
    let syn = samples::tcp((0x0A00_0001, 40_000), (0xC0A8_0001, 80), 2);
    assert!(gateway.judge(100, &syn).is_ok());
    let before = gateway.clone();
    assert_eq!(gateway.pass(99), Err(Refusal(4)));
    assert_eq!(gateway.judge(99, &syn), Err(Refusal(4)));
    assert_eq!(gateway.judge(200, &syn[..39]), Err(Refusal(5)));
    let mut version_6 = syn.clone();
    version_6[0] = 0x65;
    assert_eq!(gateway.judge(200, &version_6), Err(Refusal(6)));
    assert_eq!(gateway.judge_frame(200, &[0; 13]), Err(Refusal(5)));
    assert_eq!(gateway, before);
    let mut bad_list =
        Gateway::cold_start(Settings::factory(), &CELL, &PLANT[..4], 16, 1, 100).expect("lists are not looked at");
    assert_eq!(bad_list.judge(99, &syn), Err(Refusal(3)));
}

/// Document 01's session, as frames; its four lines are 4 1, 3 -1, 1 -1 and 0.
#[test]
fn the_session() {
    let mut gateway = start(Settings::factory(), 4_096, 256).expect("good settings and sizes");
    let (cell, plant) = ((0x0A00_0001, 40_000), (0xC0A8_0001, 80));
    let packets = [
        samples::tcp(cell, plant, 2),
        samples::tcp(plant, cell, 18),
        samples::tcp(cell, plant, 16),
        samples::udp(0x0A00_0001, 0x0A00_0002),
    ];
    let answer = |verdict, count| Ok(Answer { verdict, count, replaced: None });
    let expected = [
        answer(Verdict::FreshContact, Some(1)),
        answer(Verdict::CreditOfTwo, Some(-1)),
        answer(Verdict::Uncounted, Some(-1)),
        answer(Verdict::NotOurs, None),
    ];
    for (packet, expected) in packets.iter().zip(expected) {
        assert_eq!(gateway.judge_frame(100, &samples::ethernet(packet)), expected);
    }
}

/// Document 01's examples 1 to 4, and both ways on many words and keys.
#[test]
fn permutation() {
    let zero = [0; 8];
    let first = [1, 0, 0, 0, 0, 0, 0, 0];
    assert_eq!(encrypt(&zero, 0), 0xFFFF_FFFF);
    assert_eq!(encrypt(&zero, 0xFFFF_FFFF), 0x9999_9999);
    assert_eq!(encrypt(&zero, 0x9999_9999), 0x7777_7777);
    assert_eq!(encrypt(&first, 0xFFFF_FFFF), 0xFFFF_FFFF);
    let random = &mut Random(1);
    for _ in 0..100_000 {
        let keys = std::array::from_fn(|_| random.word());
        let word = random.word();
        assert_eq!(encrypt(&keys, word), second::cipher::e(&keys, word));
        assert_eq!(decrypt(&keys, encrypt(&keys, word)), word);
        assert_eq!(encrypt(&keys, decrypt(&keys, word)), word);
    }
}

#[test]
fn side_lists() {
    let cell = [10, 0, 0, 0, 8, 10, 1, 2, 3, 32, 11, 0, 0, 255, 24, 11, 0, 0, 0, 24];
    let plant = [0, 0, 0, 0, 0, 10, 1, 2, 0, 24, 11, 0, 0, 0, 24];
    assert_eq!(winner(&cell, &plant, 0x0A00_0001), Some((Side::Cell, 1)));
    assert_eq!(winner(&cell, &plant, 0x0A01_0203), Some((Side::Cell, 2)));
    assert_eq!(winner(&cell, &plant, 0x0A01_0204), Some((Side::Plant, 2)));
    // Four entries of one length hold it: the cell list, and in it the first.
    assert_eq!(winner(&cell, &plant, 0x0B00_0001), Some((Side::Cell, 3)));
    assert_eq!(winner(&cell, &plant, 0xFFFF_FFFF), Some((Side::Plant, 1)));
    assert_eq!(winner(&cell, &[], 0xFFFF_FFFF), None);
}

#[test]
fn totals_stop() {
    let mut tally = Tally { totals: [u32::MAX, 0, 0, 0, 0, 0, u32::MAX - 1] };
    let blocked = Ok(Answer { verdict: Verdict::Blocked, count: Some(10), replaced: None });
    tally.add(&blocked);
    tally.add(&blocked);
    tally.add(&Ok(Answer { verdict: Verdict::NotOurs, count: None, replaced: None }));
    tally.add(&Err(Refusal(5)));
    assert_eq!(tally.totals, [u32::MAX, 0, 0, 0, 0, 0, u32::MAX]);
}

/// The archive's own step, on every refusal and every verdict that a byte may hold: one total at most is one more.
#[test]
fn one_total_each() {
    for (refusal, verdict) in (0..=u8::MAX).flat_map(|refusal| (0..=u8::MAX).map(move |verdict| (refusal, verdict))) {
        let mut tally = Tally { totals: [10, 11, 12, 13, 14, 15, 16] };
        let mut by_hand = tally;
        if let (0, Some(total)) = (refusal, by_hand.totals.get_mut(usize::from(verdict))) {
            *total += 1;
        }
        raw::tally(&mut tally, PlainAnswer { refusal, verdict, count: 1, replaced: 1, address: 1 });
        assert_eq!(tally, by_hand, "refusal {refusal}, verdict {verdict}");
    }
}

#[test]
fn captures() {
    let records = [(5, samples::ethernet(&[])), (6, vec![1, 2, 3]), (7, vec![])];
    for little in [true, false] {
        let bytes = samples::capture(little, &records);
        let read: Vec<_> = Capture::open(&bytes).expect("a good header").collect();
        assert_eq!(read.len(), 3);
        for (read, (seconds, frame)) in read.into_iter().zip(&records) {
            let read = read.expect("whole records");
            assert_eq!((read.seconds, read.microseconds), (*seconds, 999_999));
            assert_eq!((read.original as usize, read.frame), (frame.len(), &frame[..]));
        }
        let cut: Vec<_> = Capture::open(&bytes[..bytes.len() - 1]).expect("a good header").collect();
        assert_eq!(cut.len(), 3);
        assert_eq!(cut[2], Err(Refusal(8)));
    }
    assert_eq!(Capture::open(&[0; 24]).err(), Some(Refusal(7)));
}

/// What the second program's writer writes is what is written, and nothing where it is refused.
#[test]
fn written_captures() {
    let frames = [vec![], vec![7; 60], (0..2048).map(|at| at as u8).collect::<Vec<u8>>()];
    let mut room = [0xEE; 24 + 3 * 16 + 60 + 2048 + 15];
    let mut expected = second::capture::HEADER.to_vec();
    let mut writer = CaptureWriter::put_header(&mut room).expect("room for the header");
    for (number, frame) in (1..).zip(&frames) {
        let (seconds, microseconds, original) = (u32::MAX - number, number << 24, number << 8);
        let too_long = Record { seconds, microseconds, original, frame: &[0; 2049] };
        assert_eq!(writer.put_record(&too_long), Err(Refusal(8)));
        writer.put_record(&Record { seconds, microseconds, original, frame }).expect("room for the record");
        let record = second::capture::Record { second: seconds, microsecond: microseconds, original, frame };
        expected.extend(record.written().expect("no more than 2,048 bytes"));
        assert_eq!(writer.written(), expected);
    }
    // 15 bytes are left, one too few for a record's header: neither refusal touches them.
    for (frame, number) in [(&[0; 2049][..], 8), (&[], 9)] {
        let refused = Record { seconds: 0, microseconds: 0, original: 0, frame };
        assert_eq!(writer.put_record(&refused), Err(Refusal(number)));
    }
    assert_eq!(writer.written(), expected);
    expected.extend([0xEE; 15]);
    assert_eq!(room[..], expected);
    let mut small = [0xEE; 23];
    assert_eq!(CaptureWriter::put_header(&mut small).err(), Some(Refusal(9)));
    assert_eq!(small, [0xEE; 23]);
}
