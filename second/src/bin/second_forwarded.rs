//! The forwarding program of K1: "set up as the printing one, that reads a capture and writes the
//! forwarded records". What the printing program prints last goes to standard error.
#![forbid(unsafe_code)]

use std::io::{self, Write};
use std::process::ExitCode;

use second::capture::HEADER;
use second::replay::{self, End, Replay};

fn main() -> ExitCode {
    replay::run(|input, out| {
        let end = forward(input, out)?;
        out.flush()?;
        write!(io::stderr(), "{end}")
    })
}

/// Writes the forwarded records of a capture.
fn forward(input: &[u8], out: &mut dyn Write) -> io::Result<End> {
    let mut replay = match Replay::open(input) {
        Ok(replay) => replay,
        // "7 yields no output."
        Err(end) => return Ok(end),
    };
    out.write_all(&HEADER)?;
    while let Some(judged) = replay.next_judged() {
        if judged.answer.is_ok_and(|answer| answer.verdict.is_forwarded()) {
            // The writer's refusal 8 cannot come up: what was read has no more bytes either.
            let written = judged.record.written();
            out.write_all(
                &written.map_err(|refusal| io::Error::other(refusal.line(judged.number)))?,
            )?;
        }
    }
    Ok(replay.end())
}

#[cfg(test)]
mod tests {
    use super::*;
    use second::samples::{capture, ethernet, session, tcp, udp, CELL, PLANT};

    /// What is written, and what is said at the end.
    fn forwarded(input: &[u8]) -> (Vec<u8>, String) {
        let mut out = Vec::new();
        let Ok(end) = forward(input, &mut out) else { panic!("a Vec takes all that is written") };
        (out, end.to_string())
    }

    /// A frame to another plant address each, so that each is a fresh contact as long as it may be.
    fn contacts(how_many: u32) -> Vec<(u32, Vec<u8>)> {
        let contact = |n| (100, ethernet(&tcp((CELL, 40_000), (PLANT + n, 80), 2)));
        (0..how_many).map(contact).collect()
    }

    #[test]
    fn the_session_comes_back() {
        let little = capture(true, &session());
        assert_eq!(forwarded(&little), (little.clone(), "end 4 0\n".into()));
        assert_eq!(forwarded(&capture(false, &session())), (little, "end 4 0\n".into()));
    }

    /// Zone, accuracy and snap length are the written capture's own.
    #[test]
    fn other_header_words() {
        let little = capture(true, &session());
        let mut other = little.clone();
        other[8..20].fill(0xFF);
        assert_eq!(forwarded(&other).0, little);
    }

    #[test]
    fn microseconds_and_original_lengths_stay() {
        for (at, value) in [(24 + 4, 0x0403_0201_u32), (24 + 12, 0x0807_0605)] {
            let (mut little, mut big) = (capture(true, &session()), capture(false, &session()));
            little[at..at + 4].copy_from_slice(&value.to_le_bytes());
            big[at..at + 4].copy_from_slice(&value.to_be_bytes());
            assert_eq!(forwarded(&little).0, little);
            assert_eq!(forwarded(&big).0, little);
        }
    }

    #[test]
    fn blocked_packets_are_left_out() {
        // T is 10 here: ten contacts go through, the eleventh and twelfth are dropped by 6.
        let passed = capture(true, &contacts(10));
        assert_eq!(forwarded(&capture(true, &contacts(12))), (passed, "end 12 0\n".into()));
        // Another machine's packet behind them is not.
        let other = (100, ethernet(&udp(CELL + 1, PLANT)));
        let all = [contacts(12), vec![other.clone()]].concat();
        let passed = [contacts(10), vec![other]].concat();
        assert_eq!(forwarded(&capture(false, &all)).0, capture(true, &passed));
    }

    #[test]
    fn closing_packets_on_cold_slots_are_left_out() {
        let closing = (100, ethernet(&tcp((CELL, 40_000), (PLANT + 9, 80), 17)));
        let records = [vec![closing], session()].concat();
        let passed = capture(true, &session());
        assert_eq!(forwarded(&capture(true, &records)), (passed, "end 5 0\n".into()));
    }

    #[test]
    fn refused_records_are_left_out() {
        let ours = ethernet(&udp(CELL, PLANT));
        let mut other_type = ours.clone();
        other_type[13] = 6;
        let refused = [
            (100, vec![0; 13]),           // 5: no Ethernet header.
            (99, ours.clone()),           // 4: before the clock.
            (100, ethernet(&[0x45; 19])), // 5: no IP header.
            (100, ethernet(&[0; 20])),    // 6: version 0.
        ];
        let passed = [(100, ours), (7, other_type)];
        let [one, other] = passed.clone();
        let records = [vec![one], refused.to_vec(), vec![other]].concat();
        let written = (capture(true, &passed), "end 6 4\n".into());
        assert_eq!(forwarded(&capture(false, &records)), written);
        // Nothing but refused records: a header without records.
        assert_eq!(forwarded(&capture(true, &refused[2..])), (HEADER.to_vec(), "end 2 2\n".into()));
    }

    #[test]
    fn captures_that_stop_early() {
        let bad_header = (Vec::new(), "0 R 7\nend 0 1\n".to_string());
        assert_eq!(forwarded(&[]), bad_header);
        assert_eq!(forwarded(&capture(true, &[])[..23]), bad_header);
        let mut other_link = capture(true, &session());
        other_link[20] = 0;
        assert_eq!(forwarded(&other_link), bad_header);

        for little in [true, false] {
            let empty = capture(little, &[]);
            assert_eq!(forwarded(&empty), (HEADER.to_vec(), "end 0 0\n".into()));
            let whole = capture(little, &session());
            let three = capture(true, &session()[..3]);
            assert_eq!(forwarded(&whole[..whole.len() - 1]), (three, "4 R 8\nend 3 1\n".into()));
            // A record of 2,049 bytes stops it though all of them are there.
            let records = [session(), vec![(100, vec![9; 2049])], session()].concat();
            let stopped = (capture(true, &session()), "5 R 8\nend 4 1\n".into());
            assert_eq!(forwarded(&capture(little, &records)), stopped);
        }
    }

    /// The longest record, and one of 14 bytes that is of another EtherType: both are forwarded.
    #[test]
    fn the_longest_and_a_short_frame() {
        let mut longest = ethernet(&udp(CELL, PLANT));
        longest.resize(2048, 7);
        let mut short = ethernet(&[]);
        short[12] = 0x86;
        let all = capture(true, &[(1, longest), (1, short)]);
        assert_eq!(forwarded(&all), (all.clone(), "end 2 0\n".into()));
    }
}
