//! K4's program: "reports a choice among four facts" for each record that was dropped, or tells
//! what became of the one record whose number is its argument.
#![forbid(unsafe_code)]

use std::ffi::{OsStr, OsString};
use std::io::{self, Write};
use std::process::ExitCode;

use second::block::block;
use second::capture::Record;
use second::gateway::Gateway;
use second::replay::{self, Replay};
use second::why::Explanation;

const NO_NUMBER: &str =
    "why: the argument is no record number: give a number from 1 on, or none for every dropped \
     record";
const TOO_MANY: &str =
    "why: more than one argument: give one record number, or none for every dropped record";
const NOT_THERE: &str = "why: the capture has no whole record with that number";

fn main() -> ExitCode {
    let arguments: Vec<OsString> = std::env::args_os().skip(1).collect();
    match asked_for(&arguments) {
        Ok(asked) => replay::run(|input, out| {
            let is_there = tell(asked, input, out)?;
            out.flush()?;
            if is_there {
                Ok(())
            } else {
                complain(NOT_THERE)
            }
        }),
        // Before any input is read.
        Err(complaint) => match complain(complaint) {
            Ok(()) => ExitCode::SUCCESS,
            Err(_) => ExitCode::FAILURE,
        },
    }
}

fn complain(complaint: &str) -> io::Result<()> {
    writeln!(io::stderr(), "{complaint}")
}

/// The number of the record that is asked for, if one is, or words for what is wrong.
fn asked_for(arguments: &[OsString]) -> Result<Option<u64>, &'static str> {
    match arguments {
        [] => Ok(None),
        [one] => record_number(one).map(Some).ok_or(NO_NUMBER),
        _ => Err(TOO_MANY),
    }
}

/// 1 to 19 decimal digits that are not all 0. The largest of them fits.
fn record_number(word: &OsStr) -> Option<u64> {
    let digits = word.to_str()?;
    if digits.len() > 19 || !digits.bytes().all(|byte| byte.is_ascii_digit()) {
        return None;
    }
    digits.parse().ok().filter(|number| *number > 0)
}

/// Writes the block of the record that is asked for, or else of each that was dropped, and what the
/// printing program prints last. Whether the record that is asked for was read whole.
fn tell(asked: Option<u64>, input: &[u8], out: &mut dyn Write) -> io::Result<bool> {
    let mut is_there = asked.is_none();
    let end = match Replay::open(input) {
        Ok(mut replay) => {
            let look = |number, gateway: &Gateway, record: &Record| {
                let is_wanted = asked.is_none_or(|asked| asked == number);
                is_wanted.then(|| replay::explain_frame(gateway, record))
            };
            while let Some((judged, explained)) = replay.next_seen(look) {
                let Some(why) = explained else { continue };
                is_there = true;
                if asked.is_some() || matches!(why, Ok(Explanation::Dropped(_))) {
                    write!(out, "{}", block(judged.number, judged.record.second, &why))?;
                }
            }
            replay.end()
        }
        Err(end) => end,
    };
    write!(out, "{end}")?;
    Ok(is_there)
}

#[cfg(test)]
mod tests {
    use super::*;
    use second::samples::{capture, ethernet, ip, session, tcp, udp, CELL, PLANT};

    /// What is written, and whether the record that is asked for was there.
    fn told(asked: Option<u64>, input: &[u8]) -> (String, bool) {
        let mut out = Vec::new();
        let Ok(is_there) = tell(asked, input, &mut out) else {
            panic!("a Vec takes all that is written")
        };
        (String::from_utf8_lossy(&out).into_owned(), is_there)
    }

    fn every_dropped(records: &[(u32, Vec<u8>)]) -> String {
        let little = told(None, &capture(true, records));
        assert_eq!(told(None, &capture(false, records)), little);
        assert!(little.1);
        little.0
    }

    /// The first lines and what the printing program prints last.
    fn not_indented(text: &str) -> Vec<&str> {
        text.lines().filter(|line| !line.starts_with(' ')).collect()
    }

    /// Ten fresh contacts, by which CELL is blocked at second 100.
    fn blocking() -> Vec<(u32, Vec<u8>)> {
        (1..=10).map(|n| (100, ethernet(&udp(CELL, PLANT + n)))).collect()
    }

    const OURS: &str =
        "  It is ours by entry 1 of the cell list, 10.0.0.0/8, and entry 1 of the plant list, \
         192.168.0.0/16.\n";
    const ANY_ONE: &str = "  Any one of these alone would have let it through:\n";
    const BLOCKED: &str =
        "  It was dropped as blocked: the count of 10.0.0.1 is 10, and T is 10.\n";
    const NO_PLANT_MARK: &str =
        "  From a blocked machine only answers to the plant go through, and the plant-to-cell mark \
         of this connection is not set.\n";
    const PLANT_MARK: &str =
        "  The plant-to-cell mark of this connection is set, but from a blocked machine UDP and \
         openings do not go through even so.\n";
    const COUNT: &str = "  - the count: below 10\n";
    const PLANT_TO_CELL: &str =
        "  - the plant-to-cell mark: set (the plant has spoken on this connection lately, other than to close it)\n";
    const CELL_TO_PLANT: &str =
        "  - the cell-to-plant mark: set (the cell was let through on this connection lately, other than to close it)\n";

    /// Twelve plant machines poll a cell machine, and two hours later it polls them: its answers of
    /// old, but fresh contacts by now.
    #[test]
    fn the_two_hour_incident() {
        let polls = (1..=12).map(|n| (100, ethernet(&udp(PLANT + n, CELL))));
        let polls_back = (1..=12).map(|n| (7300, ethernet(&udp(CELL, PLANT + n))));
        let records: Vec<_> = polls.chain(polls_back).collect();
        let block = |number, plant| {
            [
                &format!("{number} 6 10 10 7300 10.0.0.1 40000 {plant} 53 17 udp 1 1 count\n"),
                &format!(
                    "  10.0.0.1 port 40000 sent a UDP packet to {plant} port 53 at second 7300.\n"
                ),
                OURS,
                BLOCKED,
                NO_PLANT_MARK,
                ANY_ONE,
                COUNT,
            ]
            .concat()
        };
        let blocks = [block(23, "192.168.0.12"), block(24, "192.168.0.13")];
        assert_eq!(every_dropped(&records), blocks.concat() + "end 24 0\n");
        let input = capture(true, &records);
        for number in 1..=24 {
            let fresh = "  It was forwarded as a fresh contact (verdict 4).";
            let uncounted = "  It was forwarded, and nothing was counted (verdict 1).";
            let block = match number {
                1..=12 => format!("{number} 1\n{uncounted}\n"),
                13..=22 => format!("{number} 4\n{fresh}\n"),
                _ => blocks[number as usize - 23].clone(),
            };
            assert_eq!(told(Some(number), &input), (block + "end 24 0\n", true));
        }
    }

    /// SYN, and the SYN+FIN, SYN+RST and SYN+FIN+RST of document 02's K5.
    const OPENINGS: [u8; 4] = [2, 3, 6, 7];

    #[test]
    fn an_opening_from_a_blocked_machine() {
        let five = 0x0A00_0005;
        let not_ours = vec![(7300, ethernet(&udp(five, CELL))); 12];
        let contacts = (20..30).map(|n| (7300, ethernet(&udp(five, PLANT + n))));
        let before = [not_ours, contacts.collect()].concat();
        let first = "23 6 10 10 7300 10.0.0.5 40000 192.168.0.9 80 6 opening 1 1 count\n";
        let sent =
            "  10.0.0.5 port 40000 sent an opening (TCP SYN without ACK) to 192.168.0.9 port \
             80 at second 7300.\n";
        let blocked = "  It was dropped as blocked: the count of 10.0.0.5 is 10, and T is 10.\n";
        let all = [first, sent, OURS, blocked, NO_PLANT_MARK, ANY_ONE, COUNT, "end 23 0\n"];
        for flags in OPENINGS {
            let opening = (7300, ethernet(&tcp((five, 40_000), (PLANT + 8, 80), flags)));
            let records = [before.clone(), vec![opening]].concat();
            assert_eq!(every_dropped(&records), all.concat(), "{flags}");
        }
    }

    #[test]
    fn blocked_and_only_the_plant_s_mark_would_help() {
        let answer = (101, ethernet(&tcp((CELL, 40_000), (PLANT + 11, 80), 18)));
        let block = "11 6 10 10 101 10.0.0.1 40000 192.168.0.12 80 6 syn+ack 1 1 plant-mark
  10.0.0.1 port 40000 sent an answering TCP packet (SYN+ACK) to 192.168.0.12 port 80 at second 101.\n";
        let all = [block, OURS, BLOCKED, NO_PLANT_MARK, ANY_ONE, PLANT_TO_CELL, "end 11 0\n"];
        assert_eq!(every_dropped(&[blocking(), vec![answer]].concat()), all.concat());
    }

    #[test]
    fn blocked_and_a_lower_count_or_the_plant_s_mark_would_help() {
        // The ICMP packet has no ports, the later fragment shows none.
        let mut fragment = tcp((CELL, 40_000), (PLANT + 11, 80), 4);
        fragment[7] = 185;
        for (protocol, packet) in [(1, ip(1, CELL, PLANT + 11, &[8; 8])), (6, fragment)] {
            let ends = format!("10.0.0.1 - 192.168.0.12 - {protocol}");
            let first = format!("11 6 10 10 119 {ends} plain 1 1 count plant-mark\n");
            let sent = "  10.0.0.1 sent a plain packet to 192.168.0.12 at second 119.\n";
            let facts = [ANY_ONE, COUNT, PLANT_TO_CELL].concat();
            let all = [&first, sent, OURS, BLOCKED, NO_PLANT_MARK, &facts, "end 11 0\n"];
            let records = [blocking(), vec![(119, ethernet(&packet))]].concat();
            assert_eq!(every_dropped(&records), all.concat());
            // A second later the count is 9.
            let records = [blocking(), vec![(120, ethernet(&packet))]].concat();
            assert_eq!(every_dropped(&records), "end 11 0\n");
        }
    }

    #[test]
    fn blocked_and_a_lower_count_or_another_kind_would_help() {
        let poll = (100, ethernet(&tcp((PLANT, 80), (CELL, 40_000), 16)));
        let first = "12 6 10 10 119 10.0.0.1 40000 192.168.0.1 80 6 opening 1 1 count kind\n";
        let sent =
            "  10.0.0.1 port 40000 sent an opening (TCP SYN without ACK) to 192.168.0.1 port \
             80 at second 119.\n";
        let kinds = "  - the kind: SYN+ACK, closing or plain\n";
        let all = [first, sent, OURS, BLOCKED, PLANT_MARK, ANY_ONE, COUNT, kinds, "end 12 0\n"];
        for flags in OPENINGS {
            let opening = (119, ethernet(&tcp((CELL, 40_000), (PLANT, 80), flags)));
            let records = [vec![poll.clone()], blocking(), vec![opening]].concat();
            assert_eq!(every_dropped(&records), all.concat(), "{flags}");
        }
    }

    #[test]
    fn hygiene() {
        // The session leaves the count at -1, and none of its marks is on this slot.
        let closing = (100, ethernet(&tcp((CELL, 40_000), (PLANT, 81), 17)));
        let first = "5 5 -1 10 100 10.0.0.1 40000 192.168.0.1 81 6 closing 1 1 plant-mark cell-mark kind
  10.0.0.1 port 40000 sent a closing TCP packet (FIN or RST) to 192.168.0.1 port 81 at second 100.\n";
        let hygiene =
            "  It was dropped as hygiene, not as blocked: the count of 10.0.0.1 is -1, and T is 10.
  It answers or closes a connection, and this connection has neither mark.\n";
        let kinds = "  - the kind: UDP, opening or plain\n";
        let all = [first, OURS, hygiene, ANY_ONE, PLANT_TO_CELL, CELL_TO_PLANT, kinds, "end 5 0\n"];
        assert_eq!(every_dropped(&[session(), vec![closing]].concat()), all.concat());
    }

    /// A record with each verdict, with each refusal, and two that do not reach the gateway.
    fn of_every_sort() -> Vec<(u32, Vec<u8>)> {
        let mut other_type = ethernet(&udp(CELL, PLANT));
        other_type[13] = 6;
        let more = [
            (100, ethernet(&udp(PLANT + 1, CELL))), // 5: verdict 1,
            (100, ethernet(&udp(CELL, PLANT + 1))), // 6: verdict 2.
            (99, ethernet(&udp(CELL, PLANT))),      // 7: before the clock.
            (100, ethernet(&[0x45; 19])),           // 8: no IP header.
            (100, vec![0; 13]),                     // 9: no Ethernet header.
            (100, ethernet(&[0; 20])),              // 10: version 0.
            (7, other_type),                        // 11: no packet of ours.
            (100, ethernet(&tcp((CELL, 1), (PLANT, 2), 1))), // 12: verdict 5.
        ];
        let contacts = (2..15).map(|n| (100, ethernet(&udp(CELL, PLANT + n))));
        [session(), more.to_vec(), contacts.collect()].concat()
    }

    #[test]
    fn a_record_that_is_asked_for() {
        let input = capture(true, &of_every_sort());
        let too_soon = "was refused, and not judged: its header bytes end too soon (refusal 5).";
        let not_ours =
            "was forwarded: it is no IPv4 packet between the cell and the plant (verdict 0).";
        for (number, word, sentence) in [
            (1, "4", "was forwarded as a fresh contact (verdict 4)."),
            (2, "3", "was forwarded, with a credit of two (verdict 3)."),
            (3, "1", "was forwarded, and nothing was counted (verdict 1)."),
            (4, "0", not_ours),
            (6, "2", "was forwarded, with a credit of one (verdict 2)."),
            (7, "R 4", "was refused, and not judged: its time is before the clock (refusal 4)."),
            (8, "R 5", too_soon),
            (9, "R 5", too_soon),
            (
                10,
                "R 6",
                "was refused, and not judged: it has no IPv4 header that can be read (refusal 6).",
            ),
            (11, "0", not_ours),
        ] {
            let block = format!("{number} {word}\n  It {sentence}\n");
            assert_eq!(told(Some(number), &input), (block + "end 25 4\n", true));
        }
        // Those that were dropped get the block that they get among others.
        let every = told(None, &input).0;
        let hygiene =
            "12 5 -2 10 100 10.0.0.1 1 192.168.0.1 2 6 closing 1 1 plant-mark cell-mark kind";
        let blocked = "25 6 10 10 100 10.0.0.1 40000 192.168.0.15 53 17 udp 1 1 count";
        assert_eq!(not_indented(&every), [hygiene, blocked, "end 25 4"]);
        let (one, other) = every.split_at(every.find("25 6").unwrap_or(0));
        assert_eq!(told(Some(12), &input), (format!("{one}end 25 4\n"), true));
        assert_eq!(told(Some(25), &input), (other.into(), true));
    }

    #[test]
    fn no_such_record() {
        let input = capture(true, &of_every_sort());
        for number in [26, 27, 9_999_999_999_999_999_999] {
            assert_eq!(told(Some(number), &input), ("end 25 4\n".into(), false));
        }
        // The record that is refused by 8 was not read whole.
        let cut = &input[..input.len() - 1];
        assert_eq!(told(Some(25), cut), ("25 R 8\nend 24 5\n".into(), false));
        assert!(told(Some(24), cut).1);
        for number in [1, 2] {
            assert_eq!(told(Some(number), &[]), ("0 R 7\nend 0 1\n".into(), false));
            assert_eq!(told(Some(number), &capture(true, &[])), ("end 0 0\n".into(), false));
        }
        let why = "why: the capture has no whole record with that number";
        assert_eq!(NOT_THERE, why);
    }

    #[test]
    fn captures_that_stop_early() {
        assert_eq!(told(None, &[]), ("0 R 7\nend 0 1\n".into(), true));
        assert_eq!(told(None, &capture(true, &[])), ("end 0 0\n".into(), true));
        let whole = capture(true, &session());
        assert_eq!(told(None, &whole), ("end 4 0\n".into(), true));
        assert_eq!(told(None, &whole[..whole.len() - 1]), ("4 R 8\nend 3 1\n".into(), true));
        // The block of what was dropped before stays.
        let closing = ethernet(&tcp((CELL, 1), (PLANT, 2), 1));
        let all = told(None, &capture(false, &[(5, closing), (5, vec![0; 2049])])).0;
        let first = "1 5 0 10 5 10.0.0.1 1 192.168.0.1 2 6 closing 1 1 plant-mark cell-mark kind";
        assert_eq!(not_indented(&all), [first, "2 R 8", "end 1 1"]);
    }

    #[test]
    fn arguments() {
        let asked = |words: &[&str]| {
            asked_for(&words.iter().map(OsString::from).collect::<Vec<OsString>>())
        };
        assert_eq!(asked(&[]), Ok(None));
        for (word, number) in [
            ("1", 1),
            ("23", 23),
            ("007", 7),
            ("0000000000000000001", 1),
            ("9999999999999999999", 9_999_999_999_999_999_999),
        ] {
            assert_eq!(asked(&[word]), Ok(Some(number)));
        }
        let no_number =
            "why: the argument is no record number: give a number from 1 on, or none for every \
             dropped record";
        for word in [
            "",
            "0",
            "00",
            "0000000000000000000",
            "00000000000000000001",
            "10000000000000000000",
            "x",
            "-1",
            "+1",
            "1x",
            " 1",
            "1 ",
            "1.0",
            "0x1",
            "\u{661}",
        ] {
            assert_eq!(asked(&[word]), Err(no_number), "{word:?}");
        }
        let too_many =
            "why: more than one argument: give one record number, or none for every dropped record";
        for words in [["1", "2"], ["1", "1"], ["x", "1"], ["1", ""]] {
            assert_eq!(asked(&words), Err(too_many), "{words:?}");
        }
        assert_eq!(asked(&["1", "2", "3"]), Err(too_many));
    }
}
