//! The printing program: "It reads a capture on standard input" and prints a line for each record.
#![forbid(unsafe_code)]

use std::io::{self, Write};
use std::net::Ipv4Addr;
use std::process::ExitCode;

use second::gateway::Answer;
use second::replay::{self, Replay};

fn main() -> ExitCode {
    replay::run(print)
}

/// Prints all the lines of a capture.
fn print(input: &[u8], out: &mut dyn Write) -> io::Result<()> {
    let end = match Replay::open(input) {
        Ok(mut replay) => {
            while let Some(judged) = replay.next_judged() {
                match judged.answer {
                    Ok(answer) => writeln!(out, "{}", answer_line(judged.number, answer))?,
                    Err(refusal) => writeln!(out, "{}", refusal.line(judged.number))?,
                }
            }
            replay.end()
        }
        Err(end) => end,
    };
    write!(out, "{end}")
}

/// "A line is: record number from 1, verdict, count, replaced address in dotted form; "-" for a
/// value that has none."
fn answer_line(number: u64, answer: Answer) -> String {
    let verdict = answer.verdict as u8;
    let count = answer.count.map_or("-".to_string(), |count| count.to_string());
    let replaced = answer.replaced.map_or("-".to_string(), |a| Ipv4Addr::from(a).to_string());
    format!("{number} {verdict} {count} {replaced}")
}

#[cfg(test)]
mod tests {
    use super::*;
    use second::samples::{capture, ethernet, ip, session, udp, CELL, PLANT};

    fn printed(input: &[u8]) -> String {
        let mut out = Vec::new();
        assert!(print(input, &mut out).is_ok());
        String::from_utf8_lossy(&out).into_owned()
    }

    #[test]
    fn the_session() {
        let lines = "1 4 1 -\n2 3 -1 -\n3 1 -1 -\n4 0 - -\nend 4 0\n";
        assert_eq!(printed(&capture(true, &session())), lines);
        assert_eq!(printed(&capture(false, &session())), lines);
    }

    #[test]
    fn captures_that_stop_early() {
        assert_eq!(printed(&[]), "0 R 7\nend 0 1\n");
        assert_eq!(printed(&capture(true, &[])[..23]), "0 R 7\nend 0 1\n");
        assert_eq!(printed(&capture(true, &[])), "end 0 0\n");
        let whole = capture(true, &session());
        let cut = "1 4 1 -\n2 3 -1 -\n3 1 -1 -\n4 R 8\nend 3 1\n";
        assert_eq!(printed(&whole[..whole.len() - 1]), cut);
        let mut trailing = whole.clone();
        trailing.push(0);
        let five = "1 4 1 -\n2 3 -1 -\n3 1 -1 -\n4 0 - -\n5 R 8\nend 4 1\n";
        assert_eq!(printed(&trailing), five);
        let records = [(5, ethernet(&[0; 2034])), (5, ethernet(&[0; 2035])), (5, vec![])];
        assert_eq!(printed(&capture(true, &records)), "1 R 6\n2 R 8\nend 1 2\n");
        assert_eq!(printed(&capture(true, &records[1..])), "1 R 8\nend 0 1\n");
    }

    #[test]
    fn frames_that_do_not_reach_the_gateway() {
        let bare = ethernet(&[]);
        let mut other_type = ethernet(&udp(CELL, PLANT));
        other_type[13] = 6;
        let ours = ethernet(&udp(CELL, PLANT));
        let records = [
            (500, bare[..13].to_vec()), // Cold start at 500, on a frame of 13 bytes.
            (499, bare.clone()),        // 14 bytes reach the gateway: 4 before 5.
            (500, bare),                // Now 5.
            (900, other_type.clone()),  // Verdict 0; the clock stays at 500.
            (400, other_type),          // Nor is its time looked at.
            (800, ethernet(&[0; 19])),  // A refused packet does not move the clock.
            (500, ours.clone()),        // 500 is the clock: fresh contact.
            (600, ethernet(&ip(1, CELL, CELL, &[]))), // Not ours, but it moves the clock.
            (599, ours.clone()),        // So this is before it.
            (600, ours),                // Own set; 540 and 600 were passed.
        ];
        let lines = "1 R 5\n2 R 4\n3 R 5\n4 0 - -\n5 0 - -\n6 R 5\n7 4 1 -\n8 0 - -\n9 R 4\n\
                     10 1 0 -\nend 10 5\n";
        assert_eq!(printed(&capture(true, &records)), lines);
    }

    #[test]
    fn a_full_line_prints_the_replaced_address() {
        // The first five cell addresses with the line of 10.0.0.0.
        let line = |address| second::cipher::line(&[0; 8], address, replay::LINES);
        let same = |address: &u32| line(*address) == line(0x0A00_0000);
        let cells: Vec<u32> = (0x0A00_0000..0x0B00_0000).filter(same).take(5).collect();
        let records: Vec<_> = cells.iter().map(|c| (0, ethernet(&udp(*c, PLANT)))).collect();
        let lines = "1 4 1 -\n2 4 1 -\n3 4 1 -\n4 4 1 -\n5 4 1 10.0.0.0\nend 5 0\n";
        assert_eq!(printed(&capture(true, &records)), lines);
    }
}
