//! A capture replayed through the gateway of "The printing program": what every program that reads
//! a capture from front to back has in common. What it does with an answered record is its own.

use std::fmt;
use std::io::{self, BufWriter, Read, Write};
use std::process::ExitCode;

use crate::capture::{Capture, Record};
use crate::gateway::{Answer, Gateway, Settings, Verdict};
use crate::refusal::Refusal;
use crate::sides::Sides;
use crate::why::{self, Explanation};

/// "a cold table of 4,096 records and 256 lines."
const RECORDS: usize = 4096;
pub const LINES: usize = 256;

/// "with factory settings", but for what K2 of document 02 says: "Callers that took ten by default
/// name it themselves: the printing program and the writer of K1". So does K4's program.
const SETTINGS: Settings = Settings { threshold: 10, ..Settings::FACTORY };

/// Runs a program over all of standard input. Its status is 1 when the input could not be read or
/// an output could not be written, else 0.
pub fn run(program: impl FnOnce(&[u8], &mut dyn Write) -> io::Result<()>) -> ExitCode {
    let mut input = Vec::new();
    if io::stdin().lock().read_to_end(&mut input).is_err() {
        return ExitCode::FAILURE;
    }
    let mut out = BufWriter::new(io::stdout().lock());
    match program(&input, &mut out).and_then(|()| out.flush()) {
        Ok(()) => ExitCode::SUCCESS,
        Err(_) => ExitCode::FAILURE,
    }
}

/// A record that was read whole, and what became of it.
pub struct Judged<'a> {
    /// "record number from 1"
    pub number: u64,
    pub record: Record<'a>,
    pub answer: Result<Answer, Refusal>,
}

/// How a capture ended. Written out, it is what the printing program prints last.
#[derive(Default)]
pub struct End {
    /// The refusal that stopped it, 7 or 8, with its record number.
    stopped: Option<(u64, Refusal)>,
    read_whole: u64,
    refusals: u64,
}

impl End {
    fn stop(&mut self, number: u64, refusal: Refusal) {
        self.stopped = Some((number, refusal));
        self.refusals += 1;
    }
}

impl fmt::Display for End {
    fn fmt(&self, to: &mut fmt::Formatter) -> fmt::Result {
        if let Some((number, refusal)) = self.stopped {
            writeln!(to, "{}", refusal.line(number))?;
        }
        // "The last line is "end", records read whole, refusals."
        writeln!(to, "end {} {}", self.read_whole, self.refusals)
    }
}

/// A capture whose header was good, on its way through the gateway.
pub struct Replay<'a> {
    capture: Capture<'a>,
    gateway: Option<Gateway>,
    end: End,
}

impl<'a> Replay<'a> {
    /// "Refusal 7 prints as record 0." "After 7 or 8 it stops."
    pub fn open(input: &'a [u8]) -> Result<Replay<'a>, End> {
        let mut end = End::default();
        match Capture::open(input) {
            Ok(capture) => Ok(Replay { capture, gateway: None, end }),
            Err(refusal) => {
                end.stop(0, refusal);
                Err(end)
            }
        }
    }

    /// The next record that is read whole, or nothing after the last one or after 8.
    pub fn next_judged(&mut self) -> Option<Judged<'a>> {
        self.next_seen(|_, _, _| ()).map(|(judged, ())| judged)
    }

    /// The same with a look, before the record is judged, at its number, the gateway as it stands
    /// then and the record.
    pub fn next_seen<S>(
        &mut self,
        look: impl FnOnce(u64, &Gateway, &Record) -> S,
    ) -> Option<(Judged<'a>, S)> {
        let number = self.end.read_whole + 1;
        match self.capture.next_record()? {
            Ok(record) => {
                self.end.read_whole = number;
                // "starts cold at the first record's second": whatever its frame is.
                let gateway = self.gateway.get_or_insert_with(|| {
                    Gateway::cold_start(SETTINGS, Sides::PROGRAM, RECORDS, LINES, record.second)
                });
                let seen = look(number, gateway, &record);
                let answer = judge_frame(gateway, &record);
                self.end.refusals += u64::from(answer.is_err());
                Some((Judged { number, record, answer }, seen))
            }
            // "After 7 or 8 it stops."
            Err(refusal) => {
                self.end.stop(number, refusal);
                None
            }
        }
    }

    /// To be asked once there is no next record.
    pub fn end(self) -> End {
        self.end
    }
}

fn judge_frame(gateway: &mut Gateway, record: &Record) -> Result<Answer, Refusal> {
    match packet_of(record.frame)? {
        Some(packet) => gateway.packet(record.second, packet),
        None => Ok(Answer::NOT_OURS),
    }
}

/// What K4's tool says of a record, by the gateway as it stands before the record is judged.
pub fn explain_frame(gateway: &Gateway, record: &Record) -> Result<Explanation, Refusal> {
    match packet_of(record.frame)? {
        Some(packet) => why::explain(gateway, record.second, packet),
        None => Ok(Explanation::Forwarded(Verdict::NotOurs)),
    }
}

/// The packet of a frame that reaches the gateway. "An Ethernet frame under 14 bytes is refused by
/// 5; EtherType other than 0x0800 prints verdict 0; neither reaches the gateway."
fn packet_of(frame: &[u8]) -> Result<Option<&[u8]>, Refusal> {
    let Some((ethernet, packet)) = frame.split_first_chunk::<14>() else {
        return Err(Refusal::HeaderEndsTooSoon);
    };
    let is_ipv4 = [ethernet[12], ethernet[13]] == [0x08, 0x00];
    Ok(is_ipv4.then_some(packet))
}
