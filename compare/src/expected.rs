//! What a forwarding program must write, worked out from a printing program's lines and a reading of the capture that has
//! nothing to do with any program's.

use crate::capture::{Capture, Order};
use crate::unread::Unread;
use std::process::{ExitStatus, Output};

/// Of the capture that was read, and what the printing program printed on it: the forwarded records on standard output, what
/// the printing program prints last on standard error, and status 0. Words for what does not fit, if lines and records don't.
pub fn expected(input: &[u8], printed: &[u8]) -> Result<Output, String> {
    let printed = String::from_utf8_lossy(printed);
    let mut unread = Unread::of(input);
    let mut capture = Capture::plain(Order::Little);
    let mut last_lines = String::new();
    for line in printed.lines() {
        let misfit = || format!("{line:?} tells of a record that is not there");
        match line.split(' ').collect::<Vec<_>>()[..] {
            ["end", _, _] => last_lines += &format!("{line}\n"),
            [_, "R", stopped @ ("7" | "8")] => {
                last_lines += &format!("{line}\n");
                capture.bytes.truncate(if stopped == "7" { 0 } else { usize::MAX });
                unread.bytes = &[];
            }
            // Refused, or dropped.
            [_, "R", _] | [_, "5" | "6", _, _] => drop(unread.record().ok_or_else(misfit)?),
            [_, "0" | "1" | "2" | "3" | "4", _, _] => {
                let (words, frame) = unread.record().ok_or_else(misfit)?;
                capture.record_header(words);
                capture.bytes.extend(frame);
            }
            _ => return Err(format!("{line:?} has no known form")),
        }
    }
    match unread.bytes.len() {
        0 => Ok(Output { status: ExitStatus::default(), stdout: capture.bytes, stderr: last_lines.into() }),
        left => Err(format!("no line tells of the last {left} bytes")),
    }
}
