//! Words for the first place where two outputs differ.

use std::process::Output;

/// Finds the first place where two standard outputs differ, and has words for it.
pub type OnOutput = fn(&[u8], &[u8]) -> String;

/// Of all that two programs did.
pub fn differing(first: &Output, second: &Output, where_found: &str, on_output: OnOutput) -> Option<String> {
    let found = if first.stdout != second.stdout {
        on_output(&first.stdout, &second.stdout)
    } else if first.stderr != second.stderr {
        format!("standard error, {}", differing_line(&first.stderr, &second.stderr))
    } else if first.status != second.status {
        format!("{} against {}", first.status, second.status)
    } else {
        return None;
    };
    Some(format!("{where_found}: {found}"))
}

pub fn differing_line(first: &[u8], second: &[u8]) -> String {
    let mut first_lines = first.split(|byte| *byte == b'\n');
    let mut second_lines = second.split(|byte| *byte == b'\n');
    let mut number = 1;
    loop {
        let (one, other) = (first_lines.next(), second_lines.next());
        if one != other || one.is_none() {
            return format!("line {number}: {} against {}", quoted(one), quoted(other));
        }
        number += 1;
    }
}

/// As much of a line as shows where it differs.
fn quoted(line: Option<&[u8]>) -> String {
    line.map_or("no line".into(), |line| format!("{:?}", String::from_utf8_lossy(&line[..line.len().min(160)])))
}

/// Of captures, which have no lines. Bytes are counted from 0.
pub fn differing_byte(first: &[u8], second: &[u8]) -> String {
    let alike = first.iter().zip(second).take_while(|(one, other)| one == other).count();
    let at = |bytes: &[u8]| bytes.get(alike).map_or("no byte".into(), |byte| format!("{byte:#04x}"));
    format!("byte {alike}: {} of {} bytes against {} of {}", at(first), first.len(), at(second), second.len())
}
