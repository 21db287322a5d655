//! Tables 4 and 5: a capture of a million records through a program, the second program of the same job, and tcpdump.

use crate::stopwatch::{commas, head, in_turn, ratio, row, timed};
use crate::trace::{Trace, MIXED};
use std::fs::{self, File};
use std::path::{Path, PathBuf};
use std::process::{Command, Stdio};
use std::time::Duration;

const RECORDS: usize = 1_000_000;

/// Three programs side by side.
pub struct Contest {
    title: &'static str,
    notes: &'static str,
    proved: &'static str,
    second: &'static str,
    /// What tcpdump is told before and after the capture's name.
    tcpdump: (&'static [&'static str], &'static [&'static str]),
}

pub const PRINTING: Contest = Contest {
    title: "4. Printing the verdicts on a capture",
    notes: "\
        The mixed packets of table 2 in Ethernet frames, in a file that was just written and so is in memory. A program's \
        whole run is timed, its start included; its lines go to /dev/null, or through a pipe to cat, which throws them away. \
        print_verdicts and the second program printed the same bytes. tcpdump does a different job, and its ratio compares no \
        like with like: it gives no verdict and keeps no table, but takes apart more of each packet and prints far more of it, \
        with time, addresses, ports, flags, numbers and lengths. It runs as tcpdump -nn -S -r: -nn, so that it looks up no \
        names of addresses and ports, which would wait for other machines; -S, so that it does not search for each \
        connection's first sequence number, which would take longer than all the rest.",
    proved: "crates/print_verdicts/out/print_verdicts",
    second: "target/speed/release/second",
    tcpdump: (&["-nn", "-S", "-r"], &[]),
};

pub const FORWARDING: Contest = Contest {
    title: "5. Writing what was forwarded of a capture",
    notes: "\
        The capture of table 4, and what each program writes goes to /dev/null, or through a pipe to cat. forwarded and the second \
        program wrote the same bytes. tcpdump -r CAPTURE -w - judges nothing and keeps no table: it reads every record and writes \
        it again.",
    proved: "crates/forwarded/out/forwarded",
    second: "target/speed/release/second_forwarded",
    tcpdump: (&["-r"], &["-w", "-"]),
};

/// A file that is gone afterwards.
struct Temporary(PathBuf);

impl Drop for Temporary {
    fn drop(&mut self) {
        let _ = fs::remove_file(&self.0);
    }
}

/// The program, reading the capture: on standard input, or by its name where that is how it is told.
fn reading(contest: &Contest, program: &str, capture: &Path) -> Command {
    let mut command = Command::new(program);
    match program {
        "tcpdump" => command.args(contest.tcpdump.0).arg(capture).args(contest.tcpdump.1),
        _ => command.stdin(File::open(capture).expect("the capture cannot be opened")),
    };
    command.stderr(Stdio::null());
    command
}

fn to_null(mut command: Command) -> Duration {
    timed(|| {
        let status = command.stdout(Stdio::null()).status();
        assert!(status.is_ok_and(|status| status.success()), "{command:?} failed");
    })
}

fn to_pipe(mut command: Command) -> Duration {
    timed(|| {
        let mut first = command.stdout(Stdio::piped()).spawn().expect("a program does not start");
        let lines = first.stdout.take().expect("the program has no standard output");
        let cat = Command::new("cat").stdin(lines).stdout(Stdio::null()).status();
        let status = first.wait();
        assert!(cat.is_ok() && status.is_ok_and(|status| status.success()), "{command:?} failed");
    })
}

fn has_tcpdump() -> bool {
    Command::new("tcpdump").arg("--version").stdout(Stdio::null()).stderr(Stdio::null()).status().is_ok()
}

pub fn put_table(contest: &Contest) {
    let capture = Temporary(std::env::temp_dir().join(format!("speed-{}.pcap", std::process::id())));
    let bytes = Trace::made(MIXED, RECORDS).capture();
    let megabytes = bytes.len() as f64 / 1e6;
    fs::write(&capture.0, bytes).expect("the capture cannot be written");
    let started = |program: &str| reading(contest, program, &capture.0);
    let [ours, theirs] =
        [contest.proved, contest.second].map(|program| started(program).output().expect("a program does not start"));
    assert!(ours.stdout == theirs.stdout, "the two programs put out different bytes");

    let columns = ["output", "program", "seconds", "records a second", "MB a second", "ratio"];
    head(contest.title, contest.notes, &columns);
    let all = [contest.proved, contest.second, "tcpdump"];
    let programs = if has_tcpdump() { &all[..] } else { &all[..2] };
    for (output, run) in [("/dev/null", to_null as fn(Command) -> Duration), ("cat", to_pipe)] {
        let mut runs: Vec<_> = programs.iter().map(|program| || run(started(program))).collect();
        let mut turns: Vec<&mut dyn FnMut() -> Duration> = runs.iter_mut().map(|run| run as _).collect();
        let figures = in_turn(&mut turns);
        for (program, other) in programs.iter().zip(&figures) {
            let name = program.rsplit('/').next().unwrap_or(program);
            let (records, rate) = (commas(other.a_second(RECORDS)), format!("{:.0}", megabytes / other.median));
            row(&[output, name, &other.seconds(), &records, &rate, &ratio(figures[0], *other)]);
        }
    }
    if !has_tcpdump() {
        println!("\nThere is no tcpdump here: apt-get install -y tcpdump");
    }
}
