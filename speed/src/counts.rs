//! Instructions, stores and lines of memory written, counted by callgrind: steady figures, whatever else the machine does.

use crate::boundary::{sweep_some, LARGEST, PROGRAMS};
use crate::cipher;
use crate::judging::{self, judge_some};
use crate::ours::{self, KEYS};
use crate::stopwatch::{commas, head, row};
use crate::stores;
use crate::trace::KINDS;
use std::hint::black_box;
use std::process::{Command, Stdio};

const TIMES: usize = 20_000;
const NOTES: &str = "\
    The instructions of a run of 2n less those of n, by n; the loop around the call is in them. n is 20,000 words, or \
    20,000 packets on 4,096 records (of 40,000, whichever are judged, so that making them falls out). The ratio is another \
    program's instructions by ours: above 1.00 ours takes fewer.";
const BOUNDARY_NOTES: &str = "\
    One minute boundary over 1,048,576 records, of which so many are marked, with ages 0 to 62. A store is one that the \
    processor is told to make, whether of one byte or of sixteen. A line is 64 bytes of memory, of which the table has \
    16,384: so many are written back once the table is out of the cache, for which callgrind is given one of 65,536 bytes; a \
    few more or less are the caller's own. The table starts where a line does.";

/// Inlined, so that each program is called directly.
#[inline(always)]
fn encrypt_often(times: usize, e: impl Fn(&[u32; 8], u32) -> u32) {
    let keys = &black_box(KEYS);
    black_box((0..times).fold(1, |word, _| e(keys, word)));
}

/// One run, under callgrind: which of its kind, by which program, how many times.
pub fn work(what: &str, numbers: &[&str]) {
    let numbers: Vec<usize> = numbers.iter().map(|number| number.parse().expect("a number is wanted")).collect();
    let (which, program, times) = (numbers[0], numbers[1], numbers[2]);
    match (what, program) {
        ("encrypt", 0) => encrypt_often(times, ours::encrypt),
        ("encrypt", 1) => encrypt_often(times, cipher::encrypt),
        ("encrypt", _) => encrypt_often(times, cipher::encrypt_in_c),
        ("judge", _) => judge_some(KINDS[which], program, times),
        ("stores", _) => stores::sweep_between_fences(which as u32, program),
        _ => sweep_some(which as u32, program, times),
    }
}

/// The instructions and stores of such a run, and the lines of memory that it writes back.
fn counted(what: &str, numbers: [usize; 3]) -> [f64; 3] {
    let this = std::env::current_exe().expect("the program does not know its own name");
    let out = std::env::temp_dir().join(format!("speed-{}.callgrind", std::process::id()));
    let mut command = Command::new("valgrind");
    command.args(["--tool=callgrind", "--simulate-wb=yes", "--D1=32768,8,64", "--LL=65536,16,64"]);
    command.arg(format!("--callgrind-out-file={}", out.display())).arg(this);
    command.args(["work", what]).args(numbers.map(|number| number.to_string())).stderr(Stdio::null());
    let status = command.status();
    assert!(status.is_ok_and(|status| status.success()), "valgrind failed; apt-get install -y valgrind");
    let text = std::fs::read_to_string(&out).expect("callgrind left no figures");
    let _ = std::fs::remove_file(&out);
    let words = |start| text.lines().find_map(|line| line.strip_prefix(start)).unwrap_or("").split_whitespace();
    let total = |event: &str| -> f64 {
        let total = words("events: ").zip(words("totals: ")).find(|(name, _)| *name == event);
        total.and_then(|(_, number)| number.parse().ok()).expect("callgrind's figures lack a total")
    };
    // What leaves the cache changed leaves it for code or data that is read or written in its place.
    [total("Ir"), total("Dw"), total("ILdmr") + total("DLdmr") + total("DLdmw")]
}

/// The same for each time, without what a run costs however often the thing is done.
fn counted_each(what: &str, which: usize, program: usize, times: usize) -> [f64; 3] {
    let [more, less] = [2 * times, times].map(|times| counted(what, [which, program, times]));
    std::array::from_fn(|event| (more[event] - less[event]) / times as f64)
}

fn put_rows(of: &str, what: &str, which: usize, programs: &[&str]) {
    let each: Vec<f64> = (0..programs.len()).map(|program| counted_each(what, which, program, TIMES)[0]).collect();
    for (program, each_of) in programs.iter().zip(&each) {
        row(&[of, program, &format!("{each_of:.2}"), &format!("{:.2}", each_of / each[0])]);
    }
}

fn put_boundary(percent: usize) {
    for (program, (name, _)) in PROGRAMS.iter().enumerate() {
        let [instructions, stores, lines] = counted_each("sweep", percent, program, 1);
        let each = format!("{:.4}", instructions / LARGEST as f64);
        row(&[&format!("{percent} %"), *name, &each, &commas(stores), &commas(lines)]);
    }
}

pub fn put_tables() {
    head("Instructions", NOTES, &["of", "program", "instructions", "ratio"]);
    put_rows("E, a word", "encrypt", 0, &["ours", "plain Rust", "plain C"]);
    for (which, kind) in KINDS.iter().enumerate() {
        put_rows(&format!("judge, a packet: {}", kind.name), "judge", which, &judging::NAMES);
    }
    let columns = ["marked", "program", "instructions a record", "stores", "lines written"];
    head("Instructions and stores of a minute boundary", BOUNDARY_NOTES, &columns);
    [0, 1, 20, 50, 100].into_iter().for_each(put_boundary);
}
