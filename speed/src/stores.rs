//! Which records a minute boundary stores to, by the addresses that valgrind's lackey writes down. A check: it fails where a record is stored
//! to that does not differ afterwards, or one that does differ not just once. callgrind's count of stores cannot tell the table from the
//! rest of memory, where ours lists the places that it stores to.

use crate::boundary::{marked, Lined, PROGRAMS};
use crate::stopwatch::{commas, head, row};
use std::io::{BufRead, BufReader, Read};
use std::process::{ChildStdout, Command, Stdio};
use std::sync::atomic::{AtomicUsize, Ordering::SeqCst};

const RECORDS: usize = 16_384;
/// How many percent of the records are marked.
const SHARES: [u32; 6] = [0, 1, 20, 50, 99, 100];
const NOTES: &str = "\
    One minute boundary over 16,384 records, of which so many are marked, with ages 0 to 62. Ours has to store to each record \
    that differs afterwards, once, and to no other; else this run fails. Plain Rust is there to show what is seen of a sweep that \
    stores to all.";

/// Stored to just before the boundary and just after it.
static FENCE: AtomicUsize = AtomicUsize::new(0);

/// One boundary by one of the programs, under lackey. Told on standard output: where the table and the fence are.
pub fn sweep_between_fences(percent: u32, program: usize) {
    let mut table = Lined::of(&marked(RECORDS, percent));
    println!("{} {}", table.records().as_ptr() as usize, FENCE.as_ptr() as usize);
    FENCE.store(1, SeqCst);
    PROGRAMS[program].1(table.records());
    FENCE.store(2, SeqCst);
}

/// The start and the end of a store that lackey wrote down: ` S 1ffeffe7e8,8`, or M for one that loads too.
fn store_in(line: &str) -> Option<(usize, usize)> {
    let (start, size) = line.strip_prefix(" S ").or(line.strip_prefix(" M "))?.trim_end().split_once(',')?;
    let (start, size) = (usize::from_str_radix(start, 16).ok()?, size.parse::<usize>().ok()?);
    Some((start, start + size))
}

/// Where the table starts, and the fence.
fn places(mut told: ChildStdout) -> [usize; 2] {
    let mut text = String::new();
    told.read_to_string(&mut text).expect("the program told nothing");
    let numbers: Vec<usize> = text.split_whitespace().filter_map(|word| word.parse().ok()).collect();
    numbers.try_into().expect("the program told something else")
}

/// The stores between the two to the fence, in turn.
fn stores_between(stores: &[(usize, usize)], fence: usize) -> &[(usize, usize)] {
    let at: Vec<usize> = (0..stores.len()).filter(|&at| stores[at].0 == fence).collect();
    assert_eq!(at.len(), 2, "the fence was stored to so many times");
    &stores[at[0] + 1..at[1]]
}

/// How many stores there were to the table, and how often each record was stored to.
fn traced(percent: u32, program: usize) -> (usize, Vec<u32>) {
    let this = std::env::current_exe().expect("the program does not know its own name");
    let mut command = Command::new("valgrind");
    // The hint lets a program on an Arm processor get on that takes a lock.
    command.args(["--tool=lackey", "--trace-mem=yes", "--sim-hints=fallback-llsc"]).arg(this);
    command.args(["work", "stores", &percent.to_string(), &program.to_string(), "1"]);
    let child = command.stdout(Stdio::piped()).stderr(Stdio::piped()).spawn();
    let mut child = child.expect("valgrind is not there; apt-get install -y valgrind");
    let trace = BufReader::new(child.stderr.take().expect("it is piped")).lines();
    let stores: Vec<_> = trace.map_while(Result::ok).filter_map(|line| store_in(&line)).collect();
    let [table, fence] = places(child.stdout.take().expect("it is piped"));
    assert!(child.wait().is_ok_and(|status| status.success()), "valgrind failed");
    let mut times = vec![0; RECORDS];
    let inside = |&&(start, end): &&(usize, usize)| table < end && start < table + RECORDS;
    let to_table: Vec<_> = stores_between(&stores, fence).iter().filter(inside).collect();
    for (start, end) in &to_table {
        times[start.saturating_sub(table)..(end - table).min(RECORDS)].iter_mut().for_each(|times| *times += 1);
    }
    (to_table.len(), times)
}

/// Whether each record differs after the boundary, by a plain loop.
fn differing(percent: u32) -> Vec<bool> {
    let before = marked(RECORDS, percent);
    let mut after = before.clone();
    PROGRAMS[1].1(&mut after);
    before.iter().zip(&after).map(|(before, after)| before != after).collect()
}

fn put_rows(percent: u32) {
    let differing = differing(percent);
    for (program, (name, _)) in PROGRAMS.iter().enumerate().take(2) {
        let (stores, times) = traced(percent, program);
        let count = |which: &dyn Fn(bool, u32) -> bool| {
            let count = differing.iter().zip(&times).filter(|(&differs, &times)| which(differs, times)).count();
            commas(count as f64)
        };
        row(&[
            &format!("{percent} %"),
            *name,
            &count(&|differs, _| differs),
            &commas(stores as f64),
            &count(&|differs, times| differs && times > 0),
            &count(&|differs, times| !differs && times > 0),
        ]);
        let is_quiet = differing.iter().zip(&times).all(|(&differs, &times)| times == u32::from(differs));
        assert!(
            program != 0 || is_quiet,
            "at {percent} % a record was stored to that does not differ, or one that does not just once"
        );
    }
}

pub fn put_table() {
    let columns = ["marked", "program", "records that differ", "stores to the table", "of them stored to", "others stored to"];
    head("Records that a minute boundary stores to", NOTES, &columns);
    SHARES.into_iter().for_each(put_rows);
}
