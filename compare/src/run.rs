//! Runs programs on captures, two at a time.

use std::io::Write;
use std::process::{Command, Output, Stdio};
use std::thread;

/// The answers, in the order of the work.
pub fn two_at_a_time<T: Sync, A: Send>(work: &[T], answer: impl Fn(&T) -> A + Sync) -> Vec<A> {
    let (low, high) = work.split_at(work.len() / 2);
    thread::scope(|scope| {
        let other = scope.spawn(|| high.iter().map(&answer).collect::<Vec<A>>());
        let mut answers: Vec<A> = low.iter().map(&answer).collect();
        answers.extend(other.join().expect("the answers of the other thread"));
        answers
    })
}

/// What it prints and how it ends. What it says on standard error is its own affair.
pub fn run(program: &str, capture: &[u8]) -> Result<Output, String> {
    run_with(program, &[], capture, Stdio::null())
}

/// The same of a program that may be given arguments, and what it says on standard error.
pub fn run_and_hear(program: &str, arguments: &[String], capture: &[u8]) -> Result<Output, String> {
    run_with(program, arguments, capture, Stdio::piped())
}

fn run_with(program: &str, arguments: &[String], capture: &[u8], standard_error: Stdio) -> Result<Output, String> {
    let failed = |error| format!("cannot run {program}: {error}");
    let mut command = Command::new(program);
    command.args(arguments).stdin(Stdio::piped()).stdout(Stdio::piped()).stderr(standard_error);
    let mut child = command.spawn().map_err(failed)?;
    let input = child.stdin.take();
    thread::scope(|scope| {
        // A thread of its own writes, for the program may print before it has read all. A write that fails is no failure:
        // after refusal 7 or 8 a program may stop reading.
        scope.spawn(move || input.map(|mut input| input.write_all(capture)));
        child.wait_with_output().map_err(failed)
    })
}
