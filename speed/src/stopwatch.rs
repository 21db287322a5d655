//! Timing side by side: the contenders take turns, round after round, and the median of their rounds counts.

use std::time::{Duration, Instant};

/// Seconds: the median, and the fastest and slowest round.
#[derive(Clone, Copy)]
pub struct Figures {
    pub median: f64,
    low: f64,
    high: f64,
}

impl Figures {
    /// Nanoseconds for each of so many things: the median, and the spread from the fastest to the slowest round.
    pub fn each(&self, things: usize) -> String {
        let [median, low, high] = [self.median, self.low, self.high].map(|s| s * 1e9 / things as f64);
        let places = if median < 1.0 { 4 } else { 1 };
        format!("{median:.places$} ({low:.places$} to {high:.places$})")
    }

    pub fn seconds(&self) -> String {
        format!("{:.2} ({:.2} to {:.2})", self.median, self.low, self.high)
    }

    pub fn a_second(&self, things: usize) -> f64 {
        things as f64 / self.median
    }
}

/// Rounds, unless SPEED_ROUNDS says how many.
fn rounds() -> usize {
    std::env::var("SPEED_ROUNDS").ok().and_then(|number| number.parse().ok()).unwrap_or(7).max(1)
}

pub fn timed(work: impl FnOnce()) -> Duration {
    let start = Instant::now();
    work();
    start.elapsed()
}

/// Each contender prepares what it needs and answers how long the part took that counts.
pub fn in_turn(contenders: &mut [&mut dyn FnMut() -> Duration]) -> Vec<Figures> {
    in_turn_by(contenders.len(), |which| contenders[which]())
}

/// The same of so many contenders by their numbers.
pub fn in_turn_by(contenders: usize, mut contend: impl FnMut(usize) -> Duration) -> Vec<Figures> {
    let mut times = vec![Vec::new(); contenders];
    for _ in 0..rounds() {
        for (which, times) in times.iter_mut().enumerate() {
            times.push(contend(which).as_secs_f64());
        }
    }
    times.iter_mut().for_each(|times| times.sort_by(f64::total_cmp));
    times.iter().map(|times| figures_of(times)).collect()
}

/// Of times in rising order.
fn figures_of(times: &[f64]) -> Figures {
    let last = times.len() - 1;
    Figures { median: (times[last / 2] + times[last.div_ceil(2)]) / 2.0, low: times[0], high: times[last] }
}

/// How many times as fast ours is: the other's time by ours, so that 1.00 is equal speed.
pub fn ratio(ours: Figures, other: Figures) -> String {
    format!("{:.2}", other.median / ours.median)
}

/// A whole number with commas between thousands.
pub fn commas(number: f64) -> String {
    let digits = format!("{number:.0}");
    let mut text = String::new();
    for (at, digit) in digits.chars().enumerate() {
        if at > 0 && (digits.len() - at) % 3 == 0 {
            text.push(',');
        }
        text.push(digit);
    }
    text
}

/// A table's head in Markdown.
pub fn head(title: &str, notes: &str, columns: &[&str]) {
    println!("\n## {title}\n\n{notes}\n");
    row(columns);
    row(&vec!["---"; columns.len()]);
}

pub fn row<S: AsRef<str>>(cells: &[S]) {
    let cells: Vec<&str> = cells.iter().map(AsRef::as_ref).collect();
    println!("| {} |", cells.join(" | "));
}
