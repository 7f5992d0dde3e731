//! Times side by side: both are run in turns, and the least processor time of each counts, so that other programs on
//! the machine matter little.

use std::hint::black_box;
use std::time::{Duration, Instant};

/// How long a pair is run for.
const ENOUGH: Duration = Duration::from_millis(400);
const LEAST_TURNS: u32 = 5;

/// The least seconds of each, run in turns.
pub fn pair<A, B>(mut own: impl FnMut() -> A, mut other: impl FnMut() -> B) -> (f64, f64) {
    let start = Instant::now();
    let mut least = (f64::MAX, f64::MAX);
    let mut turns = 0;
    while turns < LEAST_TURNS || start.elapsed() < ENOUGH {
        least = (least.0.min(once(&mut own)), least.1.min(once(&mut other)));
        turns += 1;
    }
    least
}

/// The least seconds of one.
pub fn alone<A>(own: impl FnMut() -> A) -> f64 {
    pair(own, || ()).0
}

fn once<A>(run: &mut impl FnMut() -> A) -> f64 {
    let start = processor_time();
    black_box(run());
    processor_time() - start
}

#[repr(C)]
struct Timespec {
    seconds: i64,
    nanoseconds: i64,
}

extern "C" {
    fn clock_gettime(clock: i32, time: *mut Timespec) -> i32;
}

/// Linux's CLOCK_THREAD_CPUTIME_ID.
const THREAD_CLOCK: i32 = 3;

/// Seconds of processor time that this thread has had.
fn processor_time() -> f64 {
    let mut time = Timespec { seconds: 0, nanoseconds: 0 };
    // SAFETY: the C library writes one timespec.
    let answer = unsafe { clock_gettime(THREAD_CLOCK, &mut time) };
    assert_eq!(answer, 0, "the system has a clock for each thread");
    time.seconds as f64 + time.nanoseconds as f64 * 1e-9
}

/// A time as a person reads it.
fn spelled(seconds: f64) -> String {
    if seconds < 1e-3 {
        format!("{:.1} µs", seconds * 1e6)
    } else {
        format!("{:.2} ms", seconds * 1e3)
    }
}

/// Bytes in a time as a rate.
pub fn rate(bytes: usize, seconds: f64) -> String {
    format!("{:.0} MB/s", bytes as f64 / seconds / 1e6)
}

/// A line of the first table.
pub fn line(what: &str, own: &str, other: &str, ratio: f64, goal: Option<f64>) {
    let verdict = |goal| if ratio <= goal { "met" } else { "MISSED" };
    let goal = goal.map_or(String::new(), |goal| format!("≤ {goal}: {}", verdict(goal)));
    println!("| {what} | {own} | {other} | {ratio:.2} | {goal} |");
}

/// A line on two times.
pub fn beside(what: &str, (own, other): (f64, f64), name: &str, goal: Option<f64>) {
    line(what, &spelled(own), &format!("{name} {}", spelled(other)), own / other, goal);
}

/// A line on how a time grows: the time for each item at both ends, and their ratio.
pub fn grows(what: &str, (few, first): (usize, f64), (many, last): (usize, f64)) {
    let each = |time: f64, count: usize| format!("{:.2} ns", time * 1e9 / count as f64);
    let ratio = (last / many as f64) / (first / few as f64);
    println!("| {what} | {} at {few} | {} at {many} | {ratio:.2} |", each(first, few), each(last, many));
}
