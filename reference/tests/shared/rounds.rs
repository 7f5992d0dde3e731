//! Runs a test round by round from the environment's seed, counts what it met, and says how to repeat a round that
//! fails.

use crate::random::Random;
use std::cell::RefCell;
use std::collections::BTreeMap;
use std::time::{Duration, Instant};

/// As large as the main thread's stack mostly is: what a caller of the library has.
const STACK: usize = 8 << 20;

/// What a test must have met, and how often, in its usual rounds, so that its inputs stay telling: a call or a program
/// and its kinds of answer.
pub type Telling = &'static [(&'static str, u64, &'static [&'static str])];

thread_local! {
    /// How often this thread's test met each kind of answer of each call or program.
    static SEEN: RefCell<BTreeMap<String, BTreeMap<String, u64>>> = const { RefCell::new(BTreeMap::new()) };
}

/// Counts one answer of a kind.
pub fn saw(what: &str, kind: &str) {
    SEEN.with_borrow_mut(|seen| *seen.entry(what.to_string()).or_default().entry(kind.to_string()).or_default() += 1);
}

/// Runs `body` for the rounds asked for, `usual` ones where nothing is asked.
pub fn rounds(test: &'static str, usual: u64, telling: Telling, body: impl Fn(&mut Random) + Send + 'static) {
    in_thread(test, move || {
        let (seed, first) = (number("SEED").unwrap_or(1), number("FIRST").unwrap_or(0));
        let time = number("SECONDS_EACH").map(Duration::from_secs);
        let count = number("ROUNDS").unwrap_or(if time.is_some() { u64::MAX } else { usual });
        let start = Instant::now();
        let in_time = || time.is_none_or(|time| start.elapsed() < time);
        for round in (first..).take_while(|round| round - first < count && in_time()) {
            let _repeat = Repeat { test, seed, round };
            let mut random = Random::new(seed_of(test, seed, round));
            body(&mut random);
        }
        tell(test, count == usual && first == 0, telling);
    });
}

/// Runs a test whose inputs are all given.
pub fn directed(test: &'static str, telling: Telling, body: impl Fn() + Send + 'static) {
    in_thread(test, move || {
        body();
        tell(test, true, telling);
    });
}

fn in_thread(test: &str, run: impl FnOnce() + Send + 'static) {
    let thread =
        std::thread::Builder::new().name(test.to_string()).stack_size(STACK).spawn(run).expect("a thread starts");
    if let Err(failure) = thread.join() {
        std::panic::resume_unwind(failure);
    }
}

/// Prints how often each kind was met; in a usual run every telling one must be there.
fn tell(test: &str, usual: bool, telling: Telling) {
    SEEN.with_borrow(|seen| {
        let calls: Vec<String> = seen.iter().map(|(what, kinds)| format!("{what} {}", counted(kinds))).collect();
        println!("{test}: {}", calls.join("; "));
        for &(what, least, kinds) in telling {
            let times = |kind: &str| seen.get(what).and_then(|seen| seen.get(kind)).copied().unwrap_or(0);
            let scarce: Vec<_> = kinds.iter().filter(|kind| times(kind) < least).collect();
            assert!(!usual || scarce.is_empty(), "{test}: {what} was met fewer than {least} times as {scarce:?}");
        }
    });
}

/// `kind ×times` of all kinds, the numbered ones first and in their order.
fn counted(kinds: &BTreeMap<String, u64>) -> String {
    let mut sorted: Vec<_> = kinds.iter().collect();
    sorted.sort_by_key(|(kind, _)| (kind.parse::<u32>().is_err(), kind.parse::<u32>().ok(), kind.to_string()));
    sorted.iter().map(|(kind, times)| format!("{kind} ×{times}")).collect::<Vec<_>>().join(", ")
}

/// A seed for one round of one test.
fn seed_of(test: &str, seed: u64, round: u64) -> u64 {
    let own = test.bytes().fold(seed, |sum, byte| sum.wrapping_mul(31).wrapping_add(u64::from(byte)));
    Random::new(own).next() ^ Random::new(round).next()
}

fn number(variable: &str) -> Option<u64> {
    let value = std::env::var(variable).ok()?;
    Some(value.parse().unwrap_or_else(|_| panic!("{variable}={value} is not a whole number")))
}

/// Prints the command that repeats a round when the round fails.
struct Repeat {
    test: &'static str,
    seed: u64,
    round: u64,
}

impl Drop for Repeat {
    fn drop(&mut self) {
        if std::thread::panicking() {
            let Repeat { test, seed, round } = self;
            eprintln!(
                "to repeat: SEED={seed} FIRST={round} ROUNDS=1 cargo test --test '*' {test} -- --include-ignored"
            );
        }
    }
}
