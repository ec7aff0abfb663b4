//! The crate aho-corasick 0.7: its DFA without a prefilter, and what it chooses by itself.
//!
//!     ahocorasick SET REPEATS FILE..
//!
//! Reads a signature file and scans each file REPEATS times. Prints a line for each: the least processor time of a scan in
//! nanoseconds by the DFA and by its own choice, and `clean` or `infected`.
use aho_corasick::{AhoCorasick, AhoCorasickBuilder, MatchKind};
use std::hint::black_box;
use std::time::Duration;

fn unhex(digits: &str) -> Vec<u8> {
    (0..digits.len() / 2)
        .map(|k| u8::from_str_radix(&digits[2 * k..2 * k + 2], 16).unwrap())
        .collect()
}

/// The processor time of this process, which has one thread.
fn now() -> Duration {
    let mut t = libc::timespec { tv_sec: 0, tv_nsec: 0 };
    // SAFETY: the clock is written to a place of this function's own.
    unsafe { libc::clock_gettime(libc::CLOCK_PROCESS_CPUTIME_ID, &mut t) };
    Duration::new(t.tv_sec as u64, t.tv_nsec as u32)
}

fn time(automaton: &AhoCorasick, text: &[u8], repeats: usize) -> (u128, bool) {
    let (mut least, mut found) = (u128::MAX, false);
    for _ in 0..repeats {
        let started = now();
        found = black_box(automaton.earliest_find(black_box(text))).is_some();
        least = least.min((now() - started).as_nanos());
    }
    (least, found)
}

fn main() {
    let words: Vec<String> = std::env::args().collect();
    let set = std::fs::read_to_string(&words[1]).unwrap();
    let patterns: Vec<Vec<u8>> = set.lines().skip(2).map(|line| unhex(line.split(' ').nth(1).unwrap())).collect();
    let dfa: AhoCorasick = AhoCorasickBuilder::new().dfa(true).prefilter(false).build(&patterns);
    let own: AhoCorasick =
        AhoCorasickBuilder::new().match_kind(MatchKind::LeftmostFirst).auto_configure(&patterns).build(&patterns);
    let repeats = words[2].parse().unwrap();
    for name in &words[3..] {
        let text = std::fs::read(name).unwrap();
        let (by_dfa, found) = time(&dfa, &text, repeats);
        let (by_own, _) = time(&own, &text, repeats);
        println!("{by_dfa} {by_own} {}", if found { "infected" } else { "clean" });
    }
}
