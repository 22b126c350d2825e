//! The proved library and the original on the same requests in the same run: times as ratios, the check of a store
//! alone, and instructions where valgrind is present. Prints the figures of docs/SPEED.md.

mod input;
mod instructions;
mod pieces;
mod sides;
mod stores;
mod times;

use common::program;
use input::{CAPACITIES, PATTERNS, Pattern, SEED, input};
use std::env::consts::ARCH;
use std::fs;
use std::process::ExitCode;

const USAGE: &str = "usage:
  bench [REQUESTS]                             times of 1,000,000 requests, or so many, and instructions
  bench once SIDE CAPACITY PATTERN REQUESTS    one side alone (ours, original), for a profiler";

const REQUESTS: u64 = 1_000_000;
/// Fewer in pieces: the shortest have one request each, and each checks the store.
const FED_REQUESTS: u64 = 100_000;
/// Fewer under valgrind, which is slow and whose counts do not vary.
const COUNTED_REQUESTS: u64 = 100_000;

fn main() -> ExitCode {
    program::with_words("bench", |words| match words {
        [] => all(REQUESTS),
        ["once", side, capacity, pattern, requests] => once(side, capacity, pattern, requests),
        [requests] => number(requests).and_then(all),
        _ => Err(USAGE.to_string()),
    })
}

fn all(requests: u64) -> Result<(), String> {
    println!("Processor: {}", machine());
    print_times(requests);
    print_stores();
    print_pieces(FED_REQUESTS.min(requests));
    match instructions::possible() {
        true => print_instructions(COUNTED_REQUESTS.min(requests)),
        false => {
            println!("\nInstructions are not counted: there is no valgrind.");
            Ok(())
        },
    }
}

fn print_times(requests: u64) {
    println!("{requests} requests, four lookups to an insert, calls of at most 32,768 bytes:\n");
    println!(
        "| capacity | keys | lookups that hit | ours, ns a request | original, ns a request | ours / original | original, no reply written | ours / that |"
    );
    println!("|---|---|---|---|---|---|---|---|");
    for (capacity, pattern) in inputs() {
        let input = input(capacity, pattern, requests, SEED);
        let hits = times::compare(&input);
        let times = times::measure(&input);
        let [ours, original, unwritten] =
            [times.ours, times.original, times.unwritten].map(|time| time.as_nanos() as f64 / requests as f64);
        println!(
            "| {capacity} | {} | {:.0} % | {ours:.1} | {original:.1} | {:.2} | {unwritten:.1} | {:.2} |",
            pattern.name(),
            100.0 * hits,
            ours / original,
            ours / unwritten,
        );
    }
}

fn print_stores() {
    println!("\nThe check of a store, of eight in turn:\n\n| store | microseconds |\n|---|---|");
    for kind in stores::kinds() {
        println!("| {} | {:.1} |", kind.name(), kind.check().as_nanos() as f64 / 1000.0);
    }
    println!("\nA lookup in a full store, calls of at most 32,768 bytes:\n\n| store | ns |\n|---|---|");
    for kind in stores::FULL {
        println!("| {} | {} |", kind.name(), kind.lookup().as_nanos());
    }
}

fn print_pieces(requests: u64) {
    println!("\n{requests} requests as one stream, uniform keys, fed in pieces of one length:\n");
    println!("| capacity | bytes a piece | ns a request | of calls of whole records, ns a request | fed / called |");
    println!("|---|---|---|---|---|");
    for capacity in CAPACITIES {
        let input = input(capacity, Pattern::Uniform, requests, SEED);
        let mut stream = pieces::Stream::of(&input);
        let called = pieces::calls(&input).as_nanos() as f64 / requests as f64;
        for length in pieces::LENGTHS {
            assert!(stream.agrees(&input, length), "the replies differ");
            let fed = stream.time(&input, length).as_nanos() as f64 / requests as f64;
            println!("| {capacity} | {length} | {fed:.1} | {called:.1} | {:.2} |", fed / called);
        }
    }
}

fn print_instructions(requests: u64) -> Result<(), String> {
    println!("\nInstructions of {requests} requests, counted by callgrind:\n");
    println!("| capacity | keys | ours, a request | original, a request | ours / original |");
    println!("|---|---|---|---|---|");
    for (capacity, pattern) in inputs() {
        let [ours, original] = instructions::SIDES.map(|side| instructions::count(side, capacity, pattern, requests));
        let (ours, original) = (ours? as f64, original? as f64);
        let each = requests as f64;
        println!(
            "| {capacity} | {} | {:.1} | {:.1} | {:.2} |",
            pattern.name(),
            ours / each,
            original / each,
            ours / original
        );
    }
    Ok(())
}

fn inputs() -> impl Iterator<Item = (u64, Pattern)> {
    CAPACITIES.into_iter().flat_map(|capacity| PATTERNS.into_iter().map(move |pattern| (capacity, pattern)))
}

/// The processor, by its name or, where the system gives none, by its maker's numbers.
fn machine() -> String {
    let about = fs::read_to_string("/proc/cpuinfo").unwrap_or_default();
    let said = |what: &str| {
        let (_, value) = about.lines().find_map(|line| line.strip_prefix(what)?.split_once(':'))?;
        Some(value.trim().to_string())
    };
    let numbers = || Some(format!("implementer {}, part {}", said("CPU implementer")?, said("CPU part")?));
    let name = said("model name").or_else(numbers).unwrap_or_else(|| "unknown".to_string());
    format!("{name} ({ARCH})")
}

fn once(side: &str, capacity: &str, pattern: &str, requests: &str) -> Result<(), String> {
    let pattern = Pattern::named(pattern).ok_or_else(|| format!("'{pattern}' is no pattern of keys\n{USAGE}"))?;
    instructions::once(side, number(capacity)?, pattern, number(requests)?)
}

fn number(text: &str) -> Result<u64, String> {
    text.parse().map_err(|_| format!("'{text}' is no whole number\n{USAGE}"))
}
