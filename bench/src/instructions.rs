//! Instructions, counted by callgrind: this program runs itself under valgrind and has one function counted.

use crate::input::{Input, Pattern, SEED, input};
use crate::sides::{Original, Ours, Side};
use std::env;
use std::hint::black_box;
use std::process::Command;

pub const SIDES: [&str; 2] = ["ours", "original"];

/// Whether valgrind can be run.
pub fn possible() -> bool {
    Command::new("valgrind").arg("--version").output().is_ok_and(|output| output.status.success())
}

/// The instructions that a side takes for so many requests.
pub fn count(side: &str, capacity: u64, pattern: Pattern, requests: u64) -> Result<u64, String> {
    let program = env::current_exe().map_err(|error| error.to_string())?;
    let output = Command::new("valgrind")
        .args(["--tool=callgrind", "--callgrind-out-file=/dev/null"])
        .arg(format!("--toggle-collect=bench_{side}"))
        .arg(program)
        .args(["once", side, &capacity.to_string(), pattern.name(), &requests.to_string()])
        .output()
        .map_err(|error| format!("valgrind: {error}"))?;
    let said = String::from_utf8_lossy(&output.stderr);
    said.lines()
        .find_map(|line| line.split_once("Collected :")?.1.trim().parse().ok())
        .filter(|count| *count > 0)
        .ok_or_else(|| format!("valgrind counted nothing:\n{said}"))
}

/// What is run under valgrind.
pub fn once(side: &str, capacity: u64, pattern: Pattern, requests: u64) -> Result<(), String> {
    let input = input(capacity, pattern, requests, SEED);
    match side {
        "ours" => bench_ours(&mut Ours::new(&input), &input),
        "original" => bench_original(&mut Original::new(&input), &input),
        _ => return Err(format!("'{side}' is none of {SIDES:?}")),
    }
    Ok(())
}

// The names are what callgrind looks for.

#[unsafe(no_mangle)]
#[inline(never)]
fn bench_ours(side: &mut Ours, input: &Input) {
    side.run(&input.calls, &mut |replies| {
        black_box(replies);
    });
}

#[unsafe(no_mangle)]
#[inline(never)]
fn bench_original(side: &mut Original, input: &Input) {
    side.run(&input.calls, &mut |replies| {
        black_box(replies);
    });
}
