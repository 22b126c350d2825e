//! Records answers of the original: cases of settings and one call's requests with the replies that it gives, and what its
//! ghost list answers by itself. Programs of the gate replay them on the proved calls, so that the comparison needs no Rust.

mod ghosts;

use common::{Random, program};
use differential::cases::{self, Case};
use differential::settings;
use differential::traffic::Traffic;
use mapcache::{MOST_REQUEST_BYTES, Request, Settings};
use original::driver::Original;
use std::fs;
use std::path::{Path, PathBuf};
use std::process::ExitCode;

const USAGE: &str = "usage:
  record write CASES GHOSTS   write the cases to the folder CASES, and what the ghost list answers to the folder GHOSTS
  record check CASES GHOSTS   say whether the files there are what the original answers";

/// The program that replays the cases has a reply buffer of this length.
const REPLY_BUFFER: usize = 65_536;
const SEED: u64 = 1;

struct File {
    path: PathBuf,
    bytes: Vec<u8>,
    holds: String,
}

fn main() -> ExitCode {
    program::with_words("record", |words| match words {
        ["write", cases, ghosts] => files(Path::new(cases), Path::new(ghosts)).iter().try_for_each(write),
        ["check", cases, ghosts] => files(Path::new(cases), Path::new(ghosts)).iter().try_for_each(check),
        _ => Err(USAGE.to_string()),
    })
}

fn write(file: &File) -> Result<(), String> {
    let path = file.path.display();
    fs::write(&file.path, &file.bytes).map_err(|error| format!("{path}: {error}"))?;
    println!("{path}: {}, {} bytes", file.holds, file.bytes.len());
    Ok(())
}

fn check(file: &File) -> Result<(), String> {
    let path = file.path.display();
    let bytes = fs::read(&file.path).map_err(|error| format!("{path}: {error}"))?;
    if bytes != file.bytes {
        return Err(format!("{path} is not what the original answers: run `make record`"));
    }
    println!("{path}: {} are what the original answers", file.holds);
    Ok(())
}

fn files(cases: &Path, ghosts: &Path) -> Vec<File> {
    let mut random = Random::new(SEED);
    let of_cases = |name: &str, of: Vec<Case>| File {
        path: cases.join(name),
        bytes: cases::write(&of),
        holds: format!("{} cases", of.len()),
    };
    let mut files = vec![
        of_cases("few.bin", few(&mut random)),
        of_cases("many.bin", many(&mut random)),
        of_cases("most.bin", most(&mut random)),
    ];
    let recorded = ghosts::recorded(&mut Random::new(SEED));
    let holds = recorded.to_string();
    files.push(File { path: ghosts.join("stdin"), bytes: recorded.input, holds: holds.clone() });
    files.push(File { path: ghosts.join("stdout"), bytes: recorded.output.into_bytes(), holds });
    files
}

/// Short runs at small capacities, where most requests meet a limit: every Small limit with few ghosts, and limits that
/// hang on how a product is rounded.
fn few(random: &mut Random) -> Vec<Case> {
    let mut cases = Vec::new();
    for capacity in 1..=5 {
        let mut short = |settings, times| {
            cases.extend((0..times).map(|_| random_case(settings, 2 * capacity + 8, random)));
        };
        for small_limit in 0..=capacity {
            for ghost_limit in 0..=4 {
                short(settings::exactly(capacity, small_limit, ghost_limit), 16);
            }
        }
        for limit in 0..capacity {
            for settings in settings::around_half(capacity, limit) {
                short(settings, 8);
            }
        }
    }
    cases
}

/// Runs at every capacity to 64, long enough to fill it, and shorter ones at capacities up to the most.
fn many(random: &mut Random) -> Vec<Case> {
    let filled = 6..=64;
    let larger = (64..=settings::MOST_CAPACITY).step_by(48);
    let mut cases: Vec<Case> =
        filled.map(|capacity| random_case(settings::any(capacity, random), 3 * capacity + 20, random)).collect();
    cases.extend(larger.map(|capacity| random_case(settings::any(capacity, random), 80, random)));
    cases
}

/// Runs as long as a call can be, at capacities that they fill.
fn most(random: &mut Random) -> Vec<Case> {
    [1, 100, 333, 1024]
        .into_iter()
        .map(|capacity| random_case(Settings::with_capacity(capacity), u64::MAX, random))
        .collect()
}

/// At most so many random requests, then evictions that bring to light what is left, as far as one call has room.
fn random_case(settings: Settings, count: u64, random: &mut Random) -> Case {
    let mut original = Original::create(settings).expect("valid settings");
    let limits = original.state();
    let mut traffic = Traffic::new(Random::new(random.number()), settings.capacity, limits.ghost_limit);
    let mut call = Call::default();
    let mut left = count;
    while left > 0 && call.add(traffic.request()) {
        left -= 1;
    }
    let drain = settings.capacity.min(count / 4);
    (0..drain).for_each(|_| {
        call.add(Request::Evict);
    });
    call.answered_by(settings, &mut original)
}

/// Requests that are accepted as one call, by their bytes and by their reply room.
#[derive(Default)]
struct Call {
    requests: Vec<Request>,
    bytes: usize,
    room: usize,
}

impl Call {
    /// Adds a request if there is room for it.
    fn add(&mut self, request: Request) -> bool {
        let bytes = self.bytes + request.bytes();
        let room = self.room + request.reply_room();
        let fits = bytes <= MOST_REQUEST_BYTES && room <= REPLY_BUFFER;
        if fits {
            self.requests.push(request);
            (self.bytes, self.room) = (bytes, room);
        }
        fits
    }

    fn answered_by(&self, settings: Settings, original: &mut Original) -> Case {
        let mut case = Case { input: Vec::new(), output: Vec::new() };
        settings::write(settings, &mut case.input);
        for request in &self.requests {
            request.write(&mut case.input);
            original.answer(*request, &mut case.output);
        }
        case
    }
}
