//! The plan of a differential run: every capacity with limits of all sizes, then long runs at the ends.

use crate::pair::Pair;
use crate::shrink::shrink;
use crate::tally::Tally;
use common::Random;
use differential::settings::{self, MOST_CAPACITY, MOST_GHOSTS};
use differential::traffic::Traffic;
use mapcache::{Request, Settings};

/// Fewer requests could not reach what must come up.
pub const LEAST_REQUESTS: u64 = 1_000_000;

const LONG_RUN_CAPACITIES: [u64; 5] = [1, 2, 3, 1023, 1024];
const SMALL_CAPACITIES: u64 = 12;
const FEW_GHOSTS: u64 = 4;

/// One cache from its creation on.
struct Run {
    settings: Settings,
    requests: u64,
}

/// Runs about so many requests, and answers what they came across.
pub fn run(seed: u64, requests: u64) -> Result<Tally, String> {
    let mut tally = Tally::new();
    for (number, run) in plan(seed, requests).iter().enumerate() {
        trace(Random::for_run(seed, number as u64), run, &mut tally)
            .map_err(|difference| format!("seed {seed}, run {number}, {}:\n{difference}", run.settings))?;
    }
    Ok(tally)
}

/// Three quarters of the requests go over all capacities, the larger ones having more, one quarter to the long runs.
fn plan(seed: u64, requests: u64) -> Vec<Run> {
    let mut random = Random::new(seed);
    let mut weighted = Vec::new();
    for capacity in 1..=MOST_CAPACITY {
        // 37 and 1,025 have no common factor, so that every ghost limit but 0 comes up once
        weighted.push((settings::exactly(capacity, capacity, 37 * capacity % (MOST_GHOSTS + 1)), 64 + capacity));
        weighted.push((settings::any(capacity, &mut random), 128 + 2 * capacity));
    }
    weighted.extend(small_settings().into_iter().map(|settings| (settings, 128)));
    let weights: u64 = weighted.iter().map(|(_, weight)| weight).sum();
    let mut plan: Vec<Run> = weighted
        .into_iter()
        .map(|(settings, weight)| Run { settings, requests: requests / 4 * 3 * weight / weights + 1 })
        .collect();
    let long = long_run_settings();
    let each = requests / 4 / long.len() as u64 + 1;
    plan.extend(long.into_iter().map(|settings| Run { settings, requests: each }));
    plan
}

/// Every Small limit of small capacities, with few ghosts: there most requests meet a limit.
fn small_settings() -> Vec<Settings> {
    let mut all = Vec::new();
    for capacity in 1..=SMALL_CAPACITIES {
        for small_limit in 0..=capacity {
            all.extend((0..=FEW_GHOSTS).map(|ghost_limit| settings::exactly(capacity, small_limit, ghost_limit)));
        }
    }
    all
}

fn long_run_settings() -> Vec<Settings> {
    LONG_RUN_CAPACITIES
        .into_iter()
        .flat_map(|capacity| {
            [
                Settings::with_capacity(capacity),
                Settings { capacity, small_ratio: 1.0, ghost_ratio: 0.0 },
                Settings { capacity, small_ratio: 0.5, ghost_ratio: 1.0 },
            ]
        })
        .collect()
}

fn trace(mut random: Random, run: &Run, tally: &mut Tally) -> Result<(), String> {
    let mut pair = Pair::create(run.settings, Random::new(random.number()))?;
    let ghost_limit = (run.settings.capacity as f64 * run.settings.ghost_ratio) as u64;
    let mut traffic = Traffic::new(random, run.settings.capacity, ghost_limit);
    let mut done: Vec<Request> = Vec::new();
    while (done.len() as u64) < run.requests {
        let call = traffic.call(run.requests - done.len() as u64);
        done.extend(&call);
        let is_last = done.len() as u64 >= run.requests;
        match pair.call(&call, is_last) {
            Ok(agreed) => tally.call(&call, &agreed),
            Err(difference) => return Err(explain(run.settings, done, &call, difference)),
        }
    }
    Ok(())
}

/// The difference in words, on the shortest trace that was found.
fn explain(settings: Settings, done: Vec<Request>, call: &[Request], difference: String) -> String {
    let before = done.len() - call.len();
    match shrink(settings, done) {
        Some((requests, difference)) => {
            format!("requests, each a call of its own:\n {}\n{difference}", text(&requests))
        },
        None => format!(
            "after {before} requests, in the call\n {}\n{difference}\n(as calls of one request each, the same requests show no difference)",
            text(call)
        ),
    }
}

fn text(requests: &[Request]) -> String {
    requests.iter().map(Request::to_string).collect::<Vec<_>>().join(", ")
}
