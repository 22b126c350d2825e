//! Random runs of the example host: over the mapping cache no block ever belongs to two guests, and, where the original
//! is at hand, over it one does. The shortest run that shows it is found by trying all.

#[cfg(feature = "original")]
mod over_original;
mod run;
mod shortest;

use common::Random;
use common::program::{self, Options};
use mapcache::Cache;
use run::{Event, Outcome, Setup};
use std::path::PathBuf;
use std::process::ExitCode;
use thin::Result;

type MappingCache = Cache<Box<[u8]>>;

const HELP: &str = "usage: thin-runs [--seed N] [--runs N] [--events N] [--map FILE]
Runs a thin provisioning host over the mapping cache, N random runs of N events each, and watches who owns each block.
  --seed N    the seed of the random runs (1)
  --runs N    how many (1000)
  --events N  how long (300)
  --map FILE  where the map is kept (thin.map in the folder for temporary files)
Exit status: 0 no block belonged to two guests; 1 one did, or something failed; 2 bad usage.";

struct Plan {
    seed: u64,
    runs: u64,
    events: u64,
    map: PathBuf,
}

fn main() -> ExitCode {
    let plan = match plan() {
        Ok(plan) => plan,
        Err(status) => return status,
    };
    let shown = over_the_mapping_cache(&plan).and_then(|()| over_the_original(&plan));
    let _ = std::fs::remove_file(&plan.map);
    program::end("thin-runs", shown.map_err(|problem| problem.to_string()))
}

fn plan() -> std::result::Result<Plan, ExitCode> {
    let options = Options::read("thin-runs", HELP, &["--seed", "--runs", "--events", "--map"])?;
    Ok(Plan {
        seed: options.number("--seed", 1)?,
        runs: options.number("--runs", 1000)?,
        events: options.number("--events", 300)?,
        map: options.text("--map").map_or(std::env::temp_dir().join("thin.map"), PathBuf::from),
    })
}

/// The n-th random run: it follows from the seed alone, so that each cache gets the same events.
fn nth_run(plan: &Plan, n: u64) -> (Setup, Vec<Event>) {
    let mut random = Random::new(plan.seed.wrapping_mul(1_000_003).wrapping_add(n));
    let setup = Setup::random(&mut random);
    let events = (0..plan.events).map(|_| setup.random_event(&mut random)).collect();
    (setup, events)
}

fn over_the_mapping_cache(plan: &Plan) -> Result<()> {
    let Outcome { given_out, pairs_written, sweeps, restarts, .. } = random_runs(plan)?;
    println!("Over the mapping cache, {} random runs of {} events:", plan.runs, plan.events);
    println!("  {given_out} blocks given out, {pairs_written} pairs written as they left,");
    println!("  {sweeps} sweeps, {restarts} planned restarts.");
    if given_out == 0 || pairs_written == 0 || sweeps == 0 || restarts == 0 {
        return Err("too little happened to show anything: ask for more runs, or longer ones".into());
    }
    println!("  No block belonged to two guests, and every block was found where it is.");
    let setup = shortest::smallest_setup();
    let (tried, shared) = shortest::search::<MappingCache>(setup, &shortest::all_events(setup.disks), 4, &plan.map)?;
    if let Some(shortest::Shortest { events, outcome: Outcome { shared: Some(shared), .. } }) = shared {
        return Err(format!("after {events:?}: {shared}").into());
    }
    println!("  Nor in any of the {tried} runs of at most 4 events that two guests with two blocks each can make.");
    Ok(())
}

/// What the random runs came to together. A block that is shared or lost in one of them is an error.
fn random_runs(plan: &Plan) -> Result<Outcome> {
    let mut total = Outcome::default();
    for n in 0..plan.runs {
        let (setup, events) = nth_run(plan, n);
        let outcome = run::run::<MappingCache>(setup, &events, &plan.map)?;
        if let Some(shared) = outcome.shared {
            return Err(format!("run {n}: {shared}").into());
        }
        if let Some(guest) = outcome.lost {
            return Err(format!("run {n}: {} is not found where it is", thin::name(guest)).into());
        }
        total.given_out += outcome.given_out;
        total.pairs_written += outcome.pairs_written;
        total.sweeps += outcome.sweeps;
        total.restarts += outcome.restarts;
    }
    Ok(total)
}

#[cfg(not(feature = "original"))]
fn over_the_original(_: &Plan) -> Result<()> {
    println!("The original is not at hand: what this host does over it is not shown.");
    Ok(())
}

#[cfg(feature = "original")]
fn over_the_original(plan: &Plan) -> Result<()> {
    use over_original::Original;
    let mut shared = 0;
    for n in 0..plan.runs {
        let (setup, events) = nth_run(plan, n);
        shared += u64::from(run::run::<Original>(setup, &events, &plan.map)?.shared.is_some());
    }
    println!("Over the original, the same runs:");
    println!("  in {shared} of {} a block came to belong to two guests.", plan.runs);
    if shared == 0 {
        return Err("the runs do not show the difference: ask for more, or longer ones".into());
    }
    let setup = shortest::smallest_setup();
    println!("The shortest run that shows it, of all events:");
    print_shortest(setup, &shortest::all_events(setup.disks), plan)?;
    println!("The shortest of writes and sweeps alone:");
    print_shortest(setup, &shortest::writes_and_sweeps(setup.disks), plan)
}

#[cfg(feature = "original")]
fn print_shortest(setup: Setup, events: &[Event], plan: &Plan) -> Result<()> {
    let (tried, found) = shortest::search::<over_original::Original>(setup, events, 5, &plan.map)?;
    let found = found.ok_or("no run of at most 5 events shows the difference")?;
    let ours = run::run::<MappingCache>(setup, &found.events, &plan.map)?;
    let row = |n: &str, event: &str, original: &str, ours: &str| println!("  {n:<3}{event:<34}{original:<34}{ours}");
    row("", "", "the original", "the mapping cache");
    for (n, event) in found.events.iter().enumerate() {
        row(&format!("{}.", n + 1), &event.to_string(), &found.outcome.log[n], &ours.log[n]);
    }
    let shared = found.outcome.shared.ok_or("the run found shares nothing")?;
    println!("  Over the original {shared}:");
    println!("  the pair of {} left without a word, so the map never got it.", thin::name(shared.owner));
    println!("  (Capacity 1; {tried} runs tried, all shorter ones first.)");
    Ok(())
}
