//! The proved library against the original: on the same requests both must answer the same bytes and reach the same state.

mod departures;
mod ending;
mod fed;
mod pair;
mod recorded;
mod runs;
mod shrink;
mod sizing;
mod store;
mod tally;

use common::program;
use std::process::ExitCode;

const USAGE: &str = "usage:
  differential run SEED REQUESTS   compare about REQUESTS random requests (at least 1,000,000), and creation
  differential departures          print each departure from the original, tried
  differential replay FILE...      replay recorded answers of the original";

fn main() -> ExitCode {
    program::with_words("differential", |words| match words {
        ["run", seed, requests] => compare(seed, requests),
        ["departures"] => {
            departures::print();
            Ok(())
        },
        ["replay", files @ ..] if !files.is_empty() => replay(files),
        _ => Err(USAGE.to_string()),
    })
}

fn compare(seed: &str, requests: &str) -> Result<(), String> {
    let seed = number("SEED", seed)?;
    let requests = number("REQUESTS", requests)?;
    if requests < runs::LEAST_REQUESTS {
        return Err(format!("REQUESTS is {requests}, and fewer than {} cannot reach every case", runs::LEAST_REQUESTS));
    }
    println!("differential: seed {seed}");
    sizing::run(seed)?;
    runs::run(seed, requests)?.report()?;
    println!("differential: the library and the original agree");
    Ok(())
}

fn replay(files: &[&str]) -> Result<(), String> {
    for file in files {
        println!("{file}: {} cases agree", recorded::replay(file)?);
    }
    Ok(())
}

fn number(name: &str, text: &str) -> Result<u64, String> {
    text.parse().map_err(|_| format!("{name} is '{text}', which is no whole number\n{USAGE}"))
}
