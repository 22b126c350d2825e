//! Replays recorded cases on the library.

use differential::cases::{self, Case};
use differential::settings;
use std::fs;

const REPLY_BUFFER: usize = 65_536;

/// Replays the cases of a file; answers how many there are.
pub fn replay(path: &str) -> Result<usize, String> {
    let bytes = fs::read(path).map_err(|error| format!("{path}: {error}"))?;
    let cases = cases::read(&bytes).map_err(|error| format!("{path}: {error}"))?;
    for (number, case) in cases.iter().enumerate() {
        replay_case(case).map_err(|error| format!("{path}, case {}: {error}", number + 1))?;
    }
    match cases.len() {
        0 => Err(format!("{path} holds no case")),
        count => Ok(count),
    }
}

fn replay_case(case: &Case) -> Result<(), String> {
    let (settings, requests) = settings::read(&case.input).ok_or("the input does not open with a whole record CF")?;
    let mut store = vec![0; mapcache::store_bytes()];
    let mut replies = vec![0; REPLY_BUFFER];
    mapcache::create(settings, &mut store).map_err(|refusal| format!("{settings}: {refusal:?}"))?;
    let written =
        mapcache::run(&mut store, requests, &mut replies).map_err(|refusal| format!("{settings}: {refusal:?}"))?;
    match replies[..written] == case.output {
        true => Ok(()),
        false => Err(format!("{settings}: the replies differ")),
    }
}
