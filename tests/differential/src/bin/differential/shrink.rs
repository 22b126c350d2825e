//! Makes a trace on which the two sides differ as short as leaving requests out can make it.

use crate::pair::Pair;
use common::Random;
use mapcache::{Request, Settings};

/// A long trace that stays long is shown as it is then.
const MOST_TRIES: usize = 2000;

/// A short trace, each request a call of its own, with what differs at its end; none where that shows no difference.
pub fn shrink(settings: Settings, requests: Vec<Request>) -> Option<(Vec<Request>, String)> {
    let mut best = failing_front(settings, &requests)?;
    let mut piece = best.0.len().div_ceil(2);
    let mut tries = 0;
    while piece > 0 {
        let mut at = 0;
        while at < best.0.len() && tries < MOST_TRIES {
            tries += 1;
            let mut fewer = best.0.clone();
            fewer.drain(at..(at + piece).min(best.0.len()));
            match failing_front(settings, &fewer) {
                Some(shorter) => best = shorter,
                None => at += piece,
            }
        }
        piece /= 2;
    }
    Some(best)
}

/// The requests up to the first call that differs.
fn failing_front(settings: Settings, requests: &[Request]) -> Option<(Vec<Request>, String)> {
    let mut pair = match Pair::create(settings, Random::new(0)) {
        Ok(pair) => pair,
        Err(difference) => return Some((Vec::new(), difference)),
    };
    requests.iter().enumerate().find_map(|(at, request)| {
        let difference = pair.call(std::slice::from_ref(request), false).err()?;
        Some((requests[..=at].to_vec(), difference))
    })
}
