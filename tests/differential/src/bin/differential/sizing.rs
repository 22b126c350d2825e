//! Creation compared: which settings are taken, and the limits that follow from them.

use crate::store;
use common::Random;
use differential::settings::{MOST_CAPACITY, MOST_GHOSTS};
use mapcache::{DEFAULT_GHOST_RATIO, DEFAULT_SMALL_RATIO, Settings};
use original::driver::Original;
use original::error::ConfigError;

/// The original reserves its ghost list at once; larger ones are not tried.
const LARGEST_TRIED_GHOSTS: f64 = 100_000.0;

/// How the two may compare. Any other outcome is a difference.
const SAME_LIMITS: &str = "both accept, with the same limits";
const NEGATIVE_ZERO: &str = "both accept, with the same limits: a ratio is -0.0";
const BOTH_REFUSE: &str = "both refuse, for the same reason";
const BOTH_REFUSE_OTHERWISE: &str = "both refuse: ours the capacity (2), the original a ratio, which it judges first";
const TOO_LARGE: &str = "only ours refuses: more than 1,024 (2 and 5)";
const NOT_TRIED: &str = "ours refuses, the original was not tried: it would reserve too much";
const OUTCOMES: [&str; 6] = [SAME_LIMITS, NEGATIVE_ZERO, BOTH_REFUSE, BOTH_REFUSE_OTHERWISE, TOO_LARGE, NOT_TRIED];

/// Compares creation for every capacity, with ratios on both sides of every kind of boundary.
pub fn run(seed: u64) -> Result<(), String> {
    let mut random = Random::new(seed);
    let mut outcomes = Vec::new();
    let mut store = vec![0; mapcache::store_bytes()];
    for capacity in 0..=MOST_CAPACITY + 2 {
        for small_ratio in ratios(capacity, capacity, &mut random) {
            outcomes.push(compare(Settings { capacity, small_ratio, ghost_ratio: DEFAULT_GHOST_RATIO }, &mut store)?);
        }
        for ghost_ratio in ratios(capacity, MOST_GHOSTS + 1, &mut random) {
            outcomes.push(compare(Settings { capacity, small_ratio: DEFAULT_SMALL_RATIO, ghost_ratio }, &mut store)?);
        }
        for (small_ratio, ghost_ratio) in [(0.0, -0.0), (-0.0, 0.0), (-0.0, -0.0)] {
            outcomes.push(compare(Settings { capacity, small_ratio, ghost_ratio }, &mut store)?);
        }
    }
    report(&outcomes)
}

/// Ratios at the ends of the format and of what is taken, and where a product of the capacity is about to round up.
fn ratios(capacity: u64, most_limit: u64, random: &mut Random) -> Vec<f64> {
    let smallest = f64::from_bits(1);
    let mut ratios =
        vec![0.0, -0.0, smallest, -smallest, f64::MIN_POSITIVE, 0.5, 1.0, f64::MAX, f64::INFINITY, f64::NEG_INFINITY];
    ratios.extend([f64::NAN, -f64::NAN, DEFAULT_SMALL_RATIO, DEFAULT_GHOST_RATIO, -DEFAULT_SMALL_RATIO]);
    ratios.extend([0.5f64.next_down(), 1.0f64.next_down(), 1.0f64.next_up()]);
    ratios.extend((0..4).map(|_| random.fraction()));
    ratios.extend((0..4).map(|_| f64::from_bits(random.number())));
    for limit in [
        0,
        most_limit / 2,
        most_limit - most_limit.min(1),
        random.between(0, most_limit),
        random.between(0, most_limit),
    ] {
        let half = (limit as f64 + 0.5) / capacity.max(1) as f64;
        ratios.extend([half.next_down(), half, half.next_up()]);
    }
    ratios
}

fn compare(settings: Settings, store: &mut [u8]) -> Result<&'static str, String> {
    let ours = mapcache::create(settings, store).map_err(|refusal| refusal.number());
    let product = settings.capacity as f64 * settings.ghost_ratio;
    if settings.ghost_ratio.is_finite() && product > LARGEST_TRIED_GHOSTS {
        return match ours {
            Err(_) => Ok(NOT_TRIED),
            Ok(()) => Err(format!("{settings}: accepted with {product} ghosts")),
        };
    }
    let original = Original::create(settings).map(|original| original.state());
    match (ours, &original) {
        (Ok(()), Ok(state)) if store::read(store)? != *state => {
            Err(format!("{settings}: the limits differ\n ours\n{}\n original\n{state}", store::read(store)?))
        },
        (Ok(()), Ok(_)) if has_negative_zero(settings) => Ok(NEGATIVE_ZERO),
        (Ok(()), Ok(_)) => Ok(SAME_LIMITS),
        (Err(number), Err(error)) if number == refusal_for(error) => Ok(BOTH_REFUSE),
        (Err(2), Err(_)) if settings.capacity > MOST_CAPACITY => Ok(BOTH_REFUSE_OTHERWISE),
        (Err(2), Ok(state)) if state.capacity > MOST_CAPACITY => Ok(TOO_LARGE),
        (Err(5), Ok(state)) if state.ghost_limit > MOST_GHOSTS => Ok(TOO_LARGE),
        (ours, original) => Err(format!("{settings}: ours {ours:?}, original {original:?}")),
    }
}

/// Our number for what the original errs about.
fn refusal_for(error: &ConfigError) -> u8 {
    match error.message() {
        message if message.starts_with("cache capacity") => 1,
        message if message.starts_with("small_ratio") => 3,
        message if message.starts_with("ghost_ratio") => 4,
        message => panic!("the original errs with unknown words: {message}"),
    }
}

fn has_negative_zero(settings: Settings) -> bool {
    [settings.small_ratio, settings.ghost_ratio].iter().any(|ratio| *ratio == 0.0 && ratio.is_sign_negative())
}

/// Prints how often each outcome came up. The error names one that never did.
fn report(outcomes: &[&str]) -> Result<(), String> {
    for outcome in OUTCOMES {
        let count = outcomes.iter().filter(|each| **each == outcome).count();
        println!("{count:>12}  creations: {outcome}");
        if count == 0 {
            return Err(format!("never came up: {outcome}"));
        }
    }
    Ok(())
}
