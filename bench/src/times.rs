//! Times, of all sides in turn in the same run. Of some rounds the quickest counts: what else the machine does only adds.

use crate::input::Input;
use crate::sides::{Original, Ours, SOME_PAIR_LEFT, Side, Unwritten};
use mapcache::Reply;
use std::hint::black_box;
use std::time::{Duration, Instant};

const ROUNDS: usize = 9;

pub struct Times {
    pub ours: Duration,
    pub original: Duration,
    /// The original's calls, and no reply written.
    pub unwritten: Duration,
}

pub fn measure(input: &Input) -> Times {
    let mut best = Times { ours: Duration::MAX, original: Duration::MAX, unwritten: Duration::MAX };
    for _ in 0..ROUNDS {
        let (mut ours, mut original, mut unwritten) = (Ours::new(input), Original::new(input), Unwritten::new(input));
        best.ours = best.ours.min(timed(|| run(&mut ours, input)));
        best.original = best.original.min(timed(|| run(&mut original, input)));
        best.unwritten = best.unwritten.min(timed(|| run(&mut unwritten, input)));
    }
    best
}

/// The quickest of some rounds of the same work.
pub fn best_of_rounds(mut work: impl FnMut()) -> Duration {
    (0..ROUNDS).map(|_| timed(&mut work)).min().expect("there are rounds")
}

/// Holds the two sides to the same replies, as far as the original knows them; answers the share of lookups that hit.
pub fn compare(input: &Input) -> f64 {
    let mut ours = Vec::new();
    let mut original = Vec::new();
    Ours::new(input).run(&input.calls, &mut |replies| ours.extend(known(replies)));
    Original::new(input).run(&input.calls, &mut |replies| original.extend(known(replies)));
    assert!(!ours.is_empty() && ours == original, "the replies differ");
    let hits = ours.iter().filter(|reply| matches!(reply, Reply::Hit(_))).count();
    let misses = ours.iter().filter(|reply| matches!(reply, Reply::Nothing)).count();
    hits as f64 / (hits + misses) as f64
}

/// The replies without what the original's calls do not tell.
fn known(replies: &[u8]) -> Vec<Reply> {
    let replies = Reply::read_all(replies).expect("replies are records");
    let forget = |reply| match reply {
        Reply::LeftSmall(_) | Reply::LeftMain(_) => SOME_PAIR_LEFT,
        Reply::New { .. } => Reply::New { pops: 0 },
        reply => reply,
    };
    replies.into_iter().map(forget).collect()
}

fn run(side: &mut dyn Side, input: &Input) {
    side.run(&input.calls, &mut |replies| {
        black_box(replies);
    });
}

fn timed(work: impl FnOnce()) -> Duration {
    let start = Instant::now();
    work();
    start.elapsed()
}
