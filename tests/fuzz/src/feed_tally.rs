//! What feeds and finishes met, how often; and what they must have met.

use crate::carry::{self, CARRY_BYTES, UNFIT, Unfit};
use crate::stream::{self, FEED_REFUSALS, FINISH_REFUSALS, Fed};
use crate::tally::{Answers, number};
use crate::verdict::{MOST_REQUEST_BYTES, Verdict};
use std::collections::BTreeMap;

const EMPTY_PIECE: &str = "feeds of 0 bytes, accepted";
const LONGEST_PIECE: &str = "feeds of 32,768 bytes, accepted";
const MARK_CUT: &str = "marks cut between two feeds";
const RECORD_CUT: &str = "records cut behind their mark between two feeds";
const SURPLUS: &str = "feeds with a carry of more than 32 bytes, accepted";
const FAR: &str = "feeds beyond offset 2^63, accepted";
const STOPS_REPLYING: &str = "streams stopped by a feed with replies";
const STOPS_SILENT: &str = "streams stopped by a feed without replies";
const STOPS_AT_CUT_MARK: &str = "streams stopped by a mark cut between two feeds";
const ROOM_FIRST: &str = "feeds refused with 10 where a new 9 would come next";
const FINISH_CUT: &str = "finishes of a record still cut";
const FINISH_STOPPED: &str = "finishes of a stopped stream";

/// Each must come up.
const EVENTS: [&str; 12] = [
    EMPTY_PIECE,
    LONGEST_PIECE,
    MARK_CUT,
    RECORD_CUT,
    SURPLUS,
    FAR,
    STOPS_REPLYING,
    STOPS_SILENT,
    STOPS_AT_CUT_MARK,
    ROOM_FIRST,
    FINISH_CUT,
    FINISH_STOPPED,
];

/// Two refusals that apply at once, the one that must be given first. Each must come up, as it shows the order.
const PAIRS: [(u8, u8); 11] =
    [(6, 17), (6, 8), (6, 9), (6, 10), (7, 17), (7, 8), (7, 9), (7, 10), (17, 8), (8, 9), (8, 10)];

#[derive(Default)]
pub struct FeedTally {
    feeds: Answers,
    finishes: Answers,
    events: BTreeMap<&'static str, u64>,
    pairs: BTreeMap<(u8, u8), u64>,
    /// Carries that are unfit in one way alone: fed, and finished.
    unfit: BTreeMap<Unfit, (u64, u64)>,
}

impl FeedTally {
    /// A feed, with the carry that it was lent.
    pub fn feed(&mut self, before: &[u8], piece: &[u8], fed: &Fed) {
        self.feeds.count(number(&fed.verdict));
        if let [way] = fed.unfit[..] {
            self.unfit.entry(way).or_default().0 += 1;
        }
        if let [(first, _), (second, _), ..] = fed.reasons[..] {
            *self.pairs.entry((first, second)).or_default() += 1;
        }
        match &fed.verdict {
            Verdict::Done { replies, .. } => self.accepted(before, piece, fed, !replies.is_empty()),
            Verdict::Refused { number: 10, .. } => {
                let kept = carry::read(before, None).map_or(Vec::new(), |carry| carry.kept);
                self.event_if(stream::walk(&[&kept, piece].concat()).unknown, ROOM_FIRST);
            },
            Verdict::Refused { .. } => {},
        }
    }

    fn accepted(&mut self, before: &[u8], piece: &[u8], fed: &Fed, replies: bool) {
        let carry = carry::read(before, None).expect("a feed with an unfit carry is refused");
        let mark_cut = carry.kept.len() == 1 && !piece.is_empty();
        let stops = fed.stops_at.is_some();
        self.event_if(piece.is_empty(), EMPTY_PIECE);
        self.event_if(piece.len() == MOST_REQUEST_BYTES, LONGEST_PIECE);
        self.event_if(mark_cut, MARK_CUT);
        self.event_if(carry.kept.len() > 1 && !piece.is_empty(), RECORD_CUT);
        self.event_if(before.len() > CARRY_BYTES, SURPLUS);
        self.event_if(carry.offset >= 1 << 63, FAR);
        self.event_if(stops && replies, STOPS_REPLYING);
        self.event_if(stops && !replies, STOPS_SILENT);
        self.event_if(stops && mark_cut && fed.stops_at == Some(carry.offset), STOPS_AT_CUT_MARK);
    }

    pub fn finish(&mut self, carry: &[u8]) {
        let (number, _, unfit) = stream::of_finish(carry);
        self.finishes.count(number);
        if let [way] = unfit[..] {
            self.unfit.entry(way).or_default().1 += 1;
        }
        if let Ok(carry) = carry::read(carry, None) {
            self.event_if(carry.stopped, FINISH_STOPPED);
            self.event_if(!carry.kept.is_empty(), FINISH_CUT);
        }
    }

    fn event_if(&mut self, is: bool, event: &'static str) {
        if is {
            *self.events.entry(event).or_default() += 1;
        }
    }

    pub fn print(&self) {
        self.feeds.print("feed");
        self.finishes.print("finish");
        let pairs: Vec<String> =
            self.pairs.iter().map(|((first, second), count)| format!("{first} and {second}: {count}")).collect();
        println!("  feeds with two reasons to refuse, each refused by the first: {}", pairs.join(", "));
        println!("  what streams met:");
        for event in EVENTS {
            println!("    {event:<52}{:>8}", self.events.get(event).unwrap_or(&0));
        }
        println!("  carries that no feed could have left, by the one thing that is wrong (fed, finished):");
        for (way, words) in UNFIT {
            let (fed, finished) = self.unfit.get(&way).copied().unwrap_or_default();
            println!("    {words:<32}{fed:>8}{finished:>8}");
        }
    }

    /// What was not met, of all that must be.
    pub fn missing(&self) -> Vec<String> {
        let mut missing = self.feeds.missing("feed", &FEED_REFUSALS);
        missing.extend(self.finishes.missing("finish", &FINISH_REFUSALS));
        missing
            .extend(EVENTS.iter().filter(|event| !self.events.contains_key(*event)).map(|event| format!("no {event}")));
        let unmet = PAIRS.iter().filter(|pair| !self.pairs.contains_key(pair));
        missing.extend(unmet.map(|(first, second)| format!("no feed to refuse with {first} and {second} at once")));
        for (way, words) in UNFIT {
            let (fed, finished) = self.unfit.get(&way).copied().unwrap_or_default();
            // a finish has no piece
            if fed == 0 || finished == 0 && way != Unfit::PieceLate {
                missing.push(format!("no carry fed and one finished with nothing wrong but: {words}"));
            }
        }
        missing
    }
}
