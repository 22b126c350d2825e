//! What was met, how often; and what must have been met for a run to show anything.

use crate::damage::{Damage, KINDS};
use crate::feed_tally::FeedTally;
use crate::verdict::{CREATE_REFUSALS, RUN_REFUSALS, Verdict};
use std::collections::BTreeMap;

#[derive(Default)]
pub struct Tally {
    creations: Answers,
    runs: Answers,
    pub feeds: FeedTally,
    damaged: BTreeMap<Damage, Met>,
    pub at_limits: u64,
}

/// How often a call gave each answer.
#[derive(Default)]
pub struct Answers(BTreeMap<u8, u64>);

#[derive(Default, Clone, Copy)]
struct Met {
    refused: u64,
    accepted: u64,
}

/// An accepted call stands under this, a refused one under its number.
const ACCEPTED: u8 = 0;

pub fn number(verdict: &Verdict) -> u8 {
    match verdict {
        Verdict::Refused { number, .. } => *number,
        Verdict::Done { .. } => ACCEPTED,
    }
}

impl Answers {
    pub fn count(&mut self, number: u8) {
        *self.0.entry(number).or_default() += 1;
    }

    pub fn print(&self, name: &str) {
        let refused = self.0.iter().filter(|(number, _)| **number != ACCEPTED);
        let each: Vec<String> = refused.map(|(number, count)| format!("{number}: {count}")).collect();
        println!("  {name}: accepted {}; refused {}", self.0.get(&ACCEPTED).unwrap_or(&0), each.join(", "));
    }

    /// What was not met, of being accepted and of these refusals.
    pub fn missing(&self, name: &str, refusals: &[u8]) -> Vec<String> {
        let mut missing = Vec::new();
        if !self.0.contains_key(&ACCEPTED) {
            missing.push(format!("no {name} was accepted"));
        }
        let unmet = refusals.iter().filter(|number| !self.0.contains_key(number));
        missing.extend(unmet.map(|number| format!("no {name} was refused with {number}")));
        missing
    }
}

impl Tally {
    pub fn creation(&mut self, verdict: &Verdict) {
        self.creations.count(number(verdict));
    }

    pub fn run(&mut self, verdict: &Verdict) {
        self.runs.count(number(verdict));
    }

    pub fn damage(&mut self, kind: Damage, verdict: &Verdict) {
        let met = self.damaged.entry(kind).or_default();
        match verdict {
            Verdict::Refused { .. } => met.refused += 1,
            Verdict::Done { .. } => met.accepted += 1,
        }
    }

    pub fn print(&self) {
        println!("  calls at every length and ratio around each limit: {}", self.at_limits);
        self.creations.print("create");
        self.runs.print("run");
        self.feeds.print();
        println!("  stores by kind of damage (refused, accepted since still sound):");
        for (kind, met) in &self.damaged {
            println!("    {:<16}{:>8}{:>8}", format!("{kind:?}"), met.refused, met.accepted);
        }
    }

    /// What was not met, of all that must be.
    pub fn missing(&self) -> Vec<String> {
        let mut missing = self.creations.missing("create", &CREATE_REFUSALS);
        missing.extend(self.runs.missing("run", &RUN_REFUSALS));
        missing.extend(self.feeds.missing());
        for kind in KINDS {
            let met = self.damaged.get(&kind).copied().unwrap_or_default();
            match kind {
                Damage::OpenBytes if met.refused > 0 || met.accepted == 0 => {
                    missing.push("no store with other open bytes was accepted".to_owned())
                },
                Damage::OpenBytes => {},
                _ if met.refused == 0 => missing.push(format!("no store was refused for {kind:?}")),
                _ => {},
            }
        }
        if self.at_limits == 0 {
            missing.push("no call was made at the limits".to_owned());
        }
        missing
    }
}
