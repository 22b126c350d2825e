//! The recorded steps (tools/make_calls.py) over the wrapper: whichever refusals they come to, the wrapper names each by
//! its number and detail, and a refused call changes nothing.

use mapcache::{Refusal, Settings, create, run, store_bytes};
use std::collections::BTreeSet;

const STEPS: &[u8] = include_bytes!("../../../crates/recorded/data/calls.bin");
const SURPLUS: usize = 100;

/// Six numbers of 4 bytes and one of 8, then as many bytes given and wanted as they say.
struct Step<'a> {
    kind: usize,
    store_len: usize,
    room: usize,
    number: usize,
    detail: u64,
    given: &'a [u8],
    wanted: &'a [u8],
}

fn steps() -> Vec<Step<'static>> {
    let mut rest = STEPS;
    let mut steps = Vec::new();
    while !rest.is_empty() {
        let (front, behind) = rest.split_at(32);
        let word = |n: usize| u32::from_le_bytes(front[4 * n..4 * n + 4].try_into().unwrap()) as usize;
        let (given, behind) = behind.split_at(word(4));
        let (wanted, behind) = behind.split_at(word(5));
        let detail = number(front, 24);
        let (kind, store_len, room) = (word(0), word(1), word(2));
        steps.push(Step { kind, store_len, room, number: word(3), detail, given, wanted });
        rest = behind;
    }
    steps
}

fn number(bytes: &[u8], at: usize) -> u64 {
    u64::from_le_bytes(bytes[at..at + 8].try_into().unwrap())
}

/// The settings of a record CF.
fn settings(record: &[u8]) -> Settings {
    let ratio = |at| f64::from_bits(number(record, at));
    Settings { capacity: number(record, 2), small_ratio: ratio(10), ghost_ratio: ratio(18) }
}

fn told(refused: Result<(), Refusal>) -> (usize, u64) {
    refused.map_or_else(|refusal| (refusal.number().into(), refusal.detail()), |()| (0, 0))
}

#[test]
fn every_step_goes_as_recorded() {
    let mut memory = vec![0; store_bytes() + SURPLUS];
    let mut refusals = BTreeSet::new();
    for (n, step) in steps().iter().enumerate() {
        let before = memory.clone();
        let mut replies = vec![0xEE; step.room];
        let store = &mut memory[..step.store_len];
        let answer = match step.kind {
            0 => {
                memory.fill(step.number as u8);
                continue;
            },
            1 => {
                memory[step.room..step.room + step.given.len()].copy_from_slice(step.given);
                continue;
            },
            2 => told(create(settings(step.given), store)),
            _ => told(run(store, step.given, &mut replies).map(|written| {
                assert_eq!(replies[..written], *step.wanted, "step {n}");
            })),
        };
        assert_eq!(answer, (step.number, step.detail), "step {n}");
        if step.number != 0 {
            assert!(memory == before && replies.iter().all(|byte| *byte == 0xEE), "step {n} changed something");
            refusals.insert(step.number);
        }
    }
    let last = refusals.len();
    assert!(last > 0 && refusals.into_iter().eq(1..=last), "a refusal never came up");
}
