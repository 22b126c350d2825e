//! A long stream of requests from a pipe that cuts at random, beside the same requests in whole calls: the answers are the
//! same, and so are the pairs that the two caches hold at the end. Status 1 where they differ. `make pieces` runs it.

use mapcache::{
    Answer, Answered, Cache, GuestBlock, Inserted, Left, MOST_REQUEST_BYTES, Pair, PhysicalBlock, Request, Settings,
    Stream, in_calls,
};
use std::collections::HashSet;
use std::error::Error;
use std::io::{self, Read};
use std::process::ExitCode;

const SEED: u64 = 88_172_645_463_325_252;
const REQUESTS: usize = 200_000;
const CAPACITY: u64 = 100;
const GUEST_BLOCKS: u64 = 400;
const SHOWN: usize = 8;

type Result<T> = std::result::Result<T, Box<dyn Error>>;

fn main() -> Result<ExitCode> {
    let mut seed = Seed(SEED);
    let requests: Vec<Request> = (0..REQUESTS).map(|_| seed.request()).collect();
    let mut bytes = Vec::new();
    requests.iter().for_each(|request| request.write(&mut bytes));
    let mut pipe = Pipe { bytes: &bytes, seed, ends: vec![0] };

    let mut fed = Cache::new(Settings::with_capacity(CAPACITY))?;
    let mut in_pieces = Vec::new();
    Stream::new(&mut fed).pour_each(&mut pipe, |answered| in_pieces.push(answered))?;
    let mut called = Cache::new(Settings::with_capacity(CAPACITY))?;
    let (in_whole_calls, calls) = run_all(&mut called, &requests)?;

    println!("{} requests, {} bytes, for a cache of {CAPACITY} pairs", grouped(REQUESTS), grouped(bytes.len()));
    say_pieces(&pipe.ends, &requests);
    println!("  in whole calls: {} calls of up to {} bytes", grouped(calls), grouped(MOST_REQUEST_BYTES));
    println!("The first answers of the stream:");
    for Answered { request, answer } in &in_pieces[..SHOWN] {
        println!("  {:<13}  {}", request.to_string(), told(*answer));
    }
    let same_answers = differ_at(&requests, &in_pieces, &in_whole_calls).is_none_or(|at| {
        println!("The answers to request {at}, {}, differ.", requests[at]);
        false
    });
    let same_pairs = pairs(&mut fed)? == pairs(&mut called)?;
    if same_answers && same_pairs {
        println!("The answers are the same, all {}, and so are the pairs in both caches.", grouped(in_pieces.len()));
        return Ok(ExitCode::SUCCESS);
    }
    println!("In pieces and in whole calls the outcome is not the same.");
    Ok(ExitCode::FAILURE)
}

/// The answers, and how many calls it took.
fn run_all(cache: &mut Cache<Box<[u8]>>, requests: &[Request]) -> Result<(Vec<Answer>, usize)> {
    let (mut answers, mut calls) = (Vec::new(), 0);
    for call in in_calls(requests) {
        answers.extend(cache.run(call)?);
        calls += 1;
    }
    Ok((answers, calls))
}

/// The pieces by their ends, the first of which is the stream's start; those that end where no record does are cut.
fn say_pieces(ends: &[usize], requests: &[Request]) {
    let lengths = || ends.windows(2).map(|pair| pair[1] - pair[0]);
    let (shortest, longest) = (lengths().min().unwrap_or(0), lengths().max().unwrap_or(0));
    let records: HashSet<usize> = requests.iter().scan(0, |end, request| Some(add(end, request.bytes()))).collect();
    let cut = ends[1..].iter().filter(|end| !records.contains(end)).count();
    let (count, shortest, longest, cut) = (grouped(ends.len() - 1), grouped(shortest), grouped(longest), grouped(cut));
    println!("  in pieces: {count} feeds of {shortest} to {longest} bytes, of which {cut} end within a record");
}

fn add(end: &mut usize, bytes: usize) -> usize {
    *end += bytes;
    *end
}

/// The first request that is not the same, or is not answered alike.
fn differ_at(requests: &[Request], in_pieces: &[Answered], in_whole_calls: &[Answer]) -> Option<usize> {
    let whole = requests.iter().zip(in_whole_calls).map(|(request, answer)| (*request, *answer));
    let mut fed = in_pieces.iter().map(|answered| (answered.request, answered.answer));
    let at = whole.map(|each| fed.next() == Some(each)).position(|same| !same);
    at.or(fed.next().map(|_| requests.len() - 1))
}

/// Every pair that the cache holds.
fn pairs(cache: &mut Cache<Box<[u8]>>) -> Result<Vec<Pair>> {
    let mut pairs = Vec::new();
    for guest in (0..GUEST_BLOCKS).map(GuestBlock) {
        pairs.extend(cache.peek(guest)?.map(|physical| Pair { guest, physical }));
    }
    Ok(pairs)
}

/// An answer in words.
fn told(answer: Answer) -> String {
    let named = |pair: Pair| format!("{} -> {}", pair.guest.0, pair.physical.0);
    let left = |left: Left| format!(", and {} left", named(left.pair));
    match answer {
        Answer::Found(Some(physical)) => format!("found {}", physical.0),
        Answer::TakenOut(Some(physical)) => format!("took out {}", physical.0),
        Answer::Inserted(Inserted::Replaced(physical)) => format!("replaced {}", physical.0),
        Answer::Inserted(inserted) => format!("new{}", inserted.left().map_or_else(String::new, left)),
        Answer::Evicted(evicted) => {
            let back = evicted.handed_back.map_or("nothing".to_owned(), |pair| format!("handed back {}", named(pair)));
            format!("{back}{}", evicted.left.map_or_else(String::new, left))
        },
        Answer::Cleared => "cleared".to_owned(),
        _ => "nothing".to_owned(),
    }
}

/// A number by thousands.
fn grouped(number: usize) -> String {
    let digits = number.to_string();
    let groups: Vec<&str> = digits.as_bytes().rchunks(3).rev().filter_map(|group| str::from_utf8(group).ok()).collect();
    groups.join(",")
}

/// Random numbers, always the same ones.
struct Seed(u64);

impl Seed {
    fn below(&mut self, limit: u64) -> u64 {
        self.0 ^= self.0 << 13;
        self.0 ^= self.0 >> 7;
        self.0 ^= self.0 << 17;
        self.0 % limit
    }

    /// Mostly lookups, and low guest blocks more often than high ones.
    fn request(&mut self) -> Request {
        let most = 1 + self.below(GUEST_BLOCKS);
        let guest = GuestBlock(self.below(most));
        match self.below(1000) {
            0 => Request::Clear,
            1..20 => Request::Evict,
            20..60 => Request::Remove(guest),
            60..100 => Request::Peek(guest),
            100..650 => Request::Get(guest),
            _ => Request::Insert(guest, PhysicalBlock(self.below(1_000_000))),
        }
    }

    /// From 1 byte up to as many as a feed takes, short lengths as often as long ones.
    fn length(&mut self) -> usize {
        let most = 1 << self.below(1 + u64::from(MOST_REQUEST_BYTES.ilog2()));
        1 + self.below(most) as usize
    }
}

/// Gives its bytes in pieces of random lengths, and knows where each ended.
struct Pipe<'a> {
    bytes: &'a [u8],
    seed: Seed,
    ends: Vec<usize>,
}

impl Read for Pipe<'_> {
    fn read(&mut self, buffer: &mut [u8]) -> io::Result<usize> {
        let start = *self.ends.last().unwrap_or(&0);
        let length = self.seed.length().min(buffer.len()).min(self.bytes.len() - start);
        buffer[..length].copy_from_slice(&self.bytes[start..start + length]);
        if length > 0 {
            self.ends.push(start + length);
        }
        Ok(length)
    }
}
