//! Every departure from the original, shown on a small input: what ours does, what the original does. The table of
//! docs/DIFFERENCES.md is what this prints; each row is tried before it is printed.

use mapcache::{
    CARRY_BYTES, DEFAULT_GHOST_RATIO, DEFAULT_SMALL_RATIO, Fed, GuestBlock, PhysicalBlock, Refusal, Reply, Request,
    Settings, feed, finish,
};
use original::driver::Original;
use original::policy::s3_fifo::S3FifoCache;
use original::state::State;
use original::traits::EvictingCache;
use std::panic::{self, UnwindSafe};

pub fn print() {
    println!("| refusal | input | the original |\n|---|---|---|");
    creation_rows();
    call_rows();
    stream_rows();
    println!("\n| without a refusal | ours | the original |\n|---|---|---|");
    silent_rows_of_one();
    silent_rows_of_two();
}

/// What the original does with settings that ours refuses.
#[derive(Debug, PartialEq, Eq)]
enum Outcome {
    Accepts,
    Errs,
    Panics,
}

fn creation_rows() {
    use Outcome::*;
    let (small, large) = (DEFAULT_SMALL_RATIO, DEFAULT_GHOST_RATIO);
    refused(1, "capacity 0", settings(0, small, large), Errs);
    refused(2, "capacity 1,025", settings(1025, small, large), Accepts);
    refused(2, "capacity 2^64 - 1, ghost ratio 0.0", settings(u64::MAX, small, 0.0), Panics);
    for ratio in [f64::NAN, f64::INFINITY, 1.0f64.next_up(), -0.1] {
        refused(3, &format!("capacity 4, small ratio {ratio:?}"), settings(4, ratio, large), Errs);
    }
    for ratio in [f64::NAN, f64::INFINITY, -0.1] {
        refused(4, &format!("capacity 4, ghost ratio {ratio:?}"), settings(4, small, ratio), Errs);
    }
    refused(5, "capacity 1,024, ghost ratio 1.00048828125", settings(1024, small, 1.000_488_281_25), Accepts);
    refused(5, "capacity 1, ghost ratio 1025.0", settings(1, small, 1025.0), Accepts);
}

/// Tries settings on both, and prints the original's part.
fn refused(number: u8, input: &str, settings: Settings, expected: Outcome) {
    let refusal = mapcache::create(settings, &mut fresh_store()).expect_err("ours refuses");
    assert_eq!(refusal.number(), number, "{input}");
    let (outcome, words) = match quietly(|| Original::create(settings)) {
        Ok(Ok(original)) => {
            let State { capacity, small_limit, ghost_limit, .. } = original.state();
            let limits = format!("capacity {capacity}, Small limit {small_limit}, ghost limit {ghost_limit}");
            (Outcome::Accepts, format!("accepts: {limits}"))
        },
        Ok(Err(error)) => {
            let panicked = quietly(|| with_ratios(settings)).err();
            assert_eq!(panicked, Some(error.to_string()), "{input}: `with_ratios` panics where `try_with_ratios` errs");
            (Outcome::Errs, format!("`try_with_ratios` errs, `with_ratios` panics: \"{error}\""))
        },
        Err(panicked) => (Outcome::Panics, format!("`try_with_ratios` panics: \"{panicked}\"")),
    };
    assert_eq!(outcome, expected, "{input}");
    println!("| {number} | {input} | {words} |");
}

fn with_ratios(settings: Settings) -> S3FifoCache<u64, u64> {
    S3FifoCache::with_ratios(settings.capacity as usize, settings.small_ratio, settings.ghost_ratio)
}

/// Does some work that may panic; the error is what the panic says, which is kept off the terminal.
fn quietly<T>(work: impl FnOnce() -> T + UnwindSafe) -> Result<T, String> {
    let usual = panic::take_hook();
    panic::set_hook(Box::new(|_| ()));
    let done = panic::catch_unwind(work);
    panic::set_hook(usual);
    done.map_err(|said| match said.downcast::<String>() {
        Ok(words) => *words,
        Err(said) => said.downcast::<&str>().map_or("no words".to_string(), |words| words.to_string()),
    })
}

fn call_rows() {
    let insert = bytes(&[put(7, 70)]);
    let cut = [&insert[..], b"G"].concat();
    let clears = vec![Request::Clear; 16_385];
    let shorter = mapcache::store_bytes() - 1;
    let mut damaged = created();
    damaged[0] = 0;
    let mut original = Original::create(Settings::with_capacity(1)).expect("valid settings");
    clears.iter().for_each(|clear| original.answer(*clear, &mut Vec::new()));

    let no_bytes = "has no bytes: its requests are methods";
    let row = |number, store: &mut [u8], requests: &[u8], room, detail, input, original| {
        let refusal = mapcache::run(store, requests, &mut vec![0; room]).expect_err("ours refuses");
        assert_eq!((refusal.number(), refusal.detail()), (number, detail), "{input}");
        println!("| {number} | {input} (detail {detail}) | {original} |");
    };
    row(6, &mut created()[..shorter], &insert, 28, 0, "a store one byte short", "has no store: it allocates");
    let private = "has no store: its fields are private, and only debug builds can check them";
    row(7, &mut damaged, &insert, 28, 0, "a store whose capacity is overwritten by 0", private);
    let unlimited = "has no such limit: `clear` that many times runs";
    row(8, &mut created(), &bytes(&clears), 65_536, 0, "16,385 times CL, 32,770 bytes", unlimited);
    row(9, &mut created(), b"XX", 28, 0, "the bytes XX", no_bytes);
    row(9, &mut created(), &cut, 38, 18, "IN 7 70, then the byte G", no_bytes);
    let returned = "has no reply buffer: its methods return values";
    row(10, &mut created(), &insert, 27, 28, "IN 7 70 with a reply buffer of 27 bytes", returned);
}

/// Carries that no feed could have left, and one that this piece cannot follow. Nothing of store and carry may change.
fn stream_rows() {
    let no_streams = "has no streams: a request comes whole, as a method's arguments";
    let row = |input| println!("| 17 | {input} (detail 0) | {no_streams} |");
    for (offset, input) in
        [(1, "a feed of CL, with a carry at offset 1"), (u64::MAX - 1, "a feed of CL, with a carry at offset 2^64 - 2")]
    {
        let (mut store, mut carry) = (created(), carry(offset, b""));
        let fed = feed(&mut store, &mut carry, b"CL", &mut [0; 2]);
        assert_eq!(fed, Fed { replied: 0, refused: Some(Refusal::BadCarry) }, "{input}");
        assert!(store == created() && carry == self::carry(offset, b""), "{input}: something changed");
        row(input);
    }
    assert_eq!(finish(&carry(18, b"EV")), Err(Refusal::BadCarry));
    row("a finish, with a carry that keeps EV, a whole record");
}

/// What a stream that has not stopped carries, whether or not a feed could have left it.
fn carry(offset: u64, kept: &[u8]) -> Vec<u8> {
    let mut carry = [&offset.to_le_bytes()[..], &[kept.len() as u8, 0], kept].concat();
    carry.resize(CARRY_BYTES, 0);
    carry
}

/// Where both accept, and the original says less, at capacity 1.
fn silent_rows_of_one() {
    let mut cache = S3FifoCache::<u64, u64>::new(1);
    assert_eq!(cache.insert(7, 70), None);
    assert_eq!((cache.insert(8, 80), cache.peek(&7)), (None, None));
    silent(
        1,
        &[put(7, 70), put(8, 80)],
        "ES 7 70, NW 1",
        "`insert` returns None, as for a key that pushes nothing out; (7, 70) is dropped",
    );

    let mut cache = S3FifoCache::<u64, u64>::new(1);
    cache.insert(7, 70);
    assert_eq!((cache.evict_one(), cache.len()), (None, 0));
    silent(
        1,
        &[put(7, 70), Request::Evict],
        "ES 7 70, MI",
        "`evict_one` returns None, as on an empty cache; (7, 70) is dropped",
    );
}

/// The same at capacity 2.
fn silent_rows_of_two() {
    let get = |key| Request::Get(GuestBlock(key));
    let mut cache = S3FifoCache::<u64, u64>::new(2);
    cache.insert(1, 10);
    cache.insert(2, 20);
    assert_eq!((cache.evict_one(), cache.len()), (Some((2, 20)), 0));
    silent(
        2,
        &[put(1, 10), put(2, 20), Request::Evict],
        "ES 1 10, EX 2 20",
        "`evict_one` returns (2, 20); (1, 10) is dropped",
    );

    let mut cache = S3FifoCache::<u64, u64>::new(2);
    cache.insert(1, 10);
    cache.get(&1);
    cache.insert(2, 20);
    cache.get(&2);
    assert_eq!((cache.insert(3, 30), cache.peek(&1)), (None, None));
    let warm = [put(1, 10), get(1), put(2, 20), get(2), put(3, 30)];
    silent(
        2,
        &warm,
        "EM 1 10, NW 3",
        "`insert` returns None; (1, 10) is dropped, and only the counters, a feature, tell of 3 pops",
    );
}

/// Runs requests on ours at the default ratios and holds the replies to the last one to what the table says.
fn silent(capacity: u64, requests: &[Request], last: &str, original: &str) {
    let mut store = fresh_store();
    mapcache::create(Settings::with_capacity(capacity), &mut store).expect("valid settings");
    let mut replies = vec![0; 1024];
    let (end, before) = requests.split_last().expect("there is a request");
    mapcache::run(&mut store, &bytes(before), &mut replies).expect("valid requests");
    let written = mapcache::run(&mut store, &bytes(&[*end]), &mut replies).expect("a valid request");
    let said = Reply::read_all(&replies[..written]).expect("replies are records");
    let said = said.iter().map(Reply::to_string).collect::<Vec<_>>().join(", ");
    let asked = requests.iter().map(Request::to_string).collect::<Vec<_>>().join(", ");
    assert_eq!(said, last, "capacity {capacity}: {asked}");
    println!("| capacity {capacity}, defaults: {asked} | {said} | {original} |");
}

fn put(key: u64, value: u64) -> Request {
    Request::Insert(GuestBlock(key), PhysicalBlock(value))
}

fn bytes(requests: &[Request]) -> Vec<u8> {
    let mut bytes = Vec::new();
    requests.iter().for_each(|request| request.write(&mut bytes));
    bytes
}

fn settings(capacity: u64, small_ratio: f64, ghost_ratio: f64) -> Settings {
    Settings { capacity, small_ratio, ghost_ratio }
}

fn fresh_store() -> Vec<u8> {
    vec![0; mapcache::store_bytes()]
}

fn created() -> Vec<u8> {
    let mut store = fresh_store();
    mapcache::create(Settings::with_capacity(1), &mut store).expect("valid settings");
    store
}
