//! Streams over the archive: worked streams with types, what breaks one, and random cuts beside whole calls.

use mapcache::{
    Answer, Answered, Broken, CARRY_BYTES, Cache, Fed, GuestBlock, Inserted, Left, MOST_REQUEST_BYTES, Pair,
    PhysicalBlock, Queue, Refusal, Request, Settings, Stream, StreamError, feed, feed_room, finish, in_calls,
};
use std::error::Error;
use std::io::{self, Read};

fn cache(capacity: u64) -> Cache<Box<[u8]>> {
    Cache::new(Settings::with_capacity(capacity)).unwrap()
}

fn insert(guest: u64, physical: u64) -> Request {
    Request::Insert(GuestBlock(guest), PhysicalBlock(physical))
}

fn get(guest: u64) -> Request {
    Request::Get(GuestBlock(guest))
}

fn bytes(requests: &[Request]) -> Vec<u8> {
    let mut bytes = Vec::new();
    requests.iter().for_each(|request| request.write(&mut bytes));
    bytes
}

fn new(request: Request, left: Option<(u64, u64)>, pops: u64) -> Answered {
    let pair = |(guest, physical)| Pair { guest: GuestBlock(guest), physical: PhysicalBlock(physical) };
    let left = left.map(|left| Left { pair: pair(left), from: Queue::Small });
    Answered { request, answer: Answer::Inserted(Inserted::New { left, pops }) }
}

fn found(guest: u64, physical: Option<u64>) -> Answered {
    Answered { request: get(guest), answer: Answer::Found(physical.map(PhysicalBlock)) }
}

fn carry(offset: u64, kept: &[u8], stopped: bool) -> [u8; CARRY_BYTES] {
    let mut carry = [0; CARRY_BYTES];
    carry[..8].copy_from_slice(&offset.to_le_bytes());
    carry[8] = kept.len() as u8;
    carry[9] = stopped.into();
    carry[10..10 + kept.len()].copy_from_slice(kept);
    carry
}

fn unknown_at(error: &StreamError) -> Option<u64> {
    match error {
        StreamError::UnknownMark { offset } => Some(*offset),
        _ => None,
    }
}

fn cut_at(error: &StreamError) -> Option<u64> {
    match error {
        StreamError::CutShort { offset } => Some(*offset),
        _ => None,
    }
}

#[test]
fn an_insert_in_two_pieces_and_a_mark_that_is_none() {
    let (mut cache, insert_7) = (cache(1), bytes(&[insert(7, 70)]));
    let mut stream = Stream::new(&mut cache);
    assert_eq!(stream.feed(&insert_7[..5]).unwrap(), []);
    assert_eq!((*stream.carry(), stream.position()), (carry(0, b"IN\x07\0\0", false), 5));
    assert_eq!(cut_at(&stream.finish().unwrap_err()), Some(0));
    let rest = [&insert_7[5..], b"X"].concat();
    assert_eq!(stream.feed(&rest).unwrap(), [new(insert(7, 70), None, 0)]);
    assert_eq!((*stream.carry(), stream.position()), (carry(18, b"X", false), 19));
    for piece in [b"X".as_slice(), b"CL", b"", &[b'E'; 40_000]] {
        let broken = stream.feed(piece).unwrap_err();
        assert_eq!((broken.answers, unknown_at(&broken.why)), (vec![], Some(18)));
        assert_eq!((*stream.carry(), stream.position()), (carry(18, b"", true), 18));
        assert_eq!(unknown_at(&stream.finish().unwrap_err()), Some(18));
    }
    let mut another = Stream::new(&mut cache);
    assert_eq!(another.feed(&bytes(&[get(7)])).unwrap(), [found(7, Some(70))]);
    assert!(another.finish().is_ok());
}

#[test]
fn what_was_carried_out_before_a_mark_is_handed_out_with_the_error() {
    let mut cache = cache(1);
    let mut stream = Stream::new(&mut cache);
    let broken = stream.feed(&[&bytes(&[insert(7, 70), insert(8, 80)])[..], b"XX"].concat()).unwrap_err();
    assert_eq!(broken.answers, [new(insert(7, 70), None, 0), new(insert(8, 80), Some((7, 70)), 1)]);
    assert_eq!(unknown_at(&broken.why), Some(36));
    assert_eq!(stream.cache().get(GuestBlock(8)).unwrap(), Some(PhysicalBlock(80)));
}

#[test]
fn wherever_a_stream_is_cut_in_two() {
    let requests = [insert(1, 10), get(1), Request::Evict, insert(2, 20), Request::Clear, Request::Peek(GuestBlock(2))];
    let expected = cache(1).run(&requests).unwrap();
    let stream_bytes = bytes(&requests);
    for cut in 0..=stream_bytes.len() {
        let mut cache = cache(1);
        let mut stream = Stream::new(&mut cache);
        let mut answers = stream.feed(&stream_bytes[..cut]).unwrap();
        answers.extend(stream.feed(&stream_bytes[cut..]).unwrap());
        assert!(answers.iter().map(|answered| answered.answer).eq(expected.iter().copied()), "cut at {cut}");
        assert!(answers.iter().map(|answered| answered.request).eq(requests), "cut at {cut}");
        assert!(stream.finish().is_ok() && stream.position() == stream_bytes.len() as u64);
    }
}

#[test]
fn a_piece_longer_than_a_feed_takes() {
    let requests: Vec<Request> = (0..10_000).map(|n| insert(n % 60, n)).collect();
    let mut beside = cache(50);
    let expected = in_calls(&requests).flat_map(|call| beside.run(call).unwrap());
    let mut fed = cache(50);
    let answers = Stream::new(&mut fed).feed(&[&bytes(&requests)[..], b"G"].concat()).unwrap();
    assert!(answers.into_iter().map(|answered| answered.answer).eq(expected));

    // the unknown mark is far behind the first feed of the piece
    let mut fed = cache(50);
    let broken = Stream::new(&mut fed).feed(&[&bytes(&requests)[..], b"??", b"CL"].concat()).unwrap_err();
    assert_eq!((broken.answers.len(), unknown_at(&broken.why)), (10_000, Some(180_000)));
}

/// Gives its parts one after the other; an empty one is an error, and `interrupted` an interruption.
struct Parts<'a>(Vec<&'a [u8]>);

impl Read for Parts<'_> {
    fn read(&mut self, buffer: &mut [u8]) -> io::Result<usize> {
        if self.0.is_empty() {
            return Ok(0);
        }
        match self.0.remove(0) {
            b"" => Err(io::Error::other("the pipe is broken")),
            b"interrupted" => Err(io::ErrorKind::Interrupted.into()),
            part => {
                buffer[..part.len()].copy_from_slice(part);
                Ok(part.len())
            },
        }
    }
}

#[test]
fn a_reader_is_poured_to_its_end() {
    let requests: Vec<Request> = (0..5_000).flat_map(|n| [insert(n % 30, n), get(n % 7)]).collect();
    let mut beside = cache(20);
    let expected: Vec<Answer> = in_calls(&requests).flat_map(|call| beside.run(call).unwrap()).collect();
    let mut poured = cache(20);
    let answers = Stream::new(&mut poured).pour(bytes(&requests).as_slice()).unwrap();
    assert!(answers.into_iter().map(|answered| answered.answer).eq(expected));
    assert_eq!(Stream::new(&mut poured).pour(io::empty()).unwrap(), []);
}

#[test]
fn a_reader_that_fails_loses_no_answer() {
    let (mut cache, two) = (cache(1), bytes(&[insert(7, 70), insert(8, 80)]));
    let mut stream = Stream::new(&mut cache);
    let broken = stream.pour(Parts(vec![&two[..30], b"interrupted", &two[30..33], b""])).unwrap_err();
    assert_eq!(broken.answers, [new(insert(7, 70), None, 0)]);
    assert!(matches!(&broken.why, StreamError::Read(error) if error.to_string() == "the pipe is broken"));
    assert_eq!(broken.why.refusal(), None);
    // what was read is fed, and the stream goes on
    assert_eq!(stream.position(), 33);
    let broken = stream.pour(Parts(vec![&two[33..35]])).unwrap_err();
    assert_eq!((broken.answers, cut_at(&broken.why)), (vec![], Some(18)));
    assert_eq!(stream.pour(Parts(vec![&two[35..]])).unwrap(), [new(insert(8, 80), Some((7, 70)), 1)]);
    let mut told = Vec::new();
    let error = stream.pour_each(Parts(vec![b"E", b"VR", b"?"]), |answered| told.push(answered.request)).unwrap_err();
    assert_eq!((told, unknown_at(&error)), (vec![Request::Evict], Some(38)));
}

#[test]
fn a_damaged_store_and_a_bad_carry_are_refused() {
    let mut store = cache(1).into_store();
    let mut lent = Cache::open(&mut store[..]).unwrap();
    let stream = Stream::resume(&mut lent, carry(1, b"", false));
    assert!(matches!(stream.finish(), Err(StreamError::Refused(Refusal::BadCarry))));
    for (offset, kept, stopped) in [(0, b"EV".as_slice(), false), (0, b"", true), (u64::MAX - 1, b"", false)] {
        let mut stream = Stream::resume(&mut lent, carry(offset, kept, stopped));
        let before = *stream.carry();
        let refusal = stream.feed(b"CL").unwrap_err().why.refusal();
        assert_eq!(refusal.unwrap().number(), if stopped { 9 } else { 17 });
        assert_eq!(*stream.carry(), before);
    }
    let mut too_many = carry(0, b"", false);
    too_many[8] = 255;
    let refused = Stream::resume(&mut lent, too_many).feed(b"CL").unwrap_err();
    assert!(refused.answers.is_empty() && refused.why.refusal() == Some(Refusal::BadCarry));

    // another part of the program writes to the store's memory: no cache can be opened over it, and no bytes are fed
    store[8 * 5] += 1;
    let fed = feed(&mut store, &mut [0; CARRY_BYTES], b"CL", &mut [0; 2]);
    assert_eq!(fed, Fed { replied: 0, refused: Some(Refusal::StoreDamaged) });
}

#[test]
fn a_refusal_in_the_middle_of_a_long_piece_says_how_much_was_taken() {
    let mut lent = cache(1);
    let start = u64::MAX - 1 - MOST_REQUEST_BYTES as u64;
    let mut stream = Stream::resume(&mut lent, carry(start, b"", false));
    let broken = stream.feed(&b"CL".repeat(20_000)).unwrap_err();
    assert_eq!((broken.answers.len(), broken.why.refusal()), (MOST_REQUEST_BYTES / 2, Some(Refusal::BadCarry)));
    assert_eq!(stream.position() - start, MOST_REQUEST_BYTES as u64);
}

#[test]
fn nothing_is_read_for_a_stream_that_has_stopped() {
    let mut lent = cache(1);
    let mut stream = Stream::resume(&mut lent, carry(18, b"", true));
    let mut pipe: &[u8] = b"CL";
    assert_eq!(unknown_at(&stream.pour(&mut pipe).unwrap_err().why), Some(18));
    assert_eq!(pipe, b"CL");
}

#[test]
fn bytes_are_fed_as_they_are() {
    let (mut store, mut carried) = (cache(1).into_store(), [0; CARRY_BYTES + 3]);
    let piece = [&bytes(&[insert(7, 70)])[..], b"XX"].concat();
    let mut replies = [0xEE; 30];
    let refused = feed(&mut store, &mut carried, &piece, &mut replies[..27]);
    assert_eq!(refused, Fed { replied: 0, refused: Some(Refusal::RepliesShort { needed: 28 }) });
    assert_eq!((carried, replies), ([0; CARRY_BYTES + 3], [0xEE; 30]));
    let stopped = feed(&mut store, &mut carried, &piece, &mut replies[..28]);
    assert_eq!(stopped, Fed { replied: 10, refused: Some(Refusal::BadRecord { offset: 18 }) });
    assert_eq!((&replies[..2], replies[10]), (&b"NW"[..], 0xEE));
    assert_eq!(finish(&carried), Err(Refusal::BadRecord { offset: 18 }));
    assert_eq!(finish(&carried[..CARRY_BYTES - 1]), Err(Refusal::BadCarry));
    let long = vec![b'C'; MOST_REQUEST_BYTES + 1];
    assert_eq!(feed(&mut store, &mut [0; CARRY_BYTES], &long, &mut []).refused, Some(Refusal::RequestsLong));
    assert_eq!(feed(&mut store, &mut [0; 31], &long, &mut []).refused, Some(Refusal::BadCarry));
    assert_eq!(feed(&mut [], &mut [], b"", &mut []).refused, Some(Refusal::StoreShort));
}

#[test]
fn two_streams_take_turns_on_one_cache() {
    let mut cache = cache(2);
    let (one, other) = (bytes(&[insert(1, 10), get(2)]), bytes(&[insert(2, 20), get(1)]));
    let mut carries = [[0; CARRY_BYTES]; 2];
    let mut answers = [Vec::new(), Vec::new()];
    for at in 0..one.len() {
        for (which, stream_bytes) in [&one, &other].into_iter().enumerate() {
            let mut stream = Stream::resume(&mut cache, carries[which]);
            answers[which].extend(stream.feed(&stream_bytes[at..=at]).unwrap());
            carries[which] = *stream.carry();
        }
    }
    assert_eq!(answers[0], [new(insert(1, 10), None, 0), found(2, Some(20))]);
    assert_eq!(answers[1], [new(insert(2, 20), None, 0), found(1, Some(10))]);
    assert_eq!(carries, [carry(28, b"", false); 2]);
}

#[test]
fn what_went_wrong_is_said() {
    let mut cache = cache(1);
    let mut stream = Stream::new(&mut cache);
    let broken = stream.feed(b"EVXX").unwrap_err();
    let said = "no request has the mark at offset 2: the stream has stopped there (refusal 9)";
    assert_eq!(broken.to_string(), format!("{said}; answered before it: 1"));
    assert_eq!(broken.source().unwrap().to_string(), said);
    let mut stream = Stream::new(&mut cache);
    let cut = stream.pour(b"CLGT".as_slice()).unwrap_err();
    assert_eq!(cut.why.to_string(), "the stream ends within the record at offset 2 (refusal 9)");
    assert_eq!(cut.why.refusal(), Some(Refusal::BadRecord { offset: 2 }));
    let failed = Broken { answers: Vec::new(), why: StreamError::Read(io::Error::other("no more")) };
    assert_eq!(failed.why.to_string(), "reading failed: no more");
    assert_eq!(failed.why.source().unwrap().to_string(), "no more");
    let bad = Stream::resume(&mut cache, [9; CARRY_BYTES]).finish().unwrap_err();
    assert!(bad.to_string().ends_with("(refusal 17)"), "{bad}");
}

/// Random numbers below a limit, from a seed.
fn draw(seed: &mut u64, below: u64) -> u64 {
    *seed ^= *seed << 13;
    *seed ^= *seed >> 7;
    *seed ^= *seed << 17;
    *seed % below
}

fn random_request(seed: &mut u64) -> Request {
    let guest = GuestBlock(draw(seed, 40));
    match draw(seed, 50) {
        0 => Request::Clear,
        1..5 => Request::Evict,
        5..9 => Request::Remove(guest),
        9..14 => Request::Peek(guest),
        14..32 => Request::Get(guest),
        _ => Request::Insert(guest, PhysicalBlock(draw(seed, 1000))),
    }
}

#[test]
fn random_cuts_make_no_difference() {
    let mut seed = 88_172_645_463_325_252;
    for round in 0..60 {
        let capacity = 1 + draw(&mut seed, 30);
        let requests: Vec<Request> = (0..draw(&mut seed, 400)).map(|_| random_request(&mut seed)).collect();
        let stream_bytes = bytes(&requests);
        let longest = 1 + draw(&mut seed, 200) as usize;
        let (mut fed, mut beside) = (cache(capacity), cache(capacity));
        let mut stream = Stream::new(&mut fed);
        let (mut answers, mut rest) = (Vec::new(), &stream_bytes[..]);
        while !rest.is_empty() {
            let (piece, behind) = rest.split_at(rest.len().min(draw(&mut seed, longest as u64 + 1) as usize));
            stream.feed_each(piece, |answered| answers.push(answered.answer)).unwrap();
            rest = behind;
        }
        stream.finish().unwrap();
        assert_eq!(answers, beside.run(&requests).unwrap(), "round {round}");
        let drained = [Request::Evict; 80];
        assert_eq!(fed.run(&drained).unwrap(), beside.run(&drained).unwrap(), "round {round}");
    }
}

#[test]
fn the_room_suffices_for_evictions_alone() {
    for pieces in [0, 1, 2, 17, MOST_REQUEST_BYTES] {
        assert!(feed_room(pieces) >= 36 * (pieces + 17).div_euclid(2));
    }
    let mut cache = cache(1);
    assert_eq!(Stream::new(&mut cache).feed(&b"EV".repeat(20_000)).unwrap().len(), 20_000);
}
