//! Requests as bytes that come in pieces, cut anywhere.

use crate::answer::{Answer, Replies, strange};
use crate::cache::Cache;
use crate::call::{self, CARRY_BYTES, MOST_REQUEST_BYTES};
use crate::record;
use crate::refusal::Refusal;
use crate::request::Request;
use std::error::Error;
use std::fmt;
use std::io::{self, Read};

/// A stream of requests over a cache. Its bytes come in pieces that are cut anywhere, also within a record or a mark; a
/// request is carried out when its last byte is there. Where a stream is cut makes no difference to what it does.
///
/// ```
/// use mapcache::{Cache, Settings, Stream, StreamError};
///
/// let mut cache = Cache::new(Settings::with_capacity(1))?;
/// let mut stream = Stream::new(&mut cache);
/// let insert = b"IN\x07\0\0\0\0\0\0\0\x46\0\0\0\0\0\0\0"; // guest block 7 is in physical block 70
/// assert!(stream.feed(&insert[..5])?.is_empty());
/// for answered in stream.feed(&insert[5..])? {
///     // a pair that answered.answer names has left the cache: whoever keeps the map writes it down
///     assert_eq!(answered.request.to_string(), "IN 7 70");
/// }
/// assert!(stream.finish().is_ok());
///
/// // no request has this mark: the stream stops, and what was carried out before it counts
/// let broken = stream.feed(b"EVXX").unwrap_err();
/// assert_eq!(broken.answers.len(), 1);
/// assert!(matches!(broken.why, StreamError::UnknownMark { offset: 20 }));
/// # Ok::<(), Box<dyn std::error::Error>>(())
/// ```
///
/// Each feed checks the whole store once, so large pieces are what a busy host wants. While the stream lives, other requests go
/// through [`cache`](Stream::cache); [`carry`](Stream::carry) and [`resume`](Stream::resume) let several streams take turns.
#[derive(Debug)]
pub struct Stream<'c, S> {
    cache: &'c mut Cache<S>,
    carry: [u8; CARRY_BYTES],
}

/// A request of a stream, and its answer.
#[derive(Clone, Copy, Debug, PartialEq, Eq, Hash)]
#[must_use = "its answer may name a pair that is in the cache no more"]
pub struct Answered {
    /// The request,
    pub request: Request,
    /// and what came of it.
    pub answer: Answer,
}

/// Why a stream does not go on, or may not end. More reasons may come with a later version.
#[derive(Debug)]
#[non_exhaustive]
#[must_use]
pub enum StreamError {
    /// The record at this offset of the stream has a mark that no request has. The requests before it are carried out, and
    /// the stream has stopped: it takes nothing more. (Refusal 9.)
    UnknownMark {
        /// Where the mark starts, counted from the stream's first byte.
        offset: u64,
    },
    /// The stream ended within the record at this offset. What there is of the record is kept, and more may come. (Refusal 9.)
    CutShort {
        /// Where the record starts, counted from the stream's first byte.
        offset: u64,
    },
    /// A feed was turned away, and nothing of it consumed (of a piece longer than one feed takes, the feeds before it were): the
    /// store is too short or damaged, what is carried is none that a feed leaves, or the stream would end past offset 2^64-1.
    Refused(Refusal),
    /// Reading failed. What was read before is fed, and the stream can go on.
    Read(io::Error),
}

/// A stream that does not go on, with the answers of the requests that were carried out before. They count.
#[derive(Debug)]
#[must_use = "its answers may name pairs that are in the cache no more"]
pub struct Broken {
    /// What was carried out.
    pub answers: Vec<Answered>,
    /// Why it does not go on.
    pub why: StreamError,
}

impl<'c, S: AsMut<[u8]>> Stream<'c, S> {
    /// A new stream over the cache.
    #[must_use]
    pub fn new(cache: &'c mut Cache<S>) -> Self {
        Stream::resume(cache, [0; CARRY_BYTES])
    }

    /// The stream that left this [`carry`](Stream::carry). Bytes that no stream leaves are refused when they are used.
    #[must_use]
    pub fn resume(cache: &'c mut Cache<S>, carry: [u8; CARRY_BYTES]) -> Self {
        Stream { cache, carry }
    }

    /// What the stream carries on: how far it has come, the bytes of a record that is cut, whether it has stopped. The header
    /// says what each byte is.
    #[must_use]
    pub fn carry(&self) -> &[u8; CARRY_BYTES] {
        &self.carry
    }

    /// How many bytes the stream has consumed; of one that has stopped, how many stand before the unknown mark.
    #[must_use]
    pub fn position(&self) -> u64 {
        let [a, b, c, d, e, f, g, h, kept, ..] = self.carry;
        u64::from_le_bytes([a, b, c, d, e, f, g, h]).saturating_add(kept.into())
    }

    /// The cache, for requests between two pieces.
    pub fn cache(&mut self) -> &mut Cache<S> {
        self.cache
    }

    /// Takes the next piece, of any length, and answers the requests that it completes.
    pub fn feed(&mut self, piece: &[u8]) -> Result<Vec<Answered>, Broken> {
        collected(|each| self.feed_each(piece, each))
    }

    /// Takes the next piece, of any length, and hands out the answers one by one, those before an error too. A piece longer
    /// than one feed takes is cut into several; how far [`position`](Stream::position) went says how much of it was taken.
    pub fn feed_each(&mut self, piece: &[u8], mut each: impl FnMut(Answered)) -> Result<(), StreamError> {
        let mut rest = piece;
        loop {
            let (part, behind) = rest.split_at(rest.len().min(MOST_REQUEST_BYTES));
            self.feed_part(part, &mut each)?;
            if behind.is_empty() {
                return Ok(());
            }
            rest = behind;
        }
    }

    /// Reads to the end, and answers every request. All answers are kept until then: of a long stream
    /// [`pour_each`](Stream::pour_each) hands them out as they come.
    pub fn pour(&mut self, reader: impl Read) -> Result<Vec<Answered>, Broken> {
        collected(|each| self.pour_each(reader, each))
    }

    /// Reads to the end, and hands out the answers one by one, those before an error too. What a read gives, up to 32,768
    /// bytes, is one feed: nothing waits for more to come. The end must be that of a record. Where a feed is turned away, or the
    /// stream stops, what the last read gave is not handed back; from a stream that has stopped before nothing is read.
    pub fn pour_each(&mut self, mut reader: impl Read, mut each: impl FnMut(Answered)) -> Result<(), StreamError> {
        if self.has_stopped() {
            return self.finish();
        }
        let mut buffer = vec![0; MOST_REQUEST_BYTES];
        loop {
            match reader.read(&mut buffer) {
                Ok(0) => return self.finish(),
                Ok(read) => self.feed_part(&buffer[..read], &mut each)?,
                Err(error) if error.kind() == io::ErrorKind::Interrupted => {},
                Err(error) => return Err(StreamError::Read(error)),
            }
        }
    }

    /// Whether the stream may end here. Nothing changes, and more may come after it.
    pub fn finish(&self) -> Result<(), StreamError> {
        call::finish(&self.carry).map_err(|refusal| match refusal {
            Refusal::BadRecord { offset } if !self.has_stopped() => StreamError::CutShort { offset },
            refusal => StreamError::of_feed(refusal),
        })
    }

    fn has_stopped(&self) -> bool {
        self.carry[9] == 1
    }

    /// One feed. It is proved that the replies answer the records completed one by one, so they end with the last of those.
    fn feed_part(&mut self, piece: &[u8], each: &mut impl FnMut(Answered)) -> Result<(), StreamError> {
        let before = self.carry;
        let (fed, replies) = self.cache.feed(&mut self.carry, piece);
        let mut read = Replies::new(replies);
        let mut completed = Completed::new(&before, piece);
        while !read.is_empty() {
            let request = completed.next().unwrap_or_else(|| strange());
            each(Answered { request, answer: read.answer(request) });
        }
        fed.refused.map_or(Ok(()), |refusal| Err(StreamError::of_feed(refusal)))
    }
}

/// The requests that a piece completes, the first of them begun by the bytes kept.
struct Completed<'a> {
    kept: &'a [u8],
    piece: &'a [u8],
}

impl<'a> Completed<'a> {
    fn new(carry: &'a [u8; CARRY_BYTES], piece: &'a [u8]) -> Completed<'a> {
        let kept = carry[10..].get(..usize::from(carry[8])).unwrap_or_default();
        Completed { kept, piece }
    }
}

impl Iterator for Completed<'_> {
    type Item = Request;

    fn next(&mut self) -> Option<Request> {
        if self.kept.is_empty() {
            let request = Request::read(self.piece)?;
            self.piece = &self.piece[request.bytes()..];
            return Some(request);
        }
        let front = self.piece.len().min(record::LONGEST);
        let request = Request::read(&[self.kept, &self.piece[..front]].concat())?;
        self.piece = self.piece.get(request.bytes().checked_sub(self.kept.len())?..)?;
        self.kept = &[];
        Some(request)
    }
}

/// The answers that are handed out one by one, in a list.
fn collected(run: impl FnOnce(&mut dyn FnMut(Answered)) -> Result<(), StreamError>) -> Result<Vec<Answered>, Broken> {
    let mut answers = Vec::new();
    match run(&mut |answered| answers.push(answered)) {
        Ok(()) => Ok(answers),
        Err(why) => Err(Broken { answers, why }),
    }
}

impl StreamError {
    /// A feed's 9 is an unknown mark: a record that is cut is kept.
    fn of_feed(refusal: Refusal) -> StreamError {
        match refusal {
            Refusal::BadRecord { offset } => StreamError::UnknownMark { offset },
            refusal => StreamError::Refused(refusal),
        }
    }

    /// The refusal that the library gave; none where reading failed.
    #[must_use]
    pub fn refusal(&self) -> Option<Refusal> {
        match *self {
            StreamError::UnknownMark { offset } | StreamError::CutShort { offset } => {
                Some(Refusal::BadRecord { offset })
            },
            StreamError::Refused(refusal) => Some(refusal),
            StreamError::Read(_) => None,
        }
    }
}

impl fmt::Display for StreamError {
    fn fmt(&self, f: &mut fmt::Formatter<'_>) -> fmt::Result {
        match self {
            StreamError::UnknownMark { offset } => {
                write!(f, "no request has the mark at offset {offset}: the stream has stopped there (refusal 9)")
            },
            StreamError::CutShort { offset } => {
                write!(f, "the stream ends within the record at offset {offset} (refusal 9)")
            },
            StreamError::Refused(refusal) => write!(f, "{refusal}"),
            StreamError::Read(error) => write!(f, "reading failed: {error}"),
        }
    }
}

impl Error for StreamError {
    fn source(&self) -> Option<&(dyn Error + 'static)> {
        match self {
            StreamError::Read(error) => Some(error),
            _ => None,
        }
    }
}

impl fmt::Display for Broken {
    fn fmt(&self, f: &mut fmt::Formatter<'_>) -> fmt::Result {
        write!(f, "{}; answered before it: {}", self.why, self.answers.len())
    }
}

impl Error for Broken {
    fn source(&self) -> Option<&(dyn Error + 'static)> {
        Some(&self.why)
    }
}
