//! The same requests on a second store, as a stream in pieces that are cut anywhere.

use crate::ending::Ending;
use crate::pair::UNTOUCHED;
use common::Random;
use mapcache::{CARRY_BYTES, Fed as FedBytes, MOST_REQUEST_BYTES, Refusal, Request, feed, feed_room, finish};

/// What stands behind the carry, and must stay.
const BEHIND: [u8; 8] = [UNTOUCHED; 8];

pub struct Fed {
    random: Random,
    pub store: Vec<u8>,
    carry: Vec<u8>,
    /// How many bytes have come.
    position: u64,
    /// Where the stream is cut in the last call's last request: what of it is still to come, and its reply room.
    waiting: Option<(Vec<u8>, usize)>,
    /// Where the unknown mark stands that the stream ends with.
    mark: Option<u64>,
    replies: Vec<u8>,
    /// What was met since it was last asked for.
    pub met: Vec<(&'static str, u64)>,
}

/// A piece, how many requests it completes and their reply room, and how many requests of the call are complete with it.
pub struct Piece {
    bytes: Vec<u8>,
    completes: usize,
    room: usize,
    pub requests: usize,
}

impl Fed {
    /// A new stream on a fresh store.
    pub fn new(store: Vec<u8>, random: Random) -> Fed {
        let carry = [&[0; CARRY_BYTES][..], &BEHIND].concat();
        Fed { random, store, carry, position: 0, waiting: None, mark: None, replies: Vec::new(), met: Vec::new() }
    }

    /// How the stream is to end.
    pub fn ending(&mut self) -> Ending {
        Ending::any(&mut self.random)
    }

    /// The pieces of a call's requests. Where the last one is cut, its last bytes come with the next call's first piece.
    pub fn cut(&mut self, requests: &[Request], ending: Option<&Ending>) -> Vec<Piece> {
        // what waited stands in front, and is not cut again
        let (mut bytes, room) = self.waiting.take().unwrap_or_default();
        let first = bytes.len();
        let mut complete_at = if first > 0 { vec![(first, room)] } else { Vec::new() };
        let waited = complete_at.len();
        for request in requests {
            request.write(&mut bytes);
            complete_at.push((bytes.len(), request.reply_room()));
        }
        let requests_end = bytes.len();
        match ending {
            None => self.hold_back(requests, &mut bytes),
            Some(ending) => self.end(ending, &mut bytes),
        }
        let (mut from, mut complete) = (0, 0);
        let mut pieces = Vec::new();
        for to in self.cuts(first, requests_end, bytes.len()) {
            let now = complete_at.partition_point(|(at, _)| *at <= to);
            let room = complete_at[complete..now].iter().map(|(_, room)| room).sum();
            let bytes = bytes[from..to].to_vec();
            pieces.push(Piece { bytes, completes: now - complete, room, requests: now - waited });
            (from, complete) = (to, now);
        }
        pieces
    }

    /// Now and then the last request's end does not come yet.
    fn hold_back(&mut self, requests: &[Request], bytes: &mut Vec<u8>) {
        let Some(last) = requests.last().filter(|_| self.random.one_in(3)) else { return };
        let left = self.between(1, last.bytes() - 1);
        self.waiting = Some((bytes.split_off(bytes.len() - left), last.reply_room()));
    }

    /// The stream's last bytes stand behind those of its requests.
    fn end(&mut self, ending: &Ending, bytes: &mut Vec<u8>) {
        if let Ending::Unknown(_) = ending {
            self.mark = Some(self.position + bytes.len() as u64);
        }
        bytes.extend(ending.tail());
    }

    /// Where to cut, from the first place that is allowed to the end, and some more in what stands behind the requests.
    /// Twice at one place makes a piece of no byte.
    fn cuts(&mut self, first: usize, requests_end: usize, end: usize) -> Vec<usize> {
        let count = match self.random.below(20) {
            // so that a piece as long as a feed takes comes up
            0..=9 if end >= MOST_REQUEST_BYTES => 0,
            0 => 12,
            _ => self.random.below(4),
        };
        let mut cuts = vec![end];
        cuts.extend((0..count).map(|_| self.between(first, end)));
        if requests_end < end {
            cuts.extend((0..self.random.below(3)).map(|_| self.between(requests_end, end)));
        }
        // a feed does not take more
        if end > MOST_REQUEST_BYTES {
            cuts.push(MOST_REQUEST_BYTES);
        }
        cuts.sort_unstable();
        cuts
    }

    fn between(&mut self, least: usize, most: usize) -> usize {
        self.random.between(least as u64, most as u64) as usize
    }

    /// Feeds a piece, and holds its replies to those that the original has given since the last one. Its reply buffer is
    /// as long as the piece asks, or as suffices for every piece of its length.
    pub fn feed(&mut self, piece: &Piece, expected: &[u8]) -> Result<(), String> {
        let enough = if self.random.one_in(2) { piece.room } else { feed_room(piece.bytes.len()) };
        self.replies.clear();
        self.replies.resize(enough, UNTOUCHED);
        let was_stopped = self.is_stopped();
        let answer = feed(&mut self.store, &mut self.carry, &piece.bytes, &mut self.replies);
        self.position += piece.bytes.len() as u64;
        let stopped_at = self.mark.filter(|_| self.is_stopped());
        let right =
            FedBytes { replied: expected.len(), refused: stopped_at.map(|offset| Refusal::BadRecord { offset }) };
        if answer != right {
            return Err(format!("{}: the library answers {answer:?}; it must be {right:?}", self.at(piece)));
        }
        let (replies, rest) = self.replies.split_at(expected.len());
        if replies != expected || rest.iter().any(|byte| *byte != UNTOUCHED) {
            return Err(format!("{}: the replies differ, or the library wrote behind them", self.at(piece)));
        }
        self.note(piece, !expected.is_empty(), was_stopped);
        Ok(())
    }

    /// Both bytes of the unknown mark have come.
    fn is_stopped(&self) -> bool {
        self.mark.is_some_and(|mark| self.position >= mark + 2)
    }

    fn at(&self, piece: &Piece) -> String {
        format!("fed in pieces, {} bytes up to offset {}", piece.bytes.len(), self.position)
    }

    fn note(&mut self, piece: &Piece, replies: bool, was_stopped: bool) {
        let stops = self.is_stopped() && !was_stopped;
        let kept = self.carry[8];
        self.met.push(("requests fed", piece.completes as u64));
        let mut note = |is: bool, what: &'static str| self.met.extend(is.then_some((what, 1)));
        note(true, "pieces fed");
        note(piece.bytes.is_empty(), "pieces of no byte");
        note(piece.bytes.len() == MOST_REQUEST_BYTES, "pieces of 32,768 bytes");
        note(kept == 1, "pieces that end in a mark");
        note(kept > 1, "pieces that end in a record");
        note(was_stopped, "pieces fed to a stopped stream");
        note(stops && replies, "streams stopped by a piece with replies");
        note(stops && !replies, "streams stopped by a piece without replies");
    }

    /// The stream is at its end: what a finish says, and what is carried, byte for byte.
    pub fn finish(&mut self, ending: &Ending) -> Result<(), String> {
        let (offset, kept, stopped, met) = match (ending, self.mark) {
            (Ending::Cut(tail), _) => (self.position - tail.len() as u64, &tail[..], 0, "streams finished, cut"),
            (Ending::Unknown(_), Some(mark)) => (mark, &[][..], 1, "streams finished, stopped"),
            _ => (self.position, &[][..], 0, "streams finished, complete"),
        };
        let bad = stopped == 1 || !kept.is_empty();
        let right = if bad { Err(Refusal::BadRecord { offset }) } else { Ok(()) };
        let said = finish(&self.carry);
        if said != right {
            return Err(format!("a finish says {said:?} at the stream's end; it must be {right:?}"));
        }
        let mut carry = [&offset.to_le_bytes()[..], &[kept.len() as u8, stopped], kept].concat();
        carry.resize(CARRY_BYTES, 0);
        carry.extend(BEHIND);
        if self.carry != carry {
            return Err(format!("the carry is {:02x?}; it must be {carry:02x?}", self.carry));
        }
        self.met.push((met, 1));
        Ok(())
    }
}
