//! What the replies to one request say together.

use crate::blocks::{Left, Pair, PhysicalBlock, Queue};
use crate::reply::Reply;
use crate::request::Request;

/// What an insert did. More kinds may come with a later version.
#[derive(Clone, Copy, Debug, PartialEq, Eq, Hash)]
#[non_exhaustive]
#[must_use = "a pair may have left the cache: whoever keeps the map writes it down"]
pub enum Inserted {
    /// The guest block was resident: its old physical block.
    Replaced(PhysicalBlock),
    /// The guest block is new.
    New {
        /// The pair that had to leave for it.
        left: Option<Left>,
        /// How many pops the eviction rule made; an entry that is asked for again may be popped twice.
        pops: u64,
    },
}

impl Inserted {
    /// The pair that had to leave.
    #[must_use = "this pair is in the cache no more: whoever keeps the map writes it down"]
    pub fn left(&self) -> Option<Left> {
        match *self {
            Inserted::Replaced(_) => None,
            Inserted::New { left, .. } => left,
        }
    }
}

/// What [`Request::Evict`] did. On a full cache the eviction rule runs first, so two pairs may go at once.
#[derive(Clone, Copy, Debug, PartialEq, Eq, Hash)]
#[must_use = "pairs may have left the cache: whoever keeps the map writes them down"]
pub struct Evicted {
    /// The pair that the eviction rule pushed out.
    pub left: Option<Left>,
    /// The pair handed back. None: the cache was empty, or what was popped is too warm to go yet.
    pub handed_back: Option<Pair>,
}

impl Evicted {
    /// Every pair that is in the cache no more.
    pub fn pairs(&self) -> impl Iterator<Item = Pair> + use<> {
        self.left.map(|left| left.pair).into_iter().chain(self.handed_back)
    }
}

/// The answer to one request. More kinds may come with a later version.
#[derive(Clone, Copy, Debug, PartialEq, Eq, Hash)]
#[non_exhaustive]
#[must_use = "it may name a pair that is in the cache no more"]
pub enum Answer {
    /// To [`Request::Get`] and [`Request::Peek`]: where the block is, if it is resident.
    Found(Option<PhysicalBlock>),
    /// To [`Request::Remove`]: where the block was, if it was resident.
    TakenOut(Option<PhysicalBlock>),
    /// To [`Request::Insert`].
    Inserted(Inserted),
    /// To [`Request::Evict`].
    Evicted(Evicted),
    /// To [`Request::Clear`].
    Cleared,
}

/// Reads the replies of an accepted call.
pub(crate) struct Replies<'a> {
    bytes: &'a [u8],
}

impl<'a> Replies<'a> {
    pub(crate) fn new(bytes: &'a [u8]) -> Replies<'a> {
        Replies { bytes }
    }

    /// The answer to the next request. It is proved that the replies of an accepted call answer its requests one by
    /// one, so anything else means that another library was linked.
    pub(crate) fn answer(&mut self, request: Request) -> Answer {
        let (left, close) = match self.next() {
            Reply::LeftSmall(pair) => (Some(Left { pair, from: Queue::Small }), self.next()),
            Reply::LeftMain(pair) => (Some(Left { pair, from: Queue::Main }), self.next()),
            close => (None, close),
        };
        match (request, left, close) {
            (Request::Get(_) | Request::Peek(_), None, Reply::Nothing) => Answer::Found(None),
            (Request::Get(_) | Request::Peek(_), None, Reply::Hit(physical)) => Answer::Found(Some(physical)),
            (Request::Remove(_), None, Reply::Nothing) => Answer::TakenOut(None),
            (Request::Remove(_), None, Reply::Gone(physical)) => Answer::TakenOut(Some(physical)),
            (Request::Insert(..), None, Reply::Replaced(old)) => Answer::Inserted(Inserted::Replaced(old)),
            (Request::Insert(..), left, Reply::New { pops }) => Answer::Inserted(Inserted::New { left, pops }),
            (Request::Evict, left, Reply::Nothing) => Answer::Evicted(Evicted { left, handed_back: None }),
            (Request::Evict, left, Reply::HandedBack(pair)) => {
                Answer::Evicted(Evicted { left, handed_back: Some(pair) })
            },
            (Request::Clear, None, Reply::Done) => Answer::Cleared,
            _ => strange(),
        }
    }

    pub(crate) fn is_empty(&self) -> bool {
        self.bytes.is_empty()
    }

    fn next(&mut self) -> Reply {
        let Some((reply, rest)) = Reply::read(self.bytes) else { strange() };
        self.bytes = rest;
        reply
    }
}

pub(crate) fn strange() -> ! {
    panic!("the library linked is not the one that this crate is for: its replies do not answer the requests")
}
