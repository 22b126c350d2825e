//! Random requests that keep a cache in interesting places: full, around its limits, with warm entries and known ghosts.

use common::{Random, mix};
use mapcache::{GuestBlock, MOST_REQUEST_BYTES, PhysicalBlock, Request};

/// How often lookups, peeks, removals, inserts and evictions come, in parts of the sum.
type Mood = [u64; 5];

const MOODS: [Mood; 7] = [
    [0, 0, 0, 1, 0],
    [70, 5, 2, 20, 3],
    [15, 5, 5, 70, 5],
    [10, 5, 25, 20, 40],
    [40, 0, 0, 60, 0],
    [30, 2, 0, 50, 18],
    [20, 20, 20, 20, 20],
];
const FILLING: Mood = MOODS[0];

/// Above this capacity keys that all share one bucket would only take time.
const MOST_COLLIDING_CAPACITY: u64 = 64;

/// What the keys look like.
#[derive(Clone, Copy)]
enum Style {
    Counting,
    Spread,
    HighHalf,
    BothEnds,
    OneBucket,
}

pub struct Traffic {
    random: Random,
    capacity: u64,
    style: Style,
    salt: u64,
    universe: u64,
    mood: Mood,
    mood_left: u64,
    scan: u64,
    recent: [u64; 8],
    inserts: usize,
}

impl Traffic {
    pub fn new(mut random: Random, capacity: u64, ghost_limit: u64) -> Traffic {
        let filling = if random.one_in(8) { 0 } else { capacity };
        let universe = match random.below(10) {
            0 => capacity / 2 + 2,
            1..=2 => capacity + 2,
            3..=5 => capacity + ghost_limit + 2,
            6..=8 => 2 * (capacity + ghost_limit) + 3,
            _ => 100 * (capacity + ghost_limit),
        };
        let style = random.pick(&[Style::Counting, Style::Spread, Style::HighHalf, Style::BothEnds, Style::OneBucket]);
        let style = match style {
            Style::OneBucket if capacity > MOST_COLLIDING_CAPACITY => Style::Spread,
            style => style,
        };
        let salt = random.number();
        Traffic {
            random,
            capacity,
            style,
            salt,
            universe,
            mood: FILLING,
            mood_left: filling,
            scan: 0,
            recent: [0; 8],
            inserts: 0,
        }
    }

    /// The requests of one call, at most so many: mostly few, now and then none, or as many bytes as a call may have.
    pub fn call(&mut self, most: u64) -> Vec<Request> {
        let wanted = match self.random.below(100) {
            0 => 0,
            1..=25 => 1,
            26..=50 => self.random.between(2, 8),
            51..=80 => self.random.between(9, 80),
            81..=98 => self.random.between(81, 600),
            _ => return self.full_call(most),
        };
        self.requests(wanted.min(most))
    }

    pub fn requests(&mut self, count: u64) -> Vec<Request> {
        let mut bytes = 0;
        let mut requests = Vec::new();
        for _ in 0..count {
            let request = self.request();
            bytes += request.bytes();
            if bytes > MOST_REQUEST_BYTES {
                break;
            }
            requests.push(request);
        }
        requests
    }

    /// A call whose requests take exactly the most bytes, unless so many requests are not allowed.
    fn full_call(&mut self, most: u64) -> Vec<Request> {
        let mut left = MOST_REQUEST_BYTES;
        let mut requests = Vec::new();
        while left > 0 && (requests.len() as u64) < most {
            let request = match self.request() {
                request if request.bytes() <= left => request,
                _ => Request::Evict,
            };
            left -= request.bytes();
            requests.push(request);
        }
        requests
    }

    pub fn request(&mut self) -> Request {
        if self.random.one_in(10 * self.capacity + 50) {
            return Request::Clear;
        }
        match self.kind() {
            0 => Request::Get(GuestBlock(self.key())),
            1 => Request::Peek(GuestBlock(self.key())),
            2 => Request::Remove(GuestBlock(self.key())),
            3 => {
                let key = self.key();
                self.recent[self.inserts % self.recent.len()] = key;
                self.inserts += 1;
                Request::Insert(GuestBlock(key), PhysicalBlock(self.value(key)))
            },
            _ => Request::Evict,
        }
    }

    /// Which of the mood's kinds comes next.
    fn kind(&mut self) -> usize {
        if self.mood_left == 0 {
            self.mood = self.random.pick(&MOODS);
            self.mood_left = self.random.between(1, self.capacity / 2 + 20);
        }
        self.mood_left -= 1;
        let mut part = self.random.below(self.mood.iter().sum());
        self.mood
            .iter()
            .position(|share| match part.checked_sub(*share) {
                Some(rest) => {
                    part = rest;
                    false
                },
                None => true,
            })
            .expect("a part below the sum falls into a share")
    }

    /// While the cache is filled one key after the other; otherwise anywhere, more often at the front, or one just inserted.
    fn key(&mut self) -> u64 {
        let way = if self.mood == FILLING { 0 } else { self.random.below(8) };
        let place = match way {
            0..=1 => {
                self.scan = (self.scan + 1) % self.universe;
                self.scan
            },
            2..=4 => self.random.below(self.universe),
            5..=6 => {
                let far = self.random.below(self.universe);
                self.random.below(far + 1)
            },
            _ => return self.random.pick(&self.recent),
        };
        self.key_at(place)
    }

    /// The key of a place in the universe; 0 and the largest are in each.
    fn key_at(&self, place: u64) -> u64 {
        match (place, self.style) {
            (0, _) => 0,
            (1, _) => u64::MAX,
            (_, Style::Counting) => place,
            (_, Style::Spread) => mix(place ^ self.salt),
            (_, Style::HighHalf) => (place << 32) | (self.salt >> 32),
            (_, Style::BothEnds) if place.is_multiple_of(2) => place / 2,
            (_, Style::BothEnds) => u64::MAX - place / 2,
            (_, Style::OneBucket) => in_one_bucket(place as u32, self.salt as u32),
        }
    }

    fn value(&mut self, key: u64) -> u64 {
        match self.random.below(8) {
            0 => 0,
            1 => u64::MAX,
            2 => key,
            _ => self.random.number(),
        }
    }
}

/// A key with the high half given, whose fold over both halves (docs/STORE.md) is the number given.
fn in_one_bucket(high: u32, fold: u32) -> u64 {
    let low = fold.wrapping_sub(high.wrapping_mul(2_246_822_507));
    (u64::from(high) << 32) | u64::from(low)
}
