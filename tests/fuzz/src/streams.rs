//! Streams that go on over many feeds, several on one store: what each carries, and what it is fed next.

use crate::carry::CARRY_BYTES;
use crate::carry_damage;
use crate::input;
use crate::verdict::MOST_REQUEST_BYTES;
use common::Random;

/// How many streams there are at a time.
pub const STREAMS: usize = 3;

/// A stream in the middle.
#[derive(Clone)]
pub struct Stream {
    /// What the last feed left, and now and then more bytes behind it.
    pub carry: Vec<u8>,
    /// What comes next, of which the next piece takes a front.
    rest: Vec<u8>,
}

impl Stream {
    /// Mostly a new stream; now and then one that comes to the last offset soon.
    pub fn new(random: &mut Random) -> Stream {
        let mut carry = vec![0; CARRY_BYTES];
        if random.one_in(8) {
            let offset = (u64::MAX - random.below(600)) & !1;
            carry[..8].copy_from_slice(&offset.to_le_bytes());
        }
        if random.one_in(4) {
            carry_damage::lengthen(&mut carry, random);
        }
        Stream { carry, rest: Vec::new() }
    }

    /// The next piece, cut anywhere. It stays in front until a feed has taken it.
    pub fn piece(&mut self, keys: u64, random: &mut Random) -> Vec<u8> {
        if random.one_in(150) {
            return self.longest_piece(keys, random);
        }
        if self.rest.len() < 40 {
            let more = match random.below(12) {
                0 => input::bad_requests(random, keys),
                _ => {
                    let count = random.below(12);
                    input::requests(random, keys, count)
                },
            };
            self.rest.extend(more);
        }
        let most = match random.below(10) {
            0 => 0,
            1..=3 => 1,
            4..=5 => random.index(5),
            6..=8 => random.index(41),
            _ => self.rest.len(),
        };
        self.rest[..most.min(self.rest.len())].to_vec()
    }

    /// As many bytes as a feed takes, with a record cut at each end.
    fn longest_piece(&mut self, keys: u64, random: &mut Random) -> Vec<u8> {
        while self.rest.len() < MOST_REQUEST_BYTES {
            let more = input::requests(random, keys, 100);
            self.rest.extend(more);
        }
        self.rest[..MOST_REQUEST_BYTES].to_vec()
    }

    /// A feed has taken the piece and left this.
    pub fn go_on(&mut self, carry: Vec<u8>, piece: &[u8]) {
        self.carry = carry;
        self.rest.drain(..piece.len());
    }
}
