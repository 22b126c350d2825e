//! The same requests as one stream, fed in pieces of one length, beside the calls that have whole records: each feed checks the
//! store once, so what a request costs goes by how many of them a piece has.

use crate::input::Input;
use crate::sides::{Ours, Side};
use crate::times::best_of_rounds;
use std::hint::black_box;
use std::time::Duration;

/// The longest that a feed takes, and down to one insert's bytes.
pub const LENGTHS: [usize; 5] = [32_768, 8_192, 2_048, 512, 18];

pub struct Stream {
    bytes: Vec<u8>,
    replies: Vec<u8>,
}

impl Stream {
    pub fn of(input: &Input) -> Stream {
        let bytes = input.calls.iter().flat_map(|call| call.requests.iter().copied()).collect();
        Stream { bytes, replies: vec![0; mapcache::feed_room(LENGTHS[0])] }
    }

    /// What feeding all of it takes, in pieces of this length.
    pub fn time(&mut self, input: &Input, length: usize) -> Duration {
        best_of_rounds(|| self.feed(input, length, &mut read))
    }

    /// Whether the replies joined are those of the calls.
    pub fn agrees(&mut self, input: &Input, length: usize) -> bool {
        let (mut fed, mut run) = (Vec::new(), Vec::new());
        self.feed(input, length, &mut |replies| fed.extend_from_slice(replies));
        Ours::new(input).run(&input.calls, &mut |replies| run.extend_from_slice(replies));
        !run.is_empty() && fed == run
    }

    fn feed(&mut self, input: &Input, length: usize, each: &mut dyn FnMut(&[u8])) {
        let mut store = vec![0; mapcache::store_bytes()];
        mapcache::create(input.settings, &mut store).expect("the settings are valid");
        let mut carry = [0; mapcache::CARRY_BYTES];
        for piece in self.bytes.chunks(length) {
            let fed = mapcache::feed(&mut store, &mut carry, piece, &mut self.replies);
            assert!(fed.refused.is_none(), "the pieces are valid");
            each(&self.replies[..fed.replied]);
        }
        assert!(mapcache::finish(&carry).is_ok(), "the stream is whole");
    }
}

/// The calls of whole records, for the same time.
pub fn calls(input: &Input) -> Duration {
    best_of_rounds(|| Ours::new(input).run(&input.calls, &mut read))
}

/// Replies count as read.
fn read(replies: &[u8]) {
    black_box(replies);
}
