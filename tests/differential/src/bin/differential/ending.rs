//! How a stream ends.

use common::Random;

pub enum Ending {
    /// With its last request.
    Whole,
    /// With the front of one more.
    Cut(Vec<u8>),
    /// With an unknown mark and any bytes behind it.
    Unknown(Vec<u8>),
}

impl Ending {
    pub fn any(random: &mut Random) -> Ending {
        match random.below(3) {
            0 => Ending::Whole,
            1 => {
                let mut bytes = random.pick(&[b"IN", b"GT", b"PK", b"RM"]).to_vec();
                bytes.resize(random.between(1, if bytes == b"IN" { 17 } else { 9 }) as usize, 7);
                Ending::Cut(bytes)
            },
            _ => {
                let mut bytes = random.pick(&[b"XX", b"ev", b"IM", b"\0\0", b"CF"]).to_vec();
                bytes.resize(2 + random.index(20), b'C');
                Ending::Unknown(bytes)
            },
        }
    }

    /// The bytes behind the last request.
    pub fn tail(&self) -> &[u8] {
        match self {
            Ending::Whole => &[],
            Ending::Cut(tail) | Ending::Unknown(tail) => tail,
        }
    }
}
