//! Records as bytes: a mark of two letters, then numbers of 8 bytes, least significant first.

/// The length of the longest record: a mark and two numbers.
pub(crate) const LONGEST: usize = 18;

/// Appends a record in one piece.
#[inline]
pub(crate) fn write<const N: usize>(out: &mut Vec<u8>, mark: &[u8; 2], numbers: [u64; N]) {
    let mut bytes = [0; LONGEST];
    bytes[..2].copy_from_slice(mark);
    for (place, number) in bytes[2..].chunks_exact_mut(8).zip(numbers) {
        place.copy_from_slice(&number.to_le_bytes());
    }
    out.extend_from_slice(&bytes[..2 + 8 * N]);
}

/// The n-th number behind the mark; none where it is cut short.
#[inline]
pub(crate) fn number(bytes: &[u8], n: usize) -> Option<u64> {
    let at = 2 + 8 * n;
    Some(u64::from_le_bytes(*bytes.get(at..at + 8)?.first_chunk::<8>()?))
}
