//! The bench's records: what the bench program prints for an input.

#[cfg(feature = "alloc")]
use alloc::{vec, vec::Vec};

use crate::raw;

/// How many bytes of records are read. A longer input is refused whole, with 19.
///
/// ```
/// use highvane::{INPUT_MAX, TRANSCRIPT_MAX, transcript_into};
///
/// let mut buffer = [0; TRANSCRIPT_MAX];
/// assert_eq!(transcript_into(&[3; INPUT_MAX + 1], &mut buffer), b"0 no 19\ntotal 0 1\n");
/// ```
pub const INPUT_MAX: usize = 65_536;

/// How many places a buffer needs, so that the transcript of any input has room in it.
///
/// ```
/// use highvane::{INPUT_MAX, TRANSCRIPT_MAX, transcript_into};
///
/// let mut buffer = [0; TRANSCRIPT_MAX];
/// assert!(transcript_into(&[3; INPUT_MAX], &mut buffer).ends_with(b"\ntotal 21845 1\n"));
/// ```
pub const TRANSCRIPT_MAX: usize = 245_760;

/// What the bench prints for an input: a line for each record, and the total. A refusal, 17, 18 and 19 among them, is a line. It needs
/// the feature `alloc`, which is on by default.
///
/// ```
/// assert_eq!(highvane::transcript(&[3, 255, 255, 7]), b"3 ok 65024\n7 no 17\ntotal 1 1\n");
/// ```
#[cfg(feature = "alloc")]
#[must_use]
pub fn transcript(input: &[u8]) -> Vec<u8> {
    let mut text = vec![0; TRANSCRIPT_MAX];
    let buffer = text.first_chunk_mut().expect("the buffer has that length");
    let written = transcript_into(input, buffer).len();
    text.truncate(written);
    text.shrink_to_fit();
    text
}

/// What the bench prints for an input, into a lent buffer. The part that was written is handed back; nothing is written after it.
///
/// ```
/// use highvane::{TRANSCRIPT_MAX, transcript_into};
///
/// let mut buffer = [b'.'; TRANSCRIPT_MAX];
/// assert_eq!(transcript_into(&[], &mut buffer), b"total 0 0\n");
/// assert_eq!(&buffer[..12], b"total 0 0\n..");
/// ```
#[must_use]
pub fn transcript_into<'b>(input: &[u8], buffer: &'b mut [u8; TRANSCRIPT_MAX]) -> &'b [u8] {
    // SAFETY: the input's pointer goes with its own length, and the input is only read. The buffer has room for any transcript,
    // and is lent to the call alone.
    let written = unsafe { raw::highvane_transcript(input.as_ptr(), input.len(), buffer.as_mut_ptr()) };
    &buffer[..written]
}
