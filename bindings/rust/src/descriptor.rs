//! Numbers of raw tails and positions, for those who look into a [`Record`](crate::Record).

use crate::sys;
use crate::Error;

/// A length rounded up to a multiple of 32, as frames are.
///
/// ```
/// assert_eq!(logbuffer::descriptor::align(33), 64);
/// ```
pub fn align(value: u32) -> usize {
    sys::align(value)
}

/// Whether a number is a power of two, as a term length has to be.
///
/// ```
/// assert!(logbuffer::descriptor::is_power_of_two(65_536));
/// ```
pub fn is_power_of_two(value: u32) -> bool {
    sys::is_power_of_two(value)
}

/// The term id in a raw tail.
///
/// ```
/// assert_eq!(logbuffer::descriptor::term_id(-4_294_967_296), -1);
/// ```
pub fn term_id(raw_tail: i64) -> i32 {
    sys::term_id(raw_tail)
}

/// The offset in a raw tail, cut to the term length, which a tail goes past when an append trips.
///
/// ```
/// assert_eq!(logbuffer::descriptor::term_offset((7 << 32) + 65_600, 65_536), 65_536);
/// ```
pub fn term_offset(raw_tail: i64, term_length: usize) -> usize {
    sys::term_offset(raw_tail, term_length)
}

/// The partition, 0 to 2, of a count of terms.
///
/// ```
/// assert_eq!(logbuffer::descriptor::index_by_term_count(4), 1);
/// ```
pub fn index_by_term_count(count: usize) -> usize {
    sys::index_by_term_count(count)
}

/// The partition of a position, given the bits to shift.
///
/// ```
/// use logbuffer::descriptor::{index_by_position, position_bits_to_shift};
/// assert_eq!(index_by_position(131_136, position_bits_to_shift(65_536)), 2);
/// ```
pub fn index_by_position(position: u64, bits: u32) -> usize {
    sys::index_by_position(position, bits)
}

/// The bits by which a count of terms is shifted to become a position: the trailing zeros of the term length.
///
/// ```
/// assert_eq!(logbuffer::descriptor::position_bits_to_shift(65_536), 16);
/// ```
pub fn position_bits_to_shift(term_length: u32) -> u32 {
    sys::position_bits_to_shift(term_length)
}

/// The position of an offset in a term: its count × 2^bits + offset, the count being the term id less the initial one, wrapped. Refuses more than 30 bits with
/// [`Error::IllegalArgument`].
///
/// ```
/// assert_eq!(logbuffer::descriptor::compute_position(9, 64, 16, 7), Ok(131_136));
/// assert_eq!(logbuffer::descriptor::compute_position(i32::MIN, 64, 16, i32::MAX), Ok(65_600));
/// ```
pub fn compute_position(term_id: i32, offset: u32, bits: u32, initial_term_id: i32) -> Result<i64, Error> {
    let reply = sys::compute_position(term_id, offset, bits, initial_term_id);
    Error::check(reply.code).map(|()| reply.position)
}
