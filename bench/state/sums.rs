//! A checksum of bytes, by which both programs show that their results are equal.

/// The checksum of no bytes.
pub const START: u64 = 0xcbf2_9ce4_8422_2325;

const FACTOR: u64 = 0x0100_0000_01b3;

/// The checksum of these bytes after others, which have the checksum `before`.
pub fn sum_of(before: u64, bytes: &[u8]) -> u64 {
    bytes.iter().fold(before, |sum, byte| (sum ^ u64::from(*byte)).wrapping_mul(FACTOR))
}
