//! The buckets in which a port's timed turns count how long packets waited.

use core::ops::RangeInclusive;

/// The buckets of each port.
///
/// ```
/// use ventorupo::{bucket_of, BUCKETS};
///
/// assert_eq!(bucket_of(u32::MAX) as usize, BUCKETS - 1);
/// ```
pub const BUCKETS: usize = 33;

/// Where a bucket stops: it stands for as many or more.
///
/// ```
/// assert_eq!(ventorupo::BUCKET_STOP, 4_294_967_295);
/// ```
pub const BUCKET_STOP: u32 = u32::MAX;

/// The bucket in which a wait counts: 0 for a wait of 0, else its highest set bit,
/// counted from 1.
///
/// ```
/// use ventorupo::bucket_of;
///
/// assert_eq!([0, 1, 2, 3, 4, u32::MAX].map(bucket_of), [0, 1, 2, 2, 3, 32]);
/// ```
pub fn bucket_of(wait: u32) -> u32 {
    u32::BITS - wait.leading_zeros()
}

/// The waits that count in a bucket; none if there is no such bucket.
///
/// ```
/// use ventorupo::waits_of;
///
/// assert_eq!(waits_of(0), Some(0..=0));
/// assert_eq!(waits_of(3), Some(4..=7));
/// assert_eq!(waits_of(32), Some(1 << 31..=u32::MAX));
/// assert_eq!(waits_of(33), None);
/// ```
pub fn waits_of(bucket: u32) -> Option<RangeInclusive<u32>> {
    match bucket {
        0 => Some(0..=0),
        1..=32 => Some(1 << (bucket - 1)..=u32::MAX >> (32 - bucket)),
        _ => None,
    }
}
