//! Records of the bus's replies.

use core::num::NonZeroU8;

/// Of no kind: a session refuses it.
pub(crate) const NO_KIND: [u8; 8] = [0; 8];

/// A transfer has failed with this code.
pub(crate) fn failure(code: NonZeroU8) -> [u8; 8] {
    [2, code.get(), 0, 0, 0, 0, 0, 0]
}

/// A transfer has read these bytes. No transfer reads more than six.
pub(crate) fn good(data: &[u8]) -> [u8; 8] {
    let mut record = [2, 0, 0, 0, 0, 0, 0, 0];
    let Some(read) = record[2..].get_mut(..data.len()) else { return NO_KIND };
    read.copy_from_slice(data);
    record
}
