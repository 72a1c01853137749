//! What sender and link share of a message in parts: the test of 18, and the
//! numbers of its consecutive frames (document 02, A2).

use crate::refusal::Refusal;

/// The largest total of a message in more than one frame.
pub const LARGEST_TOTAL: usize = 65_536;

/// "The number after 255 is 1 again".
const LARGEST_NUMBER: usize = 255;

/// "total 0 or above 65,536, count 0 or above total" is refused.
#[inline]
pub fn check_total(total: usize, count: usize) -> Result<(), Refusal> {
    let total_allowed = (1..=LARGEST_TOTAL).contains(&total);
    let count_allowed = (1..=total).contains(&count);
    if total_allowed && count_allowed {
        Ok(())
    } else {
        Err(Refusal::TotalOrCount)
    }
}

/// The number of the k-th of `count` consecutive frames, k from 1 on: "the
/// k-th non-last frame carries 1 plus the remainder of k minus 1 by 255, the
/// last 0".
#[inline]
pub fn frame_number(k: usize, count: usize) -> u8 {
    if k == count {
        return 0;
    }
    (1 + (k - 1) % LARGEST_NUMBER) as u8
}

/// Whether the k-th frame is one of the two before a wrap of the numbers or
/// the two behind it: 254 to 257, 509 to 512 and so on. No rule asks it;
/// scripts and their census do.
pub fn near_wrap(k: usize) -> bool {
    k + 1 >= LARGEST_NUMBER && (k + 1) % LARGEST_NUMBER <= 3
}
