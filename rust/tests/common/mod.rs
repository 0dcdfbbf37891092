//! Document 01's depot pair, which all tests start from.

use hrnkovida::Layout;

/// Two leaf groups with h = 1 and d = 2, in a branch with h = 1: k = 4, n = 7.
pub const PAIR: [u8; 17] = [0x0F, 0, 2, 0, 1, 4, 0, 1, 0, 1, 2, 4, 0, 1, 0, 1, 2];

/// The pair's layout.
pub fn pair() -> Layout {
    Layout::read(&PAIR).unwrap()
}

/// The marks of these blocks.
pub fn marks(lost: &[usize]) -> u64 {
    lost.iter().fold(0, |marks, block| marks | 1 << block)
}
