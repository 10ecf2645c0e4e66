//! Bytes of stack that each call takes at most: the worst that was measured, with a margin of at least 15 % (docs/PERFORMANCE.md).
//!
//! What a thread itself needs comes on top: its start, its thread-local data, and the host's own functions; 64 KB are ample
//! where these are small. A stack that is too small ends the program; nothing else is written.

pub const EMPTY: usize = 4 << 10;
pub const ENTER: usize = 840 << 10;
pub const WITHDRAW: usize = 840 << 10;
pub const SET_DEFAULT: usize = 840 << 10;
pub const DECIDE: usize = 840 << 10;
pub const GAP: usize = 1472 << 10;
pub const COMPILE: usize = 2176 << 10;
pub const RUN: usize = 16 << 10;
pub const PART: usize = 8 << 10;
pub const CHECK_BEGIN: usize = 8 << 10;
pub const CHECK_STEP: usize = 4 << 10;
pub const CHECK_END: usize = 4 << 10;
pub const TALLY: usize = 8 << 10;
pub const REPLAN: usize = 16 << 10;
/// The most of all calls.
pub const ANY: usize = COMPILE;
