//! How much the calls take.

/// The most sources, targets, looked-up points or keys to group; more are refused, [`COUNT`](crate::Refusal::COUNT).
pub const MOST_POINTS: usize = 1_048_576;

/// The most nodes of a build: node columns longer than this count as this long.
pub const MOST_NODES: usize = 1_048_576;

/// The most keys of a U or V list: slices longer than this count as this long.
pub const MOST_KEYS: usize = 16_777_216;

/// The deepest level of a cell; the root's is 0.
pub const DEEPEST: u64 = 16;

/// The most keys of one V row, for 1, 2 and 3 axes.
pub const V_ROW: [usize; 3] = [3, 27, 189];
