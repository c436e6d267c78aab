//! Keys of cells: code · 32768 + level, where bit i of axis a's anchor is bit d·i+a of the code, d the number of axes.
//!
//! An anchor counts cells of the level along one axis, from 0. A key is valid if its level is at most 16 and its code is
//! below 2 to the power d·level; the root's key is 0.

use crate::Refusal;
use crate::raw::{self, Ended};
use crate::refusal::answered;

/// A call of the C face that writes one number about a key.
type Number = unsafe extern "C" fn(usize, u64, *mut u64) -> Ended;

/// A call of the C face that writes a list of keys.
type List = unsafe extern "C" fn(usize, u64, *mut [u64; 26], *mut usize) -> Ended;

/// The number that a call of `raw` answers.
fn number(call: Number, axes: usize, key: u64) -> Result<u64, Refusal> {
    let mut answer = 0;
    // SAFETY: the call writes one number, to `answer`, which is ours.
    let ended = unsafe { call(axes, key, &mut answer) };
    answered(ended, answer)
}

/// The list that a call of `raw` answers.
fn list(call: List, axes: usize, key: u64) -> Result<Vec<u64>, Refusal> {
    let (mut keys, mut len) = ([0; 26], 0);
    // SAFETY: the call writes 26 keys and their number, to `keys` and `len`, which are ours.
    let ended = unsafe { call(axes, key, &mut keys, &mut len) };
    answered(ended, keys.into_iter().take(len).collect())
}

/// The level of a key.
///
/// # Errors
/// [`DIMS`](Refusal::DIMS); [`KEY`](Refusal::KEY) if the key is not valid.
pub fn get_level(axes: usize, key: u64) -> Result<u64, Refusal> {
    number(raw::lohandema_get_level, axes, key)
}

/// The key one level up.
///
/// ```
/// assert_eq!(lohandema::keys::get_parent(2, 1277955)?, 294914);
/// # Ok::<(), lohandema::Refusal>(())
/// ```
///
/// # Errors
/// [`DIMS`](Refusal::DIMS); [`KEY`](Refusal::KEY); [`ROOT`](Refusal::ROOT) for the root.
pub fn get_parent(axes: usize, key: u64) -> Result<u64, Refusal> {
    number(raw::lohandema_get_parent, axes, key)
}

/// A cell's number among its siblings; the root's is 0.
///
/// # Errors
/// [`DIMS`](Refusal::DIMS); [`KEY`](Refusal::KEY).
pub fn get_child_index(axes: usize, key: u64) -> Result<u64, Refusal> {
    number(raw::lohandema_get_child_index, axes, key)
}

/// The children of a cell, in order.
///
/// ```
/// assert_eq!(lohandema::keys::get_children(1, 1)?, [2, 32770]);
/// # Ok::<(), lohandema::Refusal>(())
/// ```
///
/// # Errors
/// [`DIMS`](Refusal::DIMS); [`KEY`](Refusal::KEY); [`DEEP`](Refusal::DEEP) for a cell of level 16.
pub fn get_children(axes: usize, key: u64) -> Result<Vec<u64>, Refusal> {
    list(raw::lohandema_get_children, axes, key)
}

/// The children of a cell's parent, the cell among them.
///
/// # Errors
/// [`DIMS`](Refusal::DIMS); [`KEY`](Refusal::KEY); [`ROOT`](Refusal::ROOT) for the root.
pub fn get_siblings(axes: usize, key: u64) -> Result<Vec<u64>, Refusal> {
    list(raw::lohandema_get_siblings, axes, key)
}

/// The cell itself and those above it, up to the root.
///
/// # Errors
/// [`DIMS`](Refusal::DIMS); [`KEY`](Refusal::KEY).
pub fn get_ancestors(axes: usize, key: u64) -> Result<Vec<u64>, Refusal> {
    list(raw::lohandema_get_ancestors, axes, key)
}

/// The cells of the same level that touch a cell, without it, in the order of the direction rows.
///
/// ```
/// assert_eq!(lohandema::keys::get_neighbours(2, 1)?, [65537, 32769, 98305]);
/// # Ok::<(), lohandema::Refusal>(())
/// ```
///
/// # Errors
/// [`DIMS`](Refusal::DIMS); [`KEY`](Refusal::KEY).
pub fn get_neighbours(axes: usize, key: u64) -> Result<Vec<u64>, Refusal> {
    list(raw::lohandema_get_neighbours, axes, key)
}

/// The key of the cell with these anchors at a level. There are three places whatever the axes; those past them are not
/// read.
///
/// ```
/// assert_eq!(lohandema::keys::encode_morton_point(2, [3, 5, 0], 3)?, 1277955);
/// # Ok::<(), lohandema::Refusal>(())
/// ```
///
/// # Errors
/// [`DIMS`](Refusal::DIMS); [`KEY`](Refusal::KEY) if the level is above 16 or an anchor is not below 2 to the level.
pub fn encode_morton_point(axes: usize, anchor: [u64; 3], level: u64) -> Result<u64, Refusal> {
    let mut key = 0;
    // SAFETY: three anchors are read and one key is written; both are ours.
    let ended = unsafe { raw::lohandema_encode_morton_point(axes, &anchor, level, &mut key) };
    answered(ended, key)
}

/// A cell's anchors, 0 past the axes, and its level.
///
/// # Errors
/// [`DIMS`](Refusal::DIMS); [`KEY`](Refusal::KEY).
pub fn decode_key(axes: usize, key: u64) -> Result<([u64; 3], u64), Refusal> {
    let (mut anchor, mut level) = ([0; 3], 0);
    // SAFETY: three anchors and one level are written; both are ours.
    let ended = unsafe { raw::lohandema_decode_key(axes, key, &mut anchor, &mut level) };
    answered(ended, (anchor, level))
}

/// Whether two cells are of one level and their anchors differ by at most 1 on every axis.
///
/// # Errors
/// [`DIMS`](Refusal::DIMS); [`KEY`](Refusal::KEY) if one of the keys is not valid.
pub fn touching(axes: usize, a: u64, b: u64) -> Result<bool, Refusal> {
    let mut touches = false;
    // SAFETY: one truth value is written, to `touches`, which is ours.
    let ended = unsafe { raw::lohandema_touching(axes, a, b, &mut touches) };
    answered(ended, touches)
}
