//! Lohandema decides, for a survey of field readings, which readings are summed singly and which in groups.
//!
//! A survey lies in a box ([`Bounds`]) of 1 to 3 axes. The box is halved along every axis, again and again, at most 16
//! times; each cell that comes of it has a Morton key ([`keys`]). A [`Tree`] holds the cells that a survey needs: a cell
//! splits while it has more sources than a limit. For each leaf of the tree the near list (U) names the leaves whose
//! sources are summed one by one, and for each cell the far list (V) names the cells that are summed as groups. A leaf
//! meets each source exactly once so: through its own U row, or through the V row of itself or of one cell above it. The
//! sources in any cell are one part of the tree's order column ([`Tree::cell_sources`]), as the nodes are numbered depth
//! first.
//!
//! The calls are proved functions, linked as a static archive. This crate, which is tested and not proved, adds types,
//! slices and vectors; it works out only how much room to lend. Modules:
//!
//! - [`keys`]: level, parent, children, neighbours, touching, encode and decode.
//! - [`points`]: the box, a point's cell, the float test of two cells.
//! - [`trees`]: a tree, its leaves, children and levels, the sources of a cell, lookup, grouping, sourced cells, lists, the
//!   sums of a leaf, what can be had of damaged columns ([`Tree::salvage`]), tree files.
//! - [`lent`]: the calls that write, on slices of the caller's own: nothing is allocated.
//! - [`limits`]: how much the calls take.
//! - [`ferreus`]: tree and lists in the sets and maps of `ferreus_bbfmm`, for those who come from there.
//!
//! ```
//! use lohandema::{Asked, Bounds, Tree};
//!
//! let bounds = Bounds::new(&[4.0], 4.0);
//! let tree = Tree::build(Asked::new(&bounds, &[0.5, 1.5, 6.5, 7.5], 1))?;
//! let lists = tree.get_interaction_lists()?;
//! for leaf in tree.leaves()? {
//!     let near = lists.u.row(leaf.node);
//!     assert!(leaf.sources.len() == 1 && near.len() == 2);
//! }
//! let (leaf, _steps) = tree.point_to_leaf(&[6.9])?;
//! assert_eq!(leaf, 196611);
//! # Ok::<(), lohandema::Refusal>(())
//! ```
//!
//! # What is refused
//!
//! Every call takes every argument value, and none panics. What cannot be answered is a [`Refusal`] with a number and a
//! value, and for a point that is outside a [`Wall`]; its text is a sentence with the cure. Nothing is padded or cut: a point has one coordinate for each axis of the
//! box, or is refused ([`Refusal::SHAPE`]). Of several causes the first in this order is named: axes, box, shape, count,
//! tree, order, source, point, room. `docs/REFUSALS.md` of the repository lists the numbers, `docs/RULES.md` the rules.
//!
//! # Threads
//!
//! The calls keep no state, and any number of threads may use them at once. A call uses at most 128 KiB of stack, so that a
//! thread of a quarter of a MiB can make any; a thread of Rust has 2 MiB by default.
//!
//! # What may come
//!
//! [`Refusal`], [`Tree`], [`Columns`], [`Asked`] and [`Leaf`] may get more fields, and new numbers may be refused: they are
//! made by their functions, and a pattern ends with `..`.

#![warn(missing_docs)]
#![deny(unsafe_op_in_unsafe_fn)]
#![warn(clippy::undocumented_unsafe_blocks)]
#![warn(clippy::missing_errors_doc, clippy::missing_panics_doc)]
#![warn(clippy::must_use_candidate, clippy::return_self_not_must_use)]

#[cfg(not(target_pointer_width = "64"))]
compile_error!(
    "lohandema is proved for 64-bit processors, where usize has 64 bits: choose a 64-bit target"
);

/// The example of the README, which is tested so.
#[cfg(doctest)]
#[doc = include_str!("../README.md")]
struct Readme;

mod changes;
pub mod ferreus;
pub mod keys;
pub mod lent;
pub mod limits;
mod nodes;
pub mod points;
mod raw;
mod refusal;
mod room;
mod rows;
pub mod trees;

pub use changes::Change;
pub use lent::{Asked, Columns, Grid, Held};
pub use points::Bounds;
pub use refusal::{Reason, Refusal, Wall};
pub use trees::{Checked, Groups, Leaf, Lists, Rows, Sums, Tree};
