//! The calls that write, on slices that the caller lends. After a refusal each lent slice is 0 throughout; after success
//! its unused rest is. These calls follow the C face; where it gains a column, so do they.

use crate::Refusal;
use crate::points::Bounds;
use crate::raw;
use crate::refusal::answered;
use crate::trees::{Checked, Lists, Sums};

/// The columns of a tree and its number of axes, lent. A [`Tree`](crate::Tree) lends its own, and says how nodes are numbered.
#[derive(Clone, Copy, Debug, PartialEq, Eq)]
#[must_use]
#[non_exhaustive]
pub struct Columns<'a> {
    /// The number of axes.
    pub axes: usize,
    /// Each node's key.
    pub key: &'a [u64],
    /// How many sources each node owns; only leaves own any.
    pub own: &'a [usize],
    /// The sum of the own sources of all nodes before.
    pub begin: &'a [usize],
    /// The number of sources in each node's cell and all below it.
    pub total: &'a [usize],
}

impl<'a> Columns<'a> {
    /// These columns. They may be of any lengths and hold anything: what is no tree is refused by each call.
    pub const fn new(
        axes: usize,
        key: &'a [u64],
        own: &'a [usize],
        begin: &'a [usize],
        total: &'a [usize],
    ) -> Columns<'a> {
        Columns {
            axes,
            key,
            own,
            begin,
            total,
        }
    }

    /// Refuses a box that has other axes than the tree.
    fn same_axes(&self, bounds: &Bounds) -> Result<(), Refusal> {
        if self.axes == bounds.axes {
            Ok(())
        } else {
            Err(Refusal::new(Refusal::DIMS, 0))
        }
    }
}

/// The key of the leaf that holds one point, and the steps climbed to it, at most 15. Each call checks the whole tree first;
/// for many points use [`points_to_keys`], which checks it once.
///
/// # Errors
/// [`DIMS`](Refusal::DIMS), also if box and tree differ in their axes; [`BOX`](Refusal::BOX); [`SHAPE`](Refusal::SHAPE)
/// unless the point has one coordinate for each axis; [`TREE`](Refusal::TREE); [`POINT`](Refusal::POINT) if it is outside
/// the box; [`UNSTORED`](Refusal::UNSTORED) if no leaf holds it.
pub fn point_to_leaf(
    bounds: &Bounds,
    tree: Columns<'_>,
    point: &[f64],
) -> Result<(u64, u64), Refusal> {
    tree.same_axes(bounds)?;
    let point = bounds.coordinates(point)?;
    let (mut leaf, mut steps) = (0, 0);
    // SAFETY: columns are read with their own lengths, centre and point as three numbers; `leaf` and `steps` are ours.
    let ended = unsafe {
        raw::lohandema_point_to_leaf(
            &bounds.centre,
            bounds.radius,
            bounds.axes,
            tree.key.as_ptr(),
            tree.key.len(),
            tree.own.as_ptr(),
            tree.own.len(),
            tree.begin.as_ptr(),
            tree.begin.len(),
            tree.total.as_ptr(),
            tree.total.len(),
            &point,
            &mut leaf,
            &mut steps,
        )
    };
    answered(ended, (leaf, steps))
}

/// The key of the leaf that holds each point, into `output`; answers the sum of the steps climbed. The points are rows of
/// one coordinate for each axis, flat; `output` has at least one entry for each.
///
/// # Errors
/// [`DIMS`](Refusal::DIMS), also if box and tree differ in their axes; [`BOX`](Refusal::BOX); [`SHAPE`](Refusal::SHAPE) if
/// the rows are not whole; [`COUNT`](Refusal::COUNT); [`TREE`](Refusal::TREE); [`ROOM`](Refusal::ROOM) 8; then for the
/// lowest failing point [`POINT`](Refusal::POINT) if it is outside the box or [`UNSTORED`](Refusal::UNSTORED) if no leaf
/// holds it.
pub fn points_to_keys(
    bounds: &Bounds,
    tree: Columns<'_>,
    points: &[f64],
    output: &mut [u64],
) -> Result<usize, Refusal> {
    tree.same_axes(bounds).inspect_err(|_| output.fill(0))?;
    let mut steps = 0;
    // SAFETY: columns and points are read with their own lengths; `output`, lent to us alone, is written within its own.
    let ended = unsafe {
        raw::lohandema_points_to_keys(
            &bounds.centre,
            bounds.radius,
            bounds.axes,
            tree.key.as_ptr(),
            tree.key.len(),
            tree.own.as_ptr(),
            tree.own.len(),
            tree.begin.as_ptr(),
            tree.begin.len(),
            tree.total.as_ptr(),
            tree.total.len(),
            points.as_ptr(),
            points.len(),
            output.as_mut_ptr(),
            output.len(),
            &mut steps,
        )
    };
    answered(ended, steps)
}

/// The indices of the points of each node, with starts by node number; `points` has the key of each point's leaf. `starts`
/// has at least one entry more than there are nodes, `indices` one for each point.
///
/// # Errors
/// [`DIMS`](Refusal::DIMS); [`COUNT`](Refusal::COUNT); [`TREE`](Refusal::TREE); [`ROOM`](Refusal::ROOM) 8;
/// [`NOTLEAF`](Refusal::NOTLEAF) with the lowest index of a key that is no leaf.
pub fn get_points_to_leaves_map(
    tree: Columns<'_>,
    points: &[u64],
    starts: &mut [usize],
    indices: &mut [usize],
) -> Result<(), Refusal> {
    // SAFETY: columns and keys are read with their own lengths; both slices, lent to us alone, are written within theirs.
    let ended = unsafe {
        raw::lohandema_get_points_to_leaves_map(
            tree.axes,
            tree.key.as_ptr(),
            tree.key.len(),
            tree.own.as_ptr(),
            tree.own.len(),
            tree.begin.as_ptr(),
            tree.begin.len(),
            tree.total.as_ptr(),
            tree.total.len(),
            points.as_ptr(),
            points.len(),
            starts.as_mut_ptr(),
            starts.len(),
            indices.as_mut_ptr(),
            indices.len(),
        )
    };
    answered(ended, ())
}

/// The cells that own sources or have a descendant that does, which are those with a total above 0, by ascending key, into
/// `cells`; answers how many.
///
/// # Errors
/// [`DIMS`](Refusal::DIMS); [`TREE`](Refusal::TREE); [`ROOM`](Refusal::ROOM) 9.
pub fn get_sourced_cells(tree: Columns<'_>, cells: &mut [u64]) -> Result<usize, Refusal> {
    let mut count = 0;
    // SAFETY: columns are read with their own lengths; `cells`, lent to us alone, is written within its own.
    let ended = unsafe {
        raw::lohandema_get_sourced_cells(
            tree.axes,
            tree.key.as_ptr(),
            tree.key.len(),
            tree.own.as_ptr(),
            tree.own.len(),
            tree.begin.as_ptr(),
            tree.begin.len(),
            tree.total.as_ptr(),
            tree.total.len(),
            cells.as_mut_ptr(),
            cells.len(),
            &mut count,
        )
    };
    answered(ended, count)
}

/// The near (U) and far (V) rows of all nodes, flat; answers how many keys each list has. The starts have at least one
/// entry more than there are nodes; row n is from `keys[starts[n]]` up to `keys[starts[n + 1]]`.
///
/// # Errors
/// [`DIMS`](Refusal::DIMS); [`TREE`](Refusal::TREE); [`ROOM`](Refusal::ROOM) 4 to 7.
pub fn get_interaction_lists(
    tree: Columns<'_>,
    u_starts: &mut [usize],
    u_keys: &mut [u64],
    v_starts: &mut [usize],
    v_keys: &mut [u64],
) -> Result<(usize, usize), Refusal> {
    let (mut u, mut v) = (0, 0);
    // SAFETY: columns are read with their own lengths; the four slices, lent to us alone, are written within theirs.
    let ended = unsafe {
        raw::lohandema_get_interaction_lists(
            tree.axes,
            tree.key.as_ptr(),
            tree.key.len(),
            tree.own.as_ptr(),
            tree.own.len(),
            tree.begin.as_ptr(),
            tree.begin.len(),
            tree.total.as_ptr(),
            tree.total.len(),
            u_starts.as_mut_ptr(),
            u_starts.len(),
            u_keys.as_mut_ptr(),
            u_keys.len(),
            v_starts.as_mut_ptr(),
            v_starts.len(),
            v_keys.as_mut_ptr(),
            v_keys.len(),
            &mut u,
            &mut v,
        )
    };
    answered(ended, (u, v))
}

/// How many keys the U list and the V list of a tree have, with no list: [`get_interaction_lists`] with just so many entries is
/// not refused. Each row is made in room for one and forgotten: it takes no longer than the lists themselves, and mostly less.
/// `work` and `row` have at least one entry for each node.
///
/// # Errors
/// [`DIMS`](Refusal::DIMS); [`TREE`](Refusal::TREE); [`ROOM`](Refusal::ROOM) 1 where `work` or `row` is short, 6 or 7 where the
/// U or V list has more than 16,777,216 keys, for which no room is enough.
pub fn get_list_sizes(
    tree: Columns<'_>,
    work: &mut [usize],
    row: &mut [u64],
) -> Result<(usize, usize), Refusal> {
    let (mut u, mut v) = (0, 0);
    // SAFETY: columns are read with their own lengths; both slices, lent to us alone, are written within theirs.
    let ended = unsafe {
        raw::lohandema_get_list_sizes(
            tree.axes,
            tree.key.as_ptr(),
            tree.key.len(),
            tree.own.as_ptr(),
            tree.own.len(),
            tree.begin.as_ptr(),
            tree.begin.len(),
            tree.total.as_ptr(),
            tree.total.len(),
            work.as_mut_ptr(),
            work.len(),
            row.as_mut_ptr(),
            row.len(),
            &mut u,
            &mut v,
        )
    };
    answered(ended, (u, v))
}

/// Near work: the sum over leaves of the targets in the leaf times the sources in its U row, which is how many pairs of a target
/// and a source are summed singly. How many targets each node has goes into `counts`, which has at least one entry for each
/// node; only leaves have any. Without targets the sources serve as targets, and `counts` is `own`. The targets are rows of one
/// coordinate for each axis, flat.
///
/// # Errors
/// [`DIMS`](Refusal::DIMS), also if box and tree differ in their axes; [`BOX`](Refusal::BOX); [`SHAPE`](Refusal::SHAPE);
/// [`COUNT`](Refusal::COUNT); [`TREE`](Refusal::TREE); [`ROOM`](Refusal::ROOM) 8; then for the lowest failing target
/// [`POINT`](Refusal::POINT) if it is outside the box or [`UNSTORED`](Refusal::UNSTORED) if no leaf holds it.
pub fn get_near_work(
    bounds: &Bounds,
    tree: Columns<'_>,
    targets: &[f64],
    counts: &mut [usize],
) -> Result<u64, Refusal> {
    tree.same_axes(bounds).inspect_err(|_| counts.fill(0))?;
    let mut work = 0;
    // SAFETY: columns and targets are read with their own lengths; `counts`, lent to us alone, is written within its own.
    let ended = unsafe {
        raw::lohandema_get_near_work(
            &bounds.centre,
            bounds.radius,
            bounds.axes,
            tree.key.as_ptr(),
            tree.key.len(),
            tree.own.as_ptr(),
            tree.own.len(),
            tree.begin.as_ptr(),
            tree.begin.len(),
            tree.total.as_ptr(),
            tree.total.len(),
            targets.as_ptr(),
            targets.len(),
            counts.as_mut_ptr(),
            counts.len(),
            &mut work,
        )
    };
    answered(ended, work)
}

/// Whether an order column has each index below a total once, and nothing else.
#[must_use]
pub fn is_arrangement(order: &[usize], total: usize) -> bool {
    // SAFETY: the slice is read with its own length.
    unsafe { raw::lohandema_is_arrangement(order.as_ptr(), order.len(), total) }
}

/// Whether lists are the tree's, to the last entry. Nothing is lent for it, and no row is made again.
///
/// # Errors
/// [`DIMS`](Refusal::DIMS); [`TREE`](Refusal::TREE).
pub fn lists_right(tree: Columns<'_>, lists: &Lists) -> Result<bool, Refusal> {
    let mut right = false;
    // SAFETY: columns and lists are read with their own lengths.
    let ended = unsafe {
        raw::lohandema_lists_right(
            tree.axes,
            tree.key.as_ptr(),
            tree.key.len(),
            tree.own.as_ptr(),
            tree.own.len(),
            tree.begin.as_ptr(),
            tree.begin.len(),
            tree.total.as_ptr(),
            tree.total.len(),
            lists.u.starts.as_ptr(),
            lists.u.starts.len(),
            lists.u.keys.as_ptr(),
            lists.u.keys.len(),
            lists.v.starts.as_ptr(),
            lists.v.starts.len(),
            lists.v.keys.as_ptr(),
            lists.v.keys.len(),
            &mut right,
        )
    };
    answered(ended, right)
}

/// The sums of one leaf: see [`Tree::sum_check`](crate::Tree::sum_check).
///
/// # Errors
/// [`DIMS`](Refusal::DIMS); [`TREE`](Refusal::TREE); [`SHAPE`](Refusal::SHAPE) where readings and sources differ in number;
/// [`READING`](Refusal::READING); [`NOTLEAF`](Refusal::NOTLEAF) with the node's number; [`NOTBUILT`](Refusal::NOTBUILT).
pub fn sum_check(
    tree: Columns<'_>,
    order: &[usize],
    readings: &[i64],
    lists: &Lists,
    node: usize,
) -> Result<Sums, Refusal> {
    let mut sums = Sums::default();
    // SAFETY: columns, order, readings and lists are read with their own lengths.
    let ended = unsafe {
        raw::lohandema_sum_check(
            tree.axes,
            tree.key.as_ptr(),
            tree.key.len(),
            tree.own.as_ptr(),
            tree.own.len(),
            tree.begin.as_ptr(),
            tree.begin.len(),
            tree.total.as_ptr(),
            tree.total.len(),
            order.as_ptr(),
            order.len(),
            readings.as_ptr(),
            readings.len(),
            lists.u.starts.as_ptr(),
            lists.u.starts.len(),
            lists.u.keys.as_ptr(),
            lists.u.keys.len(),
            lists.v.starts.as_ptr(),
            lists.v.starts.len(),
            lists.v.keys.as_ptr(),
            lists.v.keys.len(),
            node,
            &mut sums.near,
            &mut sums.far,
            &mut sums.additions,
        )
    };
    answered(ended, sums)
}

/// The sums of every leaf: see [`Tree::check_sums`](crate::Tree::check_sums). `sums` wants one entry more than there are
/// sources, and is zero after the call.
///
/// # Errors
/// [`DIMS`](Refusal::DIMS); [`TREE`](Refusal::TREE); [`SHAPE`](Refusal::SHAPE) where readings and sources differ in number;
/// [`READING`](Refusal::READING); [`NOTBUILT`](Refusal::NOTBUILT); [`ROOM`](Refusal::ROOM) 1.
pub fn check_sums(
    tree: Columns<'_>,
    order: &[usize],
    readings: &[i64],
    lists: &Lists,
    sums: &mut [u64],
) -> Result<Checked, Refusal> {
    let mut checked = Checked::default();
    // SAFETY: columns, order, readings and lists are read and the sums written with their own lengths.
    let ended = unsafe {
        raw::lohandema_check_sums(
            tree.axes,
            tree.key.as_ptr(),
            tree.key.len(),
            tree.own.as_ptr(),
            tree.own.len(),
            tree.begin.as_ptr(),
            tree.begin.len(),
            tree.total.as_ptr(),
            tree.total.len(),
            order.as_ptr(),
            order.len(),
            readings.as_ptr(),
            readings.len(),
            lists.u.starts.as_ptr(),
            lists.u.starts.len(),
            lists.u.keys.as_ptr(),
            lists.u.keys.len(),
            lists.v.starts.as_ptr(),
            lists.v.starts.len(),
            lists.v.keys.as_ptr(),
            lists.v.keys.len(),
            sums.as_mut_ptr(),
            sums.len(),
            &mut checked.leaves,
            &mut checked.additions,
        )
    };
    answered(ended, checked)
}

/// What can be had of damaged columns: the tree of the valid keys of `key`, the root and all cells that hold one of them. A
/// repeated key keeps its first row. A leaf keeps its count, and its run, so many entries of `order` from its begin on, is copied
/// to `indices`; the root, a node that has children, and a leaf whose run passes the order column's end get the count 0. Each
/// change goes into `codes` and `changed`, its code and its key ([`Change`](crate::Change)): by code, then by row, or by key
/// for cells that were added. `key`, `own` and `begin` may have any rows. Answers how many nodes, sources and changes there are.
/// Where the new columns are short, it may take the square of the rows to tell whether the sources would be too many.
///
/// # Errors
/// [`DIMS`](Refusal::DIMS); [`SHAPE`](Refusal::SHAPE) if `key`, `own` and `begin` differ in length; [`TREE`](Refusal::TREE) if
/// the tree would have more than 1,048,576 sources; [`ROOM`](Refusal::ROOM) 2, 3 and 10.
#[allow(clippy::too_many_arguments)] // columns that are read, and a tree and its changes that are written
pub fn salvage(
    axes: usize,
    key: &[u64],
    own: &[usize],
    begin: &[usize],
    order: &[usize],
    indices: &mut [usize],
    new_key: &mut [u64],
    new_own: &mut [usize],
    new_begin: &mut [usize],
    new_total: &mut [usize],
    codes: &mut [u64],
    changed: &mut [u64],
) -> Result<(usize, usize, usize), Refusal> {
    let (mut nodes, mut sources, mut changes) = (0, 0, 0);
    // SAFETY: columns and order are read with their own lengths; the seven slices, lent to us alone, are written within theirs.
    let ended = unsafe {
        raw::lohandema_salvage(
            axes,
            key.as_ptr(),
            key.len(),
            own.as_ptr(),
            own.len(),
            begin.as_ptr(),
            begin.len(),
            order.as_ptr(),
            order.len(),
            indices.as_mut_ptr(),
            indices.len(),
            new_key.as_mut_ptr(),
            new_key.len(),
            new_own.as_mut_ptr(),
            new_own.len(),
            new_begin.as_mut_ptr(),
            new_begin.len(),
            new_total.as_mut_ptr(),
            new_total.len(),
            codes.as_mut_ptr(),
            codes.len(),
            changed.as_mut_ptr(),
            changed.len(),
            &mut nodes,
            &mut sources,
            &mut changes,
        )
    };
    answered(ended, (nodes, sources, changes))
}

/// Writes the file of a tree and its lists, and answers its length; the rest of `file` becomes 0. The file is as long as
/// [`Tree::to_file`](crate::Tree::to_file)'s.
///
/// # Errors
/// [`DIMS`](Refusal::DIMS); [`COUNT`](Refusal::COUNT) where there are more than 1,048,576 nodes or 16,777,216 keys in a
/// list, or the sections have 2^32 bytes or more; [`TREE`](Refusal::TREE); [`SECTION`](Refusal::SECTION) where the order
/// column is no arrangement or the lists are not the tree's; [`ROOM`](Refusal::ROOM) 11.
pub fn write_tree(
    tree: Columns<'_>,
    order: &[usize],
    lists: &Lists,
    file: &mut [u8],
) -> Result<usize, Refusal> {
    let mut written = 0;
    // SAFETY: columns, order and lists are read with their own lengths, and the file is written within its length.
    let ended = unsafe {
        raw::lohandema_write_tree(
            tree.axes,
            tree.key.as_ptr(),
            tree.key.len(),
            tree.own.as_ptr(),
            tree.own.len(),
            tree.begin.as_ptr(),
            tree.begin.len(),
            tree.total.as_ptr(),
            tree.total.len(),
            order.as_ptr(),
            order.len(),
            lists.u.starts.as_ptr(),
            lists.u.starts.len(),
            lists.u.keys.as_ptr(),
            lists.u.keys.len(),
            lists.v.starts.as_ptr(),
            lists.v.starts.len(),
            lists.v.keys.as_ptr(),
            lists.v.keys.len(),
            file.as_mut_ptr(),
            file.len(),
            &mut written,
        )
    };
    answered(ended, written)
}

/// What a tree file held that was read.
#[derive(Clone, Copy, Debug, Default, PartialEq, Eq, Hash)]
#[must_use]
#[non_exhaustive]
pub struct Held {
    /// The number of axes.
    pub axes: usize,
    /// The number of nodes: entries of each column.
    pub nodes: usize,
    /// The number of sources: entries of the order column.
    pub sources: usize,
    /// The number of keys in the near rows.
    pub u: usize,
    /// The number of keys in the far rows.
    pub v: usize,
}

/// Reads the tree of a file, its order column and its lists, and answers how many entries each has. `order` needs as many
/// entries as there are sources, each column as many as there are nodes, the starts one more each, and the keys their number.
/// What is lent over becomes 0. The file may be any bytes: what is wrong with it is refused whatever is lent.
///
/// # Errors
/// [`SECTION`](Refusal::SECTION) where the trailer does not fit the file; [`DIMS`](Refusal::DIMS) unless there are 1 to 3 axes;
/// [`SECTION`](Refusal::SECTION) where a section breaks the rules; [`TREE`](Refusal::TREE) where the columns are not well formed;
/// [`SECTION`](Refusal::SECTION) where the order column is no arrangement or the lists are not the tree's;
/// [`ROOM`](Refusal::ROOM) 2 to 7, of the nodes also where there are more than 1,048,576, and of keys where there are more than
/// 16,777,216 in a list.
#[allow(clippy::too_many_arguments)] // the file, and a tree that is written with its lists
pub fn read_tree(
    file: &[u8],
    order: &mut [usize],
    key: &mut [u64],
    own: &mut [usize],
    begin: &mut [usize],
    total: &mut [usize],
    u_starts: &mut [usize],
    u_keys: &mut [u64],
    v_starts: &mut [usize],
    v_keys: &mut [u64],
) -> Result<Held, Refusal> {
    let mut held = Held::default();
    // SAFETY: the file is read with its own length; each slice, lent to us alone, is written within its own; `held` is ours.
    let ended = unsafe {
        raw::lohandema_read_tree(
            file.as_ptr(),
            file.len(),
            order.as_mut_ptr(),
            order.len(),
            key.as_mut_ptr(),
            key.len(),
            own.as_mut_ptr(),
            own.len(),
            begin.as_mut_ptr(),
            begin.len(),
            total.as_mut_ptr(),
            total.len(),
            u_starts.as_mut_ptr(),
            u_starts.len(),
            u_keys.as_mut_ptr(),
            u_keys.len(),
            v_starts.as_mut_ptr(),
            v_starts.len(),
            v_keys.as_mut_ptr(),
            v_keys.len(),
            &mut held.axes,
            &mut held.nodes,
            &mut held.sources,
            &mut held.u,
            &mut held.v,
        )
    };
    answered(ended, held)
}

/// What a build is asked.
///
/// ```
/// use lohandema::{Asked, Bounds, Tree};
/// let bounds = Bounds::new(&[4.0], 4.0);
/// let sources = [0.5, 1.5, 6.5, 7.5];
/// let plain = Tree::build(Asked::new(&bounds, &sources, 1))?;
/// let kept = Tree::build(Asked::new(&bounds, &sources, 1).keeping_empty())?;
/// assert_eq!((plain.key.len(), kept.key.len()), (9, 11));
/// # Ok::<(), lohandema::Refusal>(())
/// ```
#[derive(Clone, Copy, Debug, PartialEq)]
#[must_use]
#[non_exhaustive]
pub struct Asked<'a> {
    /// The box.
    pub bounds: &'a Bounds,
    /// The sources: rows of one coordinate for each axis, flat.
    pub sources: &'a [f64],
    /// The targets, likewise. They are looked at only with `keep_empty` and `refine`.
    pub targets: &'a [f64],
    /// A cell with more sources than this splits.
    pub limit: usize,
    /// The interpolation order, 1 to 64; looked at only where targets are.
    pub order: usize,
    /// Whether all children of a cell that splits are stored, or those with sources.
    pub keep_empty: bool,
    /// Whether targets split cells too.
    pub refine: bool,
}

impl<'a> Asked<'a> {
    /// A tree of these sources: without targets, without empty cells.
    pub const fn new(bounds: &'a Bounds, sources: &'a [f64], limit: usize) -> Asked<'a> {
        Asked {
            bounds,
            sources,
            targets: &[],
            limit,
            order: 1,
            keep_empty: false,
            refine: false,
        }
    }

    /// The same, with empty cells stored.
    pub const fn keeping_empty(self) -> Asked<'a> {
        Asked {
            keep_empty: true,
            ..self
        }
    }

    /// The same, refined for targets and an interpolation order. Empty cells are stored, as refinement acts only so.
    pub const fn refined(self, targets: &'a [f64], order: usize) -> Asked<'a> {
        Asked {
            targets,
            order,
            keep_empty: true,
            refine: true,
            ..self
        }
    }
}

/// A regular grid of points, the last axis fastest: on axis a the coordinate of index i is `origin[a] + i * spacing[a]`, one
/// product and one sum, for each index below `shape[a]`. Entries past the axes of the box are not looked at.
///
/// ```
/// use lohandema::{Asked, Bounds, Grid, Tree};
/// let bounds = Bounds::new(&[4.0], 4.0);
/// let sources = [0.5, 1.5, 6.5, 7.5];
/// let asked = Asked::new(&bounds, &sources, 4).refined(&[], 1);
/// let grid = Grid::new([0.0; 3], [0.001, 1.0, 1.0], [8000, 1, 1]);
/// let listed: Vec<f64> = (0..8000).map(|i| 0.0 + f64::from(i) * 0.001).collect();
/// let on_grid = Tree::build_on_grid(asked, &grid)?;
/// assert_eq!(on_grid, Tree::build(asked.refined(&listed, 1))?);
/// # Ok::<(), lohandema::Refusal>(())
/// ```
#[derive(Clone, Copy, Debug, PartialEq)]
#[must_use]
#[non_exhaustive]
pub struct Grid {
    /// The coordinates of the first point.
    pub origin: [f64; 3],
    /// The distance between neighbours, above 0.
    pub spacing: [f64; 3],
    /// The number of points along each axis, at least 1; at most 1,048,576 in all.
    pub shape: [usize; 3],
}

impl Grid {
    /// The grid of these figures, as they are.
    pub const fn new(origin: [f64; 3], spacing: [f64; 3], shape: [usize; 3]) -> Grid {
        Grid {
            origin,
            spacing,
            shape,
        }
    }
}

/// The tree of the sources, into its columns and the order column `indices`; answers the number of nodes and the depth.
/// `work` has two entries for each source and one for each target that is used, `indices` one for each source, and each of
/// the four columns one for each node.
///
/// # Errors
/// [`DIMS`](Refusal::DIMS); [`BOX`](Refusal::BOX); [`SHAPE`](Refusal::SHAPE) and [`COUNT`](Refusal::COUNT), sources before
/// targets; [`ORDER`](Refusal::ORDER); [`SOURCE`](Refusal::SOURCE); [`POINT`](Refusal::POINT) for a target;
/// [`ROOM`](Refusal::ROOM) 1 to 3.
pub fn build_tree(
    asked: Asked<'_>,
    work: &mut [u64],
    indices: &mut [usize],
    key: &mut [u64],
    own: &mut [usize],
    begin: &mut [usize],
    total: &mut [usize],
) -> Result<(usize, u64), Refusal> {
    let (mut nodes, mut depth) = (0, 0);
    // SAFETY: the points are read with their own lengths; the six slices, lent to us alone, are written within theirs.
    let ended = unsafe {
        raw::lohandema_build_tree(
            &asked.bounds.centre,
            asked.bounds.radius,
            asked.bounds.axes,
            asked.sources.as_ptr(),
            asked.sources.len(),
            asked.targets.as_ptr(),
            asked.targets.len(),
            asked.limit,
            asked.order,
            asked.keep_empty,
            asked.refine,
            work.as_mut_ptr(),
            work.len(),
            indices.as_mut_ptr(),
            indices.len(),
            key.as_mut_ptr(),
            key.len(),
            own.as_mut_ptr(),
            own.len(),
            begin.as_mut_ptr(),
            begin.len(),
            total.as_mut_ptr(),
            total.len(),
            &mut nodes,
            &mut depth,
        )
    };
    answered(ended, (nodes, depth))
}

/// The same tree as on the listed points of a grid, which are nowhere listed: those of a cell are counted by index ranges.
/// `asked.targets` are not looked at; the grid is used with `keep_empty` and `refine`, else not looked at either. `work` has
/// two entries for each source; all else is as in [`build_tree`].
///
/// # Errors
/// [`DIMS`](Refusal::DIMS); [`BOX`](Refusal::BOX); [`GRID`](Refusal::GRID); [`SHAPE`](Refusal::SHAPE);
/// [`COUNT`](Refusal::COUNT), sources before the grid's points; [`ORDER`](Refusal::ORDER); [`SOURCE`](Refusal::SOURCE);
/// [`POINT`](Refusal::POINT) with the row of a grid's point; [`ROOM`](Refusal::ROOM) 1 to 3.
#[allow(clippy::too_many_arguments)] // the slices of `build_tree`, and the grid
pub fn build_tree_on_grid(
    asked: Asked<'_>,
    grid: &Grid,
    work: &mut [u64],
    indices: &mut [usize],
    key: &mut [u64],
    own: &mut [usize],
    begin: &mut [usize],
    total: &mut [usize],
) -> Result<(usize, u64), Refusal> {
    let (mut nodes, mut depth) = (0, 0);
    // SAFETY: the sources are read with their own length, the grid is three arrays of three; the six slices, lent to us alone, are written within theirs.
    let ended = unsafe {
        raw::lohandema_build_tree_on_grid(
            &asked.bounds.centre,
            asked.bounds.radius,
            asked.bounds.axes,
            asked.sources.as_ptr(),
            asked.sources.len(),
            &grid.origin,
            &grid.spacing,
            &grid.shape,
            asked.limit,
            asked.order,
            asked.keep_empty,
            asked.refine,
            work.as_mut_ptr(),
            work.len(),
            indices.as_mut_ptr(),
            indices.len(),
            key.as_mut_ptr(),
            key.len(),
            own.as_mut_ptr(),
            own.len(),
            begin.as_mut_ptr(),
            begin.len(),
            total.as_mut_ptr(),
            total.len(),
            &mut nodes,
            &mut depth,
        )
    };
    answered(ended, (nodes, depth))
}

/// How many nodes the tree has that [`build_tree`] builds of the same, with no node column: columns with just so many entries
/// are enough. The tree is grown as in the build and its nodes are counted, so that it takes nearly as long. `work` and
/// `indices` have the build's entries, and are 0 throughout afterwards.
///
/// # Errors
/// As [`build_tree`]; [`ROOM`](Refusal::ROOM) 3 only where the tree has more than 1,048,576 nodes, for which no room is enough.
pub fn count_nodes(
    asked: Asked<'_>,
    work: &mut [u64],
    indices: &mut [usize],
) -> Result<usize, Refusal> {
    let mut nodes = 0;
    // SAFETY: the points are read with their own lengths; both slices, lent to us alone, are written within theirs.
    let ended = unsafe {
        raw::lohandema_count_nodes(
            &asked.bounds.centre,
            asked.bounds.radius,
            asked.bounds.axes,
            asked.sources.as_ptr(),
            asked.sources.len(),
            asked.targets.as_ptr(),
            asked.targets.len(),
            asked.limit,
            asked.order,
            asked.keep_empty,
            asked.refine,
            work.as_mut_ptr(),
            work.len(),
            indices.as_mut_ptr(),
            indices.len(),
            &mut nodes,
        )
    };
    answered(ended, nodes)
}

/// The same for [`build_tree_on_grid`].
///
/// # Errors
/// As [`build_tree_on_grid`]; [`ROOM`](Refusal::ROOM) 3 only where the tree has more than 1,048,576 nodes, for which no room is
/// enough.
pub fn count_nodes_on_grid(
    asked: Asked<'_>,
    grid: &Grid,
    work: &mut [u64],
    indices: &mut [usize],
) -> Result<usize, Refusal> {
    let mut nodes = 0;
    // SAFETY: the sources are read with their own length, the grid is three arrays of three; both slices, lent to us alone, are written within theirs.
    let ended = unsafe {
        raw::lohandema_count_nodes_on_grid(
            &asked.bounds.centre,
            asked.bounds.radius,
            asked.bounds.axes,
            asked.sources.as_ptr(),
            asked.sources.len(),
            &grid.origin,
            &grid.spacing,
            &grid.shape,
            asked.limit,
            asked.order,
            asked.keep_empty,
            asked.refine,
            work.as_mut_ptr(),
            work.len(),
            indices.as_mut_ptr(),
            indices.len(),
            &mut nodes,
        )
    };
    answered(ended, nodes)
}

/// The balanced tree of a tree that has all children or none of each cell: the one with the fewest cells that contains all of
/// its cells, has all children or none of each cell, and no two touching leaves more than one level apart. `order` is the
/// tree's order column, and `points` are its sources. `work` has two entries for each source and `indices`, the new order
/// column, one; the four columns one for each new node. Answers the number of nodes and the depth.
///
/// # Errors
/// [`DIMS`](Refusal::DIMS), also if box and tree differ in their axes; [`BOX`](Refusal::BOX); [`SHAPE`](Refusal::SHAPE) if
/// the rows are not whole; [`COUNT`](Refusal::COUNT); [`TREE`](Refusal::TREE); [`PARTIAL`](Refusal::PARTIAL) if a cell has
/// some of its children and not all; [`SOURCE`](Refusal::SOURCE) if a point is outside the box;
/// [`NOTBUILT`](Refusal::NOTBUILT) if a point is in no leaf, or `own` and `order` are not those that the points give;
/// [`ROOM`](Refusal::ROOM) 1 to 3.
#[allow(clippy::too_many_arguments)] // a tree that is read, and one that is written
pub fn balance_tree(
    bounds: &Bounds,
    points: &[f64],
    tree: Columns<'_>,
    order: &[usize],
    work: &mut [u64],
    indices: &mut [usize],
    key: &mut [u64],
    own: &mut [usize],
    begin: &mut [usize],
    total: &mut [usize],
) -> Result<(usize, u64), Refusal> {
    tree.same_axes(bounds).inspect_err(|_| {
        work.fill(0);
        indices.fill(0);
        key.fill(0);
        own.fill(0);
        begin.fill(0);
        total.fill(0);
    })?;
    let (mut nodes, mut depth) = (0, 0);
    // SAFETY: points, columns and order are read with their own lengths; the six slices, lent to us alone, are written within theirs.
    let ended = unsafe {
        raw::lohandema_balance_tree(
            &bounds.centre,
            bounds.radius,
            bounds.axes,
            points.as_ptr(),
            points.len(),
            tree.key.as_ptr(),
            tree.key.len(),
            tree.own.as_ptr(),
            tree.own.len(),
            tree.begin.as_ptr(),
            tree.begin.len(),
            tree.total.as_ptr(),
            tree.total.len(),
            order.as_ptr(),
            order.len(),
            work.as_mut_ptr(),
            work.len(),
            indices.as_mut_ptr(),
            indices.len(),
            key.as_mut_ptr(),
            key.len(),
            own.as_mut_ptr(),
            own.len(),
            begin.as_mut_ptr(),
            begin.len(),
            total.as_mut_ptr(),
            total.len(),
            &mut nodes,
            &mut depth,
        )
    };
    answered(ended, (nodes, depth))
}

/// The tree of the former sources and one more, numbered after the last, from the tree that [`build_tree`] made of the former
/// without targets. `asked` has the box, the former sources, the limit and the flag of that build; its targets, order and
/// `refine` are not looked at. Sources that were added before are former ones. A tree may be the build with two limits, so that
/// not every wrong one is refused. `order` is the tree's order column. `work` has two entries for each source and `indices`, the
/// new order column, one, the new source counted too; the four columns one for each new node, of which there are at most
/// 16 · 2^axes more than before. Answers the number of nodes and the depth. It takes longer than a build of the longer list, as
/// [`Tree::with_source`](crate::Tree::with_source) says.
///
/// # Errors
/// [`DIMS`](Refusal::DIMS), also if box and tree differ in their axes; [`BOX`](Refusal::BOX); [`SHAPE`](Refusal::SHAPE) if
/// the rows are not whole, or the point has not one coordinate for each axis; [`COUNT`](Refusal::COUNT) if there are 1,048,576
/// former sources already, which leaves no room for one more; [`TREE`](Refusal::TREE); [`NOTBUILT`](Refusal::NOTBUILT) if the
/// tree and its order are not the build of the former sources with this box, limit and flag, or one of them is outside (a tree
/// that targets or a grid refined, or that was balanced, is to be built anew without); [`SOURCE`](Refusal::SOURCE) if the new
/// one is, with the number of former sources as its index (build anew in a larger box, or leave it out);
/// [`ROOM`](Refusal::ROOM) 1 to 3 (where 1,048,576 entries of the columns are short, build anew with a higher limit).
#[allow(clippy::too_many_arguments)] // a tree that is read, and one that is written
pub fn add_source(
    asked: Asked<'_>,
    point: &[f64],
    tree: Columns<'_>,
    order: &[usize],
    work: &mut [u64],
    indices: &mut [usize],
    key: &mut [u64],
    own: &mut [usize],
    begin: &mut [usize],
    total: &mut [usize],
) -> Result<(usize, u64), Refusal> {
    let bounds = asked.bounds;
    let same = tree.same_axes(bounds);
    let point = same
        .and_then(|()| bounds.coordinates(point))
        .inspect_err(|_| {
            work.fill(0);
            indices.fill(0);
            key.fill(0);
            own.fill(0);
            begin.fill(0);
            total.fill(0);
        })?;
    let (mut nodes, mut depth) = (0, 0);
    // SAFETY: sources, columns and order are read with their own lengths, centre and point as three numbers; the six slices, lent to us alone, are written within theirs.
    let ended = unsafe {
        raw::lohandema_add_source(
            &bounds.centre,
            bounds.radius,
            bounds.axes,
            asked.sources.as_ptr(),
            asked.sources.len(),
            &point,
            asked.limit,
            asked.keep_empty,
            tree.key.as_ptr(),
            tree.key.len(),
            tree.own.as_ptr(),
            tree.own.len(),
            tree.begin.as_ptr(),
            tree.begin.len(),
            tree.total.as_ptr(),
            tree.total.len(),
            order.as_ptr(),
            order.len(),
            work.as_mut_ptr(),
            work.len(),
            indices.as_mut_ptr(),
            indices.len(),
            key.as_mut_ptr(),
            key.len(),
            own.as_mut_ptr(),
            own.len(),
            begin.as_mut_ptr(),
            begin.len(),
            total.as_mut_ptr(),
            total.len(),
            &mut nodes,
            &mut depth,
        )
    };
    answered(ended, (nodes, depth))
}
