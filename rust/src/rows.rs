//! Rows by node number, flat: the near and far keys of each node, and the points of each node.

/// The entries of a row; none where the starts or the entries do not have it.
fn row_of<'a, T>(starts: &[usize], entries: &'a [T], node: usize) -> Option<&'a [T]> {
    let from = *starts.get(node)?;
    let to = *starts.get(node.checked_add(1)?)?;
    entries.get(from..to)
}

/// All rows in turn.
fn rows_of<'a, T>(
    starts: &'a [usize],
    entries: &'a [T],
) -> impl ExactSizeIterator<Item = &'a [T]> + DoubleEndedIterator {
    (0..count(starts)).map(move |node| row_of(starts, entries, node).unwrap_or(&[]))
}

/// How many rows these are the starts of.
fn count(starts: &[usize]) -> usize {
    starts.len().saturating_sub(1)
}

/// Rows of keys, one for each node: that of node n is `keys[starts[n]..starts[n + 1]]`, ascending.
///
/// ```
/// use lohandema::Rows;
/// let rows = Rows { starts: vec![0, 0, 2], keys: vec![3, 32771] };
/// assert_eq!(rows.row(1), [3, 32771]);
/// assert_eq!((rows.row(2), rows.get(2)), (&[][..], None));
/// assert_eq!(rows.iter().map(<[u64]>::len).collect::<Vec<_>>(), [0, 2]);
/// ```
#[derive(Clone, Debug, Default, PartialEq, Eq, Hash)]
#[must_use]
pub struct Rows {
    /// Where each row starts, and at the end the number of all keys: one entry more than there are nodes.
    pub starts: Vec<usize>,
    /// The keys of all rows.
    pub keys: Vec<u64>,
}

impl Rows {
    /// So many starts and keys, for a call to write to.
    pub(crate) fn with_room(starts: usize, keys: usize) -> Rows {
        Rows {
            starts: vec![0; starts],
            keys: vec![0; keys],
        }
    }

    /// The row of a node; empty for a number past the rows.
    #[must_use]
    pub fn row(&self, node: usize) -> &[u64] {
        self.get(node).unwrap_or(&[])
    }

    /// The row of a node; none for a number past the rows.
    #[must_use]
    pub fn get(&self, node: usize) -> Option<&[u64]> {
        row_of(&self.starts, &self.keys, node)
    }

    /// How many rows there are: one for each node.
    #[must_use]
    pub fn len(&self) -> usize {
        count(&self.starts)
    }

    /// Whether there is no row.
    #[must_use]
    pub fn is_empty(&self) -> bool {
        self.len() == 0
    }

    /// The rows by node number.
    #[must_use]
    pub fn iter(&self) -> impl ExactSizeIterator<Item = &[u64]> + DoubleEndedIterator {
        rows_of(&self.starts, &self.keys)
    }
}

/// The near (U) and far (V) rows of a tree.
#[derive(Clone, Debug, Default, PartialEq, Eq, Hash)]
#[must_use]
pub struct Lists {
    /// For each leaf the leaves whose sources are summed one by one; empty for a node that is no leaf.
    pub u: Rows,
    /// For each node the cells whose sources are summed as a group.
    pub v: Rows,
}

/// The sums of one leaf, and how many terms they have: one for each near source and one for each far cell.
#[derive(Clone, Copy, Debug, Default, PartialEq, Eq, Hash)]
#[must_use]
pub struct Sums {
    /// The readings of the leaves in the U row.
    pub near: i64,
    /// The readings of the cells in the V rows of the leaf and its ancestors.
    pub far: i64,
    /// The number of additions, which are the terms of both sums.
    pub additions: usize,
}

/// The sum check of a whole survey.
#[derive(Clone, Copy, Debug, Default, PartialEq, Eq, Hash)]
#[must_use]
pub struct Checked {
    /// How many leaves' near and far readings together are the sum of all readings: all leaves.
    pub leaves: usize,
    /// The additions of all leaves together: one for each near source and one for each far cell of each, 2^63 - 1 at most.
    pub additions: usize,
}

/// The points of each node: those of node n are `indices[starts[n]..starts[n + 1]]`, ascending.
///
/// ```
/// use lohandema::{Asked, Bounds, Tree};
/// let bounds = Bounds::new(&[4.0], 4.0);
/// let tree = Tree::build(Asked::new(&bounds, &[0.5, 1.5, 6.5, 7.5], 1))?;
/// let (leaves, _steps) = tree.points_to_keys(&[7.9, 0.3, 7.2])?;
/// let groups = tree.get_points_to_leaves_map(&leaves)?;
/// assert_eq!(groups.group(8), [0, 2]);
/// # Ok::<(), lohandema::Refusal>(())
/// ```
#[derive(Clone, Debug, Default, PartialEq, Eq, Hash)]
#[must_use]
pub struct Groups {
    /// Where each node's points start, and at the end the number of points: one entry more than there are nodes.
    pub starts: Vec<usize>,
    /// The indices of the points.
    pub indices: Vec<usize>,
}

impl Groups {
    /// The points of a node; empty for a number past the nodes.
    #[must_use]
    pub fn group(&self, node: usize) -> &[usize] {
        self.get(node).unwrap_or(&[])
    }

    /// The points of a node; none for a number past the nodes.
    #[must_use]
    pub fn get(&self, node: usize) -> Option<&[usize]> {
        row_of(&self.starts, &self.indices, node)
    }

    /// How many groups there are: one for each node.
    #[must_use]
    pub fn len(&self) -> usize {
        count(&self.starts)
    }

    /// Whether there is no group.
    #[must_use]
    pub fn is_empty(&self) -> bool {
        self.len() == 0
    }

    /// The groups by node number.
    #[must_use]
    pub fn iter(&self) -> impl ExactSizeIterator<Item = &[usize]> + DoubleEndedIterator {
        rows_of(&self.starts, &self.indices)
    }
}
