//! Trees: nodes depth first, a cell, then its children ascending, each followed by its own; in columns.

use crate::changes::Change;
use crate::keys;
use crate::lent::{self, Asked, Columns, Grid};
use crate::limits::MOST_KEYS;
use crate::points::Bounds;
use crate::refusal::Refusal;
use crate::{raw, room};

pub use crate::rows::{Checked, Groups, Lists, Rows, Sums};

/// A tree: its box, its columns with an entry for each node, and the order of its sources.
///
/// The nodes are numbered depth first: a cell, then its children ascending, each followed by its own. So all nodes at or under
/// a cell stand together, and the sources in it are one part of the order column: [`Tree::cell_sources`].
///
/// A build makes a tree; [`Tree::from_columns`] takes one as it is. The fields may be changed: every call judges the columns
/// anew, and what is no tree is refused, [`TREE`](Refusal::TREE). Well formed are columns of one length, at least 1, whose
/// keys are valid and in that order, the first being the root; in which each other node's parent is present, only leaves own
/// sources, `begin` has the running sums of `own`, which come to at most 1,048,576, and `total` has for each node the number
/// of sources in the cell and all below it. Columns whose nodes stand level by level, as version 0.2 had them, are refused
/// unless both orders are the same.
///
/// ```
/// use lohandema::{Bounds, Tree};
/// // one axis: a root and its two children, with one and two sources
/// let bounds = Bounds::new(&[4.0], 4.0);
/// let (key, own, begin, total) = (vec![0, 1, 32769], vec![0, 1, 2], vec![0, 0, 1], vec![3, 1, 2]);
/// let tree = Tree::from_columns(bounds, key, own, begin, total, vec![0, 1, 2]);
/// assert!(tree.is_well_formed());
/// assert_eq!(tree.leaf_sources(2), [1, 2]);
/// let lists = tree.get_interaction_lists()?;
/// assert_eq!(lists.u.row(1), [1, 32769]);
/// assert_eq!(lists.v.row(1), []);
/// # Ok::<(), lohandema::Refusal>(())
/// ```
#[derive(Clone, Debug, PartialEq)]
#[must_use]
#[non_exhaustive]
pub struct Tree {
    /// The box, whose axes are the tree's.
    pub bounds: Bounds,
    /// Each node's key, depth first.
    pub key: Vec<u64>,
    /// How many sources each node owns; only leaves own any.
    pub own: Vec<usize>,
    /// The sum of the own sources of all nodes before.
    pub begin: Vec<usize>,
    /// The number of sources in each node's cell and all below it: a leaf's own, and the sum of the children's for any other
    /// node. That of the root is the number of all sources.
    pub total: Vec<usize>,
    /// The indices of the sources, leaf by leaf in the order of the nodes, ascending within a leaf.
    pub order: Vec<usize>,
}

/// A leaf of a tree: a node other than the root with no child.
#[derive(Clone, Copy, Debug, PartialEq, Eq)]
#[non_exhaustive]
pub struct Leaf<'a> {
    /// Its number among the nodes.
    pub node: usize,
    /// Its key.
    pub key: u64,
    /// The indices of its sources.
    pub sources: &'a [usize],
}

impl Tree {
    /// The tree of a survey. Room is made for the most nodes that it can have, so that one pass is enough.
    ///
    /// ```
    /// use lohandema::{Asked, Bounds, Tree};
    /// let bounds = Bounds::new(&[4.0], 4.0);
    /// let tree = Tree::build(Asked::new(&bounds, &[0.5, 1.5, 6.5, 7.5], 1))?;
    /// assert_eq!(tree.key, [0, 1, 2, 3, 32771, 32769, 98306, 196611, 229379]);
    /// let lists = tree.get_interaction_lists()?;
    /// assert_eq!(lists.u.row(3), [3, 32771]);
    /// assert_eq!(lists.v.row(2), [98306]);
    /// # Ok::<(), lohandema::Refusal>(())
    /// ```
    ///
    /// # Errors
    /// As [`lent::build_tree`]; [`ROOM`](Refusal::ROOM) only, with 3, if the tree has more than 1,048,576 nodes.
    pub fn build(asked: Asked<'_>) -> Result<Tree, Refusal> {
        let room = room::most_nodes(&asked);
        let mut work = vec![0; room::work(&asked)];
        let mut order = vec![0; room::rows(asked.bounds.axes, asked.sources.len())];
        let (mut key, mut own) = (vec![0; room], vec![0; room]);
        let (mut begin, mut total) = (vec![0; room], vec![0; room]);
        let (nodes, _) = lent::build_tree(
            asked, &mut work, &mut order, &mut key, &mut own, &mut begin, &mut total,
        )?;
        let (key, own) = (room::cut(key, nodes), room::cut(own, nodes));
        let (begin, total) = (room::cut(begin, nodes), room::cut(total, nodes));
        let bounds = *asked.bounds;
        Ok(Tree::from_columns(bounds, key, own, begin, total, order))
    }

    /// The tree of a survey that is refined by the points of a grid; `asked.targets` are not looked at. It is the tree that
    /// [`Tree::build`] makes of the listed points, but nothing has to be listed: see [`Grid`].
    ///
    /// # Errors
    /// As [`lent::build_tree_on_grid`]; [`ROOM`](Refusal::ROOM) only, with 3, if the tree has more than 1,048,576 nodes.
    pub fn build_on_grid(asked: Asked<'_>, grid: &Grid) -> Result<Tree, Refusal> {
        let room = room::most_nodes_with(&asked, room::points(&asked, grid));
        let rows = room::rows(asked.bounds.axes, asked.sources.len());
        let (mut work, mut order) = (vec![0; 2 * rows], vec![0; rows]);
        let (mut key, mut own) = (vec![0; room], vec![0; room]);
        let (mut begin, mut total) = (vec![0; room], vec![0; room]);
        let (nodes, _) = lent::build_tree_on_grid(
            asked, grid, &mut work, &mut order, &mut key, &mut own, &mut begin, &mut total,
        )?;
        let (key, own) = (room::cut(key, nodes), room::cut(own, nodes));
        let (begin, total) = (room::cut(begin, nodes), room::cut(total, nodes));
        let bounds = *asked.bounds;
        Ok(Tree::from_columns(bounds, key, own, begin, total, order))
    }

    /// The balanced tree of this one, which has all children or none of each cell, as a build with `keep_empty` has; `points` are
    /// its sources. It is the tree with the fewest cells that contains all of these, has all children or none of each cell, and
    /// no two leaves more than one level apart whose cells touch, at a corner too. The sources move down to the new leaves.
    ///
    /// ```
    /// use lohandema::{Asked, Bounds, Tree};
    /// let (bounds, points) = (Bounds::new(&[4.0], 4.0), [3.3, 3.8, 6.5]);
    /// let mut asked = Asked::new(&bounds, &points, 1);
    /// asked.keep_empty = true;
    /// let tree = Tree::build(asked)?;
    /// // a leaf of level 1 beside one of level 4
    /// assert_eq!(tree.key, [0, 1, 2, 32770, 65539, 98307, 196612, 229380, 32769]);
    /// let balanced = tree.balanced(&points)?;
    /// assert_eq!(balanced.key[9..], [65538, 131075, 163843, 98306]);
    /// assert_eq!(balanced.leaf_sources(12), [2]);
    /// assert_eq!(balanced.balanced(&points)?, balanced);
    /// # Ok::<(), lohandema::Refusal>(())
    /// ```
    ///
    /// # Errors
    /// As [`lent::balance_tree`]; [`ROOM`](Refusal::ROOM) only, with 3, if the tree has more than 1,048,576 nodes.
    pub fn balanced(&self, points: &[f64]) -> Result<Tree, Refusal> {
        let rows = room::rows(self.axes(), points.len());
        let (mut work, mut order) = (vec![0; 2 * rows], vec![0; rows]);
        let room = room::balanced(self.axes(), self.key.len());
        let (mut key, mut own) = (vec![0; room], vec![0; room]);
        let (mut begin, mut total) = (vec![0; room], vec![0; room]);
        let (nodes, _) = lent::balance_tree(
            &self.bounds,
            points,
            self.columns(),
            &self.order,
            &mut work,
            &mut order,
            &mut key,
            &mut own,
            &mut begin,
            &mut total,
        )?;
        let (key, own) = (room::cut(key, nodes), room::cut(own, nodes));
        let (begin, total) = (room::cut(begin, nodes), room::cut(total, nodes));
        Ok(Tree::from_columns(
            self.bounds,
            key,
            own,
            begin,
            total,
            order,
        ))
    }

    /// The tree of the sources and one more, numbered after the last: the one that [`Tree::build`] would make of the longer list
    /// in this tree's box. This one is to be the build of `sources` with this limit and flag in its own box, without targets and
    /// not balanced, and is not changed. Where a source was added before, it is one of `sources`. A tree may be the build with
    /// two limits, and is taken with either: a wrong limit is not always refused.
    ///
    /// As it stands the call takes longer than a build of the longer list, 1.5 to 2 times as long with 100,000 points in 3 axes
    /// (docs/CHANGES.md, order 7). It spares no time; it gives the judgement that this tree is that build, and what follows.
    ///
    /// Rows of the lists far from the new source hold the same keys in both trees. The V row of a cell does, if the new source's
    /// cell at the level of its parent neither is that parent nor touches it; the U row of a leaf, if it and the deepest cell
    /// of this tree that contains the new source, at the coarser one's level, neither coincide nor touch.
    ///
    /// ```
    /// use lohandema::{Asked, Bounds, Tree};
    /// let (bounds, points) = (Bounds::new(&[4.0], 4.0), [0.5, 1.5, 6.5, 7.5]);
    /// let tree = Tree::build(Asked::new(&bounds, &points, 1))?;
    /// let more = tree.with_source(&points, &[3.0], 1, false)?;
    /// assert_eq!(more.key, [0, 1, 2, 3, 32771, 32770, 32769, 98306, 196611, 229379]);
    /// assert_eq!(more.order, [0, 1, 4, 2, 3]);
    /// assert_eq!(more, Tree::build(Asked::new(&bounds, &[0.5, 1.5, 6.5, 7.5, 3.0], 1))?);
    /// # Ok::<(), lohandema::Refusal>(())
    /// ```
    ///
    /// # Errors
    /// As [`lent::add_source`]; [`ROOM`](Refusal::ROOM) only, with 3, if the tree has more than 1,048,576 nodes: build anew
    /// with a higher limit, as another limit than this tree's own is refused here.
    pub fn with_source(
        &self,
        sources: &[f64],
        point: &[f64],
        limit: usize,
        keep_empty: bool,
    ) -> Result<Tree, Refusal> {
        let mut asked = Asked::new(&self.bounds, sources, limit);
        asked.keep_empty = keep_empty;
        let rows = room::rows(self.axes(), sources.len()) + 1;
        let (mut work, mut order) = (vec![0; 2 * rows], vec![0; rows]);
        let room = room::one_more(self.axes(), self.key.len());
        let (mut key, mut own) = (vec![0; room], vec![0; room]);
        let (mut begin, mut total) = (vec![0; room], vec![0; room]);
        let (nodes, _) = lent::add_source(
            asked,
            point,
            self.columns(),
            &self.order,
            &mut work,
            &mut order,
            &mut key,
            &mut own,
            &mut begin,
            &mut total,
        )?;
        let (key, own) = (room::cut(key, nodes), room::cut(own, nodes));
        let (begin, total) = (room::cut(begin, nodes), room::cut(total, nodes));
        Ok(Tree::from_columns(
            self.bounds,
            key,
            own,
            begin,
            total,
            order,
        ))
    }

    /// The tree of these columns, as they are.
    pub fn from_columns(
        bounds: Bounds,
        key: Vec<u64>,
        own: Vec<usize>,
        begin: Vec<usize>,
        total: Vec<usize>,
        order: Vec<usize>,
    ) -> Tree {
        Tree {
            bounds,
            key,
            own,
            begin,
            total,
            order,
        }
    }

    /// What can be had of damaged columns, and each change that it took: a tree of the valid keys, the root and all cells that
    /// hold one of them. A repeated key keeps its first row. A leaf keeps its count and its run of the order column; the root, a
    /// node that has children, and a leaf whose run passes the order column's end get the count 0. The tree is well formed, and
    /// one that was well formed, with an order column as long as its total, comes back the same with no change. The rows may
    /// hold anything; of the box only the axes are looked at.
    ///
    /// The time goes with the rows; but not where there would be more than 1,048,576 nodes, as there can be if the levels of all
    /// keys together are more, and the runs of all rows together have more than 1,048,576 entries. To tell which of the two is
    /// refused it then takes the square of the rows: 18 s for 100,000 were seen. Hand in the rows of a part of the box at a time.
    ///
    /// ```
    /// use lohandema::{Bounds, Change, Tree};
    /// // the row of cell 1 is lost, that of 3 is there twice, and the order column ends early
    /// let bounds = Bounds::new(&[4.0], 4.0);
    /// let (key, own, begin) = ([0, 3, 3, 32769], [0, 2, 1, 2], [0, 1, 1, 3]);
    /// let (tree, changes) = Tree::salvage(bounds, &key, &own, &begin, &[4, 0, 3, 1])?;
    /// assert!(tree.is_well_formed());
    /// assert_eq!((&tree.key[..], tree.leaf_sources(3)), (&[0, 1, 2, 3, 32769][..], &[0, 3][..]));
    /// let told: Vec<_> = changes.iter().map(|change| (change.code, change.key)).collect();
    /// assert_eq!(told, [(2, 3), (3, 1), (3, 2), (4, 32769), (5, 3), (5, 32769)]);
    /// assert_eq!(
    ///     changes[1].to_string(),
    ///     "key 1: this cell was added, as it is the root or holds another (change 3)"
    /// );
    /// # Ok::<(), lohandema::Refusal>(())
    /// ```
    ///
    /// # Errors
    /// As [`lent::salvage`]; [`ROOM`](Refusal::ROOM) only, with 3, if the tree has more than 1,048,576 nodes.
    pub fn salvage(
        bounds: Bounds,
        key: &[u64],
        own: &[usize],
        begin: &[usize],
        order: &[usize],
    ) -> Result<(Tree, Vec<Change>), Refusal> {
        let (sources, nodes) = (room::runs(own, begin, order), room::salvaged(key));
        let mut indices = vec![0; sources];
        let (mut new_key, mut new_own) = (vec![0; nodes], vec![0; nodes]);
        let (mut new_begin, mut new_total) = (vec![0; nodes], vec![0; nodes]);
        let changes = 2 * key.len() + nodes;
        let (mut codes, mut changed) = (vec![0; changes], vec![0; changes]);
        let (nodes, sources, changes) = lent::salvage(
            bounds.axes,
            key,
            own,
            begin,
            order,
            &mut indices,
            &mut new_key,
            &mut new_own,
            &mut new_begin,
            &mut new_total,
            &mut codes,
            &mut changed,
        )?;
        let (key, own) = (room::cut(new_key, nodes), room::cut(new_own, nodes));
        let (begin, total) = (room::cut(new_begin, nodes), room::cut(new_total, nodes));
        let order = room::cut(indices, sources);
        let pairs = codes.into_iter().zip(changed).take(changes);
        let changes = pairs.map(|(code, key)| Change::new(code, key)).collect();
        let tree = Tree::from_columns(bounds, key, own, begin, total, order);
        Ok((tree, changes))
    }

    /// The number of axes, those of the box.
    #[must_use]
    pub fn axes(&self) -> usize {
        self.bounds.axes
    }

    /// The columns, lent.
    pub fn columns(&self) -> Columns<'_> {
        let axes = self.bounds.axes;
        Columns::new(axes, &self.key, &self.own, &self.begin, &self.total)
    }

    /// Whether the columns are a well-formed tree. The order column and the rest of the box are not looked at.
    #[must_use]
    pub fn is_well_formed(&self) -> bool {
        // SAFETY: columns are read with their own lengths.
        unsafe {
            raw::lohandema_is_well_formed(
                self.bounds.axes,
                self.key.as_ptr(),
                self.key.len(),
                self.own.as_ptr(),
                self.own.len(),
                self.begin.as_ptr(),
                self.begin.len(),
                self.total.as_ptr(),
                self.total.len(),
            )
        }
    }

    /// The greatest level of any node, at least 1. Of any column, also where that is no tree.
    #[must_use]
    pub fn depth(&self) -> u64 {
        // SAFETY: the column is read with its own length.
        unsafe { raw::lohandema_depth_of(self.key.as_ptr(), self.key.len()) }
    }

    /// A node's own part of the order column; empty where a column does not have it. [`cell_sources`](Tree::cell_sources) has
    /// the sources of all below it too.
    #[must_use]
    pub fn leaf_sources(&self, node: usize) -> &[usize] {
        let mut start = 0;
        // SAFETY: columns are read with their own lengths; `start` is ours.
        let count = unsafe {
            raw::lohandema_leaf_sources(
                self.own.as_ptr(),
                self.own.len(),
                self.begin.as_ptr(),
                self.begin.len(),
                self.order.as_ptr(),
                self.order.len(),
                node,
                &mut start,
            )
        };
        self.part(start, count)
    }

    /// The part of the order column that has all sources in a node's cell, leaf by leaf and not ascending as a whole: `total`
    /// entries from `begin` on, which for a leaf is [`leaf_sources`](Tree::leaf_sources). Empty where a column does not have it.
    ///
    /// ```
    /// use lohandema::{Asked, Bounds, Tree};
    /// let bounds = Bounds::new(&[4.0], 4.0);
    /// let tree = Tree::build(Asked::new(&bounds, &[1.5, 6.5, 0.5, 7.5], 1))?;
    /// assert_eq!(tree.key[1..5], [1, 2, 3, 32771]);
    /// assert_eq!(tree.cell_sources(1), [2, 0]);
    /// assert_eq!(tree.cell_sources(0), tree.order);
    /// assert_eq!(tree.cell_sources(9), []);
    /// # Ok::<(), lohandema::Refusal>(())
    /// ```
    #[must_use]
    pub fn cell_sources(&self, node: usize) -> &[usize] {
        let mut start = 0;
        // SAFETY: columns are read with their own lengths; `start` is ours.
        let count = unsafe {
            raw::lohandema_cell_sources(
                self.total.as_ptr(),
                self.total.len(),
                self.begin.as_ptr(),
                self.begin.len(),
                self.order.as_ptr(),
                self.order.len(),
                node,
                &mut start,
            )
        };
        self.part(start, count)
    }

    /// So many entries of the order column from a place on.
    fn part(&self, start: usize, count: usize) -> &[usize] {
        let part = self.order.get(start..).and_then(|rest| rest.get(..count));
        part.unwrap_or(&[])
    }

    /// The leaves by node number, with their keys and sources.
    ///
    /// ```
    /// use lohandema::{Asked, Bounds, Tree};
    /// let bounds = Bounds::new(&[4.0], 4.0);
    /// let tree = Tree::build(Asked::new(&bounds, &[6.5, 0.5, 6.6], 2))?;
    /// let mut leaves = tree.leaves()?;
    /// let leaf = leaves.next().unwrap();
    /// assert_eq!((leaf.node, leaf.key, leaf.sources), (1, 1, &[1][..]));
    /// let leaf = leaves.next().unwrap();
    /// assert_eq!((leaf.node, leaf.key, leaf.sources), (2, 32769, &[0, 2][..]));
    /// assert!(leaves.next().is_none());
    /// # Ok::<(), lohandema::Refusal>(())
    /// ```
    ///
    /// # Errors
    /// [`DIMS`](Refusal::DIMS) unless there are 1 to 3 axes; [`TREE`](Refusal::TREE) if the columns are not well formed.
    pub fn leaves(
        &self,
    ) -> Result<impl ExactSizeIterator<Item = Leaf<'_>> + DoubleEndedIterator, Refusal> {
        let leaf = |node: usize| Leaf {
            node,
            key: self.key[node],
            sources: self.leaf_sources(node),
        };
        Ok(self.leaf_numbers()?.into_iter().map(leaf))
    }

    /// The leaves by number.
    fn leaf_numbers(&self) -> Result<Vec<usize>, Refusal> {
        if !self.is_well_formed() {
            keys::get_level(self.axes(), 0)?;
            return Err(Refusal::new(Refusal::TREE, 0));
        }
        Ok((0..self.key.len()).filter(|n| self.is_leaf(*n)).collect())
    }

    /// The key of the leaf that holds one point, and the steps climbed to it. Each call checks the whole tree first; for
    /// many points use [`points_to_keys`](Tree::points_to_keys), which checks it once.
    ///
    /// # Errors
    /// As [`lent::point_to_leaf`] with the tree's own box.
    pub fn point_to_leaf(&self, point: &[f64]) -> Result<(u64, u64), Refusal> {
        lent::point_to_leaf(&self.bounds, self.columns(), point)
    }

    /// The key of the leaf that holds each point, and the sum of the steps climbed. The points are rows of one coordinate
    /// for each axis, flat.
    ///
    /// # Errors
    /// As [`lent::points_to_keys`] with the tree's own box; never [`ROOM`](Refusal::ROOM).
    pub fn points_to_keys(&self, points: &[f64]) -> Result<(Vec<u64>, usize), Refusal> {
        let mut output = vec![0; room::rows(self.axes(), points.len())];
        let steps = lent::points_to_keys(&self.bounds, self.columns(), points, &mut output)?;
        Ok((output, steps))
    }

    /// The indices of the points of each node, from the key of each point's leaf.
    ///
    /// # Errors
    /// As [`lent::get_points_to_leaves_map`]; never [`ROOM`](Refusal::ROOM).
    pub fn get_points_to_leaves_map(&self, points: &[u64]) -> Result<Groups, Refusal> {
        let mut starts = vec![0; self.key.len() + 1];
        let mut indices = vec![0; room::rows(1, points.len())];
        lent::get_points_to_leaves_map(self.columns(), points, &mut starts, &mut indices)?;
        Ok(Groups { starts, indices })
    }

    /// The cells that own sources or have a descendant that does, by ascending key.
    ///
    /// # Errors
    /// [`DIMS`](Refusal::DIMS); [`TREE`](Refusal::TREE).
    pub fn get_sourced_cells(&self) -> Result<Vec<u64>, Refusal> {
        let mut cells = vec![0; self.key.len()];
        let count = lent::get_sourced_cells(self.columns(), &mut cells)?;
        Ok(room::cut(cells, count))
    }

    /// Near work: the sum over leaves of the targets in the leaf times the sources in its U row, which is how many pairs of a
    /// target and a source are summed singly. Without targets the sources serve as targets. The targets are rows of one
    /// coordinate for each axis, flat. [`lent::get_near_work`] also tells how many targets each node has.
    ///
    /// ```
    /// use lohandema::{Asked, Bounds, Refusal, Tree};
    /// let bounds = Bounds::new(&[4.0], 4.0);
    /// let tree = Tree::build(Asked::new(&bounds, &[0.5, 1.5, 6.5, 7.5], 1))?;
    /// assert_eq!(tree.get_near_work(&[]), Ok(8));
    /// assert_eq!(tree.get_near_work(&[0.5, 0.7, 7.9]), Ok(6));
    /// // no leaf holds 3.0, as empty cells are not kept
    /// assert_eq!(tree.get_near_work(&[0.5, 3.0]), Err(Refusal::new(Refusal::UNSTORED, 1)));
    /// # Ok::<(), lohandema::Refusal>(())
    /// ```
    ///
    /// # Errors
    /// As [`lent::get_near_work`] with the tree's own box; never [`ROOM`](Refusal::ROOM).
    pub fn get_near_work(&self, targets: &[f64]) -> Result<u64, Refusal> {
        let mut counts = vec![0; self.key.len()];
        lent::get_near_work(&self.bounds, self.columns(), targets, &mut counts)
    }

    /// Whether lists are this tree's, to the last entry: those that [`get_interaction_lists`](Tree::get_interaction_lists)
    /// gives are.
    ///
    /// # Errors
    /// [`DIMS`](Refusal::DIMS); [`TREE`](Refusal::TREE).
    pub fn lists_right(&self, lists: &Lists) -> Result<bool, Refusal> {
        lent::lists_right(self.columns(), lists)
    }

    /// The sums of one leaf, by its node number: the readings of the leaves in its U row, and those of the cells in the V
    /// rows of itself and its ancestors. Together they are the sum of all readings, for every leaf. A reading is a whole
    /// number, at most 2^40 in size, and stands at its source's index. The lists, the order column and the readings are
    /// checked anew in each call.
    ///
    /// ```
    /// use lohandema::{Asked, Bounds, Tree};
    /// let bounds = Bounds::new(&[4.0], 4.0);
    /// let tree = Tree::build(Asked::new(&bounds, &[0.5, 1.5, 6.5, 7.5], 1))?;
    /// let lists = tree.get_interaction_lists()?;
    /// let sums = tree.sum_check(&lists, &[1, 2, 3, 4], 3)?;
    /// assert_eq!((sums.near, sums.far, sums.additions), (3, 7, 3));
    /// # Ok::<(), lohandema::Refusal>(())
    /// ```
    ///
    /// # Errors
    /// [`DIMS`](Refusal::DIMS); [`TREE`](Refusal::TREE); [`SHAPE`](Refusal::SHAPE) where readings and sources differ in
    /// number; [`READING`](Refusal::READING) with the lowest index of a reading that is too large;
    /// [`NOTLEAF`](Refusal::NOTLEAF) with the number given; [`NOTBUILT`](Refusal::NOTBUILT) where the lists or the order
    /// column are not the tree's.
    pub fn sum_check(&self, lists: &Lists, readings: &[i64], node: usize) -> Result<Sums, Refusal> {
        lent::sum_check(self.columns(), &self.order, readings, lists, node)
    }

    /// The sums of every leaf at once: how many leaves' near and far readings together are the sum of all, which is all of
    /// them, and the additions of all leaves. Everything is checked once. Each entry of the lists is found among the nodes,
    /// tested and added up, which took 6 to 29 times the time of the list call (docs/BENCHMARKS.md).
    ///
    /// ```
    /// use lohandema::{Asked, Bounds, Tree};
    /// let bounds = Bounds::new(&[4.0], 4.0);
    /// let tree = Tree::build(Asked::new(&bounds, &[0.5, 1.5, 6.5, 7.5], 1))?;
    /// let lists = tree.get_interaction_lists()?;
    /// let checked = tree.check_sums(&lists, &[1, 2, 3, 4])?;
    /// assert_eq!((checked.leaves, checked.additions), (4, 12));
    /// # Ok::<(), lohandema::Refusal>(())
    /// ```
    ///
    /// # Errors
    /// Those of [`sum_check`](Tree::sum_check), but for [`NOTLEAF`](Refusal::NOTLEAF).
    pub fn check_sums(&self, lists: &Lists, readings: &[i64]) -> Result<Checked, Refusal> {
        let mut sums = vec![0; readings.len() + 1];
        lent::check_sums(self.columns(), &self.order, readings, lists, &mut sums)
    }

    /// How many keys the near and the far rows have, without the lists: it takes no longer than they do, and no room for them.
    ///
    /// ```
    /// use lohandema::{Asked, Bounds, Tree};
    /// let bounds = Bounds::new(&[4.0], 4.0);
    /// let tree = Tree::build(Asked::new(&bounds, &[0.5, 1.5, 6.5, 7.5], 1))?;
    /// assert_eq!(tree.get_list_sizes(), Ok((8, 2)));
    /// # Ok::<(), lohandema::Refusal>(())
    /// ```
    ///
    /// # Errors
    /// As [`get_interaction_lists`](Tree::get_interaction_lists).
    pub fn get_list_sizes(&self) -> Result<(usize, usize), Refusal> {
        let (mut work, mut row) = (vec![0; self.key.len()], vec![0; self.key.len()]);
        lent::get_list_sizes(self.columns(), &mut work, &mut row)
    }

    /// The tree and its lists as a file: nine sections, then the trailer that says where they are.
    ///
    /// ```
    /// use lohandema::{Asked, Bounds, Tree};
    /// let bounds = Bounds::new(&[4.0], 4.0);
    /// let tree = Tree::build(Asked::new(&bounds, &[], 1))?;
    /// let lists = tree.get_interaction_lists()?;
    /// assert_eq!(tree.to_file(&lists)?.len(), 152);
    /// # Ok::<(), lohandema::Refusal>(())
    /// ```
    ///
    /// # Errors
    /// As [`lent::write_tree`]; never [`ROOM`](Refusal::ROOM).
    pub fn to_file(&self, lists: &Lists) -> Result<Vec<u8>, Refusal> {
        let mut file = vec![0; room::file(self, lists)];
        let written = lent::write_tree(self.columns(), &self.order, lists, &mut file)?;
        file.truncate(written);
        Ok(file)
    }

    /// The tree and the lists of a file, which are those that [`to_file`](Tree::to_file) was given: nothing is built. The box is not
    /// in the file and is given, as it was for the build. Whatever the file holds, what is answered is a tree with its own
    /// lists: the columns, the order and each row are judged.
    ///
    /// ```
    /// use lohandema::{Asked, Bounds, Refusal, Tree};
    /// let bounds = Bounds::new(&[4.0], 4.0);
    /// let tree = Tree::build(Asked::new(&bounds, &[0.5, 1.5, 6.5, 7.5], 1))?;
    /// let lists = tree.get_interaction_lists()?;
    /// let mut file = tree.to_file(&lists)?;
    /// assert_eq!(Tree::from_file(bounds, &file)?, (tree, lists));
    /// file.pop();
    /// assert_eq!(Tree::from_file(bounds, &file), Err(Refusal::new(Refusal::SECTION, 0)));
    /// # Ok::<(), lohandema::Refusal>(())
    /// ```
    ///
    /// # Errors
    /// As [`lent::read_tree`]; [`ROOM`](Refusal::ROOM) only, with 3, 6 or 7, if there are more than 1,048,576 nodes or 16,777,216
    /// keys in a list. Last [`DIMS`](Refusal::DIMS), if the file has other axes than the box.
    pub fn from_file(bounds: Bounds, file: &[u8]) -> Result<(Tree, Lists), Refusal> {
        let room = room::held(file);
        let (mut order, mut key) = (vec![0; room.sources], vec![0; room.nodes]);
        let (mut own, mut begin) = (vec![0; room.nodes], vec![0; room.nodes]);
        let mut total = vec![0; room.nodes];
        let mut u = Rows::with_room(room.nodes + 1, room.u);
        let mut v = Rows::with_room(room.nodes + 1, room.v);
        let held = lent::read_tree(
            file,
            &mut order,
            &mut key,
            &mut own,
            &mut begin,
            &mut total,
            &mut u.starts,
            &mut u.keys,
            &mut v.starts,
            &mut v.keys,
        )?;
        if held.axes != bounds.axes {
            return Err(Refusal::new(Refusal::DIMS, 0));
        }
        let tree = Tree::from_columns(bounds, key, own, begin, total, order);
        Ok((tree, Lists { u, v }))
    }

    /// The near and far rows.
    ///
    /// # Errors
    /// [`DIMS`](Refusal::DIMS); [`TREE`](Refusal::TREE); [`ROOM`](Refusal::ROOM) 6 or 7 if the U or V list has more than
    /// 16,777,216 keys.
    pub fn get_interaction_lists(&self) -> Result<Lists, Refusal> {
        let places = self.key.len() + 1;
        let (mut u_room, mut v_room) = room::lists(self);
        loop {
            let (mut u, mut v) = (
                Rows::with_room(places, u_room),
                Rows::with_room(places, v_room),
            );
            let written = lent::get_interaction_lists(
                self.columns(),
                &mut u.starts,
                &mut u.keys,
                &mut v.starts,
                &mut v.keys,
            );
            match written {
                Ok((u_keys, v_keys)) => {
                    u.keys = room::cut(u.keys, u_keys);
                    v.keys = room::cut(v.keys, v_keys);
                    return Ok(Lists { u, v });
                }
                Err(room::U_SHORT) if u_room < MOST_KEYS => u_room = room::more(u_room),
                Err(room::V_SHORT) if v_room < MOST_KEYS => v_room = room::more(v_room),
                Err(refusal) => return Err(refusal),
            }
        }
    }
}
