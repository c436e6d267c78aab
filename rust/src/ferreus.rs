//! Tree and lists in the sets and maps of `ferreus_bbfmm`, for a program that was written against its `TreeLists`.
//!
//! The fields have the names and types of the Rust's, and hold the same keys: `differential/run` compares them. What the Rust
//! leaves to chance is settled here: the numbers of `key_to_index_map` are those of the nodes of the [`Tree`], and the cells of
//! a level ascend. A map of so many keys takes longer to fill than the tree and the lists take to make; a new program is better
//! off with [`Tree`] and [`Lists`].
//!
//! ```
//! use lohandema::ferreus::TreeLists;
//! use lohandema::{Asked, Bounds, Tree};
//! let bounds = Bounds::new(&[4.0], 4.0);
//! let tree = Tree::build(Asked::new(&bounds, &[0.5, 1.5, 6.5, 7.5], 1))?;
//! let lists = TreeLists::of(&tree)?;
//! assert_eq!(lists.u_lists[&3], [3, 32771]);
//! assert_eq!(lists.children[&1], [2]);
//! assert!(lists.leaves.contains(&229379));
//! # Ok::<(), lohandema::Refusal>(())
//! ```

use crate::refusal::Refusal;
use crate::rows::{Groups, Lists, Rows};
use crate::trees::Tree;
use std::collections::{HashMap, HashSet};

/// The tree and its lists by key.
#[derive(Clone, Debug, Default, PartialEq, Eq)]
#[must_use]
pub struct TreeLists {
    /// The keys of all nodes.
    pub tree: HashSet<u64>,
    /// The keys of the leaves.
    pub leaves: HashSet<u64>,
    /// For each node the keys of its stored children, ascending; none for a leaf.
    pub children: HashMap<u64, Vec<u64>>,
    /// For each leaf with a U row that is not empty, that row, ascending.
    pub u_lists: HashMap<u64, Vec<u64>>,
    /// For each node with a V row that is not empty, that row, ascending.
    pub v_lists: HashMap<u64, Vec<u64>>,
    /// For each level the keys of its nodes, ascending.
    pub level_cells_map: HashMap<u64, Vec<u64>>,
    /// The number of each node. The Rust counts in an order of its own that is another one in each run.
    pub key_to_index_map: HashMap<u64, usize>,
    /// For each cell with sources its place among these, ascending by key.
    pub source_key_to_index_map: HashMap<u64, usize>,
    /// For each leaf with sources their indices, ascending.
    pub leaf_source_indices: HashMap<u64, Vec<usize>>,
    /// For each leaf with targets their indices, ascending: empty as in the Rust, until [`set_targets`](TreeLists::set_targets).
    pub leaf_target_indices: HashMap<u64, Vec<usize>>,
}

impl TreeLists {
    /// Those of a tree, whose lists are made for it.
    ///
    /// # Errors
    /// As [`Tree::get_interaction_lists`].
    pub fn of(tree: &Tree) -> Result<TreeLists, Refusal> {
        TreeLists::by_keys(tree, &tree.get_interaction_lists()?)
    }

    /// Those of a tree and its lists, which are at hand. That they are this tree's is checked.
    ///
    /// # Errors
    /// [`DIMS`](Refusal::DIMS); [`TREE`](Refusal::TREE); [`NOTBUILT`](Refusal::NOTBUILT) for lists that are not the tree's.
    pub fn from_lists(tree: &Tree, lists: &Lists) -> Result<TreeLists, Refusal> {
        if !tree.lists_right(lists)? {
            return Err(Refusal::new(Refusal::NOTBUILT, 0));
        }
        TreeLists::by_keys(tree, lists)
    }

    fn by_keys(tree: &Tree, lists: &Lists) -> Result<TreeLists, Refusal> {
        let nodes = || tree.key.iter().copied().enumerate();
        let with_sources = tree.leaves()?.filter(|leaf| !leaf.sources.is_empty());
        let sourced = tree.get_sourced_cells()?.into_iter().enumerate();
        Ok(TreeLists {
            tree: tree.key.iter().copied().collect(),
            leaves: tree.leaves()?.map(|leaf| leaf.key).collect(),
            children: nodes().map(|(n, key)| (key, children(tree, n))).collect(),
            u_lists: by_key(tree, &lists.u),
            v_lists: by_key(tree, &lists.v),
            level_cells_map: levels(tree),
            key_to_index_map: nodes().map(|(n, key)| (key, n)).collect(),
            source_key_to_index_map: sourced.map(|(place, key)| (key, place)).collect(),
            leaf_source_indices: with_sources
                .map(|leaf| (leaf.key, leaf.sources.to_vec()))
                .collect(),
            leaf_target_indices: HashMap::new(),
        })
    }

    /// Looks targets up and keeps their indices by leaf. The targets are rows of one coordinate for each axis, flat.
    ///
    /// # Errors
    /// As [`Tree::points_to_keys`].
    pub fn set_targets(&mut self, tree: &Tree, targets: &[f64]) -> Result<(), Refusal> {
        let (leaves, _steps) = tree.points_to_keys(targets)?;
        let groups = tree.get_points_to_leaves_map(&leaves)?;
        self.leaf_target_indices = points_to_leaves_map(tree, &groups);
        Ok(())
    }
}

/// The points of each leaf that has any, by its key: what the Rust's `get_points_to_leaves_map` answers.
#[must_use]
pub fn points_to_leaves_map(tree: &Tree, groups: &Groups) -> HashMap<u64, Vec<usize>> {
    let nodes = tree.key.iter().copied().zip(groups.iter());
    nodes
        .filter(|(_, points)| !points.is_empty())
        .map(|(key, points)| (key, points.to_vec()))
        .collect()
}

/// The keys of a node's children.
fn children(tree: &Tree, node: usize) -> Vec<u64> {
    tree.children(node).map(|child| tree.key[child]).collect()
}

/// The rows that are not empty, by key.
fn by_key(tree: &Tree, rows: &Rows) -> HashMap<u64, Vec<u64>> {
    let all = tree.key.iter().copied().zip(rows.iter());
    all.filter(|(_, row)| !row.is_empty())
        .map(|(key, row)| (key, row.to_vec()))
        .collect()
}

/// The keys of each level that has any.
fn levels(tree: &Tree) -> HashMap<u64, Vec<u64>> {
    let cells = |level| {
        let nodes = tree.level_nodes(level);
        (level, nodes.map(|node| tree.key[node]).collect::<Vec<_>>())
    };
    (0..=tree.depth())
        .map(cells)
        .filter(|(_, keys)| !keys.is_empty())
        .collect()
}
