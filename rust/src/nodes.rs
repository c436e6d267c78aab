//! From keys to nodes and from node to node: by the proved calls on the key column.

use crate::keys;
use crate::raw;
use crate::rows::Rows;
use crate::trees::Tree;
use std::iter::successors;

impl Tree {
    /// The number of the node with a key; none where no node has it.
    ///
    /// ```
    /// use lohandema::{Asked, Bounds, Tree};
    /// let bounds = Bounds::new(&[4.0], 4.0);
    /// let tree = Tree::build(Asked::new(&bounds, &[0.5, 1.5, 6.5, 7.5], 1))?;
    /// assert_eq!(tree.node_of(98306), Some(6));
    /// assert_eq!(tree.node_of(32770), None);
    /// # Ok::<(), lohandema::Refusal>(())
    /// ```
    #[must_use]
    pub fn node_of(&self, key: u64) -> Option<usize> {
        let mut node = 0;
        // SAFETY: the column is read with its own length; `node` is ours.
        let found = unsafe {
            raw::lohandema_find_node(
                self.axes(),
                self.key.as_ptr(),
                self.key.len(),
                key,
                &mut node,
            )
        };
        found.then_some(node)
    }

    /// Whether a node is a leaf: not the root, and no child is stored. A number past the nodes is none.
    #[must_use]
    pub fn is_leaf(&self, node: usize) -> bool {
        // SAFETY: the column is read with its own length.
        unsafe { raw::lohandema_is_leaf(self.key.as_ptr(), self.key.len(), node) }
    }

    /// The stored children of a node, by number, ascending; none for a number past the nodes.
    ///
    /// ```
    /// use lohandema::{Asked, Bounds, Tree};
    /// let bounds = Bounds::new(&[4.0], 4.0);
    /// let tree = Tree::build(Asked::new(&bounds, &[0.5, 1.5, 6.5, 7.5], 1))?;
    /// assert_eq!(tree.children(0).collect::<Vec<_>>(), [1, 5]);
    /// assert_eq!(tree.children(8).count(), 0);
    /// # Ok::<(), lohandema::Refusal>(())
    /// ```
    pub fn children(&self, node: usize) -> impl Iterator<Item = usize> {
        let key = self.key.get(node);
        let below = key.and_then(|key| keys::get_children(self.axes(), *key).ok());
        let below = below.unwrap_or_default().into_iter();
        below.filter_map(|child| self.node_of(child))
    }

    /// The node that holds a node, one level up; none for the root and for a number past the nodes.
    #[must_use]
    pub fn parent(&self, node: usize) -> Option<usize> {
        let above = keys::get_parent(self.axes(), *self.key.get(node)?).ok()?;
        self.node_of(above)
    }

    /// A node and those that hold it, up to the root.
    pub fn path(&self, node: usize) -> impl Iterator<Item = usize> {
        let first = (node < self.key.len()).then_some(node);
        successors(first, |node| self.parent(*node))
    }

    /// The nodes of a level, by number, ascending.
    ///
    /// ```
    /// use lohandema::{Asked, Bounds, Tree};
    /// let bounds = Bounds::new(&[4.0], 4.0);
    /// let tree = Tree::build(Asked::new(&bounds, &[0.5, 1.5, 6.5, 7.5], 1))?;
    /// assert_eq!(tree.level_nodes(2).collect::<Vec<_>>(), [2, 6]);
    /// assert_eq!((0..=tree.depth()).map(|level| tree.level_nodes(level).count()).sum::<usize>(), 9);
    /// # Ok::<(), lohandema::Refusal>(())
    /// ```
    pub fn level_nodes(&self, level: u64) -> impl Iterator<Item = usize> {
        successors(self.next_of_level(level, 0), move |node| {
            self.next_of_level(level, node + 1)
        })
    }

    fn next_of_level(&self, level: u64, from: usize) -> Option<usize> {
        // SAFETY: the column is read with its own length.
        let node =
            unsafe { raw::lohandema_next_of_level(self.key.as_ptr(), self.key.len(), level, from) };
        (node < self.key.len()).then_some(node)
    }

    /// The numbers of the nodes with these keys, in their order; none where no node has one of them.
    #[must_use]
    pub fn nodes_of(&self, keys: &[u64]) -> Option<Vec<usize>> {
        keys.iter().map(|key| self.node_of(*key)).collect()
    }

    /// The row of a node as node numbers, in the order of its keys; none where a key is not this tree's, which no row of its
    /// own lists has.
    ///
    /// ```
    /// use lohandema::{Asked, Bounds, Tree};
    /// let bounds = Bounds::new(&[4.0], 4.0);
    /// let tree = Tree::build(Asked::new(&bounds, &[0.5, 1.5, 6.5, 7.5], 1))?;
    /// let lists = tree.get_interaction_lists()?;
    /// assert_eq!(tree.row_nodes(&lists.u, 3), Some(vec![3, 4]));
    /// assert_eq!(tree.row_nodes(&lists.v, 2), Some(vec![6]));
    /// # Ok::<(), lohandema::Refusal>(())
    /// ```
    #[must_use]
    pub fn row_nodes(&self, rows: &Rows, node: usize) -> Option<Vec<usize>> {
        self.nodes_of(rows.row(node))
    }
}
