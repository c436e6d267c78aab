//! How much room is lent. A call that is lent too little is refused after nearly all of its work, so a build gets room for
//! the most nodes that it can have, and the lists a first guess that is seldom short.

use crate::Refusal;
use crate::lent::{self, Asked, Grid, Held};
use crate::limits::{DEEPEST, MOST_KEYS, MOST_NODES, MOST_POINTS, V_ROW};
use crate::points::reference_depth;
use crate::rows::Lists;
use crate::trees::Tree;

/// The rows in so many coordinates, as far as a call counts them: more rows are refused before room is looked at.
pub(crate) fn rows(axes: usize, coordinates: usize) -> usize {
    (coordinates / axes.max(1)).min(MOST_POINTS)
}

/// How many targets a build may use.
fn targets(asked: &Asked) -> usize {
    if asked.refine {
        rows(asked.bounds.axes, asked.targets.len())
    } else {
        0
    }
}

/// How many points of a grid a build may use, as far as a call counts them.
pub(crate) fn points(asked: &Asked, grid: &Grid) -> usize {
    if asked.refine {
        let axes = asked.bounds.axes.clamp(1, 3);
        let all = grid.shape[..axes].iter();
        all.fold(1_usize, |points, shape| points.saturating_mul(*shape))
            .min(MOST_POINTS)
    } else {
        0
    }
}

/// The entries of `work`: two for each source and one for each target that may be used.
pub(crate) fn work(asked: &Asked) -> usize {
    2 * rows(asked.bounds.axes, asked.sources.len()) + targets(asked)
}

/// The most nodes that a build can have. A cell that splits, the root apart, has more sources than the limit or more targets
/// than the near limit, so that a level has only so many of them. Each has at most 2^axes children, and without empty cells
/// each child has a source.
pub(crate) fn most_nodes(asked: &Asked) -> usize {
    most_nodes_with(asked, targets(asked))
}

impl Asked<'_> {
    /// Room for nodes that is enough for [`lent::build_tree`](crate::lent::build_tree): the most nodes that a tree of so many
    /// points can have, whatever lies where. Worked out and not proved; [`Tree::build`] makes so much.
    ///
    /// ```
    /// use lohandema::{Asked, Bounds, Tree};
    /// let bounds = Bounds::new(&[4.0], 4.0);
    /// let asked = Asked::new(&bounds, &[0.5, 1.5, 6.5, 7.5], 1);
    /// assert_eq!((asked.most_nodes(), Tree::build(asked)?.key.len()), (63, 9));
    /// # Ok::<(), lohandema::Refusal>(())
    /// ```
    #[must_use]
    pub fn most_nodes(&self) -> usize {
        most_nodes(self)
    }

    /// How many nodes the tree of [`Tree::build`] has, exactly, with no tree: for the room of
    /// [`lent::build_tree`](crate::lent::build_tree). The tree is grown and its nodes are counted, so that it takes nearly as
    /// long as the build.
    ///
    /// ```
    /// use lohandema::{Asked, Bounds, Tree};
    /// let bounds = Bounds::new(&[4.0], 4.0);
    /// let asked = Asked::new(&bounds, &[0.5, 1.5, 6.5, 7.5], 1);
    /// assert_eq!((asked.count_nodes()?, Tree::build(asked)?.key.len()), (9, 9));
    /// # Ok::<(), lohandema::Refusal>(())
    /// ```
    ///
    /// # Errors
    /// As [`Tree::build`].
    pub fn count_nodes(&self) -> Result<usize, Refusal> {
        let mut order = vec![0; rows(self.bounds.axes, self.sources.len())];
        lent::count_nodes(*self, &mut vec![0; work(self)], &mut order)
    }

    /// The same for [`Tree::build_on_grid`].
    ///
    /// ```
    /// use lohandema::{Asked, Bounds, Grid, Tree};
    /// let bounds = Bounds::new(&[4.0], 4.0);
    /// let asked = Asked::new(&bounds, &[0.5, 7.5], 9).refined(&[], 4);
    /// let grid = Grid::new([0.0; 3], [0.001, 1.0, 1.0], [8000, 1, 1]);
    /// let tree = Tree::build_on_grid(asked, &grid)?;
    /// assert_eq!((asked.count_nodes_on_grid(&grid)?, tree.key.len()), (2047, 2047));
    /// # Ok::<(), lohandema::Refusal>(())
    /// ```
    ///
    /// # Errors
    /// As [`Tree::build_on_grid`].
    pub fn count_nodes_on_grid(&self, grid: &Grid) -> Result<usize, Refusal> {
        let rows = rows(self.bounds.axes, self.sources.len());
        lent::count_nodes_on_grid(*self, grid, &mut vec![0; 2 * rows], &mut vec![0; rows])
    }
}

/// The same with so many targets.
pub(crate) fn most_nodes_with(asked: &Asked, targets: usize) -> usize {
    let axes = asked.bounds.axes.clamp(1, 3);
    let sources = rows(axes, asked.sources.len());
    let near_limit = asked.limit.max(asked.order.saturating_pow(axes as u32));
    let by_sources = sources / asked.limit.saturating_add(1);
    let by_targets = targets / near_limit.saturating_add(1);
    let splitting = |level| (by_sources + by_targets).min(1_usize << (axes as u64 * level));
    let split: usize = (1..DEEPEST).map(splitting).sum();
    let children = (1 + split) << axes;
    let stored = if asked.keep_empty {
        children
    } else {
        children.min(DEEPEST as usize * sources)
    };
    (1 + stored).min(MOST_NODES)
}

/// How many keys the U rows and the V rows of a tree may have: a first guess.
///
/// Where all leaves are of one level, a U row has three cells along each axis along which cells divide, which is the mean
/// number of children to the power log2 3; near leaves of other levels come on top where the tree is deeper than so many
/// leaves need. V rows come from pairs of neighbours, so that 3^axes - 1 times the squares of the numbers of children is
/// enough. Of the leaves only those with sources are listed.
pub(crate) fn lists(tree: &Tree) -> (usize, usize) {
    let axes = tree.axes().clamp(1, 3);
    let below = tree.key.get(1..).unwrap_or(&[]);
    let (parents, squares) = families(axes, below);
    let leaves = below.len() + 1 - parents;
    let owners = tree.own.iter().filter(|own| **own > 0).count();
    let sourced = owners as f64 / leaves as f64;
    let needed = reference_depth(axes, leaves).unwrap_or(0);
    let spread = tree.depth().saturating_sub(needed) as f64;
    let nodes = below.len() as f64;
    let row = (nodes / parents as f64).powf(3_f64.log2()) * (1.0 + spread / 2.0);
    let u = 1.25 * nodes * row * (2.0 * sourced).min(1.0);
    let pairs = (3_f64.powi(axes as i32) - 1.0) * squares;
    let full = nodes * V_ROW[axes - 1] as f64;
    let v = pairs.min(full * (2.0 * sourced * sourced).min(1.0));
    (capped(u), capped(v))
}

/// How many parents these keys have, and the squares of the numbers of their children, summed. Among the keys of one level
/// siblings follow each other.
fn families(axes: usize, keys: &[u64]) -> (usize, f64) {
    // of each level, the code of the last key's parent, which no code of a key comes up to, and how many children it had
    let mut last = [(u64::MAX, 0); DEEPEST as usize + 1];
    keys.iter().fold((0, 0.0), |(count, squares), key| {
        let family = &mut last[(key % 32768).min(DEEPEST) as usize];
        let parent = (key / 32768) >> axes;
        let nth = if family.0 == parent { family.1 + 1 } else { 1 };
        *family = (parent, nth);
        // n squared is the sum of the first n odd numbers
        (
            count + usize::from(nth == 1),
            squares + (2 * nth - 1) as f64,
        )
    })
}

/// So many keys, as far as they count.
fn capped(keys: f64) -> usize {
    (keys.ceil() as usize).min(MOST_KEYS)
}

/// The bytes of a tree's file: eight a key, four for each other number, and the trailer of nine entries.
pub(crate) fn file(tree: &Tree, lists: &Lists) -> usize {
    let keys = [&tree.key, &lists.u.keys, &lists.v.keys].map(|keys| keys.len());
    let numbers = [
        &tree.own,
        &tree.begin,
        &tree.total,
        &tree.order,
        &lists.u.starts,
        &lists.v.starts,
    ]
    .map(|numbers| numbers.len());
    8 * keys.iter().sum::<usize>() + 4 * numbers.iter().sum::<usize>() + 9 * 12 + 8
}

/// How many entries a tree file says that it holds, as far as they count: of a good file those that it has. Of any other they
/// are some, and no more than it has bytes; the call that reads it says what is wrong with it, whatever room there is.
pub(crate) fn held(file: &[u8]) -> Held {
    let mut held = Held::default();
    let number =
        |bytes: &[u8]| u32::from_le_bytes([bytes[0], bytes[1], bytes[2], bytes[3]]) as usize;
    let Some((before, last)) = file.split_last_chunk::<8>() else {
        return held;
    };
    let Some(start) = before.len().checked_sub(12 * number(&last[4..])) else {
        return held;
    };
    for entry in before[start..].chunks_exact(12) {
        let length = number(&entry[8..]).min(file.len());
        match number(entry) {
            1 => held.nodes = (length / 8).min(MOST_NODES),
            5 => held.sources = (length / 4).min(MOST_POINTS),
            7 => held.u = (length / 8).min(MOST_KEYS),
            9 => held.v = (length / 8).min(MOST_KEYS),
            _ => {}
        }
    }
    held
}

/// The most nodes that the balanced tree of one of so many nodes can have. A cell that is split there is split in the given
/// tree or touches one of its level that is, so there are at most 3^axes times as many.
pub(crate) fn balanced(axes: usize, nodes: usize) -> usize {
    let times = [1, 3, 9, 27][axes.min(3)];
    let below = nodes.saturating_sub(1).saturating_mul(times);
    below.saturating_add(1).min(MOST_NODES)
}

/// The most nodes that can be had of these rows: the root, and for each key the cells on the way to it, itself among them.
pub(crate) fn salvaged(keys: &[u64]) -> usize {
    let levels = keys.iter().map(|key| key % 32768);
    let cells: u64 = levels.filter(|level| *level <= DEEPEST).sum();
    (cells as usize).saturating_add(1).min(MOST_NODES)
}

/// The most sources that can be had of these rows: all runs that do not pass the order column's end, as far as they count.
pub(crate) fn runs(own: &[usize], begin: &[usize], order: &[usize]) -> usize {
    let ends = |(count, from): (&usize, &usize)| Some((*count, count.checked_add(*from)?));
    let within = own.iter().zip(begin).filter_map(ends);
    let within = within.filter(|(_, end)| *end <= order.len());
    within.fold(0_usize, |sum, (count, _)| {
        sum.saturating_add(count).min(MOST_POINTS)
    })
}

/// What says that the U keys were short, and the V keys.
pub(crate) const U_SHORT: Refusal = Refusal::new(Refusal::ROOM, 6);
pub(crate) const V_SHORT: Refusal = Refusal::new(Refusal::ROOM, 7);

/// Four times the room, for a guess that was short.
pub(crate) fn more(room: usize) -> usize {
    room.max(16).saturating_mul(4).min(MOST_KEYS)
}

/// The entries that were written. Unused room is given back where it is the greater part.
pub(crate) fn cut<T>(mut lent: Vec<T>, written: usize) -> Vec<T> {
    lent.truncate(written);
    if lent.capacity() / 2 > written {
        lent.shrink_to_fit();
    }
    lent
}

/// The most nodes that a tree of so many nodes can have with one source more. Of each level there is one cell that holds it, and
/// only such a cell gets children.
pub(crate) fn one_more(axes: usize, nodes: usize) -> usize {
    let children = (DEEPEST as usize) << axes.clamp(1, 3);
    nodes.saturating_add(children).min(MOST_NODES)
}
