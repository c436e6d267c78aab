//! Near work by targets: with the sum over the targets of the sources in the U row of their leaf, leaves by the Rust's
//! `points_to_keys` and rows by its U; on trees that it built, and on trees that nobody built.
use crate::inputs;
use crate::oracle::{self, Survey, level};
use crate::random::Random;
use crate::refusals::{asked, left, lent_slice};
use crate::tally::Tally;
use crate::trees::{axes_of, looked_up, odd_tree, rust_rows, show};
use ferreus_bbfmm::bbfmm::TreeLists;
use lohandema::Refusal;
use lohandema::lent;
use lohandema::points::Bounds;
use lohandema::trees::Tree;
use std::collections::HashMap;

/// A tree with what the Rust says of it.
pub struct Known<'a> {
    pub s: &'a Survey,
    pub lists: &'a TreeLists,
    pub u: &'a HashMap<u64, Vec<u64>>,
    pub depth: u64,
    pub tree: &'a Tree,
}

impl Known<'_> {
    /// The leaf of each target; where there are none, of each source.
    fn leaves(&self, targets: &[f64]) -> Result<Vec<u64>, Refusal> {
        if targets.is_empty() {
            let of_leaf = self.lists.leaf_source_indices.iter();
            let again = |(key, sources): (&u64, &Vec<usize>)| vec![*key; sources.len()];
            return Ok(of_leaf.flat_map(again).collect());
        }
        let (keys, _) = looked_up(self.s, &self.lists.leaves, self.depth, targets)?;
        Ok(keys)
    }

    /// Near work, and how many targets each node has.
    pub fn right(&self, targets: &[f64]) -> Result<(u64, Vec<usize>), Refusal> {
        let own = |key: &u64| self.lists.leaf_source_indices.get(key).map_or(0, Vec::len);
        let in_row = |row: &Vec<u64>| row.iter().map(own).sum::<usize>();
        let sums: HashMap<u64, usize> = self.u.iter().map(|(k, row)| (*k, in_row(row))).collect();
        let mut counts: HashMap<u64, usize> = HashMap::new();
        let mut work = 0;
        for leaf in self.leaves(targets)? {
            work += sums.get(&leaf).copied().unwrap_or(0) as u64;
            *counts.entry(leaf).or_default() += 1;
        }
        let of_node = |key: &u64| counts.get(key).copied().unwrap_or(0);
        Ok((work, self.tree.key.iter().map(of_node).collect()))
    }

    /// Both faces' answers beside the right one, with rubbish in counts that may be longer than they need.
    pub fn compare(&self, t: &mut Tally, r: &mut Random, targets: &[f64], what: &str) {
        let right = self.right(targets);
        let room = self.tree.key.len() + r.index(4);
        let mut counts = vec![usize::MAX; room];
        let ours = lent::get_near_work(&self.s.bounds, self.tree.columns(), targets, &mut counts);
        let none = vec![];
        let after = left(room, right.as_ref().map_or(&none, |(_, counts)| counts));
        if right.is_err() {
            t.refusal();
        }
        let input = || {
            format!(
                "{what}: {} {:?} targets {targets:?}",
                show(self.s),
                self.tree
            )
        };
        let work = right.map(|(work, _)| work);
        t.same("near work", ours, work, input);
        t.same("near work's counts", counts, after, input);
        t.same("near work", self.tree.get_near_work(targets), work, input);
    }

    /// The middles of these leaves, as far as they are in them.
    fn middles(&self, keys: impl Iterator<Item = u64>) -> Vec<f64> {
        let b = &self.s.bounds;
        let middle = |key| b.get_center_length(key).expect("a key").0;
        let rows = keys.map(middle).filter(|p| oracle::inside(b, p));
        rows.flat_map(|p| p[..b.axes].to_vec()).collect()
    }

    /// Of the coarsest leaves the one with the longest U row.
    fn coarse(&self) -> Option<u64> {
        let leaves = self.u.iter();
        let best = leaves.max_by_key(|(key, row)| (16 - level(**key), row.len(), **key));
        best.map(|(key, _)| *key)
    }
}

/// Points that no leaf holds, if some of those drawn are such; and one that is outside.
fn failing(r: &mut Random, known: &Known) -> (Vec<f64>, Vec<f64>) {
    let b = &known.s.bounds;
    let drawn = inputs::points(r, b, 20);
    let gaps = drawn.chunks(b.axes).filter(|p| {
        let found = looked_up(known.s, &known.lists.leaves, known.depth, p);
        found.is_err()
    });
    let gap = gaps.take(1).flatten().copied().collect();
    let mut outside = b.centre[..b.axes].to_vec();
    let axis = r.index(b.axes);
    outside[axis] = r.pick(&[f64::NAN, f64::INFINITY, f64::MIN, 1e300]);
    (gap, outside)
}

/// Batches of targets of every sort for one tree.
fn all(t: &mut Tally, r: &mut Random, known: &Known) {
    let b = &known.s.bounds;
    known.compare(t, r, &[], "none");
    known.compare(t, r, &known.s.sources, "the sources");
    known.compare(t, r, &known.s.targets, "the targets");
    let rows = r.index(60);
    let others = inputs::points(r, b, rows);
    known.compare(t, r, &others, "others");
    let own = &known.lists.leaf_source_indices;
    let empty = known.lists.leaves.iter().filter(|k| !own.contains_key(k));
    let mut empty: Vec<u64> = empty.copied().take(40).collect();
    empty.sort_unstable();
    let mut good = known.middles(empty.into_iter());
    known.compare(t, r, &good, "in empty leaves");
    let middle = known.middles(known.coarse().into_iter());
    let many = middle.repeat(1 + r.index(50));
    known.compare(t, r, &many, "in one coarse leaf");
    good.extend(middle);
    // the lowest index decides between the two refusals
    let (gap, outside) = failing(r, known);
    let tail = inputs::points(r, b, 3);
    let first = [&good[..], &gap, &outside, &tail].concat();
    known.compare(t, r, &first, "a gap before one outside");
    let second = [&good[..], &outside, &gap, &tail].concat();
    known.compare(t, r, &second, "one outside before a gap");
    // the same where the failing ones stand about the end of a piece of 512, as targets are counted
    if r.once_in(10) && !good.is_empty() {
        let rows = 509 + r.index(6) + 512 * r.index(2);
        let long: Vec<f64> = good.iter().copied().cycle().take(rows * b.axes).collect();
        known.compare(t, r, &long, "many");
        let first = [&long[..], &gap, &outside, &tail].concat();
        known.compare(t, r, &first, "many, a gap, one outside");
        let second = [&long[..], &outside, &gap, &tail].concat();
        known.compare(t, r, &second, "many, one outside, a gap");
    }
}

/// A tree that nobody built, in a box in which its middles and corners are points.
fn odd(t: &mut Tally, r: &mut Random) {
    let lists = odd_tree(r, 400);
    let bounds = Bounds::new(&[4.0; 3][..axes_of(&lists)], 4.0);
    let tree = oracle::columns(&bounds, &lists);
    let right = rust_rows(&lists, bounds.axes);
    let s = Survey {
        sources: vec![],
        targets: inputs::points(r, &bounds, 20),
        bounds,
        limit: 1,
        order: 1,
        keep_empty: false,
    };
    let known = Known {
        s: &s,
        lists: &lists,
        u: &right.u,
        depth: tree.key.iter().map(|k| level(*k)).max().unwrap_or(0).max(1),
        tree: &tree,
    };
    all(t, r, &known);
}

/// Near work on trees that the Rust built, and on others.
pub fn near_work(t: &mut Tally, r: &mut Random, case: u64) {
    if case % 2 == 1 {
        return odd(t, r);
    }
    let s = inputs::survey(r, 400);
    let (lists, depth) = oracle::build(&s);
    let tree = oracle::columns(&s.bounds, &lists);
    let (s, lists, u, tree) = (&s, &lists, &lists.u_lists, &tree);
    let known = Known {
        s,
        lists,
        u,
        depth,
        tree,
    };
    all(t, r, &known);
}

/// The checks 1, 2, 3, 4, 13, 8, and then the targets; of a tree that may be none.
pub fn refusals(t: &mut Tally, r: &mut Random, known: &Known, good: bool) {
    let (s, tree) = (known.s, known.tree);
    let mut b = s.bounds;
    b.axes = tree.axes();
    if r.once_in(8) {
        b.radius = r.pick(&[0.2, f64::NAN, -4.0]);
    }
    let rows = r.index(12);
    let mut targets = inputs::points(r, &s.bounds, rows);
    if r.once_in(3) {
        targets.extend_from_slice(&inputs::point(r, &s.bounds)[..s.bounds.axes]);
    }
    if r.once_in(8) {
        targets.pop();
    }
    let mut counts = lent_slice(r, tree.key.len(), usize::MAX);
    let right = asked((1..=3).contains(&b.axes), (1, 0))
        .and_then(|_| asked(crate::points::in_domain(&b), (2, 0)))
        .and_then(|_| asked(targets.len() % b.axes == 0, (3, 0)))
        .and(asked(good, (13, 0)))
        .and(asked(tree.key.len() <= counts.len(), (8, 8)))
        .and_then(|_| known.right(&targets));
    let none = vec![];
    let after = left(
        counts.len(),
        right.as_ref().map_or(&none, |(_, counts)| counts),
    );
    let ours = lent::get_near_work(&b, tree.columns(), &targets, &mut counts);
    let input = || format!("{b:?} {tree:?} targets {targets:?}");
    if right.is_err() {
        t.refusal();
    }
    t.same("near work", ours, right.map(|(work, _)| work), input);
    t.same("near work's counts", counts, after, input);
}

/// Without targets: the sum over the leaves of own sources times the sources in the Rust's U.
pub fn of_sources(tree: &Tree, u: &HashMap<u64, Vec<u64>>) -> u64 {
    let columns = tree.key.iter().copied().zip(tree.own.iter().copied());
    let own: HashMap<u64, usize> = columns.collect();
    let in_row = |row: &Vec<u64>| row.iter().map(|k| own[k]).sum::<usize>();
    let work: usize = u.iter().map(|(leaf, row)| own[leaf] * in_row(row)).sum();
    work as u64
}

pub fn compare_of_sources(
    t: &mut Tally,
    tree: &Tree,
    u: &HashMap<u64, Vec<u64>>,
    input: impl Fn() -> String,
) {
    let near = of_sources(tree, u);
    t.same("near work", tree.get_near_work(&[]), Ok(near), input);
}
