//! Plain Rust with sorted vectors, to measure beside: no hash set, no table of masks, each row written once, behind the one
//! before. Three readings, which differ in how the nodes around a parent are found, among whose children both rows of a node
//! are: by binary search for each node anew; by binary search once for a group of siblings; or not searched but kept from
//! when the parent's own rows were made.
use lohandema::trees::Lists;

/// How the nodes around a parent are found.
#[derive(Clone, Copy, Debug, PartialEq, Eq)]
pub enum Reading {
    Searched,
    Siblings,
    Kept,
}

pub const READINGS: [(&str, Reading); 3] = [
    ("searched", Reading::Searched),
    ("siblings", Reading::Siblings),
    ("kept", Reading::Kept),
];

fn level_of(key: u64) -> usize {
    (key % 32768) as usize
}

fn code_of(key: u64) -> u64 {
    key / 32768
}

/// One number that orders keys as nodes stand: by the first level-16 code in the cell, then by level.
pub fn rank_of(axes: usize, level: u64, code: u64) -> u64 {
    code << (axes as u64 * (16 - level)) << 5 | level
}

/// A tree's columns and what follows from them. A node is a place in the columns, which are depth first.
struct Plain<'a> {
    axes: usize,
    key: &'a [u64],
    parent: Vec<u32>,
    /// The first node behind each node and all below it.
    end: Vec<u32>,
    anchor: Vec<[i32; 3]>,
    /// The keys of the leaves that own sources, as they stand, and how many of them stand before each node and before the end.
    owners: Vec<u64>,
    before: Vec<u32>,
}

/// Each node's parent, the last node before it that is one level up, and the first node behind all below it.
fn parents_and_ends(key: &[u64]) -> (Vec<u32>, Vec<u32>) {
    let mut last = [0; 17];
    let (mut parent, mut end) = (vec![0; key.len()], vec![0; key.len()]);
    for node in 1..key.len() {
        let level = level_of(key[node]);
        parent[node] = last[level - 1];
        last[level] = node as u32;
    }
    for node in (0..key.len()).rev() {
        end[node] = end[node].max(node as u32 + 1);
        let above = parent[node] as usize;
        end[above] = end[above].max(end[node]);
    }
    (parent, end)
}

impl<'a> Plain<'a> {
    fn new(axes: usize, key: &'a [u64], own: &[usize]) -> Plain<'a> {
        let (parent, end) = parents_and_ends(key);
        let mut anchor = vec![[0; 3]; key.len()];
        for node in 1..key.len() {
            let above = anchor[parent[node] as usize];
            for axis in 0..axes {
                anchor[node][axis] = 2 * above[axis] + (code_of(key[node]) >> axis & 1) as i32;
            }
        }
        let (mut owners, mut before) = (vec![], vec![0]);
        for (k, count) in key.iter().zip(own) {
            if *count > 0 {
                owners.push(*k);
            }
            before.push(owners.len() as u32);
        }
        Plain {
            axes,
            key,
            parent,
            end,
            anchor,
            owners,
            before,
        }
    }

    fn parent(&self, node: usize) -> usize {
        self.parent[node] as usize
    }

    fn is_leaf(&self, node: usize) -> bool {
        self.end[node] as usize == node + 1
    }

    /// The keys of the leaves with sources in a node, which may be one itself.
    fn owners_in(&self, node: usize) -> &[u64] {
        &self.owners[self.before[node] as usize..self.before[self.end[node] as usize] as usize]
    }

    fn is_sourced(&self, node: usize) -> bool {
        !self.owners_in(node).is_empty()
    }
}

/// The nodes with sources, level by level, each level's rising.
struct Levels {
    codes: Vec<u64>,
    nodes: Vec<u32>,
    starts: [usize; 18],
}

/// The parts that the cells before, at and behind a cell have in their codes along an axis, and how many of these cells the
/// level has; past the axes one part, 0. A cell's own part is the bits of its code that `mask` has.
fn parts(own: u64, mask: u64) -> ([u64; 3], usize) {
    let (mut parts, mut count) = ([own; 3], 1);
    if own > 0 {
        parts[count] = (own - 1) & mask;
        count += 1;
    }
    if own < mask {
        parts[count] = ((own | !mask) + 1) & mask;
        count += 1;
    }
    (parts, count)
}

impl Levels {
    fn new(tree: &Plain) -> Levels {
        let mut starts = [0; 18];
        let sourced = || (0..tree.key.len()).filter(|node| tree.is_sourced(*node));
        for node in sourced() {
            starts[level_of(tree.key[node]) + 1] += 1;
        }
        for level in 0..17 {
            starts[level + 1] += starts[level];
        }
        let (mut codes, mut nodes) = (vec![0; starts[17]], vec![0; starts[17]]);
        let mut next = starts;
        for node in sourced() {
            let place = &mut next[level_of(tree.key[node])];
            codes[*place] = code_of(tree.key[node]);
            nodes[*place] = node as u32;
            *place += 1;
        }
        Levels {
            codes,
            nodes,
            starts,
        }
    }

    /// The nodes with sources that touch a node, itself among them, rising, by binary search.
    fn around(&self, tree: &Plain, node: usize, found: &mut Vec<u32>) {
        let level = level_of(tree.key[node]);
        let of_level = self.starts[level]..self.starts[level + 1];
        let codes = &self.codes[of_level.clone()];
        let nodes = &self.nodes[of_level];
        let low = (0..level).fold(0, |mask, bit| mask | 1 << (bit * tree.axes));
        let [(x, xs), (y, ys), (z, zs)] = [0, 1, 2].map(|axis| {
            let mask = if axis < tree.axes { low << axis } else { 0 };
            parts(code_of(tree.key[node]) & mask, mask)
        });
        found.clear();
        for z in &z[..zs] {
            for y in &y[..ys] {
                for x in &x[..xs] {
                    if let Ok(place) = codes.binary_search(&(x | y | z)) {
                        found.push(nodes[place]);
                    }
                }
            }
        }
        found.sort_unstable();
    }
}

/// A node that leads to one of the rows of a node of its level.
#[derive(Clone, Copy)]
struct Candidate {
    key: u64,
    anchor: [i32; 3],
    node: u32,
}

/// Whether two cells of one level touch or are the same.
fn touch(a: [i32; 3], b: [i32; 3]) -> bool {
    ((a[0] - b[0]).abs() <= 1) & ((a[1] - b[1]).abs() <= 1) & ((a[2] - b[2]).abs() <= 1)
}

impl Plain<'_> {
    /// The children with sources of the nodes around a parent, rising.
    fn gather(&self, around: &[u32], out: &mut Vec<Candidate>) {
        out.clear();
        for &peer in around {
            let (mut child, end) = (peer + 1, self.end[peer as usize]);
            while child < end {
                let node = child as usize;
                if self.is_sourced(node) {
                    out.push(Candidate {
                        key: self.key[node],
                        anchor: self.anchor[node],
                        node: child,
                    });
                }
                child = self.end[node];
            }
        }
    }

    /// Parts the candidates of a node: those that touch it go to `near`, the keys of the others are its V row. All are of one
    /// level, so that their keys rise as the nodes do.
    fn part(&self, node: usize, from: &[Candidate], near: &mut Vec<u32>, v: &mut Vec<u64>) {
        near.clear();
        for candidate in from {
            if touch(candidate.anchor, self.anchor[node]) {
                near.push(candidate.node);
            } else {
                v.push(candidate.key);
            }
        }
    }

    /// The leaves among the nodes around a cell.
    fn leaves_of(&self, around: &[u32], out: &mut Vec<u64>) {
        for &peer in around {
            if self.is_leaf(peer as usize) {
                out.push(self.key[peer as usize]);
            }
        }
    }

    /// Adds to a leaf's U row, which begins at `from` with the coarser leaves, what is in the nodes near it.
    fn end_u_row(&self, from: usize, near: &[u32], u: &mut Vec<u64>) {
        for &peer in near {
            u.extend_from_slice(self.owners_in(peer as usize));
        }
        u[from..].sort_unstable();
    }
}

fn start(lists: &mut Lists) {
    for rows in [&mut lists.u, &mut lists.v] {
        rows.keys.clear();
        rows.starts.clear();
        rows.starts.extend([0, 0]);
    }
}

fn end_rows(lists: &mut Lists) {
    for rows in [&mut lists.u, &mut lists.v] {
        rows.starts.push(rows.keys.len());
    }
}

/// One node after another, each searched for itself.
fn each_searched(tree: &Plain, lists: &mut Lists) {
    let levels = Levels::new(tree);
    let (mut around, mut near, mut candidates) = (vec![], vec![], vec![]);
    start(lists);
    for node in 1..tree.key.len() {
        let (mut above, from) = (tree.parent(node), lists.u.keys.len());
        levels.around(tree, above, &mut around);
        tree.gather(&around, &mut candidates);
        tree.part(node, &candidates, &mut near, &mut lists.v.keys);
        if tree.is_leaf(node) {
            while above != 0 {
                tree.leaves_of(&around, &mut lists.u.keys);
                above = tree.parent(above);
                levels.around(tree, above, &mut around);
            }
            tree.end_u_row(from, &near, &mut lists.u.keys);
        }
        end_rows(lists);
    }
}

/// What is held for each node on the way down to the one whose rows are made.
#[derive(Default)]
struct Held {
    /// For the children of the node at each level, their candidates.
    candidates: [Vec<Candidate>; 17],
    /// The leaves around all nodes on the way, and how many of them the nodes down to each level have.
    coarser: Vec<u64>,
    counts: [usize; 17],
}

impl Held {
    /// Holds what the children of a node need, of the nodes around it.
    fn go_below(&mut self, tree: &Plain, node: usize, around: &[u32]) {
        let level = level_of(tree.key[node]);
        tree.gather(around, &mut self.candidates[level]);
        if level > 0 {
            self.coarser.truncate(self.counts[level - 1]);
            tree.leaves_of(around, &mut self.coarser);
        }
        self.counts[level] = self.coarser.len();
    }
}

/// Siblings share what lies around their parent; it is searched, or is what was near the parent when its own rows were made.
fn by_siblings(tree: &Plain, search: bool, lists: &mut Lists) {
    let levels = search.then(|| Levels::new(tree));
    // the root is around itself, if it has sources
    let mut near = vec![0; usize::from(tree.is_sourced(0))];
    let mut held = Held::default();
    held.go_below(tree, 0, &near);
    start(lists);
    for node in 1..tree.key.len() {
        let above = level_of(tree.key[node]) - 1;
        let from = lists.u.keys.len();
        tree.part(node, &held.candidates[above], &mut near, &mut lists.v.keys);
        if tree.is_leaf(node) {
            let (u, coarser) = (&mut lists.u.keys, &held.coarser[..held.counts[above]]);
            u.extend_from_slice(coarser);
            tree.end_u_row(from, &near, u);
        } else {
            if let Some(levels) = &levels {
                levels.around(tree, node, &mut near);
            }
            held.go_below(tree, node, &near);
        }
        end_rows(lists);
    }
}

/// The rows of all nodes, written over what the lists held.
pub fn lists(reading: Reading, axes: usize, key: &[u64], own: &[usize], lists: &mut Lists) {
    let tree = Plain::new(axes, key, own);
    match reading {
        Reading::Searched => each_searched(&tree, lists),
        Reading::Siblings => by_siblings(&tree, true, lists),
        Reading::Kept => by_siblings(&tree, false, lists),
    }
}
