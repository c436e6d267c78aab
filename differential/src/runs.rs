//! A cell's run, the part of the order column that has the sources in it and all below it: against a scan of the points, and
//! against the leaves' runs; and for any columns and numbers against the rule.
use crate::builds::asked_of;
use crate::face;
use crate::inputs;
use crate::oracle::{self, Survey, dimensions, level};
use crate::random::Random;
use crate::tally::Tally;
use crate::trees::{self, show};
use ferreus_bbfmm::morton;
use lohandema::trees::Tree;
use std::collections::HashMap;

/// The sources of each cell down to a level, ascending: each source goes to its own cell of every level, by the Rust.
fn scanned(s: &Survey, depth: u64) -> HashMap<u64, Vec<usize>> {
    let axes = s.bounds.axes;
    let mut cells: HashMap<u64, Vec<usize>> = HashMap::new();
    for (index, point) in s.sources.chunks(axes).enumerate() {
        for level in 0..=depth {
            let mut anchor = oracle::anchors(&s.bounds, point, level);
            anchor.push(level);
            let key = morton::encode_morton_point(anchor, &dimensions(axes));
            cells.entry(key).or_default().push(index);
        }
    }
    cells
}

/// What the rule says of any columns: how many entries, and where they start.
fn rule(tree: &Tree, node: usize) -> (usize, usize) {
    let (Some(count), Some(start)) = (tree.total.get(node), tree.begin.get(node)) else {
        return (0, 0);
    };
    let end = *start as u128 + *count as u128;
    if *count == 0 || end > tree.order.len() as u128 {
        return (0, 0);
    }
    (*count, *start)
}

/// One number of any columns, by both faces.
fn by_rule(t: &mut Tally, tree: &Tree, node: usize) {
    let (count, start) = rule(tree, node);
    let input = || format!("node {node} {tree:?}");
    let ours = face::cell_sources(tree, node);
    t.same("run, C face", ours, (count, start), input);
    let right = &tree.order[start..start + count];
    t.same("run", tree.cell_sources(node), right, input);
}

/// Every number of a tree, and some past it.
fn all_by_rule(t: &mut Tally, r: &mut Random, tree: &Tree) {
    let nodes = tree.key.len();
    (0..nodes).for_each(|node| by_rule(t, tree, node));
    let any = r.next() as usize;
    for node in [nodes, nodes + 1, any, 1 << 63, usize::MAX - 1, usize::MAX] {
        by_rule(t, tree, node);
    }
}

/// The runs of the leaves at or under a node, one after the other: the nodes behind it up to the next that is not deeper.
fn of_leaves(tree: &Tree, node: usize) -> Vec<usize> {
    let deeper = |other: &usize| level(tree.key[*other]) > level(tree.key[node]);
    let below = (node + 1..tree.key.len()).take_while(deeper);
    let all = [node].into_iter().chain(below);
    all.flat_map(|other| tree.leaf_sources(other))
        .copied()
        .collect()
}

fn against_leaves(t: &mut Tally, tree: &Tree) {
    for node in 0..tree.key.len() {
        let input = || format!("node {node} {tree:?}");
        let ours = tree.cell_sources(node).to_vec();
        t.same("run of leaves", ours, of_leaves(tree, node), input);
    }
}

/// Each cell's run has the sources that a scan finds in it.
fn against_scan(t: &mut Tally, s: &Survey, tree: &Tree) {
    let cells = scanned(s, tree.depth());
    for (node, key) in tree.key.iter().enumerate() {
        let mut ours = tree.cell_sources(node).to_vec();
        ours.sort_unstable();
        let right = cells.get(key).cloned().unwrap_or_default();
        let input = || format!("key {key} of {}", show(s));
        t.same("sources of a cell", ours, right, input);
    }
}

/// Columns with something changed: one begin or total, the length of one, or the order column's.
fn damaged(r: &mut Random, tree: &Tree) -> Tree {
    let mut tree = tree.clone();
    let node = r.index(tree.key.len());
    let any = (r.next() >> r.below(64)) as usize;
    let value = r.pick(&[0, 1, 2, any, usize::MAX - 1, usize::MAX]);
    match r.below(6) {
        0 => tree.begin[node] = value,
        1 => tree.total[node] = value,
        2 => {
            // whose sum passes the largest number by a little
            tree.begin[node] = usize::MAX - r.index(3);
            tree.total[node] = 1 + r.index(4);
        }
        3 => tree.begin.truncate(node),
        4 => tree.total.truncate(node),
        _ => tree.order.truncate(any % (tree.order.len() + 1)),
    }
    tree
}

/// Built trees, and trees that nobody built; then with something changed.
pub fn cell_sources(t: &mut Tally, r: &mut Random, case: u64) {
    let tree = if case % 3 == 0 {
        let given = trees::odd_tree(r, 200);
        oracle::columns(&oracle::any_box(trees::axes_of(&given)), &given)
    } else {
        let s = inputs::survey(r, 400);
        let built = Tree::build(asked_of(&s, true));
        t.same("build", built.is_ok(), true, || show(&s));
        let Ok(tree) = built else { return };
        against_scan(t, &s, &tree);
        tree
    };
    against_leaves(t, &tree);
    all_by_rule(t, r, &tree);
    for _ in 0..4 {
        let changed = damaged(r, &tree);
        all_by_rule(t, r, &changed);
    }
}
