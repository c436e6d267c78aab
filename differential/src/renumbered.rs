//! The two orders of nodes: depth first, as columns have them, and level by level, as they had them before and as a listing has
//! them still. One tree in both is the same tree with other numbers. Columns by level are no tree, unless both orders agree.
use crate::builds::asked_of;
use crate::inputs;
use crate::keys::refused;
use crate::oracle::{self, Survey, any_box, rank_by_level, tree_in_order};
use crate::random::Random;
use crate::refusals::well_formed;
use crate::tally::Tally;
use crate::totals::{calls, no_tree};
use crate::trees::show;
use ferreus_bbfmm::bbfmm::TreeLists;
use lohandema::trees::{Lists, Tree};
use lohandema::{Bounds, Refusal};
use std::collections::{BTreeMap, HashMap};

/// The same tree with its nodes level by level: own and total go with their keys, begins and order column are made anew.
pub fn by_level(tree: &Tree) -> Tree {
    let mut nodes: Vec<usize> = (0..tree.key.len()).collect();
    nodes.sort_by_key(|node| rank_by_level(tree.key[*node]));
    let (key, own, total) = (&tree.key, &tree.own, &tree.total);
    let runs = nodes.iter().flat_map(|node| tree.leaf_sources(*node));
    let mut other = Tree::from_columns(
        tree.bounds,
        nodes.iter().map(|node| key[*node]).collect(),
        nodes.iter().map(|node| own[*node]).collect(),
        vec![],
        nodes.iter().map(|node| total[*node]).collect(),
        runs.copied().collect(),
    );
    let mut sum = 0usize;
    for own in &other.own {
        other.begin.push(sum);
        sum = sum.wrapping_add(*own);
    }
    other
}

/// What a tree says of a cell, whatever its number.
#[derive(Debug, PartialEq)]
struct Said {
    own: usize,
    total: usize,
    /// The leaf's sources, in their order.
    sources: Vec<usize>,
    u: Vec<u64>,
    v: Vec<u64>,
}

/// Of our columns, depth first, and our lists.
fn said_here(tree: &Tree, lists: &Lists) -> BTreeMap<u64, Said> {
    let said = |node: usize| Said {
        own: tree.own[node],
        total: tree.total[node],
        sources: tree.leaf_sources(node).to_vec(),
        u: lists.u.row(node).to_vec(),
        v: lists.v.row(node).to_vec(),
    };
    let nodes = tree.key.iter().enumerate();
    nodes.map(|(node, key)| (*key, said(node))).collect()
}

/// Of the columns by level, and the Rust's lists.
fn said_before(tree: &Tree, lists: &TreeLists) -> BTreeMap<u64, Said> {
    let row = |map: &HashMap<u64, Vec<u64>>, key: &u64| map.get(key).cloned().unwrap_or_default();
    let run = |node: usize| tree.begin[node]..tree.begin[node] + tree.own[node];
    let said = |node: usize, key: &u64| Said {
        own: tree.own[node],
        total: tree.total[node],
        sources: tree.order[run(node)].to_vec(),
        u: row(&lists.u_lists, key),
        v: row(&lists.v_lists, key),
    };
    let nodes = tree.key.iter().enumerate();
    nodes.map(|(node, key)| (*key, said(node, key))).collect()
}

/// The number of each node when nodes are counted level by level: those of lower levels, and those of its own before it.
fn old_numbers(key: &[u64]) -> Vec<usize> {
    let mut next = [0; 18];
    for k in key {
        next[oracle::level(*k) as usize + 1] += 1;
    }
    for level in 1..18 {
        next[level] += next[level - 1];
    }
    let mut number = |k: &u64| {
        let next = &mut next[oracle::level(*k) as usize];
        *next += 1;
        *next - 1
    };
    key.iter().map(&mut number).collect()
}

/// Our build and its lists beside the Rust's tree with its nodes level by level.
fn compare(t: &mut Tally, s: &Survey, tree: &Tree) -> Result<(), Refusal> {
    let (theirs, _) = oracle::build(s);
    let before = oracle::columns_by_level(&s.bounds, &theirs);
    let input = || show(s);
    let sorted = |keys: &[u64]| {
        let mut keys = keys.to_vec();
        keys.sort_unstable();
        keys
    };
    t.same("keys", sorted(&tree.key), sorted(&before.key), input);
    let here = said_here(tree, &tree.get_interaction_lists()?);
    let there = said_before(&before, &theirs);
    t.same("what is said of each cell", here, there, input);
    let numbers = old_numbers(&tree.key);
    let mut key = vec![0; tree.key.len()];
    for (node, number) in numbers.into_iter().enumerate() {
        key[number] = tree.key[node];
    }
    t.same("the old numbers", &key, &before.key, input);
    t.same("the tree by level", by_level(tree), before, input);
    Ok(())
}

pub fn renumbered(t: &mut Tally, r: &mut Random, _case: u64) {
    let s = inputs::survey(r, 500);
    let compared = Tree::build(asked_of(&s, true)).and_then(|tree| compare(t, &s, &tree));
    t.same("build and lists", compared, Ok(()), || show(&s));
}

/// A tree, for any call.
fn a_tree(t: &mut Tally, tree: &Tree, what: &str) {
    let refused = calls(tree).contains(&refused(13, 0));
    let answer = (tree.is_well_formed(), refused);
    t.same(what, answer, (true, false), || format!("{tree:?}"));
}

/// A well-formed tree with its nodes by level: refused by every call, or the same tree.
pub fn handed_in_by_level(t: &mut Tally, tree: &Tree) {
    let other = by_level(tree);
    if other.key == tree.key {
        t.same("one order", &other, tree, || format!("{tree:?}"));
        a_tree(t, &other, "nodes by level, the same");
    } else {
        no_tree(t, &other, "nodes by level");
    }
}

/// Columns of one axis that are a tree in one order alone: document 02's smallest, with sources in the leaves.
const ONE_AXIS: [(&[(u64, usize)], bool); 8] = [
    (&[(0, 0), (1, 0), (2, 1), (32769, 2)], true),
    (&[(0, 0), (1, 0), (32769, 2), (2, 1)], false),
    (&[(0, 0), (32769, 2), (1, 0), (2, 1)], false),
    (&[(0, 0), (2, 1), (1, 0), (32769, 2)], false),
    (&[(1, 0), (2, 1), (0, 0), (32769, 2)], false),
    (&[(0, 0), (1, 0), (2, 1), (32769, 0), (98306, 2)], true),
    (&[(0, 0), (1, 0), (32769, 0), (2, 1), (98306, 2)], false),
    (&[(0, 0), (32769, 0), (98306, 2), (1, 0), (2, 1)], false),
];

/// A tree that is the same in both orders: the root with all its children, and a chain to level 16.
fn same_in_both(bounds: &Bounds) -> [Tree; 2] {
    let children = (0..1 << bounds.axes).map(|code| (code * 32768 + 1, code as usize));
    let children: Vec<(u64, usize)> = [(0, 0)].into_iter().chain(children).collect();
    let chain: Vec<(u64, usize)> = (0..=16).map(|key| (key, (key / 16) as usize)).collect();
    [children, chain].map(|nodes| tree_in_order(*bounds, &nodes))
}

/// Chosen columns: which of them are a tree.
pub fn chosen(t: &mut Tally) {
    for (nodes, right) in ONE_AXIS {
        let tree = tree_in_order(any_box(1), nodes);
        let input = || format!("{tree:?}");
        t.same("the rule", well_formed(&tree), right, input);
        if right {
            a_tree(t, &tree, "chosen orders");
        } else {
            no_tree(t, &tree, "chosen orders");
        }
    }
    for axes in 1..=3 {
        for tree in same_in_both(&any_box(axes)) {
            t.same("one order", &by_level(&tree), &tree, || format!("{tree:?}"));
            a_tree(t, &tree, "one order");
        }
    }
}
