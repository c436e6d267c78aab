//! Wrong totals: one off by one at each kind of place, any numbers, sums that wrap, a column of another length. Every call that
//! takes a tree refuses it 13.
use crate::keys::refused;
use crate::oracle::{self, upwards};
use crate::random::Random;
use crate::refusals::well_formed;
use crate::tally::Tally;
use lohandema::Refusal;
use lohandema::trees::Tree;
use std::collections::HashSet;

/// Adds to the totals of a node and of all that stand above it. The tree may be any.
pub fn raise(tree: &mut Tree, node: usize, by: usize) {
    if !(1..=3).contains(&tree.axes()) {
        return;
    }
    for cell in upwards(tree.axes(), tree.key[node]) {
        if let Some(at) = tree.key.iter().position(|k| *k == cell) {
            tree.total[at] = tree.total[at].wrapping_add(by);
        }
    }
}

/// What the calls that take a tree answer, but for the answer itself.
pub fn calls(tree: &Tree) -> [Result<(), Refusal>; 6] {
    let axes = tree.axes();
    let centre = &tree.bounds.centre[..axes];
    [
        tree.point_to_leaf(centre).map(|_| ()),
        tree.points_to_keys(centre).map(|_| ()),
        tree.get_points_to_leaves_map(&[]).map(|_| ()),
        tree.get_sourced_cells().map(|_| ()),
        tree.get_near_work(&[]).map(|_| ()),
        tree.get_interaction_lists().map(|_| ()),
    ]
}

/// No tree, for any call.
pub fn no_tree(t: &mut Tally, tree: &Tree, what: &str) {
    let right = (false, [refused(13, 0); 6]);
    t.refusal();
    let input = || format!("{tree:?}");
    t.same(what, (tree.is_well_formed(), calls(tree)), right, input);
}

/// Each node's parent, by its number; that of the root is none.
fn parents(tree: &Tree) -> Vec<Option<usize>> {
    let number = |key: u64| tree.key.iter().position(|k| *k == key);
    let above = |key: &u64| upwards(tree.axes(), *key).nth(1).and_then(number);
    tree.key.iter().map(above).collect()
}

/// A kind of node, and whether one is of it.
type Kind<'a> = (&'static str, &'a dyn Fn(&usize) -> bool);

/// A node of each kind that the tree has.
fn places(r: &mut Random, tree: &Tree, parents: &[Option<usize>]) -> Vec<(&'static str, usize)> {
    let nodes = tree.key.len();
    let split: HashSet<usize> = parents.iter().flatten().copied().collect();
    let last_split = split.iter().copied().max().unwrap_or(0);
    let kinds: [Kind; 6] = [
        ("the root's total", &|node| *node == 0),
        ("the last total", &|node| *node == nodes - 1),
        ("a leaf's total", &|node| tree.own[*node] > 0),
        ("a total of 0", &|node| tree.total[*node] == 0),
        ("the total of a split cell", &|node| {
            *node > 0 && split.contains(node)
        }),
        ("a leaf's total, before a split cell", &|node| {
            *node < last_split && !split.contains(node)
        }),
    ];
    let mut found = vec![];
    for (kind, is_one) in kinds {
        let all: Vec<usize> = (0..nodes).filter(is_one).collect();
        if !all.is_empty() {
            found.push((kind, r.pick(&all)));
        }
    }
    found
}

/// One total off by one.
fn off_by_one(t: &mut Tally, r: &mut Random, tree: &Tree, parents: &[Option<usize>]) {
    for (kind, node) in places(r, tree, parents) {
        for by in [1, usize::MAX] {
            let mut wrong = tree.clone();
            wrong.total[node] = wrong.total[node].wrapping_add(by);
            no_tree(t, &wrong, kind);
        }
    }
}

/// One total of any value, and all of any values.
fn any_numbers(t: &mut Tally, r: &mut Random, tree: &Tree) {
    let mut any = |right: usize| match (r.next() >> r.below(64)) as usize {
        number if number == right => right.wrapping_add(1),
        number => number,
    };
    let mut wrong = tree.clone();
    wrong.total[0] = any(wrong.total[0]);
    no_tree(t, &wrong, "the root's total of any value");
    wrong.total = tree.total.iter().map(|right| any(*right)).collect();
    no_tree(t, &wrong, "totals of any values");
}

fn other_lengths(t: &mut Tally, tree: &Tree) {
    let mut wrong = tree.clone();
    let last = wrong.total.pop().unwrap_or(0);
    no_tree(t, &wrong, "one total too few");
    wrong.total.extend([last, 0]);
    no_tree(t, &wrong, "one total too many");
    wrong.total.clear();
    no_tree(t, &wrong, "no totals");
}

/// Adds to these totals.
fn add(tree: &mut Tree, nodes: &[usize], by: usize) {
    for node in nodes {
        tree.total[*node] = tree.total[*node].wrapping_add(by);
    }
}

/// A node and the first children under it, down to a leaf.
fn downwards(parents: &[Option<usize>], node: usize) -> Vec<usize> {
    let child = |above: &usize| parents.iter().position(|p| *p == Some(*above));
    std::iter::successors(Some(node), child).collect()
}

/// Two siblings of which one has so much more and the other so much less that the sum, which may wrap, stays: in the two
/// totals, in all below them as well, and then in the sources that the leaves own, too.
fn pair(t: &mut Tally, r: &mut Random, tree: &Tree, parents: &[Option<usize>]) {
    let next =
        |node: usize| (node + 1..parents.len()).find(|other| parents[*other] == parents[node]);
    let twins = (1..parents.len()).filter_map(|node| Some((node, next(node)?)));
    let all: Vec<(usize, usize)> = twins.collect();
    if all.is_empty() {
        return;
    }
    let (one, other) = r.pick(&all);
    let (most, any) = (usize::MAX - tree.total[one], r.next() as usize | 1);
    let more = r.pick(&[most, 1, 1 << 63, any]);
    let less = more.wrapping_neg();
    let mut wrong = tree.clone();
    add(&mut wrong, &[one], more);
    add(&mut wrong, &[other], less);
    no_tree(t, &wrong, "two totals whose sum stays");
    let (rising, falling) = (downwards(parents, one), downwards(parents, other));
    let mut wrong = tree.clone();
    add(&mut wrong, &rising, more);
    add(&mut wrong, &falling, less);
    no_tree(t, &wrong, "two rows of totals whose sums stay");
    let (up, down) = (rising[rising.len() - 1], falling[falling.len() - 1]);
    owned_too(t, wrong, [up, down]);
}

/// Leaves that own as many sources as their totals say. A few that were moved so make another tree.
fn owned_too(t: &mut Tally, mut tree: Tree, leaves: [usize; 2]) {
    for leaf in leaves {
        tree.own[leaf] = tree.total[leaf];
    }
    let mut sum = 0usize;
    for (begin, own) in tree.begin.iter_mut().zip(&tree.own) {
        *begin = sum;
        sum = sum.wrapping_add(*own);
    }
    let right = well_formed(&tree);
    let input = || format!("{tree:?}");
    t.same("moved sources", tree.is_well_formed(), right, input);
}

/// A well-formed tree with its totals changed in each way.
pub fn wrong(t: &mut Tally, r: &mut Random, tree: &Tree) {
    let parents = parents(tree);
    off_by_one(t, r, tree, &parents);
    any_numbers(t, r, tree);
    other_lengths(t, tree);
    if tree.key.len() > 2 {
        pair(t, r, tree, &parents);
    }
}

/// Columns of one axis whose totals are wrong: key, own, begin, total.
const CHOSEN: [[&[usize]; 4]; 6] = [
    [&[0], &[0], &[0], &[1]],
    [&[0, 1], &[0, 1], &[0, 0], &[0, 1]],
    [&[0, 1], &[0, 1], &[0, 0], &[1, 0]],
    [&[0, 1, 32769], &[0, 1, 0], &[0, 0, 1], &[1, usize::MAX, 2]],
    [
        &[0, 1, 32769],
        &[0, usize::MAX, 2],
        &[0, 0, usize::MAX],
        &[1, usize::MAX, 2],
    ],
    [
        &[0, 1, 2, 32769, 65538],
        &[0, 0, 1, 0, 0],
        &[0, 0, 0, 1, 1],
        &[1, usize::MAX, 1, 2, 0],
    ],
];

/// The smallest wrong columns, and those of which 2^64 − 1 and 2 come to 1.
pub fn chosen(t: &mut Tally) {
    for [key, own, begin, total] in CHOSEN {
        let key = key.iter().map(|k| *k as u64).collect();
        let (own, begin, total) = (own.to_vec(), begin.to_vec(), total.to_vec());
        let tree = Tree::from_columns(oracle::any_box(1), key, own, begin, total, vec![]);
        no_tree(t, &tree, "chosen totals");
    }
}
