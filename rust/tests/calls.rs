//! The crate as a caller sees it: the example from points to lists, refusals with number and value, what a refusal leaves in
//! a lent slice, and, on scattered points in 1 to 3 axes, that each leaf meets each source exactly once.

use lohandema::{Asked, Bounds, Columns, Lists, Reason, Refusal, Tree, keys, lent};
use std::collections::HashMap;

fn example() -> Tree {
    let bounds = Bounds::new(&[4.0], 4.0);
    Tree::build(Asked::new(&bounds, &[0.5, 1.5, 6.5, 7.5], 1)).unwrap()
}

/// Points that are scattered by a fixed rule, more of them near one place.
fn scattered(axes: usize, count: usize) -> Vec<f64> {
    let mut x: u64 = 88_172_645_463_325_252;
    let mut unit = || {
        x ^= x << 13;
        x ^= x >> 7;
        x ^= x << 17;
        (x >> 11) as f64 / (1u64 << 53) as f64
    };
    let mut points = vec![];
    for i in 0..count {
        for _ in 0..axes {
            let wide = 64.0 * unit();
            points.push(if i % 2 == 0 { wide } else { 20.0 + wide / 50.0 });
        }
    }
    points
}

#[test]
fn the_example() {
    let tree = example();
    assert_eq!(tree.bounds, Bounds::new(&[4.0], 4.0));
    assert_eq!(tree.key, [0, 1, 2, 3, 32771, 32769, 98306, 196611, 229379]);
    assert_eq!(tree.own, [0, 0, 0, 1, 1, 0, 0, 1, 1]);
    assert_eq!(tree.begin, [0, 0, 0, 0, 1, 2, 2, 2, 3]);
    assert_eq!(tree.total, [4, 2, 2, 1, 1, 2, 2, 1, 1]);
    assert_eq!(tree.order, [0, 1, 2, 3]);
    assert_eq!(tree.depth(), 3);
    assert!(tree.is_well_formed());
    assert_eq!(tree.leaf_sources(4), [1]);
    assert_eq!(tree.cell_sources(5), [2, 3]);
    assert_eq!(tree.point_to_leaf(&[6.9]), Ok((196611, 0)));
    let (leaves, steps) = tree.points_to_keys(&[7.9, 0.0]).unwrap();
    assert_eq!((leaves, steps), (vec![229379, 3], 0));
    let groups = tree.get_points_to_leaves_map(&[229379, 3, 229379]).unwrap();
    assert_eq!(groups.starts, [0, 0, 0, 0, 1, 1, 1, 1, 1, 3]);
    assert_eq!(groups.indices, [1, 0, 2]);
    assert_eq!(tree.get_sourced_cells().unwrap().len(), 9);
    assert_eq!(tree.get_near_work(&[]), Ok(8));
    assert_eq!(tree.get_near_work(&[0.5]), Ok(2));
    let lists = tree.get_interaction_lists().unwrap();
    assert_eq!(lists.u.row(3), [3, 32771]);
    assert_eq!(lists.u.row(2), []);
    assert_eq!(lists.v.row(2), [98306]);
}

#[test]
fn a_refusal_is_an_error_with_number_and_value() {
    let refusal = Bounds::new(&[0.0], -1.0).check().unwrap_err();
    assert_eq!((refusal.number, refusal.value), (Refusal::BOX, 0));
    let error: Box<dyn std::error::Error + Send + Sync> = Box::new(refusal);
    assert!(error.to_string().ends_with(" (refused 2 BOX)"));

    let tree = example();
    let sources = [0.5, f64::NAN, 9.0];
    let outside = Tree::build(Asked::new(&tree.bounds, &sources, 1));
    let nan = Refusal::new(Refusal::SOURCE, 1).behind(0, Reason::NotFinite);
    assert_eq!(outside, Err(nan));
    let lookup = tree.points_to_keys(&[0.5, 3.0, 8.5]);
    assert_eq!(lookup, Err(Refusal::new(Refusal::UNSTORED, 1)));
    let group = tree.get_points_to_leaves_map(&[3, 1]);
    assert_eq!(group, Err(Refusal::new(Refusal::NOTLEAF, 1)));
    assert_eq!(keys::get_level(4, 0).unwrap_err().number, Refusal::DIMS);
    assert_eq!(keys::get_parent(3, 17).unwrap_err().number, Refusal::KEY);
}

#[test]
fn a_refusal_leaves_zeros() {
    let tree = example();
    let mut output = [7; 4];
    let looked = lent::points_to_keys(&tree.bounds, tree.columns(), &[0.5, -1.0], &mut output);
    assert_eq!((looked.unwrap_err().number, output), (7, [0; 4]));

    let nodes = tree.key.len();
    let (mut u_starts, mut v_starts) = (vec![7; nodes + 1], vec![7; nodes + 1]);
    let (mut u_keys, mut v_keys) = (vec![7; 1], vec![7; 99]);
    let lists = lent::get_interaction_lists(
        tree.columns(),
        &mut u_starts,
        &mut u_keys,
        &mut v_starts,
        &mut v_keys,
    );
    assert_eq!(lists, Err(Refusal::new(Refusal::ROOM, 6)));
    assert!(u_starts.iter().chain(&v_starts).all(|start| *start == 0));
    assert!(u_keys.iter().chain(&v_keys).all(|key| *key == 0));
}

#[test]
fn columns_that_lie_are_refused() {
    let tree = example();
    let mut own = tree.own.clone();
    own[1] = 1;
    let lying = Columns::new(1, &tree.key, &own, &tree.begin, &tree.total);
    let mut cells = [7; 9];
    let answer = lent::get_sourced_cells(lying, &mut cells);
    assert_eq!((answer.unwrap_err().number, cells), (13, [0; 9]));
}

/// The sources at or under each cell, by its key.
fn sources_below(tree: &Tree) -> HashMap<u64, Vec<usize>> {
    let mut below: HashMap<u64, Vec<usize>> = HashMap::new();
    for node in 0..tree.key.len() {
        let mut key = tree.key[node];
        let sources = tree.leaf_sources(node);
        below.entry(key).or_default().extend(sources);
        while let Ok(parent) = keys::get_parent(tree.axes(), key) {
            below.entry(parent).or_default().extend(sources);
            key = parent;
        }
    }
    below
}

/// The sources that a leaf meets: those of its U row, and those of the V rows of itself and its ancestors.
fn met(tree: &Tree, lists: &Lists, below: &HashMap<u64, Vec<usize>>, leaf: usize) -> Vec<usize> {
    let number: HashMap<u64, usize> = tree.key.iter().enumerate().map(|(i, k)| (*k, i)).collect();
    let mut cells = lists.u.row(leaf).to_vec();
    let mut node = leaf;
    loop {
        cells.extend(lists.v.row(node));
        match keys::get_parent(tree.axes(), tree.key[node]) {
            Ok(parent) => node = number[&parent],
            Err(_) => break,
        }
    }
    cells.iter().flat_map(|cell| below[cell].clone()).collect()
}

#[test]
fn each_leaf_meets_each_source_once() {
    for axes in 1..=3 {
        let bounds = Bounds::new(&[32.0; 3][..axes], 32.0);
        let points = scattered(axes, 400);
        let tree = Tree::build(Asked::new(&bounds, &points, 3)).unwrap();
        let lists = tree.get_interaction_lists().unwrap();
        let below = sources_below(&tree);
        for leaf in tree.leaves().unwrap() {
            let mut sources = met(&tree, &lists, &below, leaf.node);
            sources.sort_unstable();
            assert!(sources.iter().copied().eq(0..400), "axes {axes}, {leaf:?}");
        }
    }
}
