//! The table "Trees": trees that are handed in and are not well formed, short slices, and the forms of answers.
use super::Rows;
use super::points::EXAMPLE;
use super::trees::{self, example};
use crate::oracle::{self, dimensions, rank};
use crate::trees::{RustRows, rust_rows};
use ferreus_bbfmm::bbfmm::TreeLists;
use ferreus_bbfmm::{FmmError, linear_tree, morton};
use lohandema::Refusal;
use lohandema::lent;
use lohandema::points::Bounds;
use lohandema::trees::{Rows as KeyRows, Tree};
use std::collections::{HashMap, HashSet};

/// Columns as the sets and maps of the Rust.
fn as_rust(tree: &Tree) -> TreeLists {
    let d = dimensions(tree.axes());
    let mut children: HashMap<u64, Vec<u64>> = HashMap::new();
    for k in &tree.key {
        children.entry(*k).or_default();
        if let Some(parent) = morton::get_parent(*k, &d) {
            children.entry(parent).or_default().push(*k);
        }
    }
    let leaf = |k: &&u64| **k != 0 && children[*k].is_empty();
    let leaves: HashSet<u64> = tree.key.iter().filter(leaf).copied().collect();
    let mut sources = HashMap::new();
    for (node, k) in tree.key.iter().enumerate() {
        let begin = tree.begin[node];
        if tree.own[node] > 0 {
            sources.insert(*k, (begin..begin + tree.own[node]).collect());
        }
    }
    TreeLists {
        tree: tree.key.iter().copied().collect(),
        leaves,
        children,
        u_lists: HashMap::new(),
        v_lists: HashMap::new(),
        level_cells_map: HashMap::new(),
        key_to_index_map: HashMap::new(),
        source_key_to_index_map: HashMap::new(),
        leaf_source_indices: sources,
        leaf_target_indices: HashMap::new(),
    }
}

/// The rows that the Rust gives a tree that is handed in.
pub fn rows_by_rust(tree: &Tree) -> RustRows {
    rust_rows(&as_rust(tree), tree.axes())
}

/// A tree of these keys, with sources in those that are told.
pub fn tree_of(bounds: Bounds, mut nodes: Vec<(u64, usize)>) -> Tree {
    nodes.sort_unstable_by_key(|(key, _)| rank(bounds.axes, *key));
    oracle::tree_in_order(bounds, &nodes)
}

pub fn run(rows: &mut Rows) {
    root_alone(rows);
    orphans(rows);
    wrong_totals(rows);
    too_many_sources(rows);
    no_columns(rows);
    no_axes(rows);
    short_slices(rows);
    forms(rows);
}

/// What the three calls on columns refuse.
fn calls(tree: &Tree) -> [Result<(), Refusal>; 3] {
    [
        tree.get_interaction_lists().map(|_| ()),
        tree.get_sourced_cells().map(|_| ()),
        tree.get_near_work(&[]).map(|_| ()),
    ]
}

/// No sources, and empty cells left out: both build the root alone.
fn root_alone(rows: &mut Rows) {
    let s = trees::survey(&[]);
    let tree = trees::build(&s).unwrap();
    let built = (trees::nodes(&s), vec![0]);
    rows.answered("T16", "no sources", (tree.key.clone(), vec![0]), built);
    let none = HashSet::new();
    let points = crate::oracle::rows(1, &[0.5]);
    let theirs = linear_tree::points_to_keys(points, &none, 1, &[4.0], 4.0, &dimensions(1));
    let said = Err(FmmError::PointOutsideTree { point_index: 0 });
    let ours = tree.points_to_keys(&[0.5]);
    rows.refused("T16", "point 0.5", ours, (12, 0), (theirs, said));
}

/// The example tree without key 2, which is the parent of 3 and 32771.
fn orphans(rows: &mut Rows) {
    let kept = |k: &u64| *k != 2;
    let nodes = example().key.into_iter().zip(example().own);
    let tree = tree_of(EXAMPLE, nodes.filter(|(k, _)| kept(k)).collect());
    let ours = tree.points_to_keys(&[0.5]);
    let theirs = trees::lookup(&EXAMPLE, &[0.5]);
    rows.refused("T21", "point 0.5", ours, (13, 0), (theirs, Ok(vec![3])));
    let ours = tree.get_points_to_leaves_map(&[3]).map(|_| ());
    let map = linear_tree::get_points_to_leaves_map(&vec![3]);
    let said = HashMap::from([(3, vec![0])]);
    rows.refused("T25", "key 3", ours, (13, 0), (map, said));
    let theirs = rows_by_rust(&tree);
    for ours in calls(&tree) {
        let seen = (theirs.u.get(&3).cloned(), Some(vec![3, 32771]));
        rows.refused("T27", "U of key 3", ours, (13, 0), seen);
    }
    let cells = (theirs.cells.contains(&2), true);
    rows.answered("T27", "sourced cells", ((), ()), cells);
}

/// The example with one total off by one, and without the last total.
fn wrong_totals(rows: &mut Rows) {
    let changes: [fn(&mut Vec<usize>); 4] = [
        |total| total[0] += 1,
        |total| total[2] -= 1,
        |total| total[8] += 1,
        |total| total.truncate(8),
    ];
    for (place, change) in changes.iter().enumerate() {
        let mut tree = example();
        change(&mut tree.total);
        let input = format!("change {place}");
        for ours in calls(&tree) {
            rows.refused_here("T38", &input, ours, (13, 0));
        }
        let ours = tree.points_to_keys(&[0.5]);
        rows.refused_here("T38", &input, ours, (13, 0));
        let ours = tree.get_points_to_leaves_map(&[3]).map(|_| ());
        rows.refused_here("T38", &input, ours, (13, 0));
    }
}

/// One leaf with one source more than there may be; the Rust asks only whether there is any.
fn too_many_sources(rows: &mut Rows) {
    let tree = tree_of(EXAMPLE, vec![(0, 0), (1, 1_048_577)]);
    let theirs = rows_by_rust(&tree);
    for ours in calls(&tree) {
        let seen = (theirs.u.clone(), HashMap::from([(1, vec![1])]));
        rows.refused("T28", "1,048,577 sources", ours, (13, 0), seen);
    }
    let most = tree_of(EXAMPLE, vec![(0, 0), (1, 1_048_576)]);
    let fine = [Ok(()); 3];
    rows.answered("T28", "1,048,576", (calls(&most), fine), ((), ()));
}

fn no_columns(rows: &mut Rows) {
    let tree = tree_of(EXAMPLE, vec![]);
    let theirs = rows_by_rust(&tree);
    for ours in calls(&tree) {
        let none = theirs.u.is_empty() && theirs.v.is_empty() && theirs.cells.is_empty();
        rows.refused("T29", "no nodes", ours, (13, 0), (none, true));
    }
}

fn no_axes(rows: &mut Rows) {
    for axes in [0, 4] {
        let mut tree = example();
        tree.bounds.axes = axes;
        for ours in calls(&tree) {
            rows.refused_here("T30", &format!("{axes} axes"), ours, (1, 0));
        }
        let ours = tree.get_points_to_leaves_map(&[3]).map(|_| ());
        rows.refused_here("T25", &format!("{axes} axes"), ours, (1, 0));
    }
}

/// The example's lists take ten starts each, eight keys of U and two of V, and nine sourced cells.
fn short_slices(rows: &mut Rows) {
    let tree = example();
    for value in 4..=7 {
        let room = |which: usize, needed: usize| if which == value { needed - 1 } else { needed };
        let (mut u_starts, mut v_starts) = (vec![7; room(4, 10)], vec![7; room(5, 10)]);
        let (mut u_keys, mut v_keys) = (vec![7; room(6, 8)], vec![7; room(7, 2)]);
        let ours = lent::get_interaction_lists(
            tree.columns(),
            &mut u_starts,
            &mut u_keys,
            &mut v_starts,
            &mut v_keys,
        );
        rows.refused_here("T31", &format!("slice {value}"), ours, (8, value));
        let all = (u_starts.iter().chain(&v_starts)).all(|x| *x == 0)
            && (u_keys.iter().chain(&v_keys)).all(|x| *x == 0);
        rows.answered("T31", "all slices 0", (all, true), ((), ()));
    }
    let mut cells = [7; 8];
    let ours = lent::get_sourced_cells(tree.columns(), &mut cells);
    rows.refused_here("T31", "sourced cells", ours, (8, 9));
    rows.answered("T31", "the slice", (cells, [0; 8]), ((), ()));
}

/// The same answers, in another form.
fn forms(rows: &mut Rows) {
    let tree = example();
    let theirs = rows_by_rust(&tree);
    let v = KeyRows {
        starts: vec![0, 0, 0, 1, 1, 1, 1, 2, 2, 2],
        keys: vec![98306, 2],
    };
    let ours = tree.get_interaction_lists().map(|lists| lists.v);
    let said = HashMap::from([(2, vec![98306]), (98306, vec![2])]);
    rows.answered("T34", "V", (ours, Ok(v)), (theirs.v, said));
    let ours = tree.get_points_to_leaves_map(&[32771, 3, 3]);
    let starts = vec![0, 0, 0, 0, 2, 3, 3, 3, 3, 3];
    let groups = ours.map(|g| (g.starts, g.indices));
    let map = linear_tree::get_points_to_leaves_map(&vec![32771, 3, 3]);
    let said = HashMap::from([(3, vec![1, 2]), (32771, vec![0])]);
    let right = Ok((starts, vec![1, 2, 0]));
    rows.answered("T35", "keys 32771 3 3", (groups, right), (map, said));
    let entry = as_rust(&tree).leaf_source_indices.get(&0).cloned();
    for node in [0, 9, usize::MAX] {
        let ours = (tree.leaf_sources(node).to_vec(), vec![]);
        let input = format!("node {node}");
        rows.answered("T36", &input, ours, (entry.clone(), None));
    }
    let built = crate::oracle::build(&trees::survey(&[0.5])).0;
    let ours = trees::build(&trees::survey(&[0.5])).unwrap();
    let seen = (ours.get_sourced_cells(), Ok(vec![0, 1]));
    let said = HashMap::from([(0, 0), (1, 1)]);
    let map = (built.source_key_to_index_map, said);
    rows.answered("T37", "source 0.5", seen, map);
}
