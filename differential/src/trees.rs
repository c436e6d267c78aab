//! Trees that the Rust built: lookup, grouping, sourced cells, U and V; and trees that nobody built.
use crate::face;
use crate::inputs;
use crate::keys::refused;
use crate::oracle::{self, Survey, dimensions, level, rank};
use crate::random::Random;
use crate::tally::Tally;
use ferreus_bbfmm::bbfmm::TreeLists;
use ferreus_bbfmm::{FmmError, linear_tree, morton};
use lohandema::Refusal;
use lohandema::points::Bounds;
use lohandema::trees::{Rows, Tree};
use std::collections::{HashMap, HashSet};

/// How a survey is shown where something differs.
pub fn show(s: &Survey) -> String {
    let mut text = format!("{s:?}");
    text.truncate(1500);
    text
}

/// The Rust's lookup of one point.
fn leaf_of(s: &Survey, leaves: &HashSet<u64>, depth: u64, point: &[f64]) -> Option<u64> {
    let b = &s.bounds;
    let found = linear_tree::points_to_keys(
        oracle::rows(b.axes, point),
        leaves,
        depth,
        &b.centre[..b.axes],
        b.radius,
        &dimensions(b.axes),
    );
    match found {
        Ok(keys) => Some(keys[0]),
        Err(FmmError::PointOutsideTree { .. }) => None,
        Err(e) => panic!("{e:?}"),
    }
}

/// What document 01 says of a batch, from the Rust's lookup of each point that is inside.
pub fn looked_up(
    s: &Survey,
    leaves: &HashSet<u64>,
    depth: u64,
    points: &[f64],
) -> Result<(Vec<u64>, usize), Refusal> {
    let (mut keys, mut steps) = (vec![], 0);
    for (row, point) in points.chunks(s.bounds.axes).enumerate() {
        if !oracle::inside(&s.bounds, point) {
            return oracle::refused_at(7, row, &s.bounds, point);
        }
        let Some(key) = leaf_of(s, leaves, depth, point) else {
            return refused(12, row);
        };
        keys.push(key);
        steps += (depth - level(key)) as usize;
    }
    Ok((keys, steps))
}

pub fn lookup(t: &mut Tally, r: &mut Random, _case: u64) {
    let s = inputs::survey(r, 600);
    let (lists, depth) = oracle::build(&s);
    let tree = oracle::columns(&s.bounds, &lists);
    t.same("depth", tree.depth(), depth, || show(&s));
    t.same("well formed", tree.is_well_formed(), true, || show(&s));
    let rows = r.index(80);
    let mut batches = vec![
        s.sources.clone(),
        s.targets.clone(),
        inputs::points(r, &s.bounds, rows),
    ];
    // and one with points that fail
    let mut odd = inputs::points(r, &s.bounds, 20);
    for _ in 0..r.index(4) {
        odd.extend_from_slice(&inputs::point(r, &s.bounds)[..s.bounds.axes]);
        odd.extend(inputs::points(r, &s.bounds, 3));
    }
    let chunks = odd.chunks(s.bounds.axes).rev().take(8);
    for (turn, point) in chunks.enumerate() {
        // of a single point the refusal has the value 0, which is its row here
        let right = looked_up(&s, &lists.leaves, depth, point);
        let ours = tree.point_to_leaf(point);
        let right = right.map(|(keys, steps)| (keys[0], steps as u64));
        let input = || format!("{} point {point:?}", show(&s));
        t.same("lookup of one point", ours, right, input);
        let (b, three) = (
            face::odd_box(&s.bounds, turn),
            face::odd_past(point, turn + 1),
        );
        let ours = face::point_to_leaf(&b, tree.columns(), &three);
        t.same("lookup of one point, C face", ours, right, input);
    }
    batches.push(odd);
    for points in batches {
        let right = looked_up(&s, &lists.leaves, depth, &points);
        if right.is_err() {
            t.refusal();
        }
        let ours = tree.points_to_keys(&points);
        t.same("lookup", ours, right, || {
            format!("{} points {points:?}", show(&s))
        });
    }
}

/// Points all over the box, or nine of ten of them in a small part of it.
fn spread(r: &mut Random, b: &Bounds, rows: usize, cluster: bool) -> Vec<f64> {
    let low: Vec<f64> = b.centre[..b.axes].iter().map(|c| c - b.radius).collect();
    let mut point = |row: usize| -> Vec<f64> {
        let all_over = !cluster || row % 10 == 0;
        let (from, wide) = if all_over { (0.0, 2.0) } else { (1.05, 0.003) };
        let place = |low: &f64| low + b.radius * (from + wide * r.unit());
        low.iter().map(place).collect()
    };
    (0..rows).flat_map(&mut point).collect()
}

/// Axes, sources, whether they cluster, and whether empty cells are kept. Nodes of all but the first crowd in the table of
/// hints, so that it has blocks, of the third and the fourth several deep; of the second and the fourth there is no room for all.
const MANY: [(usize, usize, bool, bool); 4] = [
    (1, 50_000, false, true),
    (2, 30_000, false, true),
    (3, 4_000, true, true),
    (3, 8_000, true, true),
];

/// Lookups in trees of many nodes: of the sources, of others, of so few that the table has no blocks for them, and of so few
/// that there is no table.
pub fn lookup_many(t: &mut Tally, r: &mut Random, _case: u64) {
    for (axes, rows, cluster, keep_empty) in MANY {
        let bounds = Bounds::new(&[7.5, -3.25, 100.0][..axes], 64.0);
        let sources = spread(r, &bounds, rows, cluster);
        let others = spread(r, &bounds, 20_000, cluster);
        let s = Survey {
            bounds,
            sources,
            targets: vec![],
            limit: 1,
            order: 1,
            keep_empty,
        };
        let (lists, depth) = oracle::build(&s);
        let tree = oracle::columns(&s.bounds, &lists);
        let nodes = tree.key.len();
        assert!(nodes > 15_000, "{nodes} nodes are not many");
        let (fewer, few) = (&others[..axes * (nodes / 8)], &others[..axes * 200]);
        for points in [&s.sources[..], &others, fewer, few] {
            let right = looked_up(&s, &lists.leaves, depth, points);
            let ours = tree.points_to_keys(points);
            let input = || format!("{axes} axes, {} coordinates", points.len());
            t.same("lookup", ours, right, input);
        }
    }
}

/// The points of each node, from the Rust's map.
fn groups(tree: &Tree, map: &HashMap<u64, Vec<usize>>) -> (Vec<usize>, Vec<usize>) {
    let (mut starts, mut indices) = (vec![0], vec![]);
    for k in &tree.key {
        indices.extend(map.get(k).into_iter().flatten());
        starts.push(indices.len());
    }
    (starts, indices)
}

pub fn grouping(t: &mut Tally, r: &mut Random, _case: u64) {
    let s = inputs::survey(r, 600);
    let (lists, depth) = oracle::build(&s);
    let tree = oracle::columns(&s.bounds, &lists);
    let points = inputs::points(r, &s.bounds, 300);
    let keys: Vec<u64> = points
        .chunks(s.bounds.axes)
        .filter_map(|p| leaf_of(&s, &lists.leaves, depth, p))
        .collect();
    let map = linear_tree::get_points_to_leaves_map(&keys);
    let ours = tree
        .get_points_to_leaves_map(&keys)
        .map(|g| (g.starts, g.indices));
    t.same("grouping", ours, Ok(groups(&tree, &map)), || show(&s));
    if keys.is_empty() {
        return;
    }
    // keys that are no leaf: the lowest index is told
    let mut bad = keys.clone();
    let at: Vec<usize> = (0..1 + r.index(3)).map(|_| r.index(bad.len())).collect();
    for i in &at {
        bad[*i] = match r.below(4) {
            0 => 0,
            1 => r.next(),
            2 => morton::get_parent(bad[*i], &dimensions(s.bounds.axes)).unwrap_or(0),
            _ => r.pick(&tree.key),
        };
    }
    let first = bad.iter().position(|k| !lists.leaves.contains(k));
    let ours = tree.get_points_to_leaves_map(&bad).map(|_| ());
    if first.is_some() {
        t.refusal();
    }
    t.same(
        "grouping",
        ours,
        first.map_or(Ok(()), |i| refused(14, i)),
        || format!("{} keys {bad:?}", show(&s)),
    );
}

pub fn sourced(t: &mut Tally, r: &mut Random, _case: u64) {
    let s = inputs::survey(r, 1500);
    let (lists, _) = oracle::build(&s);
    let tree = oracle::columns(&s.bounds, &lists);
    let mut theirs: Vec<(usize, u64)> = lists
        .source_key_to_index_map
        .iter()
        .map(|(k, i)| (*i, *k))
        .collect();
    theirs.sort_unstable();
    let theirs: Vec<u64> = theirs.into_iter().map(|(_, k)| k).collect();
    t.same(
        "sourced cells",
        tree.get_sourced_cells(),
        Ok(theirs),
        || show(&s),
    );
    for node in 0..tree.key.len().min(50) {
        let theirs = lists
            .leaf_source_indices
            .get(&tree.key[node])
            .cloned()
            .unwrap_or_default();
        t.same(
            "leaf sources",
            tree.leaf_sources(node).to_vec(),
            theirs,
            || show(&s),
        );
    }
}

/// The Rust's rows in node order; an absent entry is an empty row.
pub fn flat(tree: &Tree, map: &HashMap<u64, Vec<u64>>) -> Rows {
    let (mut starts, mut keys) = (vec![0], vec![]);
    for k in &tree.key {
        keys.extend(map.get(k).into_iter().flatten());
        starts.push(keys.len());
    }
    Rows { starts, keys }
}

pub fn compare_lists(
    t: &mut Tally,
    tree: &Tree,
    u: &HashMap<u64, Vec<u64>>,
    v: &HashMap<u64, Vec<u64>>,
    input: impl Fn() -> String,
) {
    let ours = tree.get_interaction_lists();
    let (ours_u, ours_v) = match ours {
        Ok(lists) => (Ok(lists.u), Ok(lists.v)),
        Err(e) => (Err(e), Err(e)),
    };
    t.same("U", ours_u, Ok(flat(tree, u)), &input);
    t.same("V", ours_v, Ok(flat(tree, v)), &input);
}

pub fn lists(t: &mut Tally, r: &mut Random, _case: u64) {
    let s = inputs::survey(r, 500);
    let (lists, _) = oracle::build(&s);
    let tree = oracle::columns(&s.bounds, &lists);
    compare_lists(t, &tree, &lists.u_lists, &lists.v_lists, || show(&s));
}

/// A tree that no build makes: some of the children of some cells, sources in some leaves.
pub fn odd_tree(r: &mut Random, most: usize) -> TreeLists {
    let axes = 1 + r.index(3);
    let d = dimensions(axes);
    let (part, deep) = (2 + r.below(4), 1 + r.below(16));
    let mut tree = HashSet::from([0]);
    let mut children = HashMap::new();
    let mut waiting = vec![0u64];
    let narrow = r.once_in(3);
    while let Some(cell) = waiting.pop() {
        let split = cell == 0 || (level(cell) < deep && tree.len() < most && !r.once_in(part));
        let kept: Vec<u64> = if split {
            morton::get_children(cell, &d)
                .into_iter()
                .filter(|_| !r.once_in(part))
                .collect()
        } else {
            vec![]
        };
        for &k in &kept {
            tree.insert(k);
            if narrow {
                waiting.push(k)
            } else {
                waiting.insert(0, k)
            }
        }
        children.insert(cell, kept);
    }
    let leaves: HashSet<u64> = tree
        .iter()
        .copied()
        .filter(|k| *k != 0 && children[k].is_empty())
        .collect();
    let mut sorted: Vec<u64> = leaves.iter().copied().collect();
    sorted.sort_by_key(|&k| rank(axes, k));
    let (mut own, mut next) = (HashMap::new(), 0);
    for k in sorted {
        let count = if r.once_in(2) { 0 } else { r.index(5) };
        if count > 0 {
            own.insert(k, (next..next + count).collect());
            next += count;
        }
    }
    TreeLists {
        tree,
        leaves,
        children,
        u_lists: HashMap::new(),
        v_lists: HashMap::new(),
        level_cells_map: HashMap::new(),
        key_to_index_map: HashMap::from([(axes as u64, 0)]),
        source_key_to_index_map: HashMap::new(),
        leaf_source_indices: own,
        leaf_target_indices: HashMap::new(),
    }
}

pub struct RustRows {
    pub u: HashMap<u64, Vec<u64>>,
    pub v: HashMap<u64, Vec<u64>>,
    pub cells: Vec<u64>,
}

/// The number of axes of such a tree.
pub fn axes_of(lists: &TreeLists) -> usize {
    *lists.key_to_index_map.keys().next().unwrap() as usize
}

/// Such a tree's rows and sourced cells by the Rust.
pub fn rust_rows(given: &TreeLists, axes: usize) -> RustRows {
    let (u, v, map) = linear_tree::get_interaction_lists(
        &given.tree,
        &given.leaves,
        &given.children,
        &given.leaf_source_indices,
        &vec![4.0; axes],
        4.0,
        &dimensions(axes),
    );
    let mut cells: Vec<u64> = map.keys().copied().collect();
    cells.sort_unstable();
    RustRows { u, v, cells }
}

pub fn odd_lists(t: &mut Tally, r: &mut Random, _case: u64) {
    let given = odd_tree(r, 400);
    let axes = axes_of(&given);
    let tree = oracle::columns(&oracle::any_box(axes), &given);
    let right = rust_rows(&given, axes);
    let input = || format!("{tree:?}");
    compare_lists(t, &tree, &right.u, &right.v, input);
    t.same(
        "sourced cells",
        tree.get_sourced_cells(),
        Ok(right.cells),
        input,
    );
}
