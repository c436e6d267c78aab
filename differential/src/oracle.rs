//! The customer's Rust, called unchanged, and its trees as columns.
use faer::MatRef;
use ferreus_bbfmm::bbfmm::{Dimensions, TreeLists};
use ferreus_bbfmm::{EvaluationTargets, TargetGrid};
use ferreus_bbfmm::{linear_tree, morton};
use lohandema::points::Bounds;
use lohandema::trees::Tree;
use lohandema::{Grid, Reason, Refusal, Wall};
use std::collections::HashMap;
use std::iter::successors;

pub fn dimensions(axes: usize) -> Dimensions {
    match axes {
        1 => Dimensions::One,
        2 => Dimensions::Two,
        3 => Dimensions::Three,
        _ => panic!("{axes} axes"),
    }
}

pub fn level(key: u64) -> u64 {
    key % 32768
}

pub fn code(key: u64) -> u64 {
    key / 32768
}

/// Document 01's rule for a key.
pub fn valid(axes: usize, key: u64) -> bool {
    level(key) <= 16 && code(key) >> (axes as u64 * level(key)) == 0
}

/// A node's place in the order of nodes, which is depth first: by the first level-16 code of the cell, then by level.
pub fn rank(axes: usize, key: u64) -> (u128, u64) {
    let up = 16 - level(key);
    (u128::from(code(key)) << (axes as u64 * up), level(key))
}

/// The place that it had before, and has in a listing: by level, then ascending code.
pub fn rank_by_level(key: u64) -> (u64, u64) {
    (level(key), code(key))
}

/// The floor of the quotient on each axis at a level, by the Rust's own function.
fn floors(b: &Bounds, point: &[f64], level: u64) -> Vec<f64> {
    let side = morton::get_side_length(b.radius, level);
    (0..b.axes)
        .map(|a| morton::probe_coordinate_to_anchor(point[a], b.centre[a] - b.radius, side))
        .collect()
}

/// Document 01's rule: all coordinates are finite, all level-16 anchors lie in 0..65535.
pub fn inside(b: &Bounds, point: &[f64]) -> bool {
    point[..b.axes].iter().all(|x| x.is_finite())
        && floors(b, point, 16)
            .iter()
            .all(|q| *q >= 0.0 && *q <= 65535.0)
}

/// Request 5's rule, by the Rust's own floors at level 16: axis by axis, whether the coordinate itself is not finite, and then
/// on which side of the cells its floor lies.
pub fn wall(b: &Bounds, point: &[f64]) -> Option<Wall> {
    let floors = floors(b, point, 16);
    (0..b.axes).find_map(|axis| {
        let reason = match floors[axis] {
            _ if !point[axis].is_finite() => Reason::NotFinite,
            floor if floor < 0.0 => Reason::Below,
            floor if floor > 65535.0 => Reason::Above,
            _ => return None,
        };
        Some(Wall { axis, reason })
    })
}

/// The refusal with this number of a point that is outside.
pub fn refused_at<T>(number: u64, row: usize, b: &Bounds, point: &[f64]) -> Result<T, Refusal> {
    let refusal = Refusal::new(number, row);
    Err(wall(b, point).map_or(refusal, |w| refusal.behind(w.axis, w.reason)))
}

/// The Rust's anchors of a point at a level.
pub fn anchors(b: &Bounds, point: &[f64], level: u64) -> Vec<u64> {
    let displacement: Vec<f64> = b.centre[..b.axes].iter().map(|c| c - b.radius).collect();
    let row = faer::RowRef::from_slice(&point[..b.axes]);
    let side = morton::get_side_length(b.radius, level);
    let mut anchor = morton::point_to_anchor(row, level, &displacement, side);
    anchor.truncate(b.axes);
    anchor
}

pub fn rows(axes: usize, points: &[f64]) -> MatRef<'_, f64> {
    MatRef::from_row_major_slice(points, points.len() / axes, axes)
}

/// What a tree is built from.
#[derive(Clone, Debug)]
pub struct Survey {
    pub bounds: Bounds,
    pub sources: Vec<f64>,
    pub targets: Vec<f64>,
    pub limit: usize,
    pub order: usize,
    pub keep_empty: bool,
}

/// The Rust's tree with its lists, and the depth that it reports.
pub fn build(s: &Survey) -> (TreeLists, u64) {
    let points = || EvaluationTargets::Points(rows(s.bounds.axes, &s.targets));
    build_for(s, (!s.targets.is_empty()).then(points))
}

/// A grid as the Rust has it, or why it does not take it.
pub fn grid_of(axes: usize, g: &Grid) -> Result<TargetGrid, &'static str> {
    TargetGrid::try_new(&g.origin[..axes], &g.spacing[..axes], &g.shape[..axes])
}

/// The same as `build` with a grid for the survey's targets.
pub fn build_on_grid(s: &Survey, grid: &TargetGrid) -> (TreeLists, u64) {
    build_for(s, Some(EvaluationTargets::Grid(grid)))
}

fn build_for(s: &Survey, targets: Option<EvaluationTargets<'_>>) -> (TreeLists, u64) {
    let axes = s.bounds.axes;
    let mut depth = 0;
    let lists = linear_tree::build_tree(
        rows(axes, &s.sources),
        &s.bounds.centre[..axes].to_vec(),
        s.bounds.radius,
        s.limit,
        s.keep_empty,
        &mut depth,
        dimensions(axes),
        s.order,
        targets,
    );
    (lists, depth)
}

/// A box for trees that no survey is looked up in.
pub fn any_box(axes: usize) -> Bounds {
    Bounds::new(&[0.0; 3][..axes], 1.0)
}

/// A cell and all above it, up to the root.
pub fn upwards(axes: usize, key: u64) -> impl Iterator<Item = u64> {
    let d = dimensions(axes);
    successors(Some(key), move |k| morton::get_parent(*k, &d))
}

/// How many sources lie in each cell and all below it, from how many each leaf has.
pub fn totals(axes: usize, leaves: impl Iterator<Item = (u64, usize)>) -> HashMap<u64, usize> {
    let mut sums = HashMap::new();
    for (leaf, sources) in leaves {
        for cell in upwards(axes, leaf) {
            *sums.entry(cell).or_default() += sources;
        }
    }
    sums
}

/// Columns of these keys in the order in which they stand, with the sources of each leaf. The totals, which the Rust does not
/// have, are sums over the sources of its leaves.
pub fn columns_of(bounds: &Bounds, key: Vec<u64>, leaves: &HashMap<u64, Vec<usize>>) -> Tree {
    let (mut own, mut begin, mut order) = (vec![], vec![], vec![]);
    for k in &key {
        begin.push(order.len());
        let sources = leaves.get(k).map_or(&[][..], |v| v.as_slice());
        own.push(sources.len());
        order.extend_from_slice(sources);
    }
    let counts = leaves.iter().map(|(k, sources)| (*k, sources.len()));
    let sums = totals(bounds.axes, counts);
    let total = key.iter().map(|k| sums.get(k).copied().unwrap_or(0));
    let total = total.collect();
    Tree::from_columns(*bounds, key, own, begin, total, order)
}

/// The Rust's tree as columns, in the order of nodes.
pub fn columns(bounds: &Bounds, lists: &TreeLists) -> Tree {
    let mut key: Vec<u64> = lists.tree.iter().copied().collect();
    key.sort_by_key(|&k| rank(bounds.axes, k));
    columns_of(bounds, key, &lists.leaf_source_indices)
}

/// The same as the columns were before, level by level.
pub fn columns_by_level(bounds: &Bounds, lists: &TreeLists) -> Tree {
    let mut key: Vec<u64> = lists.tree.iter().copied().collect();
    key.sort_by_key(|&k| rank_by_level(k));
    columns_of(bounds, key, &lists.leaf_source_indices)
}

/// Columns of these keys in the order in which they stand, with so many sources in each; no order column.
pub fn tree_in_order(bounds: Bounds, nodes: &[(u64, usize)]) -> Tree {
    let sums = totals(bounds.axes, nodes.iter().copied());
    let mut tree = Tree::from_columns(bounds, vec![], vec![], vec![], vec![], vec![]);
    let mut sum = 0;
    for (key, own) in nodes {
        tree.key.push(*key);
        tree.own.push(*own);
        tree.begin.push(sum);
        tree.total.push(sums[key]);
        sum += own;
    }
    tree
}
