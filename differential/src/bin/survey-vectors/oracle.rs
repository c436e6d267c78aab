//! The customer's Rust, called unchanged: the tree of a survey, its nodes level by level as a listing has them, its lists and
//! its lookups.
//!
//! The refusals of the build are document 01's; the Rust has none.
use crate::survey::{BOX, ORDER, POINT, ROOM, Refused, SOURCE, Survey, UNSTORED, Wall};
use faer::MatRef;
use ferreus_bbfmm::EvaluationTargets;
use ferreus_bbfmm::bbfmm::{Dimensions, TreeLists};
use ferreus_bbfmm::{linear_tree, morton};

// The listing program's room.
pub const NODES: usize = 2_048;
pub const ENTRIES: usize = 8_192;

pub struct Tree {
    /// Keys by level, then ascending code: the order of a listing, and not that of columns.
    pub keys: Vec<u64>,
    pub depth: u64,
    pub lists: TreeLists,
}

impl Tree {
    pub fn own(&self, key: u64) -> usize {
        self.lists.leaf_source_indices.get(&key).map_or(0, Vec::len)
    }

    pub fn u_row(&self, key: u64) -> &[u64] {
        self.lists.u_lists.get(&key).map_or(&[], Vec::as_slice)
    }

    pub fn v_row(&self, key: u64) -> &[u64] {
        self.lists.v_lists.get(&key).map_or(&[], Vec::as_slice)
    }

    pub fn u_entries(&self) -> usize {
        self.keys.iter().map(|&key| self.u_row(key).len()).sum()
    }

    pub fn v_entries(&self) -> usize {
        self.keys.iter().map(|&key| self.v_row(key).len()).sum()
    }

    /// The leaf of each source, leaf by leaf.
    pub fn leaves_of_sources(&self) -> Vec<u64> {
        let leaves = self.keys.iter();
        let again = |&key: &u64| vec![key; self.own(key)];
        leaves.flat_map(again).collect()
    }

    /// The sum over the leaves of all targets, one for each, of the sources in the U row.
    pub fn near_work(&self, leaves: &[u64]) -> usize {
        let in_row = |&key: &u64| -> usize {
            let row = self.u_row(key).iter();
            row.map(|&near| self.own(near)).sum()
        };
        leaves.iter().map(in_row).sum()
    }
}

fn dimensions(axes: usize) -> Dimensions {
    match axes {
        1 => Dimensions::One,
        2 => Dimensions::Two,
        3 => Dimensions::Three,
        _ => panic!("{axes} axes"),
    }
}

fn rows(axes: usize, points: &[f64]) -> MatRef<'_, f64> {
    MatRef::from_row_major_slice(points, points.len() / axes, axes)
}

fn centre(s: &Survey) -> Vec<f64> {
    s.centre[..s.axes].to_vec()
}

/// Document 01's rule and request 5's, with the Rust's own quotient and floor: finite, and the level-16 anchors in 0..65535;
/// else the first axis that is not, and why.
fn wall(s: &Survey, point: &[f64]) -> Option<Wall> {
    let side = morton::get_side_length(s.radius, 16);
    point
        .iter()
        .zip(&s.centre)
        .enumerate()
        .find_map(|(axis, (&x, &c))| {
            let anchor = morton::probe_coordinate_to_anchor(x, c - s.radius, side);
            match anchor {
                _ if !x.is_finite() => Some(Wall(axis, 1)),
                _ if anchor < 0.0 => Some(Wall(axis, 2)),
                _ if anchor > 65535.0 => Some(Wall(axis, 3)),
                _ => None,
            }
        })
}

pub fn inside(s: &Survey, point: &[f64]) -> bool {
    wall(s, point).is_none()
}

/// Refused with this number where a point is outside: the first such, and its wall.
fn all_inside(s: &Survey, points: &[f64], number: u64) -> Result<(), Refused> {
    for (index, point) in points.chunks(s.axes).enumerate() {
        if let Some(wall) = wall(s, point) {
            return Err(Refused(number, index as u64, Some(wall)));
        }
    }
    Ok(())
}

/// Refinement acts where empty cells are kept and there are targets.
fn targets_used(s: &Survey) -> bool {
    s.keep_empty && !s.targets.is_empty()
}

/// BOX, ORDER, SOURCE and POINT, in this order.
fn check(s: &Survey) -> Result<(), Refused> {
    let centred = |c: &f64| c.is_finite() && c.abs() <= 16_777_216.0;
    if !(0.25..=1_048_576.0).contains(&s.radius) || !s.centre[..s.axes].iter().all(centred) {
        return Err(Refused(BOX, 0, None));
    }
    if targets_used(s) && !(1..=64).contains(&s.order) {
        return Err(Refused(ORDER, 0, None));
    }
    all_inside(s, &s.sources, SOURCE)?;
    if targets_used(s) {
        all_inside(s, &s.targets, POINT)?;
    }
    Ok(())
}

/// The Rust's tree of a survey that is not refused.
pub fn grown(s: &Survey) -> Tree {
    let targets = targets_used(s).then(|| EvaluationTargets::Points(rows(s.axes, &s.targets)));
    let mut depth = 0;
    let lists = linear_tree::build_tree(
        rows(s.axes, &s.sources),
        &centre(s),
        s.radius,
        s.limit as usize,
        s.keep_empty,
        &mut depth,
        dimensions(s.axes),
        s.order as usize,
        targets,
    );
    let mut keys: Vec<u64> = lists.tree.iter().copied().collect();
    keys.sort_by_key(|key| (key % 32768, key / 32768));
    Tree { keys, depth, lists }
}

/// The tree, with the listing program's room for nodes.
pub fn build(s: &Survey) -> Result<Tree, Refused> {
    check(s)?;
    let tree = grown(s);
    if tree.keys.len() > NODES {
        return Err(Refused(ROOM, 3, None));
    }
    Ok(tree)
}

/// The tree, with the listing program's room for nodes and both lists.
pub fn build_with_lists(s: &Survey) -> Result<Tree, Refused> {
    let tree = build(s)?;
    if tree.u_entries() > ENTRIES {
        return Err(Refused(ROOM, 6, None));
    }
    if tree.v_entries() > ENTRIES {
        return Err(Refused(ROOM, 7, None));
    }
    Ok(tree)
}

fn keys_of(s: &Survey, tree: &Tree, points: &[f64]) -> Option<Vec<u64>> {
    let (points, d) = (rows(s.axes, points), dimensions(s.axes));
    linear_tree::points_to_keys(
        points,
        &tree.lists.leaves,
        tree.depth,
        &centre(s),
        s.radius,
        &d,
    )
    .ok()
}

/// The leaf of each target and the sum of steps; POINT or UNSTORED at the lowest index that fails.
pub fn lookup(s: &Survey, tree: &Tree) -> Result<(Vec<u64>, u64), Refused> {
    for (index, point) in s.targets.chunks(s.axes).enumerate() {
        if let Some(wall) = wall(s, point) {
            return Err(Refused(POINT, index as u64, Some(wall)));
        }
        if keys_of(s, tree, point).is_none() {
            return Err(Refused(UNSTORED, index as u64, None));
        }
    }
    let keys = keys_of(s, tree, &s.targets).expect("no point fails");
    let steps = keys.iter().map(|key| tree.depth - key % 32768).sum();
    Ok((keys, steps))
}

/// Near work of the targets, which are looked up whatever the flags; where there are none the sources serve as targets.
pub fn near_work(s: &Survey, tree: &Tree) -> Result<usize, Refused> {
    if s.targets.is_empty() {
        return Ok(tree.near_work(&tree.leaves_of_sources()));
    }
    let (leaves, _) = lookup(s, tree)?;
    Ok(tree.near_work(&leaves))
}
