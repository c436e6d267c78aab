//! Balanced trees, for which there is no Rust: beside leaves that are split until no two that touch are more than one level
//! apart, each split being one that every balanced tree has to make. Trees of the Rust with empty cells, trees that nobody
//! built, and all trees of few levels; own, begin, total and order by a plain count of the points in each leaf.
use crate::inputs;
use crate::keys::refused;
use crate::oracle::{self, level, rank};
use crate::random::Random;
use crate::refusals::{asked, well_formed};
use crate::room::Room;
use crate::tally::Tally;
use ferreus_bbfmm::morton;
use lohandema::Refusal;
use lohandema::lent;
use lohandema::points::Bounds;
use lohandema::trees::Tree;
use std::collections::{HashMap, HashSet};

/// Trees with more leaves than this are not compared: each pair of leaves is looked at, again and again.
const MOST_LEAVES: usize = 3_000;
const MOST: usize = 1_048_576;

/// A cell with its walls, in units of the deepest level.
#[derive(Clone)]
struct Cell {
    key: u64,
    low: [u64; 3],
    high: [u64; 3],
}

impl Cell {
    fn of(axes: usize, key: u64) -> Cell {
        let anchor = morton::decode_key(key, &oracle::dimensions(axes));
        let (mut low, mut high) = ([0; 3], [0; 3]);
        for a in 0..axes {
            low[a] = anchor[a] << (16 - level(key));
            high[a] = (anchor[a] + 1) << (16 - level(key));
        }
        Cell { key, low, high }
    }

    /// Whether the cells with their walls share a point.
    fn meets(&self, other: &Cell) -> bool {
        (0..3).all(|a| self.low[a] <= other.high[a] && other.low[a] <= self.high[a])
    }

    /// Whether the other is a leaf that this one may not stand beside.
    fn too_large_for(&self, other: &Cell) -> bool {
        level(self.key) + 1 < level(other.key) && self.meets(other)
    }
}

pub fn children(axes: usize, key: u64) -> Vec<u64> {
    let d = oracle::dimensions(axes);
    let mut all: Vec<u64> = morton::get_children(key, &d).into_iter().collect();
    all.sort_unstable();
    all
}

/// The cells with no child among them; the root alone is none.
fn leaves(axes: usize, keys: &HashSet<u64>) -> Vec<Cell> {
    let split: HashSet<u64> = keys
        .iter()
        .filter_map(|k| oracle::upwards(axes, *k).nth(1))
        .collect();
    let leaves = keys.iter().filter(|k| **k != 0 && !split.contains(k));
    leaves.map(|k| Cell::of(axes, *k)).collect()
}

/// The keys with every leaf split that touches one more than a level below it, until there is none.
fn closed(axes: usize, keys: &[u64]) -> Option<HashSet<u64>> {
    let mut all: HashSet<u64> = keys.iter().copied().collect();
    loop {
        let leaves = leaves(axes, &all);
        if leaves.len() > MOST_LEAVES {
            return None;
        }
        let large = |a: &&Cell| leaves.iter().any(|b| a.too_large_for(b));
        let split: Vec<u64> = leaves.iter().filter(large).map(|a| a.key).collect();
        if split.is_empty() {
            return Some(all);
        }
        for key in split {
            all.extend(children(axes, key));
        }
    }
}

/// All children or none of each cell.
fn is_full(axes: usize, keys: &[u64]) -> bool {
    let all: HashSet<u64> = keys.iter().copied().collect();
    keys.iter().filter(|k| level(**k) < 16).all(|k| {
        let below = children(axes, *k);
        let stored = below.iter().filter(|c| all.contains(c)).count();
        stored == 0 || stored == below.len()
    })
}

/// The columns of these keys with the points in their leaves, in ascending order; and whether each point is in one.
pub fn settled(bounds: &Bounds, keys: &HashSet<u64>, points: &[f64]) -> (Tree, bool) {
    let axes = bounds.axes;
    let d = oracle::dimensions(axes);
    let ends: HashSet<u64> = leaves(axes, keys).iter().map(|leaf| leaf.key).collect();
    let mut sources: HashMap<u64, Vec<usize>> = HashMap::new();
    let mut all = true;
    for (i, point) in points.chunks_exact(axes).enumerate() {
        if !oracle::inside(bounds, point) {
            all = false;
            continue;
        }
        let mut anchor = oracle::anchors(bounds, point, 16);
        anchor.push(16);
        let code = morton::encode_morton_point(anchor, &d);
        match oracle::upwards(axes, code).find(|cell| ends.contains(cell)) {
            Some(leaf) => sources.entry(leaf).or_default().push(i),
            None => all = false,
        }
    }
    let mut key: Vec<u64> = keys.iter().copied().collect();
    key.sort_by_key(|&k| rank(axes, k));
    (oracle::columns_of(bounds, key, &sources), all)
}

/// The call with these slices.
fn call(room: &mut Room, tree: &Tree, points: &[f64]) -> Result<(usize, u64), Refusal> {
    let [own, begin, total] = &mut room.columns;
    lent::balance_tree(
        &tree.bounds,
        points,
        tree.columns(),
        &tree.order,
        &mut room.work,
        &mut room.order,
        &mut room.key,
        own,
        begin,
        total,
    )
}

/// The refusals before the room is looked at.
fn judged(tree: &Tree, points: &[f64]) -> Result<(), Refusal> {
    let (b, axes) = (&tree.bounds, tree.axes());
    asked((1..=3).contains(&axes), (1, 0))?;
    let centre = b.centre[..axes].iter().all(|c| c.abs() <= 16_777_216.0);
    asked(centre && (0.25..=1_048_576.0).contains(&b.radius), (2, 0))?;
    asked(points.len() % axes == 0, (3, 0))?;
    asked(points.len() / axes <= MOST, (4, 0))?;
    asked(well_formed(tree), (13, 0))?;
    asked(is_full(axes, &tree.key), (19, 0))?;
    let mut rows = points.chunks(axes).enumerate();
    if let Some((row, point)) = rows.find(|(_, p)| !oracle::inside(b, p)) {
        return oracle::refused_at(6, row, b, point);
    }
    let keys = tree.key.iter().copied().collect();
    let (plain, all) = settled(b, &keys, points);
    let given = all && plain.own == tree.own && plain.order == tree.order;
    asked(given, (18, 0))
}

/// The call with so much room, and with what is wrong with the tree and its points.
fn compare(t: &mut Tally, tree: &Tree, points: &[f64], right: &Result<Tree, Refusal>, room: Room) {
    let mut room = room;
    let wanted = right.clone().and_then(|right| room.for_tree(right));
    if wanted.is_err() {
        t.refusal();
    }
    let input = || format!("{tree:?} points {points:?}");
    let ours = call(&mut room, tree, points);
    let told = wanted.as_ref().map(|tree| (tree.key.len(), tree.depth()));
    t.same("balance", ours, told.map_err(|refusal| *refusal), input);
    let held = room.holds(wanted.as_ref().ok());
    t.same("balance's slices", held, true, input);
}

/// What the answer has to be, by the plain closure; none where that would take long.
fn right_of(tree: &Tree, points: &[f64]) -> Option<Result<Tree, Refusal>> {
    if let Err(refusal) = judged(tree, points) {
        return Some(Err(refusal));
    }
    let keys = closed(tree.axes(), &tree.key)?;
    Some(Ok(settled(&tree.bounds, &keys, points).0))
}

/// Of a tree that the call has written: no two leaves that touch are more than a level apart; with any group of siblings
/// dropped that is new, two are; it contains the given one, and comes back the same.
fn properties(t: &mut Tally, tree: &Tree, points: &[f64]) {
    let (axes, input) = (tree.axes(), || format!("{tree:?} points {points:?}"));
    let Ok(ours) = tree.balanced(points) else {
        return t.same("balanced", false, true, input);
    };
    let keys: HashSet<u64> = ours.key.iter().copied().collect();
    let old: HashSet<u64> = tree.key.iter().copied().collect();
    let leaves = leaves(axes, &keys);
    let apart = |a: &Cell| leaves.iter().any(|b| a.too_large_for(b));
    t.same(
        "touching leaves apart",
        leaves.iter().any(apart),
        false,
        input,
    );
    let ends: HashSet<u64> = leaves.iter().map(|leaf| leaf.key).collect();
    let may_go = |key: &u64| {
        let below = if level(*key) < 16 && !ends.contains(key) {
            children(axes, *key)
        } else {
            vec![]
        };
        !below.is_empty() && below.iter().all(|c| ends.contains(c) && !old.contains(c)) && {
            let cell = Cell::of(axes, *key);
            let others = leaves.iter().filter(|b| !below.contains(&b.key));
            !others.clone().any(|b| cell.too_large_for(b))
        }
    };
    t.same(
        "siblings too many",
        ours.key.iter().any(may_go),
        false,
        input,
    );
    t.same("cells lost", old.is_subset(&keys), true, input);
    t.same(
        "well formed and full",
        well_formed(&ours) && is_full(axes, &ours.key),
        true,
        input,
    );
    t.same("depth", ours.depth(), tree.depth(), input);
    t.same("again", ours.balanced(points), Ok(ours.clone()), input);
}

/// With room just enough, with one entry less in one column, and with any; then what holds of the answer.
fn all_of(t: &mut Tally, r: &mut Random, tree: &Tree, points: &[f64]) {
    let Some(right) = right_of(tree, points) else {
        return;
    };
    let (rows, nodes) = right
        .as_ref()
        .map_or((4, 9), |right| (right.order.len(), right.key.len()));
    compare(t, tree, points, &right, Room::exact(rows, nodes));
    let short = Room::one_less(r, rows, nodes);
    compare(t, tree, points, &right, short);
    compare(t, tree, points, &right, Room::any(r, rows, nodes));
    if right.is_ok() {
        properties(t, tree, points);
    }
}

/// The tree of these keys and points, as the columns are.
fn tree_of(bounds: &Bounds, keys: &[u64], points: &[f64]) -> Tree {
    settled(bounds, &keys.iter().copied().collect(), points).0
}

/// All trees under a cell that go so many levels down, each with all children or none of each cell.
fn every_tree(axes: usize, key: u64, levels: u64) -> Vec<Vec<u64>> {
    let mut all = vec![vec![key]];
    if levels > 0 {
        let mut split = vec![vec![key]];
        for child in children(axes, key) {
            let below = every_tree(axes, child, levels - 1);
            let with = |part: &Vec<u64>| -> Vec<Vec<u64>> {
                below
                    .iter()
                    .map(|b| [part.as_slice(), b].concat())
                    .collect()
            };
            split = split.iter().flat_map(with).collect();
        }
        all.extend(split);
    }
    all
}

/// All trees of one axis to level 4, and of two axes to level 3, or some of the latter.
fn exhaustive(t: &mut Tally) {
    let step = if t.short() { 10 } else { 1 };
    for (axes, levels, step) in [(1, 4, 1), (2, 2, 1), (2, 3, step), (3, 1, 1)] {
        let bounds = oracle::any_box(axes);
        for keys in every_tree(axes, 0, levels).iter().step_by(step) {
            let tree = tree_of(&bounds, keys, &[]);
            let right = right_of(&tree, &[]).expect("few leaves");
            let nodes = right.as_ref().map_or(0, |right| right.key.len());
            compare(t, &tree, &[], &right, Room::exact(0, nodes));
            compare(t, &tree, &[], &right, Room::exact(0, nodes - 1));
        }
    }
}

/// Where what is like touching gives another tree: the coarser level, faces only, one round.
fn known(t: &mut Tally) {
    let input = || String::new();
    let bounds = oracle::any_box(1);
    let tree = tree_of(&bounds, &[0, 1, 2, 3, 32771, 32770, 32769], &[]);
    t.same(
        "balanced already",
        tree.balanced(&[]),
        Ok(tree.clone()),
        input,
    );
    let root = tree_of(&bounds, &[0], &[]);
    t.same("root alone", root.balanced(&[]), Ok(root.clone()), input);
    t.same(
        "root with a point",
        root.balanced(&[0.5]),
        refused(18, 0),
        input,
    );
    let half = tree_of(&bounds, &[0, 1], &[]);
    t.same("half a root", half.balanced(&[]), refused(19, 0), input);
    let halves = tree_of(&bounds, &[0, 1, 2, 32769, 65538], &[]);
    t.same("two halves", halves.balanced(&[]), refused(19, 0), input);
    let many = vec![0.5; MOST + 1];
    t.same("too many", half.balanced(&many), refused(4, 0), input);
}

/// Few points at places that make deep cells beside large ones: a corner, the middle from below, two clusters.
fn deep(r: &mut Random) -> (Bounds, Vec<f64>, usize) {
    let axes = 1 + r.index(3);
    let bounds = inputs::bounds(r, axes);
    let sort = r.below(4);
    let rows = 2 + r.index(if axes == 3 { 3 } else { 8 });
    let (first, second) = (r.unit(), r.unit());
    let mut points = vec![];
    for row in 0..rows {
        let off = r.unit() * 0.5_f64.powi(r.index(15) as i32);
        let point: Vec<f64> = (0..axes)
            .map(|a| {
                let place = match sort {
                    0 => off * 1e-3,
                    1 => 0.5 - off * 1e-3 * r.unit(),
                    2 => [first, second][row % 2] + off * 1e-4 * r.unit(),
                    _ => [0.5 - 1e-6, 0.5, 0.0, 0.25 - 1e-5][r.index(4)],
                };
                bounds.centre[a] + bounds.radius * (2.0 * place.clamp(0.0, 0.99) - 1.0)
            })
            .collect();
        if oracle::inside(&bounds, &point) {
            points.extend(point);
        }
    }
    (bounds, points, 1 + r.index(2))
}

/// Leaves split at random, of those in a random place more.
fn grown(r: &mut Random, axes: usize) -> Vec<u64> {
    let (mut all, mut ends) = (vec![0], vec![0]);
    let most = r.pick(&[0, 1, 3, 10, 30]);
    let last = r.once_in(2);
    for _ in 0..most {
        let at = if last {
            ends.len() - 1 - r.index(ends.len().min(3))
        } else {
            r.index(ends.len())
        };
        let key = ends.swap_remove(at);
        if level(key) < 16 {
            let below = children(axes, key);
            all.extend(&below);
            ends.extend(&below);
        }
    }
    all
}

/// A tree that the Rust builds of these points, with empty cells.
fn built(bounds: &Bounds, sources: &[f64], limit: usize) -> Tree {
    let s = oracle::Survey {
        bounds: *bounds,
        sources: sources.to_vec(),
        targets: vec![],
        limit,
        order: 1,
        keep_empty: true,
    };
    oracle::columns(bounds, &oracle::build(&s).0)
}

/// A tree and its points.
fn some_tree(r: &mut Random, case: u64) -> (Tree, Vec<f64>) {
    match case % 3 {
        0 => {
            let (bounds, points, limit) = deep(r);
            (built(&bounds, &points, limit), points)
        }
        1 => {
            let s = inputs::survey(r, 120);
            (built(&s.bounds, &s.sources, s.limit.max(1)), s.sources)
        }
        _ => {
            let axes = 1 + r.index(3);
            let bounds = inputs::bounds(r, axes);
            let keys = grown(r, axes);
            let rows = r.index(30);
            let points = if keys.len() > 1 {
                inputs::points(r, &bounds, rows)
            } else {
                vec![]
            };
            (tree_of(&bounds, &keys, &points), points)
        }
    }
}

/// The keys without one leaf, or without as many as a cell has children, so that the number of nodes may be that of a tree with
/// all children.
pub fn without_leaves(r: &mut Random, axes: usize, keys: &[u64]) -> Vec<u64> {
    let all: HashSet<u64> = keys.iter().copied().collect();
    let mut ends: Vec<u64> = leaves(axes, &all).iter().map(|leaf| leaf.key).collect();
    ends.sort_unstable();
    let many = r.pick(&[1, 1 << axes]);
    let mut gone = HashSet::new();
    for _ in 0..many {
        if !ends.is_empty() {
            gone.insert(ends.swap_remove(r.index(ends.len())));
        }
    }
    let kept = keys.iter().copied().filter(|k| !gone.contains(k));
    kept.collect()
}

/// One thing changed, which may leave all as it has to be.
fn damage(r: &mut Random, tree: &mut Tree, points: &mut Vec<f64>) {
    let (axes, n, rows) = (tree.axes(), tree.key.len(), tree.order.len());
    let numbers = points.len();
    match r.below(10) {
        0 => tree.bounds.radius = r.pick(&[0.0, -1.0, f64::NAN, 0.2, 2e6]),
        1 => points.push(0.5),
        2 => tree.total[r.index(n)] ^= 1,
        3 => {
            let kept = without_leaves(r, axes, &tree.key);
            *tree = tree_of(&tree.bounds, &kept, points);
        }
        4 if numbers > 0 => points[r.index(numbers)] = r.pick(&[f64::NAN, f64::INFINITY, -1e300]),
        5 if numbers > 0 => points[r.index(numbers)] = tree.bounds.centre[0],
        6 if rows > 1 => tree.order.swap(r.index(rows), rows - 1),
        7 if rows > 0 => tree.order[r.index(rows)] = r.index(rows + 1),
        8 if numbers > 0 => points.truncate(numbers.saturating_sub(axes)),
        _ => tree.order.push(rows),
    }
}

pub fn balance(t: &mut Tally, r: &mut Random, case: u64) {
    if case == 0 {
        known(t);
        exhaustive(t);
    }
    let (tree, points) = some_tree(r, case);
    if tree.key.len() > 2 * MOST_LEAVES {
        return;
    }
    all_of(t, r, &tree, &points);
    for _ in 0..4 {
        let (mut other, mut moved) = (tree.clone(), points.clone());
        damage(r, &mut other, &mut moved);
        if r.once_in(3) && other.key.len() == tree.key.len() {
            damage(r, &mut other, &mut moved);
        }
        if let Some(right) = right_of(&other, &moved) {
            let room = Room::any(r, moved.len() / other.axes().max(1), other.key.len());
            compare(t, &other, &moved, &right, room);
        }
    }
}
