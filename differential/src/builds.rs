//! The build: columns, order, depth and the count of nodes against the Rust's, the totals against the sums over its leaves; refusals and end
//! contents against document 01.
use crate::inputs;
use crate::oracle::{self, Survey};
use crate::points::in_domain;
use crate::random::Random;
use crate::refusals::{asked, left, lent_slice};
use crate::tally::Tally;
use crate::trees::show;
use ferreus_bbfmm::bbfmm::TreeLists;
use lohandema::Refusal;
use lohandema::lent::{self, Asked};
use lohandema::points::Bounds;
use lohandema::trees::Tree;
use std::collections::BTreeSet;

pub fn asked_of(s: &Survey, refine: bool) -> Asked<'_> {
    let mut asked = Asked::new(&s.bounds, &s.sources, s.limit);
    asked.targets = &s.targets;
    asked.order = s.order;
    asked.keep_empty = s.keep_empty;
    asked.refine = refine;
    asked
}

/// The Rust's build, with its targets or without.
fn rust_build(s: &Survey, refine: bool) -> (TreeLists, u64) {
    let mut given = s.clone();
    if !refine {
        given.targets.clear();
    }
    oracle::build(&given)
}

/// The same, as columns.
fn built(s: &Survey, refine: bool) -> (Tree, u64) {
    let (lists, depth) = rust_build(s, refine);
    (oracle::columns(&s.bounds, &lists), depth)
}

/// The cells with a total above 0.
fn with_total(tree: &Tree) -> BTreeSet<u64> {
    let nodes = tree.key.iter().zip(&tree.total);
    let sourced = nodes.filter(|node| *node.1 > 0);
    sourced.map(|node| *node.0).collect()
}

pub fn compare(t: &mut Tally, s: &Survey, refine: bool) {
    let (lists, depth) = rust_build(s, refine);
    let ours = Tree::build(asked_of(s, refine));
    if let Ok(tree) = &ours {
        t.same("depth", tree.depth(), depth, || show(s));
        let sourced = lists.source_key_to_index_map.keys().copied().collect();
        t.same("cells with a total", with_total(tree), sourced, || show(s));
    }
    let theirs = oracle::columns(&s.bounds, &lists);
    let counted = asked_of(s, refine).count_nodes();
    t.same("nodes", counted, Ok(theirs.key.len()), || show(s));
    t.same("tree", ours, Ok(theirs), || show(s));
}

pub fn build(t: &mut Tally, r: &mut Random, _case: u64) {
    let s = inputs::survey(r, 1500);
    let refine = !r.once_in(4);
    compare(t, &s, refine);
}

/// Refused with this number where a row is outside: the first such, and its wall.
pub fn all_inside(number: u64, b: &Bounds, points: &[f64]) -> Result<(), Refusal> {
    let mut rows = points.chunks(b.axes).enumerate();
    let outside = rows.find(|(_, p)| !oracle::inside(b, p));
    outside.map_or(Ok(()), |(row, p)| oracle::refused_at(number, row, b, p))
}

/// The checks 1 to 7 of document 01, in order.
fn checked(s: &Survey, used: &[f64]) -> Result<(), Refusal> {
    let b = &s.bounds;
    asked((1..=3).contains(&b.axes), (1, 0))?;
    asked(in_domain(b), (2, 0))?;
    asked(s.sources.len() % b.axes == 0, (3, 0))?;
    asked(used.len() % b.axes == 0, (3, 0))?;
    asked(s.sources.len() / b.axes <= 1_048_576, (4, 0))?;
    asked(used.len() / b.axes <= 1_048_576, (4, 0))?;
    asked(used.is_empty() || (1..=64).contains(&s.order), (5, 0))?;
    all_inside(6, b, &s.sources)?;
    all_inside(7, b, used)
}

/// A survey in which something is changed, so that a build may refuse it.
fn damaged(r: &mut Random, s: &mut Survey) {
    for _ in 0..r.index(3) {
        match r.below(7) {
            0 => s.bounds.axes = r.pick(&[0, 4, usize::MAX]),
            1 => s.bounds.radius = r.pick(&[0.2, f64::NAN, 2e6]),
            2 => s.sources.push(0.0),
            3 => s.targets.push(0.0),
            4 => s.order = r.pick(&[0, 65, usize::MAX]),
            5 if !s.sources.is_empty() => {
                let at = r.index(s.sources.len());
                s.sources[at] = r.pick(&[f64::NAN, 1e300, f64::NEG_INFINITY]);
            }
            6 if !s.targets.is_empty() => {
                let at = r.index(s.targets.len());
                s.targets[at] = r.pick(&[f64::NAN, 1e300, f64::NEG_INFINITY]);
            }
            _ => {}
        }
    }
}

/// Surveys as they are and damaged, slices long enough and short.
pub fn refusals(t: &mut Tally, r: &mut Random, _case: u64) {
    let mut s = inputs::survey(r, 60);
    let refine = !r.once_in(4);
    let tree = built(&s, refine && s.keep_empty);
    let whole = r.once_in(2);
    if !whole {
        damaged(r, &mut s);
    }
    let used: &[f64] = if s.keep_empty && refine {
        &s.targets
    } else {
        &[]
    };
    let rows = |points: &[f64]| points.len() / s.bounds.axes.clamp(1, 3);
    let (sources, targets) = (rows(&s.sources), rows(used));
    let mut work = lent_slice(r, 2 * sources + targets, u64::MAX);
    let mut order = lent_slice(r, sources, usize::MAX);
    let n = tree.0.key.len();
    let mut key = lent_slice(r, n, u64::MAX);
    let mut own = lent_slice(r, n, usize::MAX);
    let mut begin = lent_slice(r, n, usize::MAX);
    let mut total = lent_slice(r, n, usize::MAX);
    let right = checked(&s, used).and_then(|_| {
        // a damaged survey that passes is one whose damage is not looked at
        let tree = if whole {
            tree.clone()
        } else {
            built(&s, refine && s.keep_empty)
        };
        asked(2 * sources + targets <= work.len(), (8, 1))?;
        asked(sources <= order.len(), (8, 2))?;
        let room = key.len().min(own.len()).min(begin.len()).min(total.len());
        asked(tree.0.key.len() <= room, (8, 3))?;
        Ok(tree)
    });
    let empty = Tree::from_columns(s.bounds, vec![], vec![], vec![], vec![], vec![]);
    let answer = right.as_ref().map_or(&empty, |(tree, _)| tree);
    let after = (
        vec![0; work.len()],
        left(order.len(), &answer.order),
        left(key.len(), &answer.key),
        left(own.len(), &answer.own),
        left(begin.len(), &answer.begin),
        left(total.len(), &answer.total),
    );
    let ours = lent::build_tree(
        asked_of(&s, refine),
        &mut work,
        &mut order,
        &mut key,
        &mut own,
        &mut begin,
        &mut total,
    );
    if right.is_err() {
        t.refusal();
    }
    let input = || format!("{} refine {refine}", show(&s));
    t.same(
        "build",
        ours,
        right.map(|(tree, depth)| (tree.key.len(), depth)),
        input,
    );
    t.same(
        "build's slices",
        (work, order, key, own, begin, total),
        after,
        input,
    );
}
