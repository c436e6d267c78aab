//! Damaged trees and short slices: the refusal and the end content of every lent slice, against document 01.
use crate::inputs;
use crate::keys::refused;
use crate::near_work::{self, Known};
use crate::oracle::{self, level, rank, valid};
use crate::random::Random;
use crate::renumbered;
use crate::tally::Tally;
use crate::totals;
use crate::trees::{self, show};
use ferreus_bbfmm::{linear_tree, morton};
use lohandema::Refusal;
use lohandema::lent;
use lohandema::trees::Tree;
use std::collections::HashMap;

/// Document 01's rule, written out plainly.
pub fn well_formed(tree: &Tree) -> bool {
    let n = tree.key.len();
    let lengths = [tree.own.len(), tree.begin.len(), tree.total.len()];
    if !(1..=3).contains(&tree.axes()) || n < 1 || lengths != [n; 3] {
        return false;
    }
    if tree.key[0] != 0 || !tree.key.iter().all(|k| valid(tree.axes(), *k)) {
        return false;
    }
    let place = |k| rank(tree.axes(), k);
    if !tree.key.windows(2).all(|w| place(w[0]) < place(w[1])) {
        return false;
    }
    let d = oracle::dimensions(tree.axes());
    let mut run = 0u128;
    for i in 0..n {
        if tree.begin[i] as u128 != run {
            return false;
        }
        run += tree.own[i] as u128;
        if i == 0 {
            if tree.own[0] != 0 {
                return false;
            }
            continue;
        }
        let parent = morton::get_parent(tree.key[i], &d).unwrap();
        match tree.key.iter().position(|k| *k == parent) {
            Some(at) if tree.own[at] == 0 => {}
            _ => return false,
        }
    }
    run <= 1_048_576 && totals_right(tree)
}

/// Whether each total is the number of sources in the cell and all below it.
fn totals_right(tree: &Tree) -> bool {
    let mut sums: HashMap<u64, u128> = HashMap::new();
    for (key, own) in tree.key.iter().zip(&tree.own) {
        for cell in oracle::upwards(tree.axes(), *key) {
            *sums.entry(cell).or_default() += *own as u128;
        }
    }
    let mut nodes = tree.key.iter().zip(&tree.total);
    nodes.all(|(key, total)| sums[key] == *total as u128)
}

/// A tree with something changed, which may leave it well formed.
fn damaged(r: &mut Random, tree: &Tree) -> Tree {
    let mut t = tree.clone();
    let n = t.key.len();
    let at = r.index(n);
    match r.below(18) {
        0 => t.bounds.axes = r.pick(&[0, 1, 2, 3, 4, usize::MAX]),
        1 => t.key[at] = r.next() >> r.below(64),
        2 => t.key[at] = t.key[at].wrapping_add(32768),
        3 => t.key.swap(at, n - 1),
        4 => {
            t.key.remove(at);
            t.own.remove(at);
            t.begin.remove(at);
            t.total.remove(at);
        }
        5 => t.own[at] = r.pick(&[0, 1, 1 << 20, usize::MAX]),
        6 => t.begin[at] = r.pick(&[0, 1, 1 << 20, usize::MAX]),
        7 => {
            t.own.pop();
        }
        8 => t.begin.push(0),
        9 => (t.key, t.own, t.begin, t.total) = (vec![], vec![], vec![], vec![]),
        10 => t.key[at] = t.key[r.index(n)],
        11 => {
            // one more source in a leaf, and the begins after it and the totals above it
            t.own[at] = t.own[at].wrapping_add(1);
            for b in &mut t.begin[at + 1..] {
                *b = b.wrapping_add(1);
            }
            totals::raise(&mut t, at, 1);
        }
        12 => {
            // as many sources as there may be, or one more
            let all = t.own.iter().fold(0usize, |a, b| a.wrapping_add(*b));
            let most: usize = r.pick(&[1 << 20, (1 << 20) + 1]);
            let more = most.wrapping_sub(all);
            t.own[n - 1] = t.own[n - 1].wrapping_add(more);
            totals::raise(&mut t, n - 1, more);
        }
        13 => t.total[at] = r.pick(&[0, 1, 1 << 20, usize::MAX]),
        14 => {
            t.total.pop();
        }
        15 => t.total.push(0),
        16 => t = renumbered::by_level(tree),
        _ => {}
    }
    t
}

fn some_tree(r: &mut Random) -> Tree {
    if r.once_in(2) {
        let given = trees::odd_tree(r, 60);
        oracle::columns(&oracle::any_box(trees::axes_of(&given)), &given)
    } else {
        let s = inputs::survey(r, 60);
        oracle::columns(&s.bounds, &oracle::build(&s).0)
    }
}

/// The rule, and the depth, which any columns have.
fn compare_formed(t: &mut Tally, tree: &Tree) {
    let input = || format!("{tree:?}");
    t.same(
        "well formed",
        tree.is_well_formed(),
        well_formed(tree),
        input,
    );
    let greatest = tree.key.iter().map(|k| level(*k)).max();
    let right = greatest.unwrap_or(0).max(1);
    t.same("depth", tree.depth(), right, input);
}

/// A tree as it is, with one thing changed, and with two; its nodes by level; and with wrong totals.
pub fn trees_handed_in(t: &mut Tally, r: &mut Random, case: u64) {
    if case == 0 {
        totals::chosen(t);
        renumbered::chosen(t);
    }
    let tree = some_tree(r);
    compare_formed(t, &tree);
    for _ in 0..3 {
        let once = damaged(r, &tree);
        compare_formed(t, &once);
        let n = once.key.len();
        let lengths = [once.own.len(), once.begin.len(), once.total.len()];
        if n > 0 && lengths == [n; 3] {
            compare_formed(t, &damaged(r, &once));
        }
    }
    renumbered::handed_in_by_level(t, &tree);
    totals::wrong(t, r, &tree);
}

/// A slice that holds anything, some entries longer or shorter than what is needed.
pub fn lent_slice<T: Copy>(r: &mut Random, needed: usize, garbage: T) -> Vec<T> {
    let len = match r.below(8) {
        0 => needed.saturating_sub(1),
        1 => needed.saturating_sub(1 + r.index(5)),
        2 => 0,
        3 => needed + 1 + r.index(9),
        _ => needed,
    };
    vec![garbage; len]
}

/// An answer in a slice that was lent: what was answered, then zeros, or zeros throughout.
pub fn left<T: Copy + Default>(room: usize, answer: &[T]) -> Vec<T> {
    let mut all = answer.to_vec();
    all.resize(room, T::default());
    all
}

pub fn asked(good: bool, refusal: (u64, usize)) -> Result<(), Refusal> {
    if good {
        Ok(())
    } else {
        refused(refusal.0, refusal.1)
    }
}

pub fn tree_calls(t: &mut Tally, r: &mut Random, _case: u64) {
    let s = inputs::survey(r, 200);
    let (built, depth) = oracle::build(&s);
    let mut tree = oracle::columns(&s.bounds, &built);
    let whole = r.below(3) > 0;
    if !whole {
        let by_level = r.once_in(4);
        tree = if by_level {
            renumbered::by_level(&tree)
        } else {
            damaged(r, &tree)
        };
    }
    let good = well_formed(&tree) && whole;
    if !whole && well_formed(&tree) {
        return;
    }
    let axes = tree.axes();
    let dims = asked((1..=3).contains(&axes), (1, 0));
    let formed = dims.and(asked(good, (13, 0)));
    let input = || format!("{} tree {tree:?}", show(&s));

    // sourced cells
    let mut cells: Vec<u64> = built.source_key_to_index_map.keys().copied().collect();
    cells.sort_unstable();
    let mut room = lent_slice(r, cells.len(), u64::MAX);
    let right = formed.and(asked(cells.len() <= room.len(), (8, 9)));
    let answer = if right.is_ok() { &cells[..] } else { &[] };
    let after = left(room.len(), answer);
    let ours = lent::get_sourced_cells(tree.columns(), &mut room);
    t.same("sourced cells", ours, right.map(|_| cells.len()), input);
    t.same("sourced cells' slice", room, after, input);
    if right.is_err() {
        t.refusal();
    }

    // lists
    let places = tree.key.len() + 1;
    let flat = |map: &std::collections::HashMap<u64, Vec<u64>>| {
        let (mut starts, mut keys) = (vec![0], vec![]);
        for k in &tree.key {
            keys.extend(map.get(k).into_iter().flatten().copied());
            starts.push(keys.len());
        }
        (starts, keys)
    };
    let ((us, uk), (vs, vk)) = (flat(&built.u_lists), flat(&built.v_lists));
    let mut lent_us = lent_slice(r, places, usize::MAX);
    let mut lent_uk = lent_slice(r, uk.len(), u64::MAX);
    let mut lent_vs = lent_slice(r, places, usize::MAX);
    let mut lent_vk = lent_slice(r, vk.len(), u64::MAX);
    let right = formed
        .and(asked(places <= lent_us.len(), (8, 4)))
        .and(asked(places <= lent_vs.len(), (8, 5)))
        .and(asked(uk.len() <= lent_uk.len(), (8, 6)))
        .and(asked(vk.len() <= lent_vk.len(), (8, 7)));
    let n = |k: usize| if right.is_ok() { k } else { 0 };
    let after = (
        left(lent_us.len(), &us[..n(us.len())]),
        left(lent_uk.len(), &uk[..n(uk.len())]),
        left(lent_vs.len(), &vs[..n(vs.len())]),
        left(lent_vk.len(), &vk[..n(vk.len())]),
    );
    let ours = lent::get_interaction_lists(
        tree.columns(),
        &mut lent_us,
        &mut lent_uk,
        &mut lent_vs,
        &mut lent_vk,
    );
    t.same("lists", ours, right.map(|_| (uk.len(), vk.len())), input);
    t.same(
        "lists' slices",
        (lent_us, lent_uk, lent_vs, lent_vk),
        after,
        input,
    );
    if right.is_err() {
        t.refusal();
    }

    // near work, lookup and grouping
    let known = Known {
        s: &s,
        lists: &built,
        u: &built.u_lists,
        depth,
        tree: &tree,
    };
    near_work::refusals(t, r, &known, good);
    lookup_call(t, r, &s, &built, depth, &tree, good);
    grouping_call(t, r, &built, &tree, formed);
}

/// The checks 1, 2, 3, 4, 13, 8, and then the points.
fn lookup_call(
    t: &mut Tally,
    r: &mut Random,
    s: &oracle::Survey,
    built: &ferreus_bbfmm::bbfmm::TreeLists,
    depth: u64,
    tree: &Tree,
    good: bool,
) {
    let mut b = s.bounds;
    b.axes = tree.axes();
    if r.once_in(8) {
        b.radius = r.pick(&[0.2, f64::NAN, -4.0]);
    }
    let mut points = inputs::points(r, &s.bounds, 12);
    if r.once_in(3) {
        points.extend_from_slice(&inputs::point(r, &s.bounds)[..s.bounds.axes]);
    }
    if r.once_in(8) {
        points.pop();
    }
    let known = (1..=3).contains(&b.axes);
    let rows = if known { points.len() / b.axes } else { 12 };
    let mut output = lent_slice(r, rows, u64::MAX);
    let checks = asked(known, (1, 0))
        .and_then(|_| asked(crate::points::in_domain(&b), (2, 0)))
        .and_then(|_| asked(points.len() % b.axes == 0, (3, 0)))
        .and(asked(good, (13, 0)))
        .and(asked(rows <= output.len(), (8, 8)));
    let right = checks.and_then(|_| trees::looked_up(s, &built.leaves, depth, &points));
    let empty = vec![];
    let after = left(
        output.len(),
        right.as_ref().map_or(&empty, |(keys, _)| keys),
    );
    let ours = lent::points_to_keys(&b, tree.columns(), &points, &mut output);
    let input = || format!("{b:?} {tree:?} points {points:?}");
    if right.is_err() {
        t.refusal();
    }
    t.same("lookup", ours, right.map(|(_, steps)| steps), input);
    t.same("lookup's slice", output, after, input);
}

fn grouping_call(
    t: &mut Tally,
    r: &mut Random,
    built: &ferreus_bbfmm::bbfmm::TreeLists,
    tree: &Tree,
    formed: Result<(), Refusal>,
) {
    let leaves: Vec<u64> = tree
        .key
        .iter()
        .copied()
        .filter(|k| built.leaves.contains(k))
        .collect();
    let mut keys: Vec<u64> = vec![];
    if !leaves.is_empty() {
        keys = (0..r.index(30)).map(|_| r.pick(&leaves)).collect();
    }
    if r.once_in(3) && !keys.is_empty() {
        let at = r.index(keys.len());
        keys[at] = r.pick(&[0, 17, u64::MAX]);
    }
    let mut starts = lent_slice(r, tree.key.len() + 1, usize::MAX);
    let mut indices = lent_slice(r, keys.len(), usize::MAX);
    let first = keys.iter().position(|k| !built.leaves.contains(k));
    let right = formed
        .and(asked(
            tree.key.len() < starts.len() && keys.len() <= indices.len(),
            (8, 8),
        ))
        .and(first.map_or(Ok(()), |i| refused(14, i)));
    let map = linear_tree::get_points_to_leaves_map(&keys);
    let (mut s, mut g) = (vec![0], vec![]);
    for k in &tree.key {
        g.extend(map.get(k).into_iter().flatten().copied());
        s.push(g.len());
    }
    let n = |k: usize| if right.is_ok() { k } else { 0 };
    let after = (
        left(starts.len(), &s[..n(s.len())]),
        left(indices.len(), &g[..n(g.len())]),
    );
    let ours = lent::get_points_to_leaves_map(tree.columns(), &keys, &mut starts, &mut indices);
    let input = || format!("{tree:?} keys {keys:?}");
    if right.is_err() {
        t.refusal();
    }
    t.same("grouping", ours, right, input);
    t.same("grouping's slices", (starts, indices), after, input);
}

/// The most points: 1,048,576, and one more.
pub fn large(t: &mut Tally, r: &mut Random, _case: u64) {
    let most = if t.short() { 100_000 } else { 1_048_576 };
    let bounds = lohandema::points::Bounds::new(&[10.0, -20.0, 5.0], 64.0);
    let mut coordinates = vec![];
    for _ in 0..most {
        for a in 0..3 {
            coordinates.push(bounds.centre[a] - 64.0 + 128.0 * r.unit());
        }
    }
    let s = oracle::Survey {
        bounds,
        sources: coordinates,
        targets: vec![],
        limit: 200,
        order: 5,
        keep_empty: false,
    };
    let (built, depth) = oracle::build(&s);
    let tree = oracle::columns(&s.bounds, &built);
    let short = || format!("{most} points");
    crate::builds::compare(t, &s, false);
    let theirs = linear_tree::points_to_keys(
        oracle::rows(3, &s.sources),
        &built.leaves,
        depth,
        &s.bounds.centre,
        s.bounds.radius,
        &oracle::dimensions(3),
    )
    .unwrap();
    let steps: usize = theirs.iter().map(|k| (depth - level(*k)) as usize).sum();
    let groups = tree.get_points_to_leaves_map(&theirs).map(|g| g.indices);
    t.same("grouping", groups, Ok(tree.order.clone()), short);
    t.same(
        "lookup",
        tree.points_to_keys(&s.sources),
        Ok((theirs, steps)),
        short,
    );
    trees::compare_lists(t, &tree, &built.u_lists, &built.v_lists, short);
    near_work::compare_of_sources(t, &tree, &built.u_lists, short);
    let work = near_work::of_sources(&tree, &built.u_lists);
    let by_targets = tree.get_near_work(&s.sources);
    t.same(
        "near work of the sources as targets",
        by_targets,
        Ok(work),
        short,
    );
    if !t.short() {
        let mut one_more = s.sources.clone();
        one_more.extend_from_slice(&s.bounds.centre);
        t.refusal();
        let ours = tree.points_to_keys(&one_more).map(|_| ());
        t.same("lookup", ours, refused(4, 0), short);
        let ours = tree.get_near_work(&one_more);
        t.same("near work", ours, refused(4, 0), short);
        let keys = vec![tree.key[tree.key.len() - 1]; 1_048_577];
        let ours = tree.get_points_to_leaves_map(&keys).map(|_| ());
        t.same("grouping", ours, refused(4, 0), short);
    }
}
