//! The table "Trees": the build, and lookup and grouping in document 01's example tree.
use super::Rows;
use super::points::EXAMPLE;
use crate::builds;
use crate::oracle::{self, Survey, dimensions};
use ferreus_bbfmm::{FmmError, linear_tree};
use lohandema::Refusal;
use lohandema::lent;
use lohandema::points::Bounds;
use lohandema::trees::Tree;
use std::collections::{HashMap, HashSet};

/// Document 01's example tree: one axis, centre 4, radius 4.
pub fn example() -> Tree {
    Tree::from_columns(
        EXAMPLE,
        vec![0, 1, 2, 3, 32771, 32769, 98306, 196611, 229379],
        vec![0, 0, 0, 1, 1, 0, 0, 1, 1],
        vec![0, 0, 0, 0, 1, 2, 2, 2, 3],
        vec![4, 2, 2, 1, 1, 2, 2, 1, 1],
        vec![0, 1, 2, 3],
    )
}

/// The same columns in another box, and with its axes.
fn example_in(bounds: Bounds) -> Tree {
    let mut tree = example();
    tree.bounds = bounds;
    tree
}

/// One source in the example's box, and no targets.
pub fn survey(sources: &[f64]) -> Survey {
    Survey {
        bounds: EXAMPLE,
        sources: sources.to_vec(),
        targets: vec![],
        limit: 1,
        order: 1,
        keep_empty: false,
    }
}

/// The same with a target, which is used.
fn with_target(target: f64) -> Survey {
    Survey {
        targets: vec![target],
        keep_empty: true,
        ..survey(&[0.5])
    }
}

pub fn build(s: &Survey) -> Result<Tree, Refusal> {
    Tree::build(builds::asked_of(s, true))
}

/// The keys of the Rust's tree.
pub fn nodes(s: &Survey) -> Vec<u64> {
    oracle::columns(&s.bounds, &oracle::build(s).0).key
}

pub fn run(rows: &mut Rows) {
    outside(rows);
    order_and_box(rows);
    build_not_asked(rows);
    lookup_outside(rows);
    lookup_unstored(rows);
    lookup_other(rows);
    grouping(rows);
}

fn outside(rows: &mut Rows) {
    let cases = [("T1", -1.0, 1), ("T1", f64::NAN, 1), ("T2", 8.0, 65537)];
    for (row, x, node) in cases {
        let s = survey(&[x]);
        let seen = (nodes(&s), vec![0, node]);
        let input = format!("source {x}");
        rows.outside(row, &input, build(&s), (6, &s.bounds, x), seen);
    }
    for x in [-1.0, f64::NAN, 8.0] {
        let s = with_target(x);
        let seen = (nodes(&s), vec![0, 1, 32769]);
        let input = format!("target {x}");
        rows.outside("T3", &input, build(&s), (7, &s.bounds, x), seen);
    }
}

fn order_and_box(rows: &mut Rows) {
    for order in [0, 65] {
        let s = Survey {
            order,
            ..with_target(0.5)
        };
        let seen = (nodes(&s), vec![0, 1, 32769]);
        rows.refused("T4", &format!("order {order}"), build(&s), (5, 0), seen);
    }
    for radius in [0.25f64.next_down(), f64::NAN] {
        let s = Survey {
            bounds: Bounds::new(&[0.0], radius),
            ..survey(&[0.0])
        };
        let first = if radius.is_nan() { 1 } else { 32769 };
        let seen = (nodes(&s), vec![0, first]);
        rows.refused("T5", &format!("radius {radius}"), build(&s), (2, 0), seen);
    }
}

/// What the Rust's arguments cannot say.
fn build_not_asked(rows: &mut Rows) {
    for axes in [0, 4] {
        let mut s = survey(&[0.5]);
        s.bounds.axes = axes;
        rows.refused_here("T6", &format!("{axes} axes"), build(&s), (1, 0));
    }
    let two = Bounds::new(&[4.0, 4.0], 4.0);
    let mut s = with_target(0.5);
    s.bounds = two;
    rows.refused_here("T7", "one number of sources", build(&s), (3, 0));
    s.sources = vec![0.5, 0.5];
    rows.refused_here("T7", "one number of targets", build(&s), (3, 0));
    (0..6).for_each(|short| build_with_short(rows, short));
}

/// Two words of work, one place in the order, and two nodes in each of the four columns; one slice short.
fn build_with_short(rows: &mut Rows, short: usize) {
    let room = |which: usize, needed: usize| if which == short { needed - 1 } else { needed };
    let (mut work, mut order) = (vec![7; room(0, 2)], vec![7; room(1, 1)]);
    let mut key = vec![7; room(2, 2)];
    let [mut own, mut begin, mut total] = [3, 4, 5].map(|which| vec![7; room(which, 2)]);
    let s = survey(&[0.5]);
    let ours = lent::build_tree(
        builds::asked_of(&s, true),
        &mut work,
        &mut order,
        &mut key,
        &mut own,
        &mut begin,
        &mut total,
    );
    let value = 1 + short.min(2);
    rows.refused_here("T8", &format!("slice {short}"), ours, (8, value));
    let sums = order.iter().chain(&own).chain(&begin).chain(&total);
    let all = work.iter().chain(&key).all(|x| *x == 0) && sums.into_iter().all(|x| *x == 0);
    rows.answered("T8", "all slices 0", (all, true), ((), ()));
}

/// The Rust's lookup in the example tree, which takes its leaves and its depth.
pub fn lookup(b: &Bounds, points: &[f64]) -> Result<Vec<u64>, FmmError> {
    let leaves = HashSet::from([3, 32771, 196611, 229379]);
    let centre = &b.centre[..1];
    let points = oracle::rows(1, points);
    linear_tree::points_to_keys(points, &leaves, 3, centre, b.radius, &dimensions(1))
}

/// The Rust's only error of a lookup.
fn outside_tree<T>(point_index: usize) -> Result<T, FmmError> {
    Err(FmmError::PointOutsideTree { point_index })
}

fn lookup_outside(rows: &mut Rows) {
    let cases = [
        ("T12", -1.0, Ok(vec![3])),
        ("T12", f64::NAN, Ok(vec![3])),
        ("T13", 8.0, outside_tree(0)),
    ];
    for (row, x, said) in cases {
        let seen = (lookup(&EXAMPLE, &[x]), said);
        let ours = example().points_to_keys(&[x]);
        rows.outside(row, &format!("point {x}"), ours, (7, &EXAMPLE, x), seen);
    }
}

fn lookup_unstored(rows: &mut Rows) {
    let cases: [(&str, [f64; 2], (u64, usize)); 2] =
        [("T14", [0.5, 3.0], (12, 1)), ("T15", [3.0, 8.0], (12, 0))];
    for (row, points, refusal) in cases {
        let seen = (lookup(&EXAMPLE, &points), outside_tree(refusal.1));
        let ours = example().points_to_keys(&points);
        rows.refused(row, &format!("points {points:?}"), ours, refusal, seen);
    }
    let seen = (lookup(&EXAMPLE, &[8.0, 3.0]), outside_tree(0));
    let ours = example().points_to_keys(&[8.0, 3.0]);
    rows.outside("T15", "points 8, 3", ours, (7, &EXAMPLE, 8.0), seen);
}

fn lookup_other(rows: &mut Rows) {
    let nowhere = Bounds {
        radius: f64::NAN,
        ..EXAMPLE
    };
    let seen = (lookup(&nowhere, &[7.5]), Ok(vec![3]));
    let ours = example_in(nowhere).points_to_keys(&[7.5]);
    rows.refused("T17", "radius NaN", ours, (2, 0), seen);
    for axes in [0, 4] {
        let b = Bounds { axes, ..EXAMPLE };
        let ours = example_in(b).points_to_keys(&[0.5]);
        rows.refused_here("T18", &format!("{axes} axes"), ours, (1, 0));
    }
    let two = Bounds::new(&[4.0, 4.0], 4.0);
    let ours = example_in(two).points_to_keys(&[0.5]);
    rows.refused_here("T19", "one number, two axes", ours, (3, 0));
    let mut output = [7];
    let ours = lent::points_to_keys(&EXAMPLE, example().columns(), &[0.5, 0.5], &mut output);
    rows.refused_here("T22", "room for one of two", ours, (8, 8));
    rows.answered("T22", "the slice", (output, [0]), ((), ()));
}

fn grouping(rows: &mut Rows) {
    let tree = example();
    let (mut starts, mut indices) = ([7; 10], [7; 4]);
    let keys = vec![3, 2, 3, 0];
    let columns = tree.columns();
    let ours = lent::get_points_to_leaves_map(columns, &keys, &mut starts, &mut indices);
    let map = linear_tree::get_points_to_leaves_map(&keys);
    let said = HashMap::from([(3, vec![0, 2]), (2, vec![1]), (0, vec![3])]);
    rows.refused("T23", "keys 3 2 3 0", ours, (14, 1), (map, said));
    let after = ((starts, indices), ([0; 10], [0; 4]));
    rows.answered("T23", "the slices", after, ((), ()));
    for (places, room) in [(9, 4), (10, 3)] {
        let (mut starts, mut indices) = (vec![7; places], vec![7; room]);
        let keys = [3; 4];
        let ours = lent::get_points_to_leaves_map(columns, &keys, &mut starts, &mut indices);
        rows.refused_here("T26", &format!("room {places} {room}"), ours, (8, 8));
        let after = ((starts, indices), (vec![0; places], vec![0; room]));
        rows.answered("T26", "the slices", after, ((), ()));
    }
}
