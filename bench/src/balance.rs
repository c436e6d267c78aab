//! The balancing of a tree with empty cells, beside the build of the same points: the usual shapes, and the worst cases, where
//! few deep cells make large leaves split far away from the points.
use crate::clock::least_of_two;
use crate::report::{Named, Report};
use crate::shapes::{self, Random};
use crate::slices::Room;
use crate::words::Words;
use crate::{POINTS, plain_build};

/// All points in the low corner: cells down to level 16, and leaves of every level around them.
fn corner() -> Vec<f64> {
    let mut r = Random::new();
    (0..300).map(|_| -1000.0 + 0.1 * r.unit()).collect()
}

/// A plane just below the wall in the middle of the first axis: across the wall nothing is split before.
fn below_the_wall() -> Vec<f64> {
    let mut r = Random::new();
    let mut place = || 1990.0 * (r.unit() - 0.5);
    (0..POINTS)
        .flat_map(|_| [-0.01, place(), place()])
        .collect()
}

/// A plane at the upper wall of the box: no cell that is split forces the cells before it, which look at all under them.
fn upper_wall() -> Vec<f64> {
    let mut r = Random::new();
    let mut place = || 1990.0 * (r.unit() - 0.5);
    (0..POINTS)
        .flat_map(|_| [999.99, place(), place()])
        .collect()
}

/// Few points just below the middle of the box, on every axis.
fn below_the_middle() -> Vec<f64> {
    let mut r = Random::new();
    (0..300).map(|_| -0.1 * r.unit()).collect()
}

/// Two tight clusters far from each other.
fn two_clusters() -> Vec<f64> {
    let mut r = Random::new();
    (0..POINTS)
        .flat_map(|i| [0; 3].map(|_| [-700.0, 411.0][i % 2] + 4.0 * (r.unit() - 0.5)))
        .collect()
}

/// A worst case: its name, the limit of a cell, its points.
type Case = (&'static str, usize, fn() -> Vec<f64>);

const WORST: [Case; 6] = [
    ("corner", 1, corner),
    ("below-the-wall", 64, below_the_wall),
    ("below-the-wall", 16, below_the_wall),
    ("upper-wall", 16, upper_wall),
    ("below-the-middle", 1, below_the_middle),
    ("two-clusters", 16, two_clusters),
];

/// The balanced tree in slices of just its size, beside the build in slices of its own.
fn beside(report: &Report, named: Named, points: &[f64], runs: usize) {
    let asked = shapes::asked(points, named.limit, named.keep);
    let tree = plain_build::build(asked);
    let balanced = match tree.balanced(points) {
        Ok(balanced) => balanced,
        Err(refusal) => return println!("{}, limit {}: {refusal}", named.shape, named.limit),
    };
    let (old, new) = (tree.key.len(), balanced.key.len());
    let (shape, limit) = (named.shape, named.limit);
    println!("{shape}, limit {limit}: {old} nodes, balanced {new}");
    let rows = tree.order.len();
    let (mut room, mut built) = (Room::new(rows, new), Room::new(rows, old));
    room.balance(&tree, points);
    assert!(room.holds(&balanced));
    let times = least_of_two(runs, || room.balance(&tree, points), || built.build(asked));
    report.beside("balance", "build", named, times);
}

pub fn measure(words: &Words, report: &Report) {
    if !words.wants("balance") {
        return;
    }
    let keep = true;
    if !words.worst {
        for &limit in words.limits() {
            for shape in shapes::SHAPES {
                let named = Named { shape, limit, keep };
                let points = shapes::points(shape, POINTS);
                beside(report, named, &points, words.runs());
            }
        }
    }
    if words.limit.is_none() {
        for (shape, limit, points) in WORST {
            let named = Named { shape, limit, keep };
            beside(report, named, &points(), words.runs());
        }
    }
}
