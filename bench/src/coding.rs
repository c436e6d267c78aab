//! The coding of all points at level 16 beside the Rust's: identical keys, then times.
use crate::clock::{lower, rounds};
use crate::report::{Named, Report};
use crate::{POINTS, customer, shapes};
use lohandema::lent;
use lohandema::trees::Tree;

/// The root and its eight children: a lookup in this tree leaves little to do but each point's code.
fn smallest_tree() -> Tree {
    let children = (0..8).map(|code| code * 32768 + 1);
    let begins = (0..8).map(|code| code * (POINTS / 8));
    let (mut own, mut total) = (vec![POINTS / 8; 9], vec![POINTS / 8; 9]);
    (own[0], total[0]) = (0, POINTS);
    Tree::from_columns(
        *shapes::bounds(),
        [0].into_iter().chain(children).collect(),
        own,
        [0].into_iter().chain(begins).collect(),
        total,
        vec![],
    )
}

/// `coding` takes the points in one call, a lookup in the smallest tree; `coding-each` calls `point_to_key` for one point after
/// the other.
pub fn measure(report: &Report, named: Named, runs: usize) {
    let (b, points) = (shapes::bounds(), shapes::points(named.shape, POINTS));
    let (tree, theirs) = (smallest_tree(), customer::keys(b, &points));
    let (mut leaves, mut keys) = (vec![0; POINTS], vec![0; POINTS]);
    let [mut whole, mut each, mut rust] = [f64::INFINITY; 3];
    for _ in rounds(runs) {
        lower(&mut whole, || {
            lent::points_to_keys(b, tree.columns(), &points, &mut leaves).expect("a leaf for each")
        });
        lower(&mut each, || {
            for (point, key) in points.chunks(3).zip(&mut keys) {
                *key = b.point_to_key(point, 16).expect("inside");
            }
        });
        lower(&mut rust, || customer::keys(b, &points));
        assert!(keys == theirs);
        let leaf_of = |key: &u64| (key >> 60) * 32768 + 1;
        assert!(leaves.iter().copied().eq(theirs.iter().map(leaf_of)));
    }
    report.beside("coding", "rust", named, [whole, rust]);
    report.beside("coding-each", "rust", named, [each, rust]);
}
