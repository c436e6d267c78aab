//! How the list call grows with the points, and what a slice that is longer than the answer costs.
use crate::clock::least_of_two;
use crate::plain::Reading;
use crate::report::{Named, Report};
use crate::slices::{fill, room_for};
use crate::survey::list_times;
use crate::{POINTS, plain_build, shapes};
use lohandema::trees::Tree;

const MANY: usize = 800_000;
/// The most keys that a list has.
const MOST_KEYS: usize = 16_777_216;

fn tree_of(named: Named, count: usize) -> Tree {
    let points = shapes::points(named.shape, count);
    plain_build::build(shapes::asked(&points, named.limit, named.keep))
}

/// The share of the time of plain Rust that keeps its neighbours that our list call takes at eight times the points, over that
/// share at the usual number.
pub fn measure(report: &Report, named: Named, runs: usize) {
    let share = |count| {
        let readings = [("kept", Reading::Kept)];
        let (ours, times) = list_times(&tree_of(named, count), &readings, runs);
        println!(
            "  lists of {count} points: ours {ours:.2} ms, kept {:.2} ms",
            times[0]
        );
        ours / times[0]
    };
    let (few, many) = (share(POINTS), share(MANY));
    report.ratio("growth", "kept", named, many / few);
    report.judge("growth", named, many / few);
}

/// The list call with slices of the most keys that a list has, beside slices as long as the answer.
pub fn clearing(report: &Report, named: Named, runs: usize) {
    let tree = tree_of(named, POINTS);
    let rows = tree.get_interaction_lists().expect("room enough");
    let (mut long, mut exact) = (room_for(&rows, MOST_KEYS), room_for(&rows, 0));
    let (long, exact) = (|| fill(&tree, &mut long), || fill(&tree, &mut exact));
    let times = least_of_two(runs, long, exact);
    report.beside("clearing", "exact", named, times);
}
