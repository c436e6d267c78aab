//! The sum check of a survey, and the check of its lists, beside the list call that makes those lists.
use crate::clock::{lower, rounds};
use crate::report::{Named, Report};
use crate::shapes;
use crate::slices::{fill, room_for};
use crate::words::Words;
use crate::{POINTS, plain_build};
use lohandema::lent;
use lohandema::trees::Tree;

/// The three calls in turn, each in slices that are there: every leaf agrees, then times.
fn beside(report: &Report, named: Named, tree: &Tree, runs: usize) {
    let columns = tree.columns();
    let lists = tree.get_interaction_lists().expect("room enough");
    let mut rows = room_for(&lists, 0);
    let readings: Vec<i64> = (0..POINTS as i64)
        .map(|i| i * 7_919 % 100_003 - 50_000)
        .collect();
    let mut room = vec![0; POINTS + 1];
    let checked = tree.check_sums(&lists, &readings).expect("the tree's own");
    assert_eq!(checked.leaves, tree.leaves().expect("a tree").count());
    let [mut check, mut right, mut call] = [f64::INFINITY; 3];
    for _ in rounds(runs) {
        lower(&mut check, || {
            lent::check_sums(columns, &tree.order, &readings, &lists, &mut room)
        });
        lower(&mut right, || lent::lists_right(columns, &lists));
        lower(&mut call, || fill(tree, &mut rows));
    }
    let share = report.beside("check_sums", "lists", named, [check, call]);
    report.judge("check_sums", named, share);
    report.beside("lists_right", "lists", named, [right, call]);
}

pub fn measure(words: &Words, report: &Report) {
    if !words.wants("check_sums") || words.worst {
        return;
    }
    for &limit in words.limits() {
        for shape in shapes::SHAPES {
            let points = shapes::points(shape, POINTS);
            for keep in [false, true] {
                let named = Named { shape, limit, keep };
                let tree = plain_build::build(shapes::asked(&points, limit, keep));
                beside(report, named, &tree, words.runs());
            }
        }
    }
}
