//! The writing and the reading of a tree file, beside the build and the list call together, which a unit is spared that reads one.
use crate::clock::{lower, rounds};
use crate::report::{Named, Report};
use crate::shapes;
use crate::slices::{Room, fill, room_for};
use crate::words::Words;
use crate::{POINTS, plain_build};
use lohandema::lent;
use lohandema::trees::Lists;

/// All in slices that are there, of just the lengths that are needed: what is read is compared first, then times.
fn beside(report: &Report, named: Named, points: &[f64], runs: usize) {
    let asked = shapes::asked(points, named.limit, named.keep);
    let tree = plain_build::build(asked);
    let lists = tree.get_interaction_lists().expect("room enough");
    let mut file = tree.to_file(&lists).expect("the tree's own");
    println!(
        "{}, limit {}: a file of {} bytes",
        named.shape,
        named.limit,
        file.len()
    );
    let mut read = Room::new(tree.order.len(), tree.key.len());
    let mut rows = room_for(&lists, 0);
    let held = read.read(&file, &mut rows);
    assert_eq!((held.nodes, held.v), (tree.key.len(), lists.v.keys.len()));
    assert!(read.holds(&tree) && rows == lists);
    let mut built = Room::new(tree.order.len(), tree.key.len());
    let mut made: Lists = room_for(&lists, 0);
    let [mut writing, mut reading, mut making] = [f64::INFINITY; 3];
    for _ in rounds(runs) {
        lower(&mut writing, || {
            lent::write_tree(tree.columns(), &tree.order, &lists, &mut file)
        });
        lower(&mut reading, || read.read(&file, &mut rows));
        lower(&mut making, || (built.build(asked), fill(&tree, &mut made)));
    }
    report.beside("write_tree", "build+lists", named, [writing, making]);
    report.beside("read_tree", "build+lists", named, [reading, making]);
}

pub fn measure(words: &Words, report: &Report) {
    if !words.wants("files") || words.worst {
        return;
    }
    for &limit in words.limits() {
        for shape in shapes::SHAPES {
            let points = shapes::points(shape, POINTS);
            for keep in [false, true] {
                beside(report, Named { shape, limit, keep }, &points, words.runs());
            }
        }
    }
}
