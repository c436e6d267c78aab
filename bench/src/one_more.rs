//! One source more in a tree of the usual shapes, beside the build of the longer list; and what it takes to judge that the tree
//! is the former sources' own, which a call is refused after that names a place outside.
use crate::clock::{lower, rounds};
use crate::report::{Named, Report};
use crate::shapes::{self, Random};
use crate::slices::Room;
use crate::words::Words;
use crate::{POINTS, plain_build};

/// A source beside one of the former: a station that is repeated a little off its place.
fn repeated(points: &[f64]) -> [f64; 3] {
    let mut r = Random::new();
    let from = 3 * (points.len() / 6);
    [0, 1, 2].map(|axis| points[from + axis] + 0.001 * r.unit())
}

/// Three times in turn, in slices of just their size: the whole call, its judge alone, and the build of the longer list.
fn beside(report: &Report, named: Named, points: &[f64], runs: usize) {
    let asked = shapes::asked(points, named.limit, named.keep);
    let tree = plain_build::build(asked);
    let point = repeated(points);
    let longer = [points, &point].concat();
    let after = shapes::asked(&longer, named.limit, named.keep);
    let right = plain_build::build(after);
    let nodes = right.key.len();
    let (mut room, mut built) = (Room::new(POINTS + 1, nodes), Room::new(POINTS + 1, nodes));
    let mut none = Room::new(0, 0);
    let outside = [f64::NAN; 3];
    let ended = room.add(asked, &point, &tree);
    assert!(ended.is_ok() && room.holds(&right));
    let refusal = none.add(asked, &outside, &tree).expect_err("outside");
    assert_eq!(refusal.number, lohandema::Refusal::SOURCE);
    let [mut call, mut judge, mut build] = [f64::INFINITY; 3];
    for _ in rounds(runs) {
        lower(&mut call, || room.add(asked, &point, &tree));
        lower(&mut judge, || none.add(asked, &outside, &tree));
        lower(&mut build, || built.build(after));
    }
    let share = report.beside("one_more", "build", named, [call, build]);
    report.judge("one_more", named, share);
    report.beside("one_more-judge", "build", named, [judge, build]);
}

pub fn measure(words: &Words, report: &Report) {
    if !words.wants("one_more") || words.worst {
        return;
    }
    for &limit in words.limits() {
        for shape in shapes::SHAPES {
            let points = shapes::points(shape, POINTS);
            for keep in [false, true] {
                beside(report, Named { shape, limit, keep }, &points, words.runs());
            }
        }
    }
}
