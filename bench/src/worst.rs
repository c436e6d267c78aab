//! The worst cases: deep trees, long rows, all points in one place, and points that end in empty cells. 3 axes, in the box of
//! the usual shapes.
use crate::clock::least_of_two;
use crate::plain_build;
use crate::report::{Named, Report};
use crate::shapes::{self, Random};
use crate::slices::Room;
use crate::survey;
use crate::words::Words;
use lohandema::lent::Asked;
use lohandema::trees::Tree;

const MOST: usize = 1_048_576;

/// A tree, and what is measured on it.
struct Case {
    name: &'static str,
    limit: usize,
    keeps: &'static [bool],
    calls: &'static [&'static str],
    sources: fn() -> Vec<f64>,
    /// The points to look up; where there are none, the sources.
    points: fn() -> Vec<f64>,
}

const CASES: [Case; 10] = [
    Case {
        name: "chains",
        limit: 1,
        keeps: &[false, true],
        calls: &["build", "lists", "lookup"],
        sources: chains,
        points: Vec::new,
    },
    Case {
        name: "coarse-leaf",
        limit: 1,
        keeps: &[false, true],
        calls: &["build", "lists", "lookup"],
        sources: coarse_leaf,
        points: Vec::new,
    },
    Case {
        name: "low-corner",
        limit: 64,
        keeps: &[false, true],
        calls: &["build", "lists", "lookup"],
        sources: low_corner,
        points: Vec::new,
    },
    Case {
        name: "equal",
        limit: 64,
        keeps: &[false],
        calls: &["build", "lookup"],
        sources: || [311.0, -207.0, 93.0].repeat(MOST),
        points: Vec::new,
    },
    Case {
        name: "wall",
        limit: 64,
        keeps: &[false, true],
        calls: &["build", "lists", "lookup"],
        sources: wall,
        points: Vec::new,
    },
    Case {
        name: "uniform-most",
        limit: 64,
        keeps: &[false],
        calls: &["build", "lists", "lookup"],
        sources: || shapes::points("uniform", MOST),
        points: Vec::new,
    },
    Case {
        name: "cluster-most",
        limit: 64,
        keeps: &[false],
        calls: &["build", "lists", "lookup"],
        sources: || shapes::points("cluster", MOST),
        points: Vec::new,
    },
    Case {
        name: "cluster-most",
        limit: 16,
        keeps: &[false],
        calls: &["build", "lookup"],
        sources: || shapes::points("cluster", MOST),
        points: Vec::new,
    },
    Case {
        name: "among-empties",
        limit: 64,
        keeps: &[true],
        calls: &["lookup"],
        sources: || shapes::points("lines", 100_000),
        points: || shapes::points("uniform", 100_000),
    },
    Case {
        name: "among-empties-most",
        limit: 64,
        keeps: &[true],
        calls: &["lookup"],
        sources: || shapes::points("lines", MOST),
        points: || shapes::points("uniform", MOST),
    },
];

/// 2,000 pairs of points so close that most of them part at level 16, if at all.
fn chains() -> Vec<f64> {
    let mut r = Random::new();
    let mut all = vec![];
    for _ in 0..2000 {
        let place = [0; 3].map(|_| 1990.0 * (r.unit() - 0.5));
        all.extend(place);
        all.extend(place.map(|x| x + 0.01 * r.unit()));
    }
    all
}

/// One source in its own half of the box along each axis, and 59,999 in the opposite corner cell, which the first's touches.
pub fn coarse_leaf() -> Vec<f64> {
    let mut r = Random::new();
    let others = (0..3 * 59_999).map(|_| 0.5 + 999.0 * r.unit());
    [-500.0; 3].into_iter().chain(others).collect()
}

/// 100,000 points ever nearer to the low walls of the box, and so to its low corner: on each axis as many at each half of the
/// distance.
fn low_corner() -> Vec<f64> {
    let mut r = Random::new();
    let mut place = || 1990.0 * (-14.0 * r.unit()).exp2() - 1000.0;
    (0..300_000).map(|_| place()).collect()
}

/// All points on the wall between the halves of the box along the first axis.
fn wall() -> Vec<f64> {
    let mut r = Random::new();
    let mut place = || 1990.0 * (r.unit() - 0.5);
    (0..MOST).flat_map(|_| [0.0, place(), place()]).collect()
}

/// A case's tree, with empties or without.
struct Given<'a> {
    report: &'a Report,
    named: Named<'a>,
    asked: Asked<'a>,
    tree: Tree,
}

impl Given<'_> {
    /// The build, beside the plain one: identical trees, then times.
    fn build(&self, runs: usize) {
        let mut room = Room::new(self.tree.order.len(), self.tree.key.len());
        room.build(self.asked);
        assert!(room.holds(&self.tree));
        let (ours, plain) = (|| room.build(self.asked), || plain_build::build(self.asked));
        let times = least_of_two(runs, ours, plain);
        self.report.beside("build", "sorted", self.named, times);
    }
}

/// The calls of a case that are wanted.
fn measure_case(words: &Words, report: &Report, case: &Case, keep: bool) {
    let sources = (case.sources)();
    let asked = shapes::asked(&sources, case.limit, keep);
    let (shape, limit) = (case.name, case.limit);
    let given = Given {
        report,
        named: Named { shape, limit, keep },
        asked,
        tree: plain_build::build(asked),
    };
    let (count, nodes) = (given.tree.order.len(), given.tree.key.len());
    println!("{shape}, limit {limit}, keep-empty {keep}: {count} sources, {nodes} nodes");
    let wants = |call: &str| case.calls.contains(&call) && words.wants(call);
    let runs = words.runs().min(9);
    if wants("build") {
        given.build(runs);
    }
    if wants("lists") {
        survey::lists(report, given.named, &given.tree, runs);
    }
    if wants("lookup") {
        let points = (case.points)();
        let points = if points.is_empty() { &sources } else { &points };
        survey::look_up(report, given.named, &given.tree, points, runs);
    }
}

pub fn measure(words: &Words, report: &Report) {
    let wanted = |case: &&Case| case.calls.iter().any(|call| words.wants(call));
    for case in CASES.iter().filter(wanted) {
        for keep in case.keeps {
            measure_case(words, report, case, *keep);
        }
    }
}
