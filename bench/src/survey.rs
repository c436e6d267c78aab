//! The calls on the tree of a survey, beside the customer's Rust and plain Rust: identical answers, then times.
use crate::clock::{least_of_two, lower, rounds};
use crate::plain::{self, READINGS, Reading};
use crate::report::{Named, Report};
use crate::slices::{self, Room};
use crate::words::Words;
use crate::{customer, shapes};
use ferreus_bbfmm::bbfmm::TreeLists;
use lohandema::lent::{self, Asked};
use lohandema::trees::Tree;
use std::collections::{HashMap, HashSet};

type Readings<'a> = &'a [(&'a str, Reading)];

/// The times of our list call and of plain readings, in turn. The rows of all are compared before; all write to the same
/// memory, where there is room already, so that each finds it as the side before left it.
pub fn list_times(tree: &Tree, readings: Readings, runs: usize) -> (f64, Vec<f64>) {
    let ours = tree.get_interaction_lists().expect("room enough");
    let mut rows = slices::room_for(&ours, 0);
    let plain =
        |reading, rows: &mut _| plain::lists(reading, tree.axes(), &tree.key, &tree.own, rows);
    for (name, reading) in readings {
        plain(*reading, &mut rows);
        assert!(rows == ours, "{name}");
    }
    let (mut time, mut times) = (f64::INFINITY, vec![f64::INFINITY; readings.len()]);
    for _ in rounds(runs) {
        lower(&mut time, || slices::fill(tree, &mut rows));
        for (time, (_, reading)) in times.iter_mut().zip(readings) {
            lower(time, || plain(*reading, &mut rows));
        }
    }
    (time, times)
}

/// The list call beside each plain reading; answers our time.
pub fn lists(report: &Report, named: Named, tree: &Tree, runs: usize) -> f64 {
    let (ours, times) = list_times(tree, &READINGS, runs);
    report.time("lists", "ours", named, ours);
    let mut most: f64 = 0.0;
    for ((name, _), time) in READINGS.iter().zip(times) {
        most = most.max(report.share("lists", name, named, [ours, time]));
    }
    report.judge("lists", named, most);
    ours
}

/// The lookup of points, beside the customer's Rust.
pub fn look_up(report: &Report, named: Named, tree: &Tree, points: &[f64], runs: usize) {
    let (b, columns) = (shapes::bounds(), tree.columns());
    let mut output = vec![0; points.len() / 3];
    lent::points_to_keys(b, columns, points, &mut output).expect("stored");
    let leaves = tree.leaves().expect("a tree").map(|leaf| leaf.key);
    let (leaves, depth): (HashSet<u64>, u64) = (leaves.collect(), tree.depth());
    let theirs = || customer::look_up(b, &leaves, depth, points);
    assert!(theirs() == output);
    let ours = || lent::points_to_keys(b, columns, points, &mut output);
    let share = report.beside("lookup", "rust", named, least_of_two(runs, ours, theirs));
    report.judge("lookup", named, share);
}

/// A shape's tree as the Rust builds it, and the same in columns.
pub struct Survey<'a> {
    report: &'a Report,
    named: Named<'a>,
    asked: Asked<'a>,
    built: TreeLists,
    tree: Tree,
}

impl Survey<'_> {
    pub fn new<'a>(report: &'a Report, named: Named<'a>, points: &'a [f64]) -> Survey<'a> {
        let asked = shapes::asked(points, named.limit, named.keep);
        let (built, depth) = customer::build(asked);
        let tree = customer::columns(*shapes::bounds(), &built);
        assert_eq!(tree.depth(), depth);
        Survey {
            report,
            named,
            asked,
            built,
            tree,
        }
    }

    /// The build, beside the Rust's without its lists.
    fn build(&self, runs: usize) {
        let mut room = Room::new(self.tree.order.len(), self.tree.key.len());
        room.build(self.asked);
        assert!(room.holds(&self.tree));
        let alone = customer::build_alone(self.asked);
        assert!(alone.tree == self.built.tree && alone.leaves == self.built.leaves);
        assert!(alone.leaf_source_indices == self.built.leaf_source_indices);
        let (ours, theirs) = (
            || room.build(self.asked),
            || customer::build_alone(self.asked),
        );
        let times = least_of_two(runs, ours, theirs);
        let share = self.report.beside("build", "rust", self.named, times);
        self.report.judge("build", self.named, share);
    }

    /// The rows of the Rust are ours.
    fn same_rows(&self) {
        let rows = self.tree.get_interaction_lists().expect("room enough");
        for (node, k) in self.tree.key.iter().enumerate() {
            let row = |map: &HashMap<u64, Vec<u64>>| map.get(k).cloned().unwrap_or_default();
            assert_eq!(rows.u.row(node), row(&self.built.u_lists));
            assert_eq!(rows.v.row(node), row(&self.built.v_lists));
        }
    }

    /// The lists, beside each plain reading and beside the Rust's.
    fn lists(&self, runs: usize) {
        self.same_rows();
        let ours = lists(self.report, self.named, &self.tree, runs);
        let mut rust = f64::INFINITY;
        for _ in rounds(3) {
            lower(&mut rust, || customer::lists(shapes::bounds(), &self.built));
        }
        self.report.share("lists", "rust", self.named, [ours, rust]);
    }

    /// The calls that are wanted.
    pub fn measure(&self, words: &Words) {
        let Named { shape, limit, keep } = self.named;
        let nodes = self.tree.key.len();
        println!("{shape}, limit {limit}, keep-empty {keep}: {nodes} nodes");
        if words.wants("build") {
            self.build(words.runs());
        }
        if words.wants("lookup") {
            let points = self.asked.sources;
            look_up(self.report, self.named, &self.tree, points, words.runs());
        }
        if words.wants("lists") {
            self.lists(words.runs());
        }
    }
}
