//! Near work beside the calls that it could be worked out by: the list call and the lookup of the targets, on the same tree
//! and with the same points.
use crate::clock::{lower, rounds};
use crate::report::{Named, Report};
use crate::shapes::{self, Random};
use crate::slices::{fill, room_for};
use crate::words::Words;
use crate::{POINTS, plain_build, worst};
use lohandema::lent;
use lohandema::trees::Tree;
use std::collections::HashMap;

const MOST_TARGETS: usize = 1_048_576;

/// The sum over the targets of the sources in the U row of their leaf, by the rows and the lookup.
fn by_rows(tree: &Tree, targets: &[f64]) -> u64 {
    let lists = tree.get_interaction_lists().expect("room enough");
    let (leaves, _) = tree.points_to_keys(targets).expect("stored");
    let mut counts: HashMap<u64, usize> = HashMap::new();
    for leaf in leaves {
        *counts.entry(leaf).or_default() += 1;
    }
    let nodes = tree.key.iter().copied();
    let own: HashMap<u64, usize> = nodes.zip(tree.own.iter().copied()).collect();
    let met = |node: usize| lists.u.row(node).iter().map(|key| own[key]).sum::<usize>();
    let work = |(node, key)| counts.get(key).map_or(0, |count| count * met(node));
    let works = tree.key.iter().enumerate().map(work);
    works.sum::<usize>() as u64
}

/// Our call beside the two others, each in slices that are there: the same figure, then times.
fn beside(report: &Report, named: Named, tree: &Tree, targets: &[f64], runs: usize) {
    let (b, columns) = (shapes::bounds(), tree.columns());
    let mut rows = room_for(&tree.get_interaction_lists().expect("room enough"), 0);
    let (mut counts, mut output) = (vec![1; tree.key.len()], vec![1; targets.len() / 3]);
    let work = lent::get_near_work(b, columns, targets, &mut counts);
    assert_eq!(work, Ok(by_rows(tree, targets)));
    let [mut near, mut lists, mut lookup] = [f64::INFINITY; 3];
    for _ in rounds(runs) {
        lower(&mut near, || {
            lent::get_near_work(b, columns, targets, &mut counts)
        });
        lower(&mut lists, || fill(tree, &mut rows));
        lower(&mut lookup, || {
            lent::points_to_keys(b, columns, targets, &mut output)
        });
    }
    let times = [near, lists + lookup];
    let share = report.beside("near_work", "lists+lookup", named, times);
    report.judge("near_work", named, share);
}

/// Each usual shape, the sources being the targets.
fn shapes(words: &Words, report: &Report) {
    for &limit in words.limits() {
        for shape in shapes::SHAPES {
            let points = shapes::points(shape, POINTS);
            for keep in [false, true] {
                let named = Named { shape, limit, keep };
                let tree = plain_build::build(shapes::asked(&points, limit, keep));
                beside(report, named, &tree, &points, words.runs());
            }
        }
    }
}

/// 100,000 targets in a leaf of level 1 whose U row has 60,000 keys.
fn coarse_leaf(words: &Words, report: &Report) {
    let sources = worst::coarse_leaf();
    let mut r = Random::new();
    let targets: Vec<f64> = (0..3 * POINTS).map(|_| -999.0 * r.unit() - 0.5).collect();
    let (shape, limit) = ("coarse-leaf-targets", 1);
    for keep in [false, true] {
        let named = Named { shape, limit, keep };
        let tree = plain_build::build(shapes::asked(&sources, limit, keep));
        let lists = tree.get_interaction_lists().expect("room enough");
        let (leaf, _) = tree.point_to_leaf(&targets[..3]).expect("stored");
        let node = tree.key.iter().position(|key| *key == leaf);
        let row = lists.u.row(node.expect("a node")).len();
        assert!(leaf % 32768 == 1 && row == 60_000, "{leaf}: {row} keys");
        beside(report, named, &tree, &targets, words.runs().min(9));
    }
}

/// Sources that crowd towards a corner, and as many targets as there may be, all over the box.
fn elsewhere(words: &Words, report: &Report) {
    let mut r = Random::new();
    let sources: Vec<f64> = (0..3 * POINTS)
        .map(|_| 1999.0 * r.unit().powi(6) - 1000.0)
        .collect();
    let targets: Vec<f64> = (0..3 * MOST_TARGETS)
        .map(|_| 1990.0 * (r.unit() - 0.5))
        .collect();
    for limit in [16, 1] {
        let (shape, keep) = ("targets-elsewhere", true);
        let named = Named { shape, limit, keep };
        let tree = plain_build::build(shapes::asked(&sources, limit, keep));
        beside(report, named, &tree, &targets, words.runs().min(9));
    }
}

pub fn measure(words: &Words, report: &Report) {
    if !words.wants("near_work") {
        return;
    }
    if !words.worst {
        shapes(words, report);
    }
    if words.limit.is_none() {
        coarse_leaf(words, report);
        elsewhere(words, report);
    }
}
