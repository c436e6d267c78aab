//! A whole small job in Rust: the potential 1/r of magnetometer readings at each reading, near ones summed singly and far ones
//! in groups, held against the plain sum over all pairs.
//!
//!     rust/archive
//!     cd rust && cargo run --release --example near_and_far
//!
//! Readings on flight lines are put in a tree. For each leaf its lists say which readings are near (U): each of these is taken
//! as it is. All others are taken cell by cell (V, of the leaf and of each cell above it): a cell counts as one reading of all
//! its weight, at the centre of weight. `cargo test` in `rust/` runs this.

use lohandema::{Asked, Bounds, Lists, Refusal, Tree};
use std::iter::successors;

const LINES: usize = 24;
const STATIONS: usize = 50;
const LIMIT: usize = 12;

/// A place in metres, and its weight.
#[derive(Clone, Copy, PartialEq)]
struct Reading {
    at: [f64; 3],
    weight: f64,
}

/// What came out: leaves, terms by the lists, and the largest difference from the plain sum, as a share of it.
pub struct Found {
    pub leaves: usize,
    pub terms: usize,
    pub error: f64,
}

/// Readings along flight lines, the same in every run.
fn survey() -> Vec<Reading> {
    let step = |x: &u64| {
        Some(
            x.wrapping_mul(6364136223846793005)
                .wrapping_add(1442695040888963407),
        )
    };
    let mut states = successors(step(&28), step);
    // from -1 up to 1
    let mut random = || {
        states
            .next()
            .map_or(0.0, |x| (x >> 11) as f64 / (1_u64 << 52) as f64 - 1.0)
    };
    let reading = |i: usize| Reading {
        at: [
            10.0 * (i % STATIONS) as f64 + random(),
            20.0 * (i / STATIONS) as f64 + random(),
            60.0 + 3.0 * random(),
        ],
        weight: 1.0 + 0.5 * random(),
    };
    (0..LINES * STATIONS).map(reading).collect()
}

/// The lows of all axes, then the highs.
fn extents(readings: &[Reading]) -> Vec<f64> {
    let along = |axis: usize| readings.iter().map(move |r| r.at[axis]);
    let lows = (0..3).map(|axis| along(axis).fold(f64::INFINITY, f64::min));
    let highs = (0..3).map(|axis| along(axis).fold(f64::NEG_INFINITY, f64::max));
    lows.chain(highs).collect()
}

/// The weight of each over its distance, the place itself left out.
fn potential<'a>(here: &Reading, others: impl IntoIterator<Item = &'a Reading>) -> f64 {
    let square = |a: &[f64; 3], b: &[f64; 3]| (0..3).map(|i| (a[i] - b[i]).powi(2)).sum::<f64>();
    let others = others.into_iter().filter(|there| *there != here);
    others
        .map(|there| there.weight / square(&here.at, &there.at).sqrt())
        .sum()
}

/// Some readings as one: at their centre of weight, with their weight.
fn as_one<'a>(readings: impl Iterator<Item = &'a Reading>) -> Reading {
    let mut one = Reading {
        at: [0.0; 3],
        weight: 0.0,
    };
    for reading in readings {
        one.weight += reading.weight;
        (0..3).for_each(|axis| one.at[axis] += reading.weight * reading.at[axis]);
    }
    one.at = one.at.map(|x| x / one.weight);
    one
}

/// The readings near a leaf, one by one, and the far cells, each as one. The lists are the tree's own, so that each key is
/// that of a node.
fn near_and_far(
    tree: &Tree,
    lists: &Lists,
    leaf: usize,
    readings: &[Reading],
    groups: &[Reading],
) -> (Vec<Reading>, Vec<Reading>) {
    let near = tree.row_nodes(&lists.u, leaf).unwrap_or_default();
    let near = near.into_iter().flat_map(|node| tree.leaf_sources(node));
    let far = tree
        .path(leaf)
        .flat_map(|node| tree.row_nodes(&lists.v, node).unwrap_or_default());
    (
        near.map(|i| readings[*i]).collect(),
        far.map(|node| groups[node]).collect(),
    )
}

/// The whole job.
pub fn job() -> Result<Found, Refusal> {
    let readings = survey();
    let bounds = Bounds::from_extents(&extents(&readings))?;
    let points: Vec<f64> = readings.iter().flat_map(|r| r.at).collect();
    let tree = Tree::build(Asked::new(&bounds, &points, LIMIT))?;
    let lists = tree.get_interaction_lists()?;
    let of_cell = |node| tree.cell_sources(node).iter().map(|i| &readings[*i]);
    let groups: Vec<Reading> = (0..tree.key.len())
        .map(|node| as_one(of_cell(node)))
        .collect();
    let mut found = Found {
        leaves: 0,
        terms: 0,
        error: 0.0,
    };
    for leaf in tree.leaves()? {
        let (near, far) = near_and_far(&tree, &lists, leaf.node, &readings, &groups);
        found.leaves += 1;
        // a reading does not act on itself
        found.terms += leaf.sources.len() * (near.len() + far.len() - 1);
        for i in leaf.sources {
            let here = &readings[*i];
            let plain = potential(here, &readings);
            let sum = potential(here, &near) + potential(here, &far);
            found.error = found.error.max((sum - plain).abs() / plain);
        }
    }
    Ok(found)
}

#[allow(dead_code)]
fn main() -> Result<(), Refusal> {
    let found = job()?;
    let readings = LINES * STATIONS;
    println!("{readings} readings, {} leaves", found.leaves);
    println!(
        "by lists: {} terms; all pairs: {}",
        found.terms,
        readings * (readings - 1)
    );
    println!(
        "largest difference from the plain sum: {:.2} %",
        100.0 * found.error
    );
    assert!(
        found.error < 0.01,
        "the sums differ by more than 1 %: please report it"
    );
    Ok(())
}
