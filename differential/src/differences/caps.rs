//! The table "Trees": the caps of sources, targets, nodes, points to look up and keys to group; each at its cap and one past.
use super::Rows;
use super::points::EXAMPLE;
use super::trees::{self, example};
use crate::builds;
use crate::oracle::{self, Survey};
use ferreus_bbfmm::linear_tree;
use lohandema::Refusal;
use lohandema::lent;
use lohandema::points::Bounds;
use std::collections::HashMap;

const MOST: usize = 1_048_576;

pub fn run(rows: &mut Rows) {
    sources(rows);
    targets(rows);
    nodes(rows);
    lookup(rows);
    grouping(rows);
}

fn sources(rows: &mut Rows) {
    for (count, most) in [(MOST, true), (MOST + 1, false)] {
        let s = Survey {
            limit: 2 * MOST,
            ..trees::survey(&vec![0.5; count])
        };
        let input = format!("{count} sources");
        let ours = trees::build(&s).map(|tree| tree.key);
        let seen = (trees::nodes(&s), vec![0, 1]);
        if most {
            rows.answered("T9", &input, (ours, Ok(vec![0, 1])), seen);
        } else {
            rows.refused("T9", &input, ours, (4, 0), seen);
        }
    }
}

fn targets(rows: &mut Rows) {
    for (count, most) in [(MOST, true), (MOST + 1, false)] {
        let s = Survey {
            targets: vec![0.5; count],
            limit: 2 * MOST,
            keep_empty: true,
            ..trees::survey(&[0.5])
        };
        let input = format!("{count} targets");
        let ours = trees::build(&s).map(|tree| tree.key);
        let seen = (trees::nodes(&s), vec![0, 1, 32769]);
        if most {
            rows.answered("T10", &input, (ours, Ok(vec![0, 1, 32769])), seen);
        } else {
            rows.refused("T10", &input, ours, (4, 0), seen);
        }
    }
}

/// Cells of level 9 in which one source each lies: these give 1,048,570 nodes.
const CELLS: u64 = 125_828;

/// Two axes and the limit 0, so that each source has a leaf of level 16: one source in the low corner of each of the first
/// cells of level 9, then one that has six cells of its own, from level 11 on, and one that has its leaf alone.
fn many_nodes(one_more: bool) -> Survey {
    let side = 32768.0;
    let mut sources = vec![];
    for code in 0..CELLS {
        for axis in 0..2 {
            let bit = |i: u64| (code >> (2 * i + axis) & 1) << i;
            let anchor: u64 = (0..9).map(bit).sum();
            sources.push((anchor << 7) as f64 + 0.5);
        }
    }
    sources.extend_from_slice(&[32.5, 0.5]);
    if one_more {
        sources.extend_from_slice(&[1.5, 0.5]);
    }
    Survey {
        bounds: Bounds::new(&[side, side], side),
        sources,
        targets: vec![],
        limit: 0,
        order: 1,
        keep_empty: false,
    }
}

fn build_with_room(s: &Survey, room: usize) -> (Result<usize, Refusal>, bool) {
    let count = s.sources.len() / 2;
    let (mut work, mut order) = (vec![7; 2 * count], vec![7; count]);
    let mut key = vec![7; room];
    let [mut own, mut begin, mut total] = [0; 3].map(|_| vec![7; room]);
    let ours = lent::build_tree(
        builds::asked_of(s, true),
        &mut work,
        &mut order,
        &mut key,
        &mut own,
        &mut begin,
        &mut total,
    );
    let sums = order.iter().chain(&own).chain(&begin).chain(&total);
    let all = work.iter().chain(&key).all(|x| *x == 0) && sums.into_iter().all(|x| *x == 0);
    (ours.map(|(nodes, _)| nodes), all)
}

fn nodes(rows: &mut Rows) {
    let (fits, over) = (many_nodes(false), many_nodes(true));
    let ours = build_with_room(&fits, MOST + 8);
    rows.answered(
        "T11",
        "1,048,576 nodes",
        (ours, (Ok(MOST), false)),
        ((), ()),
    );
    let (ours, all) = build_with_room(&over, MOST + 8);
    let input = "1,048,577 nodes";
    if rows.t.short() {
        rows.refused_here("T11", input, ours, (8, 3));
    } else {
        let seen = (oracle::build(&over).0.tree.len(), MOST + 1);
        rows.refused("T11", input, ours, (8, 3), seen);
    }
    rows.answered("T11", "all slices 0", (all, true), ((), ()));
}

fn lookup(rows: &mut Rows) {
    for (count, most) in [(MOST, true), (MOST + 1, false)] {
        let points = vec![0.5; count];
        let input = format!("{count} points");
        let mut output = vec![7; count];
        let ours = lent::points_to_keys(&EXAMPLE, example().columns(), &points, &mut output);
        let seen = (trees::lookup(&EXAMPLE, &points), Ok(vec![3; count]));
        if most {
            rows.answered("T20", &input, (ours, Ok(0)), seen);
        } else {
            rows.refused("T20", &input, ours, (4, 0), seen);
        }
        let left = if most { 3 } else { 0 };
        rows.answered("T20", "the slice", (output, vec![left; count]), ((), ()));
    }
}

fn grouping(rows: &mut Rows) {
    for (count, most) in [(MOST, true), (MOST + 1, false)] {
        let keys = vec![3; count];
        let input = format!("{count} keys");
        let (mut starts, mut indices) = ([7; 10], vec![7; count]);
        let tree = example();
        let columns = tree.columns();
        let ours = lent::get_points_to_leaves_map(columns, &keys, &mut starts, &mut indices);
        let map = linear_tree::get_points_to_leaves_map(&keys);
        let all: Vec<usize> = (0..count).collect();
        let seen = (map, HashMap::from([(3, all.clone())]));
        if most {
            rows.answered("T24", &input, (ours, Ok(())), seen);
        } else {
            rows.refused("T24", &input, ours, (4, 0), seen);
        }
        let left = if most { all } else { vec![0; count] };
        rows.answered("T24", "the indices", (indices, left), ((), ()));
    }
}
