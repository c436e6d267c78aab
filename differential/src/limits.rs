//! Refinement at its limit: a cell that holds as many targets as leave it whole, and then one more, which splits it.
use crate::builds::compare;
use crate::inputs;
use crate::oracle::{self, Survey};
use crate::random::Random;
use crate::tally::Tally;
use crate::trees::show;
use lohandema::points::Bounds;

#[derive(Clone)]
pub struct Cell {
    pub level: u64,
    pub anchor: Vec<u64>,
}

impl Cell {
    /// A cell with each anchor below `end`.
    fn below(r: &mut Random, axes: usize, level: u64, end: u64) -> Cell {
        Cell {
            level,
            anchor: (0..axes).map(|_| r.below(end)).collect(),
        }
    }

    fn any(r: &mut Random, axes: usize, level: u64) -> Cell {
        Cell::below(r, axes, level, 1 << level)
    }

    /// The cell of a level with a number, counted along the axes.
    fn nth(axes: usize, level: u64, n: u64) -> Cell {
        let on = |a: usize| (n >> (a as u64 * level)) % (1 << level);
        Cell {
            level,
            anchor: (0..axes).map(on).collect(),
        }
    }

    /// A child of the same parent.
    fn sibling(&self) -> Cell {
        let mut other = self.clone();
        other.anchor[0] ^= 1;
        other
    }

    pub fn first_child(&self) -> u64 {
        let mut anchor: Vec<u64> = self.anchor.iter().map(|x| 2 * x).collect();
        anchor.push(self.level + 1);
        ferreus_bbfmm::morton::encode_morton_point(anchor, &oracle::dimensions(self.anchor.len()))
    }

    /// So many points in the cell, away from its walls.
    fn points(&self, r: &mut Random, b: &Bounds, count: usize) -> Vec<f64> {
        let side = 2.0 * b.radius / (1u64 << self.level) as f64;
        let mut all = vec![];
        for _ in 0..count {
            for a in 0..b.axes {
                let steps = self.anchor[a] as f64 + 0.25 + 0.5 * r.unit();
                all.push(b.centre[a] - b.radius + side * steps);
            }
        }
        all
    }
}

/// A cell whose factor is known by the cells in which the sources lie; no more of them are in it than `limit`.
pub struct Setting {
    pub cell: Cell,
    pub factor: usize,
    sources: Vec<Cell>,
    limit: usize,
}

/// No source anywhere.
fn none(r: &mut Random, axes: usize) -> Setting {
    let level = 1 + r.below(4);
    Setting {
        cell: Cell::any(r, axes, level),
        factor: 32,
        sources: vec![],
        limit: 0,
    }
}

/// All sources in the last cell of level 2, enough for the reference depth 3, and the cell in the lower half on each axis.
fn far(r: &mut Random, axes: usize) -> Setting {
    let level = 2 + r.below(3);
    let count = (1 << (2 * axes)) + 1 + r.index(4);
    let last = Cell::nth(axes, 2, (1 << (2 * axes)) - 1);
    Setting {
        cell: Cell::below(r, axes, level, 1 << (level - 1)),
        factor: 32,
        sources: vec![last; count],
        limit: 1,
    }
}

/// Few sources: the reference depth is 1.
fn few(r: &mut Random, axes: usize) -> Setting {
    let level = 1 + r.below(4);
    let count = 1 + r.index(1 << axes);
    Setting {
        cell: Cell::any(r, axes, level),
        factor: if level == 1 { 16 } else { 1 },
        sources: (0..count).map(|_| Cell::any(r, axes, 4)).collect(),
        limit: count,
    }
}

/// One source in each cell of the level, which is the reference depth.
fn even(r: &mut Random, axes: usize) -> Setting {
    let level = 1 + r.below([5, 3, 2][axes - 1]);
    let all = 1 << (axes as u64 * level);
    Setting {
        cell: Cell::any(r, axes, level),
        factor: 16,
        sources: (0..all).map(|n| Cell::nth(axes, level, n)).collect(),
        limit: 1,
    }
}

/// The same number in half of the cells of level 1, where both sides of the factor's test are equal; or one more in one of
/// them, which is past it unless there are two cells.
fn halves(r: &mut Random, axes: usize) -> Setting {
    let (each, more) = (3 + r.index(3), r.index(2));
    let cells = (0..1 << (axes - 1)).map(|n| Cell::nth(axes, 1, 2 * n));
    let mut sources: Vec<Cell> = cells.flat_map(|c| vec![c; each]).collect();
    let first = sources[0].clone();
    sources.extend(vec![first; more]);
    Setting {
        cell: Cell::any(r, axes, 1),
        factor: if axes > 1 && more == 1 { 1 } else { 16 },
        sources,
        limit: each + more,
    }
}

/// All sources in one cell of level 1, enough for the reference depth 2.
fn heap(r: &mut Random, axes: usize) -> Setting {
    let count = (1 << axes) + 1 + r.index(4);
    let one = Cell::any(r, axes, 1);
    Setting {
        cell: Cell::any(r, axes, 1),
        factor: if axes == 1 { 16 } else { 1 },
        sources: vec![one; count],
        limit: count,
    }
}

/// One of the settings, by turns.
pub fn setting(r: &mut Random, axes: usize, turn: u64) -> Setting {
    let settings = [none, far, few, even, halves, heap];
    settings[turn as usize % settings.len()](r, axes)
}

impl Setting {
    /// The setting as a survey without targets, and its near limit.
    pub fn survey(&self, r: &mut Random, axes: usize) -> (Survey, usize) {
        let bounds = inputs::bounds(r, axes);
        let order: usize = r.pick(&[1, 1, 2, 3]);
        let limit = self.limit.max(1) + r.index(3);
        let sources = self.sources.iter().flat_map(|c| c.points(r, &bounds, 1));
        let survey = Survey {
            sources: sources.collect(),
            bounds,
            targets: vec![],
            limit,
            order,
            keep_empty: true,
        };
        (survey, limit.max(order.pow(axes as u32)))
    }
}

/// The setting with near limit times factor targets in the cell. So many in a sibling that all cells above split.
fn survey(r: &mut Random, axes: usize, set: &Setting) -> Survey {
    let (mut s, near) = set.survey(r, axes);
    s.targets = set.cell.points(r, &s.bounds, near * set.factor);
    if set.cell.level > 1 {
        let beside = set.cell.sibling().points(r, &s.bounds, 32 * near + 1);
        s.targets.extend(beside);
    }
    s
}

/// Both builds against the Rust's; and that in the Rust's the cell is a leaf in the first and split in the second.
pub fn refinement(t: &mut Tally, r: &mut Random, case: u64) {
    let axes = 1 + r.index(3);
    let set = setting(r, axes, case);
    let mut s = survey(r, axes, &set);
    for more in [false, true] {
        if more {
            let point = set.cell.points(r, &s.bounds, 1);
            s.targets.extend(point);
        }
        compare(t, &s, true);
        let split = oracle::build(&s).0.tree.contains(&set.cell.first_child());
        t.same("the limit", split, more, || show(&s));
    }
}
