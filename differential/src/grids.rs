//! Builds on a grid: against the Rust's own grid targets, and against our build on the listed points. Refusals and end contents
//! against document 02's order 1.
use crate::builds::{all_inside, asked_of};
use crate::inputs::{self, beside};
use crate::limits;
use crate::oracle::{self, Survey};
use crate::points::in_domain;
use crate::random::Random;
use crate::refusals::{asked, left, lent_slice};
use crate::tally::Tally;
use crate::trees::show;
use lohandema::lent;
use lohandema::points::Bounds;
use lohandema::trees::Tree;
use lohandema::{Grid, Reason, Refusal};

const MOST: usize = 1_048_576;

/// The rows of a grid, or none where they are more than a call takes.
fn rows_of(axes: usize, g: &Grid) -> Option<usize> {
    let all = g.shape[..axes].iter();
    let rows = all.fold(1, |rows: u128, shape| rows.saturating_mul(*shape as u128));
    (rows <= MOST as u128).then_some(rows as usize)
}

/// The points of a grid, the last axis fastest.
fn listed(axes: usize, g: &Grid) -> Vec<f64> {
    let rows = rows_of(axes, g).unwrap_or(0);
    let mut points = Vec::with_capacity(rows * axes);
    for row in 0..rows {
        for a in 0..axes {
            let stride: usize = g.shape[a + 1..axes].iter().product();
            points.push(g.origin[a] + (row / stride % g.shape[a]) as f64 * g.spacing[a]);
        }
    }
    points
}

/// Whether 16 does not refuse it.
fn known(axes: usize, g: &Grid) -> bool {
    let on = |a: usize| {
        g.shape[a] > 0 && g.origin[a].is_finite() && g.spacing[a].is_finite() && g.spacing[a] > 0.0
    };
    (0..axes).all(on)
}

/// The checks 1 to 7 of a build on a grid, in order.
fn checked(s: &Survey, grid: &Grid, used: bool) -> Result<(), Refusal> {
    let b = &s.bounds;
    asked((1..=3).contains(&b.axes), (1, 0))?;
    asked(in_domain(b), (2, 0))?;
    asked(!used || known(b.axes, grid), (16, 0))?;
    asked(s.sources.len() % b.axes == 0, (3, 0))?;
    asked(s.sources.len() / b.axes <= MOST, (4, 0))?;
    asked(!used || rows_of(b.axes, grid).is_some(), (4, 0))?;
    asked(!used || (1..=64).contains(&s.order), (5, 0))?;
    all_inside(6, b, &s.sources)?;
    let points = if used { listed(b.axes, grid) } else { vec![] };
    all_inside(7, b, &points)
}

/// The Rust's tree of a survey that passes the checks, and its depth.
fn rust_build(s: &Survey, grid: &Grid, used: bool) -> (Tree, u64) {
    let (lists, depth) = if used {
        let theirs = oracle::grid_of(s.bounds.axes, grid);
        oracle::build_on_grid(
            s,
            &theirs.expect("the Rust takes a grid whose points are inside"),
        )
    } else {
        oracle::build(s)
    };
    (oracle::columns(&s.bounds, &lists), depth)
}

/// Our build on the listed points.
fn build_listed(s: &Survey, grid: &Grid) -> Result<Tree, Refusal> {
    let with = Survey {
        targets: listed(s.bounds.axes, grid),
        ..s.clone()
    };
    Tree::build(asked_of(&with, true))
}

/// A build on a grid that is used, three ways. The survey has no targets.
fn compare(t: &mut Tally, s: &Survey, grid: &Grid) -> Result<Tree, Refusal> {
    let input = || format!("{grid:?} {}", show(s));
    let right = checked(s, grid, true).map(|()| rust_build(s, grid, true));
    if right.is_err() {
        t.refusal();
    }
    let ours = Tree::build_on_grid(asked_of(s, true), grid);
    let depth = ours.as_ref().map(Tree::depth).ok();
    t.same("depth", depth, right.as_ref().map(|x| x.1).ok(), input);
    let nodes = right.as_ref().map(|x| x.0.key.len()).map_err(|r| *r);
    let counted = asked_of(s, true).count_nodes_on_grid(grid);
    t.same("nodes", counted, nodes, input);
    t.same("tree", ours.clone(), right.map(|x| x.0), input);
    if known(s.bounds.axes, grid) && rows_of(s.bounds.axes, grid).is_some() {
        t.same("listed", ours.clone(), build_listed(s, grid), input);
    }
    ours
}

/// Origin and spacing on an axis: on walls, a float beside them, thirds of a side, tiny and huge spacings, and anything.
fn figures(r: &mut Random, b: &Bounds, a: usize) -> (f64, f64) {
    let (low, wide) = (b.centre[a] - b.radius, 2.0 * b.radius);
    let level = r.below(17);
    let side = wide / (1u64 << level) as f64;
    let wall = low + r.below(1 << level) as f64 * side;
    let step = r.pick(&[-1, 0, 0, 1]);
    let origin = match r.below(4) {
        0 => low,
        1 => beside(low, step),
        2 => beside(wall, step),
        _ => low + wide * r.unit(),
    };
    let step = r.pick(&[-1, 1]);
    let spacing = match r.below(8) {
        0 | 1 => side * r.pick(&[0.125, 0.5, 1.0, 2.0, 4.0]),
        2 => side / 3.0,
        3 => beside(side, step),
        4 => r.pick(&[5e-324, f64::MIN_POSITIVE, 1e-300, 1e-12]),
        5 => r.pick(&[1e300, f64::MAX, 4.0 * wide]),
        _ => wide * r.unit() / (1 + r.below(100)) as f64,
    };
    // a product of 0, as wide * 0.0, is no spacing
    (origin, spacing.max(5e-324))
}

/// A grid of few points, most of them inside.
fn any_grid(r: &mut Random, b: &Bounds) -> Grid {
    let mut grid = Grid::new([f64::NAN; 3], [f64::NAN; 3], [0; 3]);
    let most = [2000, 50, 14][b.axes - 1];
    for a in 0..b.axes {
        let (origin, spacing) = figures(r, b, a);
        let mut shape = if r.once_in(4) { 1 } else { 1 + r.index(most) };
        let fit = (b.centre[a] + b.radius - origin) / spacing;
        if !r.once_in(12) {
            shape = shape.min(fit as usize).max(1);
        }
        grid.origin[a] = origin;
        grid.spacing[a] = spacing;
        grid.shape[a] = shape;
    }
    grid
}

fn survey(r: &mut Random, most: usize) -> Survey {
    let mut s = inputs::survey(r, most);
    s.keep_empty = true;
    s.targets.clear();
    // as many targets as a grid has here must be able to split a cell
    s.limit = s.limit.min(1 + r.index(20));
    s.order = s.order.min(1 + r.index(4));
    s
}

fn shapes(t: &mut Tally, r: &mut Random) {
    let s = survey(r, 400);
    let grid = any_grid(r, &s.bounds);
    let _ = compare(t, &s, &grid);
}

/// A line of points along the first axis, so many in the cell and `others` in the half of its parent beside it, half a step
/// away from the wall between them.
fn line(s: &Survey, cell: &limits::Cell, count: usize, others: usize) -> Grid {
    let b = &s.bounds;
    let side = 2.0 * b.radius / (1u64 << cell.level) as f64;
    let at = |a: usize, steps: f64| b.centre[a] - b.radius + side * steps;
    let mut grid = Grid::new([0.0; 3], [1e300; 3], [1; 3]);
    for a in 1..b.axes {
        grid.origin[a] = at(a, cell.anchor[a] as f64 + 0.5);
    }
    let spacing = side / (count.max(others) + 2) as f64;
    let is_upper = cell.anchor[0] % 2 == 1;
    let wall = at(0, (cell.anchor[0] | 1) as f64);
    let below = if is_upper { others } else { count };
    grid.origin[0] = wall - (below as f64 - 0.5) * spacing;
    grid.spacing[0] = spacing;
    grid.shape[0] = count + others;
    grid
}

/// A cell that has exactly near limit times factor points of a grid, and one more, which splits it.
fn limit(t: &mut Tally, r: &mut Random, turn: u64) {
    let axes = 1 + r.index(3);
    let set = limits::setting(r, axes, turn);
    let (s, near) = set.survey(r, axes);
    let others = if set.cell.level > 1 { 32 * near + 1 } else { 0 };
    for more in [0, 1] {
        let grid = line(&s, &set.cell, near * set.factor + more, others);
        let ours = compare(t, &s, &grid);
        let split = ours.is_ok_and(|tree| tree.key.contains(&set.cell.first_child()));
        t.same("the limit", split, more == 1, || {
            format!("{grid:?} {}", show(&s))
        });
    }
}

/// A survey and a grid in which something is changed, so that a build may refuse it.
fn damaged(r: &mut Random, s: &mut Survey, g: &mut Grid) {
    let a = r.index(s.bounds.axes.clamp(1, 3));
    match r.below(10) {
        0 => s.bounds.axes = r.pick(&[0, 4, usize::MAX]),
        1 => s.bounds.radius = r.pick(&[0.2, f64::NAN, 2e6]),
        2 => s.sources.push(0.0),
        3 => s.order = r.pick(&[0, 65, usize::MAX]),
        4 if !s.sources.is_empty() => {
            let at = r.index(s.sources.len());
            s.sources[at] = r.pick(&[f64::NAN, 1e300, f64::NEG_INFINITY]);
        }
        5 => g.shape[a] = 0,
        6 => g.shape[a] = r.pick(&[MOST + 1, 1 << 32, 1 << 63, usize::MAX]),
        7 => g.origin[a] = r.pick(&[f64::NAN, f64::INFINITY, 1e300, -1e300]),
        8 => g.spacing[a] = r.pick(&[0.0, -0.0, -1.0, f64::NAN, f64::INFINITY, -5e-324]),
        _ => g.shape[a] = g.shape[a].saturating_mul(3),
    }
}

/// What is lent to a build, and what is left in it.
#[derive(Clone, Debug, PartialEq)]
struct Lent {
    work: Vec<u64>,
    order: Vec<usize>,
    key: Vec<u64>,
    rest: [Vec<usize>; 3],
}

impl Lent {
    /// Slices long enough or short, that hold something.
    fn any(r: &mut Random, sources: usize, nodes: usize) -> Lent {
        Lent {
            work: lent_slice(r, 2 * sources, u64::MAX),
            order: lent_slice(r, sources, usize::MAX),
            key: lent_slice(r, nodes, u64::MAX),
            rest: [(); 3].map(|()| lent_slice(r, nodes, usize::MAX)),
        }
    }

    /// The checks of room, 8.
    fn checked(&self, sources: usize, nodes: usize) -> Result<(), Refusal> {
        asked(2 * sources <= self.work.len(), (8, 1))?;
        asked(sources <= self.order.len(), (8, 2))?;
        let room = self.rest.iter().map(Vec::len).min().unwrap_or(0);
        asked(nodes <= room.min(self.key.len()), (8, 3))
    }

    /// What has to be in it after this answer.
    fn after(&self, answer: &Tree) -> Lent {
        let [own, begin, total] = &self.rest;
        Lent {
            work: vec![0; self.work.len()],
            order: left(self.order.len(), &answer.order),
            key: left(self.key.len(), &answer.key),
            rest: [
                left(own.len(), &answer.own),
                left(begin.len(), &answer.begin),
                left(total.len(), &answer.total),
            ],
        }
    }
}

/// Surveys and grids as they are and damaged, with the flags or without, slices long enough and short.
fn refusals(t: &mut Tally, r: &mut Random) {
    let mut s = survey(r, 60);
    let mut grid = any_grid(r, &s.bounds);
    s.keep_empty = !r.once_in(8);
    let refine = !r.once_in(8);
    let used = s.keep_empty && refine;
    for _ in 0..r.index(3) {
        damaged(r, &mut s, &mut grid);
    }
    let built = checked(&s, &grid, used).map(|()| rust_build(&s, &grid, used));
    let sources = s.sources.len() / s.bounds.axes.clamp(1, 3);
    let mut lent = Lent::any(r, sources, built.as_ref().map_or(3, |x| x.0.key.len()));
    let right = built.and_then(|(tree, depth)| {
        lent.checked(sources, tree.key.len())?;
        Ok((tree, depth))
    });
    let empty = Tree::from_columns(s.bounds, vec![], vec![], vec![], vec![], vec![]);
    let after = lent.after(right.as_ref().map_or(&empty, |x| &x.0));
    let [own, begin, total] = &mut lent.rest;
    let ours = lent::build_tree_on_grid(
        asked_of(&s, refine),
        &grid,
        &mut lent.work,
        &mut lent.order,
        &mut lent.key,
        own,
        begin,
        total,
    );
    if right.is_err() {
        t.refusal();
    }
    let input = || format!("{grid:?} {} refine {refine}", show(&s));
    let right = right.map(|(tree, depth)| (tree.key.len(), depth));
    t.same("build", ours, right, input);
    t.same("build's slices", lent, after, input);
}

/// One axis or more about 4 with radius 4, no sources, limit and order 1.
fn example(axes: usize) -> Survey {
    Survey {
        bounds: Bounds::new(&[4.0; 3][..axes], 4.0),
        sources: vec![],
        targets: vec![],
        limit: 1,
        order: 1,
        keep_empty: true,
    }
}

/// What order 1 and its words say of one value each.
fn known_refusals(t: &mut Tally) {
    let above = |row| Refusal::new(7, row).behind(0, Reason::Above);
    let (empty, count) = (Refusal::new(16, 0), Refusal::new(4, 0));
    let on_one: [(f64, f64, usize, Option<Refusal>); 14] = [
        (0.0, 1.0, 0, Some(empty)),
        (0.0, 0.0, 1, Some(empty)),
        (0.0, -0.0, 1, Some(empty)),
        (0.0, -5e-324, 1, Some(empty)),
        (0.0, f64::INFINITY, 1, Some(empty)),
        (f64::NAN, 1.0, 1, Some(empty)),
        (0.0, 1.0, MOST + 1, Some(count)),
        (8.0, 1.0, 1, Some(above(0))),
        (
            -1.0,
            1.0,
            1,
            Some(Refusal::new(7, 0).behind(0, Reason::Below)),
        ),
        (0.0, 1.0, 8, None),
        (0.0, 1.0, 9, Some(above(8))),
        (0.5, f64::MAX, 1, None),
        (0.5, f64::MAX, 3, Some(above(1))),
        (0.5, 5e-324, MOST, None),
    ];
    for (origin, spacing, shape, refusal) in on_one {
        let grid = Grid::new([origin; 3], [spacing; 3], [shape; 3]);
        let ours = compare(t, &example(1), &grid);
        t.same("refusal", ours.err(), refusal, || format!("{grid:?}"));
    }
    let above_on_last = Refusal::new(7, 8).behind(1, Reason::Above);
    for (shape, refusal) in [([9, 9, 1], above_on_last), ([1 << 32, 1 << 32, 1], count)] {
        let grid = Grid::new([0.0; 3], [1.0; 3], shape);
        let ours = compare(t, &example(2), &grid);
        t.same("refusal", ours.err(), Some(refusal), || format!("{grid:?}"));
    }
    not_looked_at(t);
}

/// A shape of 0 is told before a broken row of sources; without both flags nothing of the grid is.
fn not_looked_at(t: &mut Tally) {
    let mut s = example(2);
    s.sources = vec![0.5];
    let grid = Grid::new([f64::NAN; 3], [0.0; 3], [0; 3]);
    let ours = Tree::build_on_grid(asked_of(&s, true), &grid);
    let input = || format!("{grid:?}");
    t.same("16 before 3", ours.err(), Some(Refusal::new(16, 0)), input);
    s.sources = vec![0.5, 0.5];
    for (keep_empty, refine) in [(false, false), (false, true), (true, false)] {
        s.keep_empty = keep_empty;
        let ours = Tree::build_on_grid(asked_of(&s, refine), &grid);
        let right = Ok(rust_build(&s, &grid, false).0);
        t.same("not used", ours, right, input);
    }
}

/// Where another rounding of a coordinate gives another tree: 3 * 0.3 + 0.1 fused, and 0.1 added ten times.
fn rounding(t: &mut Tally) {
    let mut s = example(1);
    s.sources = vec![0.05, 0.06, 1.05, 1.06];
    s.limit = 3;
    let grid = Grid::new([0.1; 3], [0.3; 3], [4; 3]);
    let nodes = compare(t, &s, &grid).map(|tree| tree.key.len());
    t.same("nodes", nodes, Ok(9), || format!("{grid:?}"));
    let grid = Grid::new([0.0; 3], [0.1; 3], [80; 3]);
    let _ = compare(t, &s, &grid);
}

/// As many points as a call takes, on one, two and three axes.
fn many(t: &mut Tally, r: &mut Random) {
    for (axes, shape) in [(1, [MOST, 1, 1]), (2, [1024, 1024, 1]), (3, [64, 128, 128])] {
        let mut s = example(axes);
        s.sources = (0..2000 * axes).map(|_| 8.0 * r.unit()).collect();
        (s.limit, s.order) = (64, 4);
        let spacing = shape.map(|n| 8.0 / n as f64);
        let grid = Grid::new([0.0; 3], spacing, shape);
        let built = compare(t, &s, &grid).is_ok();
        t.same("built", built, true, || format!("{grid:?}"));
    }
}

pub fn grid(t: &mut Tally, r: &mut Random, case: u64) {
    match case {
        0 => {
            known_refusals(t);
            rounding(t);
            if !t.short() {
                many(t, r);
            }
        }
        _ => match case % 3 {
            0 => shapes(t, r),
            1 => limit(t, r, case / 3),
            _ => refusals(t, r),
        },
    }
}
