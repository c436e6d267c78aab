//! The table "Trees": the build on a grid.
use super::Rows;
use super::trees::survey;
use crate::builds::asked_of;
use crate::oracle::{self, Survey};
use lohandema::points::Bounds;
use lohandema::trees::Tree;
use lohandema::{Grid, Refusal};

/// The same figures on every axis.
fn even(origin: f64, spacing: f64, shape: usize) -> Grid {
    Grid::new([origin; 3], [spacing; 3], [shape; 3])
}

/// A source at 0.5 in the example's box, and empty cells kept.
fn kept() -> Survey {
    Survey {
        keep_empty: true,
        ..survey(&[0.5])
    }
}

fn build(s: &Survey, grid: &Grid) -> Result<Tree, Refusal> {
    Tree::build_on_grid(asked_of(s, true), grid)
}

/// The keys of the Rust's tree, or why it does not take the grid.
fn nodes(s: &Survey, grid: &Grid) -> Result<Vec<u64>, &'static str> {
    let theirs = oracle::grid_of(s.bounds.axes, grid)?;
    Ok(oracle::columns(&s.bounds, &oracle::build_on_grid(s, &theirs).0).key)
}

pub fn run(rows: &mut Rows) {
    figures(rows);
    outside(rows);
    counts(rows);
    not_used(rows);
}

fn figures(rows: &mut Rows) {
    let s = kept();
    for spacing in [0.0, -0.0] {
        let grid = even(0.5, spacing, 1);
        let seen = (nodes(&s, &grid), Ok(vec![0, 1, 32769]));
        rows.refused("T39", &format!("{grid:?}"), build(&s, &grid), (16, 0), seen);
    }
    let (spacing, origin) = ("invalid grid spacing", "grid origin must be finite");
    let shape = "grid axes must contain a sample";
    let cases = [
        (even(0.5, -1.0, 1), spacing),
        (even(0.5, f64::NAN, 1), spacing),
        (even(0.5, f64::INFINITY, 1), spacing),
        (even(f64::NAN, 1.0, 1), origin),
        (even(f64::INFINITY, 1.0, 1), origin),
        (even(0.5, 1.0, 0), shape),
    ];
    for (grid, said) in cases {
        let seen = (nodes(&s, &grid), Err(said));
        rows.refused("T40", &format!("{grid:?}"), build(&s, &grid), (16, 0), seen);
    }
}

fn outside(rows: &mut Rows) {
    let s = kept();
    let grid = even(0.5, 1.7e308, 3);
    let seen = (nodes(&s, &grid), Err("grid coordinates must be finite"));
    let right = oracle::refused_at(7, 1, &s.bounds, &[1.7e308]);
    rows.t.refusal();
    rows.answered("T41", "T41", (build(&s, &grid), right), seen);
    for x in [-1.0, 8.0] {
        let grid = even(x, 1.0, 1);
        let seen = (nodes(&s, &grid), Ok(vec![0, 1, 32769]));
        let ours = build(&s, &grid);
        rows.outside("T42", &format!("{grid:?}"), ours, (7, &s.bounds, x), seen);
    }
}

fn counts(rows: &mut Rows) {
    let s = Survey { order: 4, ..kept() };
    let most = even(0.0, 7e-6, 1_048_576);
    let seen = build(&s, &most).map(|tree| tree.key);
    let theirs = nodes(&s, &most).unwrap_or_default();
    rows.answered("T43", "1048576 points", (seen, Ok(theirs)), ((), ()));
    let more = even(0.0, 7e-6, 1_048_577);
    let seen = (nodes(&s, &more).is_ok(), true);
    rows.refused("T43", "1048577 points", build(&s, &more), (4, 0), seen);
    let two = Survey {
        bounds: Bounds::new(&[4.0, 4.0], 4.0),
        sources: vec![],
        ..kept()
    };
    let grid = even(0.0, 1e-300, 1 << 32);
    let seen = (nodes(&two, &grid), Err("grid point count exceeds usize"));
    rows.refused("T44", "2^64 points", build(&two, &grid), (4, 0), seen);
}

fn not_used(rows: &mut Rows) {
    let rubbish = even(f64::NAN, f64::NAN, 0);
    for (keep_empty, refine) in [(false, true), (true, false), (false, false)] {
        let s = Survey {
            keep_empty,
            ..kept()
        };
        let ours = Tree::build_on_grid(asked_of(&s, refine), &rubbish).map(|tree| tree.key);
        let right = Ok(super::trees::nodes(&s));
        rows.answered("T45", "not used", (ours, right), ((), ()));
    }
}
