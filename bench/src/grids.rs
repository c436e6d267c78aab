//! A build on a grid beside the build of the same sources with the grid's points listed: 1,048,576 points on one, two and three axes.
use crate::clock::least_of_two;
use crate::report::{Named, Report};
use crate::{POINTS, USUAL_LIMIT, shapes};
use lohandema::{Asked, Bounds, Grid, Tree, lent};

/// The order of the interpolation: its near limit is the cell's on every number of axes.
const ORDER: usize = 4;

/// The points of a grid, the last axis fastest.
fn listed(axes: usize, grid: &Grid) -> Vec<f64> {
    let rows: usize = grid.shape[..axes].iter().product();
    let stride = |a: usize| grid.shape[a + 1..axes].iter().product::<usize>();
    let coordinate = |row: usize, a: usize| {
        let index = row / stride(a) % grid.shape[a];
        grid.origin[a] + index as f64 * grid.spacing[a]
    };
    (0..rows)
        .flat_map(|row| (0..axes).map(move |a| (row, a)))
        .map(|(row, a)| coordinate(row, a))
        .collect()
}

/// One grid over the whole box of the uniform points, of which each row gives so many coordinates as there are axes.
fn measure_one(report: &Report, name: &str, axes: usize, shape: [usize; 3], runs: usize) {
    let uniform = shapes::points("uniform", POINTS);
    let rows = uniform.chunks_exact(3);
    let sources: Vec<f64> = rows.flat_map(|row| row[..axes].to_vec()).collect();
    let (mut low, mut high) = (f64::INFINITY, f64::NEG_INFINITY);
    for x in &sources {
        (low, high) = (low.min(*x), high.max(*x));
    }
    let extents = [vec![low; axes], vec![high; axes]].concat();
    let bounds = Bounds::from_extents(&extents).expect("finite extents");
    let spacing = shape.map(|n| (high - low) / n as f64);
    let grid = Grid::new([low; 3], spacing, shape);
    let points = listed(axes, &grid);
    let asked = Asked::new(&bounds, &sources, USUAL_LIMIT).refined(&points, ORDER);
    let tree = Tree::build_on_grid(asked, &grid).expect("a grid inside the box");
    assert_eq!(tree, Tree::build(asked).expect("the same points"));
    let nodes = tree.key.len();
    let (mut key, mut own) = (vec![0; nodes], vec![0; nodes]);
    let (mut begin, mut total) = (vec![0; nodes], vec![0; nodes]);
    let (mut key_2, mut own_2) = (key.clone(), own.clone());
    let (mut begin_2, mut total_2) = (begin.clone(), total.clone());
    let (mut order, mut order_2) = (vec![0; POINTS], vec![0; POINTS]);
    let mut work = vec![0; 2 * POINTS];
    let mut long_work = vec![0; 2 * POINTS + points.len() / axes];
    let times = least_of_two(
        runs,
        || {
            lent::build_tree_on_grid(
                asked, &grid, &mut work, &mut order, &mut key, &mut own, &mut begin, &mut total,
            )
        },
        || {
            lent::build_tree(
                asked,
                &mut long_work,
                &mut order_2,
                &mut key_2,
                &mut own_2,
                &mut begin_2,
                &mut total_2,
            )
        },
    );
    let named = Named {
        shape: name,
        limit: USUAL_LIMIT,
        keep: true,
    };
    let value = report.beside("build", "listed", named, times);
    report.judge("listed", named, value);
}

pub fn measure(report: &Report, runs: usize) {
    measure_one(report, "grid-1048576", 1, [1_048_576, 1, 1], runs);
    measure_one(report, "grid-1024x1024", 2, [1024, 1024, 1], runs);
    measure_one(report, "grid-64x128x128", 3, [64, 128, 128], runs);
}
