//! Builds on a grid: the trees of the listed points, and the refusals.

use lohandema::{Asked, Bounds, Grid, Refusal, Tree};

/// The points of a grid, listed: the last axis fastest.
fn listed(axes: usize, grid: &Grid) -> Vec<f64> {
    let rows: usize = grid.shape[..axes].iter().product();
    let mut points = Vec::with_capacity(rows * axes);
    for row in 0..rows {
        for a in 0..axes {
            let stride: usize = grid.shape[a + 1..axes].iter().product();
            let index = row / stride % grid.shape[a];
            points.push(grid.origin[a] + index as f64 * grid.spacing[a]);
        }
    }
    points
}

/// A small generator of numbers, the same in every run.
struct Numbers(u64);

impl Numbers {
    fn next(&mut self, below: u64) -> u64 {
        self.0 ^= self.0 << 13;
        self.0 ^= self.0 >> 7;
        self.0 ^= self.0 << 17;
        self.0 % below
    }

    fn unit(&mut self) -> f64 {
        self.next(1 << 53) as f64 / (1_u64 << 53) as f64
    }
}

/// Both builds give the same tree, or the same refusal.
fn same(asked: Asked<'_>, grid: &Grid) -> bool {
    let points = listed(asked.bounds.axes, grid);
    let on_grid = Tree::build_on_grid(asked, grid);
    let on_points = Tree::build(asked.refined(&points, asked.order));
    assert_eq!(on_grid, on_points, "{grid:?}");
    on_grid.is_ok()
}

#[test]
fn grids_split_as_their_listed_points() {
    let mut numbers = Numbers(88_172_645_463_325_252);
    let mut built = 0;
    for turn in 0..600 {
        let axes = turn % 3 + 1;
        let bounds = Bounds::new(&[4.0, 4.0, 4.0][..axes], 4.0);
        let many = numbers.next(60) as usize;
        let sources: Vec<f64> = (0..many * axes).map(|_| 8.0 * numbers.unit()).collect();
        let most = [900, 30, 10][axes - 1];
        let mut grid = Grid::new([0.0; 3], [1.0; 3], [1; 3]);
        for a in 0..axes {
            let shape = 1 + numbers.next(most);
            let side = 8.0 / 65536.0;
            // on walls, a third of a side apart, one ulp beside a wall, tiny, or anything that fits
            let (origin, spacing) = match numbers.next(6) {
                0 => (0.0, side * (1 << numbers.next(5)) as f64),
                1 => (0.0, side / 3.0),
                2 => (side * 8.0, f64::from_bits((side * 4.0).to_bits() + 1)),
                3 => (4.0, f64::from_bits(1)),
                4 => (8.0 * numbers.unit(), 9.0 * numbers.unit() / shape as f64),
                _ => (0.0, 7.999 / shape as f64),
            };
            grid.origin[a] = origin;
            grid.spacing[a] = spacing;
            grid.shape[a] = shape as usize;
        }
        let limit = 1 + numbers.next(5) as usize;
        let asked = Asked::new(&bounds, &sources, limit).refined(&[], 1 + turn % 4);
        built += usize::from(same(asked, &grid));
    }
    assert!(built > 300, "{built} of 600 grids are inside");
}

#[test]
fn a_million_points() {
    for (axes, shape) in [
        (1, [1_048_576, 1, 1]),
        (2, [1024, 1024, 1]),
        (3, [64, 128, 128]),
    ] {
        let bounds = Bounds::new(&[4.0, 4.0, 4.0][..axes], 4.0);
        let mut numbers = Numbers(2_463_534_242);
        let sources: Vec<f64> = (0..2000 * axes).map(|_| 8.0 * numbers.unit()).collect();
        let spacing = shape.map(|n| 8.0 / n as f64);
        let grid = Grid::new([0.0; 3], spacing, shape);
        let asked = Asked::new(&bounds, &sources, 64).refined(&[], 4);
        assert!(same(asked, &grid));
    }
}

/// The number, value, and axis and reason of a refusal, on one axis over [0, 8).
fn refused(origin: f64, spacing: f64, shape: usize) -> (u64, usize) {
    let bounds = Bounds::new(&[4.0], 4.0);
    let asked = Asked::new(&bounds, &[], 1).refined(&[], 1);
    let grid = Grid::new([origin; 3], [spacing; 3], [shape; 3]);
    match Tree::build_on_grid(asked, &grid) {
        Ok(_) => (0, 0),
        Err(refusal) => (refusal.number, refusal.value),
    }
}

#[test]
fn refusals() {
    assert_eq!(refused(0.0, 1.0, 0), (Refusal::GRID, 0));
    assert_eq!(refused(0.0, 0.0, 1), (Refusal::GRID, 0));
    assert_eq!(refused(0.0, -0.0, 1), (Refusal::GRID, 0));
    assert_eq!(refused(0.0, f64::INFINITY, 1), (Refusal::GRID, 0));
    assert_eq!(refused(f64::NAN, 1.0, 1), (Refusal::GRID, 0));
    assert_eq!(refused(0.0, 1e-9, 1_048_577), (Refusal::COUNT, 0));
    assert_eq!(refused(8.0, 1.0, 1), (Refusal::POINT, 0));
    assert_eq!(refused(-1.0, 1.0, 1), (Refusal::POINT, 0));
    assert_eq!(refused(0.0, 1.0, 8), (0, 0));
    assert_eq!(refused(0.0, 1.0, 9), (Refusal::POINT, 8));
    assert_eq!(refused(0.0, f64::MAX, 1), (0, 0));
    assert_eq!(refused(0.0, f64::MAX, 3), (Refusal::POINT, 1));
    // of two axes the last leaves first; a grid is refused before a broken row of sources, and is not looked at without the flag
    let bounds = Bounds::new(&[4.0, 4.0], 4.0);
    let grid = Grid::new([0.0; 3], [1.0; 3], [9; 3]);
    let empty = Grid::new([f64::NAN; 3], [0.0; 3], [0; 3]);
    let asked = Asked::new(&bounds, &[], 1).refined(&[], 1);
    let refusal = Tree::build_on_grid(asked, &grid).unwrap_err();
    assert_eq!((refusal.number, refusal.value), (Refusal::POINT, 8));
    let broken = Asked::new(&bounds, &[1.0], 1).refined(&[], 1);
    assert_eq!(
        Tree::build_on_grid(broken, &empty).unwrap_err().number,
        Refusal::GRID
    );
    assert!(
        Tree::build_on_grid(Asked::new(&bounds, &[1.0, 1.0], 1).keeping_empty(), &empty).is_ok()
    );
}
