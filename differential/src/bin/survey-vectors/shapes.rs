//! Points inside a survey's box, in the shapes that trees are sensitive to.
use crate::oracle;
use crate::random::Random;
use crate::survey::Survey;

#[derive(Clone, Copy, Debug)]
pub enum Shape {
    Uniform,
    Cluster,
    Line,
    Repeated,
    Walls,
    BesideWalls,
}

pub const SHAPES: [Shape; 6] = [
    Shape::Uniform,
    Shape::Cluster,
    Shape::Line,
    Shape::Repeated,
    Shape::Walls,
    Shape::BesideWalls,
];

fn anywhere(random: &mut Random, s: &Survey) -> Vec<f64> {
    let on = |c: &f64, unit: f64| c - s.radius + 2.0 * s.radius * unit;
    s.centre[..s.axes]
        .iter()
        .map(|c| on(c, random.unit()))
        .collect()
}

/// A point on a wall of a cell of levels 1 to 6, on each axis.
fn on_walls(random: &mut Random, s: &Survey) -> Vec<f64> {
    let mut on = |c: &f64| {
        let level = 1 + random.below(6);
        let step = random.below(1 << level) as f64;
        c - s.radius + step * (2.0 * s.radius / (1u64 << level) as f64)
    };
    s.centre[..s.axes].iter().map(&mut on).collect()
}

/// One float up or down, or not at all, on each axis.
fn beside(random: &mut Random, point: Vec<f64>) -> Vec<f64> {
    let mut moved = |x: f64| match random.below(3) {
        0 => x.next_down(),
        1 => x.next_up(),
        _ => x,
    };
    point.into_iter().map(&mut moved).collect()
}

fn point(random: &mut Random, s: &Survey, shape: Shape, seen: &[Vec<f64>]) -> Vec<f64> {
    let near = |random: &mut Random, size: f64| -> Vec<f64> {
        let mut moved = |x: &f64| x + size * s.radius * (random.unit() - 0.5);
        seen[0].iter().map(&mut moved).collect()
    };
    match shape {
        _ if seen.is_empty() => anywhere(random, s),
        Shape::Uniform => anywhere(random, s),
        Shape::Cluster => {
            let size = random.pick(&[1e-1, 1e-2, 1e-3]);
            near(random, size)
        }
        Shape::Line => {
            let (mut on, along) = (seen[0].clone(), anywhere(random, s));
            on[0] = along[0];
            on
        }
        Shape::Repeated if seen.len() > 4 => seen[random.index(4)].clone(),
        Shape::Repeated => anywhere(random, s),
        Shape::Walls => on_walls(random, s),
        Shape::BesideWalls => {
            let wall = on_walls(random, s);
            beside(random, wall)
        }
    }
}

/// So many points, row by row; those that fall outside are drawn again.
pub fn points(random: &mut Random, s: &Survey, shape: Shape, count: usize) -> Vec<f64> {
    let mut seen: Vec<Vec<f64>> = vec![];
    while seen.len() < count {
        let next = point(random, s, shape, &seen);
        if oracle::inside(s, &next) {
            seen.push(next);
        }
    }
    seen.concat()
}
