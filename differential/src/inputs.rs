//! Boxes, points and surveys of every shape.
use crate::oracle::{self, Survey};
use crate::random::Random;
use lohandema::points::Bounds;

/// The next float away from or towards zero by so many steps of its bits.
pub fn beside(x: f64, steps: i64) -> f64 {
    if x == 0.0 {
        return if steps < 0 {
            -f64::from_bits((-steps) as u64)
        } else {
            f64::from_bits(steps as u64)
        };
    }
    f64::from_bits((x.to_bits() as i64 + steps) as u64)
}

/// A box of the domain: also the smallest and the largest, and centres at the limit.
pub fn bounds(r: &mut Random, axes: usize) -> Bounds {
    let radius = match r.below(6) {
        0 => r.pick(&[0.25, 1048576.0, 1.0, 4.0, 65536.0, 32768.0, 0.3]),
        1 => 0.25 + r.unit(),
        2 => 4.0,
        _ => 0.25 * (4194304f64).powf(r.unit()),
    };
    let mut centre = [0.0; 3];
    for c in centre[..axes].iter_mut() {
        *c = match r.below(6) {
            0 => radius,
            1 => r.pick(&[0.0, -0.0, 16777216.0, -16777216.0, 1.0 / 3.0]),
            2 => 0.0,
            _ => (r.unit() - 0.5) * r.pick(&[1.0, 1e3, 3.0e7]),
        };
    }
    Bounds {
        centre,
        radius: radius.clamp(0.25, 1048576.0),
        axes,
    }
}

/// A coordinate on an axis: inside and outside, on cell walls and one or two floats beside them, and what is no number.
pub fn coordinate(r: &mut Random, b: &Bounds, a: usize) -> f64 {
    let low = b.centre[a] - b.radius;
    match r.below(16) {
        0..=5 => low + 2.0 * b.radius * r.unit(),
        6..=10 => {
            let level = r.below(17);
            let side = 2.0 * b.radius / (1u64 << level) as f64;
            let wall = low + r.below((1 << level) + 1) as f64 * side;
            let steps = r.pick(&[-2, -1, 0, 0, 1, 2]);
            beside(wall, steps)
        }
        11 => {
            let steps = r.below(40) as i64 - 20;
            beside(0.0, steps)
        }
        12 => r.pick(&[0.0, -0.0, f64::MIN_POSITIVE, -f64::MIN_POSITIVE]),
        13 => r.pick(&[
            f64::NAN,
            f64::INFINITY,
            f64::NEG_INFINITY,
            f64::MAX,
            f64::MIN,
        ]),
        14 => f64::from_bits(r.next()),
        _ => low + 2.0 * b.radius * (r.unit() * 3.0 - 1.0),
    }
}

/// A point of three coordinates; those past the axes may be anything.
pub fn point(r: &mut Random, b: &Bounds) -> [f64; 3] {
    let mut p = [0.0; 3];
    for (a, x) in p.iter_mut().enumerate() {
        *x = if a < b.axes {
            coordinate(r, b, a)
        } else {
            r.pick(&[0.0, f64::NAN, f64::INFINITY, 7.5])
        };
    }
    p
}

/// A valid key of a level.
pub fn key(r: &mut Random, axes: usize, level: u64) -> u64 {
    let codes = 1u64 << (axes as u64 * level);
    let code = match r.below(4) {
        0 => r.below(codes.min(64)),
        1 => codes - 1 - r.below(codes.min(64)),
        _ => r.below(codes),
    };
    code * 32768 + level
}

/// A valid key of any level near another: a few steps on each axis, a few levels up or down.
pub fn key_near(r: &mut Random, axes: usize, k: u64) -> u64 {
    let d = oracle::dimensions(axes);
    let mut anchor = ferreus_bbfmm::morton::decode_key(k, &d);
    let from = anchor[axes];
    let level = (from as i64 + r.pick(&[0, 0, 0, 0, -1, 1, -2, 2, 5])).clamp(0, 16) as u64;
    for x in anchor[..axes].iter_mut() {
        let y = if level < from {
            *x >> (from - level)
        } else {
            *x << (level - from)
        };
        let steps = r.pick(&[0, 0, 1, -1, 2, -2, 3]);
        *x = (y as i64 + steps).clamp(0, (1 << level) - 1) as u64;
    }
    anchor[axes] = level;
    ferreus_bbfmm::morton::encode_morton_point(anchor, &d)
}

/// Rows of points inside the box, of one shape.
pub fn points(r: &mut Random, b: &Bounds, rows: usize) -> Vec<f64> {
    let shape = r.below(7);
    let low: Vec<f64> = (0..b.axes).map(|a| b.centre[a] - b.radius).collect();
    let wide = 2.0 * b.radius;
    let centre: Vec<f64> = (0..b.axes).map(|_| r.unit()).collect();
    let spread = r.pick(&[1e-1, 1e-3, 1e-5]);
    let mut all: Vec<f64> = Vec::new();
    let mut row = vec![0.0; b.axes];
    let mut tries = 0;
    while all.len() < rows * b.axes && tries < rows * 20 + 100 {
        tries += 1;
        let along = r.unit();
        for a in 0..b.axes {
            row[a] = match shape {
                0 => low[a] + wide * r.unit(),
                1 => low[a] + wide * (centre[a] + spread * (r.unit() - 0.5)).clamp(0.0, 1.0),
                2 => low[a] + wide * if a == 0 { along } else { centre[a] },
                3 => low[a] + wide * along,
                4 => low[a] + wide * (r.below(4) as f64) / 4.0,
                _ => coordinate(r, b, a),
            };
        }
        if oracle::inside(b, &row) {
            all.extend_from_slice(&row);
            let repeats = if r.once_in(8) { r.index(4) } else { 0 };
            for _ in 0..repeats {
                if all.len() < rows * b.axes {
                    all.extend_from_slice(&row);
                }
            }
        }
    }
    all
}

/// A survey: few or many points, with and without targets, limits from 0 on, orders 1 to 64.
pub fn survey(r: &mut Random, most: usize) -> Survey {
    let axes = 1 + r.index(3);
    let bounds = bounds(r, axes);
    let count = |r: &mut Random| match r.below(8) {
        0 => 0,
        1 => 1 + r.index(4),
        2..=4 => r.index(40),
        _ => r.index(most),
    };
    let rows = count(r);
    let sources = points(r, &bounds, rows);
    let keep_empty = r.once_in(2);
    let targets = if r.once_in(2) {
        let rows = count(r) * r.pick(&[1, 1, 20]);
        points(r, &bounds, rows)
    } else {
        vec![]
    };
    // a limit of 0 splits to level 16, so few sources where empty children are kept
    let few = sources.len() / axes <= 12;
    let limit = match r.below(8) {
        0 if few => 0,
        1 | 2 => 1,
        3 => 2 + r.index(4),
        4 => 1 << 40,
        _ => 1 + r.index(64),
    };
    let order = match r.below(4) {
        0 => 1,
        1 => 64,
        _ => 1 + r.index(8),
    };
    Survey {
        bounds,
        sources,
        targets,
        limit,
        order,
        keep_empty,
    }
}
