//! The surveys that are measured: 3 axes, centre 0, radius 1000.
use lohandema::lent::Asked;
use lohandema::points::Bounds;

pub const SHAPES: [&str; 3] = ["uniform", "lines", "cluster"];

static BOUNDS: Bounds = Bounds {
    centre: [0.0; 3],
    radius: 1000.0,
    axes: 3,
};

pub fn bounds() -> &'static Bounds {
    &BOUNDS
}

/// What a build of these points is asked.
pub fn asked(points: &[f64], limit: usize, keep: bool) -> Asked<'_> {
    let mut asked = Asked::new(bounds(), points, limit);
    asked.keep_empty = keep;
    asked
}

/// Numbers that are the same in every run.
pub struct Random(u64);

impl Random {
    pub fn new() -> Random {
        Random(41_379_942)
    }

    pub fn unit(&mut self) -> f64 {
        self.0 = self.0.wrapping_add(0x9E37_79B9_7F4A_7C15);
        let mut z = self.0;
        z = (z ^ (z >> 30)).wrapping_mul(0xBF58_476D_1CE4_E5B9);
        z = (z ^ (z >> 27)).wrapping_mul(0x94D0_49BB_1331_11EB);
        ((z ^ (z >> 31)) >> 11) as f64 / (1u64 << 53) as f64
    }

    /// From −1 to 1, mostly near 0.
    fn bell(&mut self) -> f64 {
        (0..6).map(|_| self.unit() - 0.5).sum::<f64>() / 3.0
    }
}

/// So many points of a shape, the same in every run.
pub fn points(shape: &str, count: usize) -> Vec<f64> {
    let mut r = Random::new();
    let mut all = Vec::with_capacity(count * 3);
    for i in 0..count {
        let point = match shape {
            "uniform" => [0; 3].map(|_| 1990.0 * (r.unit() - 0.5)),
            // 50 flight lines, a reading every so often, the height nearly constant
            "lines" => {
                let (line, along) = (i % 50, (i / 50) as f64 / (count as f64 / 50.0));
                [
                    1990.0 * (along - 0.5),
                    -980.0 + 40.0 * line as f64,
                    120.0 + 2.0 * r.bell(),
                ]
            }
            // nearly all within a few metres of one place
            "cluster" => {
                if i % 50 == 0 {
                    [0; 3].map(|_| 1990.0 * (r.unit() - 0.5))
                } else {
                    [
                        311.0 + 5.0 * r.bell(),
                        -207.0 + 5.0 * r.bell(),
                        93.0 + 5.0 * r.bell(),
                    ]
                }
            }
            _ => panic!("{shape}"),
        };
        all.extend(point);
    }
    all
}
