//! Which wall a point is behind: every combination of inside and the three reasons on 1 to 3 axes, the walls themselves and the
//! floats beside them, subnormal numbers, infinities, and finite numbers whose quotients are infinite. Judged by the Rust's own
//! floors; told by a point's own calls, a build's sources and targets, and a lookup.
use crate::face;
use crate::inputs;
use crate::oracle;
use crate::random::Random;
use crate::tally::Tally;
use lohandema::points::Bounds;
use lohandema::{Asked, Reason, Refusal, Tree};

/// A coordinate that is inside on its axis, as far as the operations let it.
fn inner(r: &mut Random, b: &Bounds, a: usize) -> f64 {
    let low = b.centre[a] - b.radius;
    r.pick(&[b.centre[a], low + b.radius / 2.0, low + 1.5 * b.radius])
}

/// A coordinate for a reason: 0 inside, 1 not finite, 2 below, 3 above, at the walls one or two floats to either side.
fn coordinate(r: &mut Random, b: &Bounds, a: usize, reason: u64) -> f64 {
    let (low, high) = (b.centre[a] - b.radius, b.centre[a] + b.radius);
    match reason {
        0 => inner(r, b, a),
        1 => r.pick(&[f64::NAN, f64::INFINITY, f64::NEG_INFINITY]),
        2 => r.pick(&[
            low.next_down(),
            low.next_down().next_down(),
            low - 2.0 * b.radius,
            low - 1.0,
            -1.7e308,
            f64::MIN,
        ]),
        _ => r.pick(&[
            high,
            high.next_up(),
            high.next_down(),
            high + 2.0 * b.radius,
            1.7e308,
            f64::MAX,
        ]),
    }
}

/// Boxes whose lower walls are at 0, where a subnormal number decides, and any other.
fn bounds(r: &mut Random, axes: usize) -> Bounds {
    if r.once_in(3) {
        let radius = r.pick(&[0.25, 4.0, 65536.0, 1048576.0]);
        return Bounds::new(&[radius; 3][..axes], radius);
    }
    inputs::bounds(r, axes)
}

/// The first axis at whose number the reasons differ from 0 decides, where the operations agree with the reasons.
fn combined(reasons: [u64; 3], axes: usize) -> Option<(usize, u64)> {
    (0..axes).map(|a| (a, reasons[a])).find(|(_, r)| *r != 0)
}

fn compare(t: &mut Tally, r: &mut Random, b: &Bounds, whole: &[f64; 3]) {
    let p = &whole[..b.axes];
    let input = || format!("{b:?} point {p:?}");
    let wall = oracle::wall(b, p);
    t.same("inside", oracle::inside(b, p), wall.is_none(), input);
    let level = r.below(17);
    let odd = face::odd_box(b, level as usize);
    let told = |e: Refusal| (e.number, e.value, e.wall);
    let right = wall.map(|wall| (7, 0, Some(wall)));
    let anchor = b.point_to_anchor(p, level).err().map(told);
    t.same("anchor", anchor, right, input);
    let key = b.point_to_key(p, level).err().map(told);
    t.same("key", key, right, input);
    let key = face::point_to_key(&odd, whole, level).err().map(told);
    t.same("key, C face", key, right, input);
    let rows = r.index(3);
    let mut points: Vec<f64> = (0..rows * b.axes).map(|i| b.centre[i % b.axes]).collect();
    points.extend_from_slice(p);
    points.extend_from_slice(p);
    let right = wall.map(|wall| (6, rows, Some(wall)));
    let built = Tree::build(Asked::new(b, &points, 1));
    t.same("source", built.err().map(told), right, input);
    let right = wall.map(|wall| (7, rows, Some(wall)));
    let refined = Asked::new(b, &b.centre[..b.axes], 1).refined(&points, 1);
    let built = Tree::build(refined);
    t.same("target", built.err().map(told), right, input);
    let Ok(tree) = Tree::build(Asked::new(b, &b.centre[..b.axes], 1).keeping_empty()) else {
        return;
    };
    let found = tree.points_to_keys(&points).err().map(told);
    t.same("lookup", found, right, input);
    let right = wall.map(|wall| (7, 0, Some(wall)));
    let found = tree.point_to_leaf(p).err().map(told);
    t.same("lookup of one", found, right, input);
}

pub fn walls(t: &mut Tally, r: &mut Random, _case: u64) {
    for axes in 1..=3 {
        let b = bounds(r, axes);
        for all in 0..4u64.pow(axes as u32) {
            let reasons = [0, 1, 2].map(|a| (all >> (2 * a)) & 3);
            let mut p = [f64::NAN; 3];
            for (a, x) in p.iter_mut().enumerate().take(axes) {
                *x = coordinate(r, &b, a, reasons[a]);
            }
            if combined(reasons, axes).is_some() {
                t.refusal();
            }
            compare(t, r, &b, &p);
        }
        for _ in 0..4 {
            // the smallest numbers about a wall at 0, and anything
            let mut p = inputs::point(r, &b);
            p[r.index(axes)] = inputs::beside(0.0, r.below(40) as i64 - 20);
            compare(t, r, &b, &p);
        }
    }
    // NaN on a later axis, and the reasons' numbers
    let b = Bounds::new(&[4.0, 4.0], 4.0);
    let said = b
        .point_to_key(&[9.0, f64::NAN], 16)
        .err()
        .and_then(|e| e.wall);
    let said = said.map(|w| (w.axis, w.reason.number()));
    t.same(
        "first axis",
        said,
        Some((0, Reason::Above.number())),
        || format!("{b:?}"),
    );
}
