//! The box, the points and the float test of two cells.
use crate::face;
use crate::inputs;
use crate::keys::refused;
use crate::oracle::{self, dimensions};
use crate::random::Random;
use crate::tally::Tally;
use ferreus_bbfmm::{morton, target_refinement};
use lohandema::keys;
use lohandema::points::{self, Bounds};

/// Document 01's domain of boxes.
pub fn in_domain(b: &Bounds) -> bool {
    (0.25..=1048576.0).contains(&b.radius)
        && b.centre[..b.axes].iter().all(|c| c.abs() <= 16777216.0)
}

/// Floats by their bits, so that −0.0 is not 0.0.
fn bits(b: &Bounds) -> ([u64; 3], u64, usize) {
    (b.centre.map(f64::to_bits), b.radius.to_bits(), b.axes)
}

pub fn extents(t: &mut Tally, r: &mut Random, _case: u64) {
    let len = if r.once_in(6) {
        r.index(9)
    } else {
        2 * (1 + r.index(3))
    };
    let size = r.pick(&[1.0, 1e3, 1e6, 2e7]);
    let extents: Vec<f64> = (0..len)
        .map(|_| match r.below(12) {
            0 => r.pick(&[0.0, -0.0, -0.5, 0.5, 1e300, -1e300, f64::MAX, f64::MIN]),
            1 if r.once_in(3) => r.pick(&[f64::NAN, f64::INFINITY, f64::NEG_INFINITY]),
            2 => f64::from_bits(r.next()),
            3 => (r.below(64) as f64 - 32.0) / 4.0,
            _ => (r.unit() - 0.5) * size,
        })
        .collect();
    let right = match extents.len() {
        2 | 4 | 6 if extents.iter().all(|x| x.is_finite()) => {
            let (centre, radius) = morton::calculate_tree_center_and_radius(&extents);
            let b = Bounds::new(&centre, radius);
            if in_domain(&b) {
                Ok(bits(&b))
            } else {
                refused(2, 0)
            }
        }
        2 | 4 | 6 => refused(2, 0),
        _ => refused(1, 0),
    };
    if right.is_err() {
        t.refusal();
    }
    t.same(
        "box",
        Bounds::from_extents(&extents).map(|b| bits(&b)),
        right,
        || format!("extents {extents:?}"),
    );
}

/// Boxes in and out of the domain.
pub fn boxes(t: &mut Tally, r: &mut Random, _case: u64) {
    let axes = if r.once_in(4) {
        r.pick(&[0, 4, usize::MAX])
    } else {
        1 + r.index(3)
    };
    let mut b = inputs::bounds(r, 3);
    b.axes = axes;
    let odd = [
        f64::NAN,
        f64::INFINITY,
        -1.0,
        0.0,
        0.25f64.next_down(),
        0.25,
        1048576.0,
        1048576.0f64.next_up(),
        16777216.0,
        16777216.0f64.next_up(),
        -16777216.0f64.next_up(),
    ];
    for c in b.centre.iter_mut().chain([&mut b.radius]) {
        if r.once_in(3) {
            *c = r.pick(&odd);
        }
    }
    let right = match axes {
        1..=3 if in_domain(&b) => Ok(()),
        1..=3 => refused(2, 0),
        _ => refused(1, 0),
    };
    if right.is_err() {
        t.refusal();
    }
    t.same("box", b.check(), right, || format!("{b:?}"));
    if right.is_err() {
        t.same("side", b.get_side_length(17), right.map(|_| 0.0), || {
            format!("{b:?}")
        });
        t.same(
            "key",
            b.point_to_key(&[f64::NAN; 3][..axes.min(3)], 17),
            right.map(|_| 0),
            || format!("{b:?}"),
        );
        t.same(
            "key, C face",
            face::point_to_key(&b, &[f64::NAN; 3], 17),
            right.map(|_| 0),
            || format!("{b:?}"),
        );
        t.same(
            "adjacent",
            b.are_adjacent(17, 17),
            right.map(|_| false),
            || format!("{b:?}"),
        );
    }
}

/// A point that is outside, with its wall, by both faces.
fn outside(t: &mut Tally, b: &Bounds, whole: &[f64; 3], level: u64, turn: usize) {
    let (p, odd) = (&whole[..b.axes], face::odd_box(b, turn));
    let input = || format!("{odd:?} point {whole:?} level {level}");
    let anchor = b.point_to_anchor(p, level);
    t.same("anchor", anchor, oracle::refused_at(7, 0, b, p), input);
    let key = b.point_to_key(p, level);
    t.same("key", key, oracle::refused_at(7, 0, b, p), input);
    let anchor = face::point_to_anchor(&odd, whole, level);
    let right = oracle::refused_at(7, 0, b, p);
    t.same("anchor, C face", anchor, right, input);
    let key = face::point_to_key(&odd, whole, level);
    t.same("key, C face", key, oracle::refused_at(7, 0, b, p), input);
}

/// A point's anchors and key at every level; by the C face too, where centre and point have something past the axes.
pub fn anchors(t: &mut Tally, r: &mut Random, _case: u64) {
    let axes = 1 + r.index(3);
    let b = inputs::bounds(r, axes);
    for turn in 0..8 {
        let whole = inputs::point(r, &b);
        let (p, odd) = (&whole[..axes], face::odd_box(&b, turn));
        let input = || format!("{odd:?} point {whole:?}");
        if !oracle::inside(&b, p) {
            t.refusal();
            let level = r.below(17);
            let deep = b.point_to_key(p, 17);
            t.same("key, bad level", deep, refused(9, 0), input);
            outside(t, &b, &whole, level, turn);
            continue;
        }
        for level in 0..=16 {
            let mut anchor = oracle::anchors(&b, p, level);
            let mut three = [0; 3];
            three[..axes].copy_from_slice(&anchor);
            t.same("anchor", b.point_to_anchor(p, level), Ok(three), input);
            let ours = face::point_to_anchor(&odd, &whole, level);
            t.same("anchor, C face", ours, Ok(three), input);
            anchor.push(level);
            let key = morton::encode_morton_point(anchor, &dimensions(axes));
            t.same("key", b.point_to_key(p, level), Ok(key), input);
            let ours = face::point_to_key(&odd, &whole, level);
            t.same("key, C face", ours, Ok(key), input);
        }
    }
}

/// Sides and centres, bit for bit; the float test of two cells, and at one level the anchor test beside it.
pub fn cells(t: &mut Tally, r: &mut Random, _case: u64) {
    let axes = 1 + r.index(3);
    let b = inputs::bounds(r, axes);
    let centre = &b.centre[..axes];
    let d = dimensions(axes);
    for _ in 0..8 {
        let level = r.below(17);
        let first = inputs::key(r, axes, level);
        let second = inputs::key_near(r, axes, first);
        let input = || format!("{b:?} keys {first} {second}");
        let side = morton::get_side_length(b.radius, level).to_bits();
        t.same(
            "side",
            b.get_side_length(level).map(f64::to_bits),
            Ok(side),
            input,
        );
        let (middle, length) = morton::get_center_length(first, centre, b.radius, &d);
        let mut three = [0u64; 3];
        for (to, from) in three.iter_mut().zip(middle) {
            *to = from.to_bits();
        }
        let ours = b
            .get_center_length(first)
            .map(|(m, l)| (m.map(f64::to_bits), l.to_bits()));
        t.same("centre", ours, Ok((three, length.to_bits())), input);
        let adjacent = morton::are_adjacent(first, second, centre, b.radius, &d);
        t.same(
            "adjacent",
            b.are_adjacent(first, second),
            Ok(adjacent),
            input,
        );
        if oracle::level(first) == oracle::level(second) {
            t.same(
                "float and anchor test",
                keys::touching(axes, first, second),
                Ok(adjacent),
                input,
            );
        }
    }
    t.refusal();
    t.same("adjacent", b.are_adjacent(0, 32767), refused(9, 0), || {
        format!("{b:?}")
    });
}

/// The reference depth of every number of sources.
pub fn depths(t: &mut Tally, _r: &mut Random, _case: u64) {
    for axes in 1..=3 {
        let most = if t.short() { 70_000 } else { 1_048_576 };
        for count in 0..=most {
            let theirs = target_refinement::probe::optimal_depth_expr(count, dimensions(axes));
            t.same(
                "depth",
                points::reference_depth(axes, count),
                Ok(theirs),
                || format!("axes {axes} sources {count}"),
            );
        }
    }
    for axes in [0, 4, usize::MAX] {
        t.refusal();
        t.same(
            "depth",
            points::reference_depth(axes, 8),
            refused(1, 0),
            || format!("axes {axes}"),
        );
    }
}
