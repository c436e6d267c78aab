//! The table "Points and boxes".
use super::Rows;
use crate::face;
use crate::oracle::{self, dimensions};
use ferreus_bbfmm::morton;
use lohandema::points::Bounds;

/// Centre 4, radius 4, one axis: document 01's example.
pub const EXAMPLE: Bounds = Bounds {
    centre: [4.0, 0.0, 0.0],
    radius: 4.0,
    axes: 1,
};

pub fn run(rows: &mut Rows) {
    outside(rows);
    deep(rows);
    boxes(rows);
    axes(rows);
    extents(rows);
    lengths(rows);
    cells(rows);
}

fn outside(rows: &mut Rows) {
    let wide = Bounds::new(&[65536.0], 65536.0);
    let low = Bounds::new(&[0.0], 4.0);
    let cases = [
        ("P1", EXAMPLE, -5e-324, 0),
        ("P1", EXAMPLE, f64::NAN, 0),
        ("P1", EXAMPLE, -1.0, 0),
        ("P1", EXAMPLE, f64::NEG_INFINITY, 0),
        ("P2", EXAMPLE, 8.0, 65536),
        ("P2", EXAMPLE, f64::INFINITY, u64::MAX),
        ("P3", low, 4f64.next_down(), 65536),
    ];
    for (row, b, x, anchor) in cases {
        let theirs = (oracle::anchors(&b, &[x], 16), vec![anchor]);
        let ours = b.point_to_anchor(&[x], 16);
        rows.outside(row, &format!("{x}"), ours, (7, &b, x), theirs);
    }
    // decided by the operations too, and inside on both sides
    let ours = wide.point_to_anchor(&[-5e-324], 16);
    let theirs = oracle::anchors(&wide, &[-5e-324], 16);
    rows.answered("P3", "-5e-324", (ours, Ok([0; 3])), (theirs, vec![0]));
}

fn deep(rows: &mut Rows) {
    let theirs = (oracle::anchors(&EXAMPLE, &[0.5], 17), vec![8192]);
    let ours = EXAMPLE.point_to_anchor(&[0.5], 17);
    rows.refused("P4", "anchor at level 17", ours, (9, 0), theirs);
    let side = (morton::get_side_length(4.0, 17), 8.0 / 131072.0);
    let ours = EXAMPLE.get_side_length(17);
    rows.refused("P4", "side at level 17", ours, (9, 0), side);
}

/// Boxes that are not in the domain: the anchor of the point 0.5 at level 1.
fn boxes(rows: &mut Rows) {
    let cases = [
        (4.0, 0.25f64.next_down(), 0),
        (4.0, 1048576f64.next_up(), 0),
        (4.0, -4.0, 1),
        (4.0, f64::NAN, 0),
        (4.0, f64::INFINITY, 0),
        (16777216f64.next_up(), 4.0, 0),
        (f64::NAN, 4.0, 0),
    ];
    for (centre, radius, anchor) in cases {
        let b = Bounds::new(&[centre], radius);
        let theirs = (oracle::anchors(&b, &[0.5], 1), vec![anchor]);
        let ours = b.point_to_anchor(&[0.5], 1);
        let input = format!("centre {centre} radius {radius}");
        rows.refused("P5", &input, ours, (2, 0), theirs);
    }
}

/// The Rust's point has as many anchors as coordinates; a key of them it cannot make.
fn axes(rows: &mut Rows) {
    for axes in [0, 4] {
        let b = Bounds { axes, ..EXAMPLE };
        let point = vec![0.5; axes];
        let row = faer::RowRef::from_slice(&point);
        let mut said = vec![0; axes];
        said.push(1);
        let theirs = morton::point_to_anchor(row, 1, &vec![0.0; axes], 4.0);
        let input = format!("{axes} axes");
        let ours = b.point_to_anchor(&point, 1);
        rows.refused("P6", &input, ours, (1, 0), (theirs, said));
        let ours = face::point_to_anchor(&b, &[0.5; 3], 1);
        rows.refused_here("P6", &input, ours, (1, 0));
    }
}

fn same_bits(of: &(Vec<f64>, f64)) -> (Vec<u64>, u64) {
    // every NaN is one number here
    let bits = |x: f64| {
        if x.is_nan() {
            f64::NAN.to_bits()
        } else {
            x.to_bits()
        }
    };
    (of.0.iter().map(|x| bits(*x)).collect(), bits(of.1))
}

fn extent(rows: &mut Rows, row: &str, given: &[f64], number: u64, said: (Vec<f64>, f64)) {
    let theirs = morton::calculate_tree_center_and_radius(&given.to_vec());
    let seen = (same_bits(&theirs), same_bits(&said));
    let ours = Bounds::from_extents(given);
    let input = format!("{given:?}, the Rust's box {theirs:?}");
    rows.refused(row, &input, ours, (number, 0), seen);
}

fn extents(rows: &mut Rows) {
    let infinite = f64::INFINITY;
    extent(rows, "P7", &[3.0, 3.0], 2, (vec![3.0], 0.001));
    let wide = (vec![1048576.0], 1048576.001);
    extent(rows, "P7", &[0.0, 2097152.0], 2, wide);
    let far = (vec![16777217.0], 1.001);
    extent(rows, "P7", &[16777216.0, 16777218.0], 2, far);
    let both = (vec![infinite], infinite);
    extent(rows, "P8", &[0.0, infinite], 2, both);
    let none = (vec![f64::NAN], f64::NEG_INFINITY);
    extent(rows, "P8", &[f64::NAN, 8.0], 2, none);
}

fn lengths(rows: &mut Rows) {
    let none = f64::NEG_INFINITY;
    extent(rows, "P9", &[], 1, (vec![], none));
    extent(rows, "P9", &[8.0], 1, (vec![], none));
    extent(rows, "P9", &[0.0, 8.0, 9.0], 1, (vec![4.0], 4.001));
    let eight = [0.0, 0.0, 0.0, 0.0, 8.0, 8.0, 8.0, 8.0];
    extent(rows, "P9", &eight, 1, (vec![4.0; 4], 4.001));
}

fn cells(rows: &mut Rows) {
    let d = dimensions(1);
    let theirs = morton::get_center_length(17, &[4.0], 4.0, &d);
    let ours = EXAMPLE.get_center_length(17);
    let side = 8.0 / 131072.0;
    let seen = (theirs, (vec![side / 2.0], side));
    rows.refused("P10", "centre of key 17", ours, (9, 0), seen);
    let theirs = morton::are_adjacent(0, 17, &[4.0], 4.0, &d);
    let ours = EXAMPLE.are_adjacent(0, 17);
    rows.refused("P10", "keys 0 and 17", ours, (9, 0), (theirs, true));
}
