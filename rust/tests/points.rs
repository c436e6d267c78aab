//! A point has one coordinate for each axis of the box, or is refused 3, after a bad box and before all else; and a box has
//! the axes of the tree in which it is used, or is refused 1.

use lohandema::{Asked, Bounds, Columns, Refusal, Tree, lent};

const POINT: [f64; 5] = [4.5, 4.25, 4.75, 4.5, 4.5];

fn refused<T>(number: u64) -> Result<T, Refusal> {
    Err(Refusal::new(number, 0))
}

/// A tree with a leaf for every point.
fn tree_of(axes: usize) -> Tree {
    let bounds = Bounds::new(&[4.0; 3][..axes], 4.0);
    Tree::build(Asked::new(&bounds, &POINT[..axes], 1).keeping_empty()).unwrap()
}

#[test]
fn the_acceptance_calls() {
    let bounds = Bounds::new(&[4.0, 4.0], 4.0);
    assert_eq!(bounds.point_to_key(&[6.5], 3), refused(Refusal::SHAPE));
    let three = bounds.point_to_key(&[6.5, 1.0, 99.0], 3);
    assert_eq!(three, refused(Refusal::SHAPE));
    assert_eq!(tree_of(2).point_to_leaf(&[]), refused(Refusal::SHAPE));
}

#[test]
fn a_point_of_another_length_is_refused() {
    for axes in 1..=3 {
        let tree = tree_of(axes);
        for length in 0..=5 {
            let (b, point) = (&tree.bounds, &POINT[..length]);
            if length == axes {
                assert!(b.point_to_anchor(point, 3).is_ok() && b.point_to_key(point, 3).is_ok());
                assert!(tree.point_to_leaf(point).is_ok());
                assert!(tree.points_to_keys(point).is_ok());
                continue;
            }
            assert_eq!(b.point_to_anchor(point, 3), refused(Refusal::SHAPE));
            assert_eq!(b.point_to_key(point, 3), refused(Refusal::SHAPE));
            assert_eq!(tree.point_to_leaf(point), refused(Refusal::SHAPE));
            let lent = lent::point_to_leaf(b, tree.columns(), point);
            assert_eq!(lent, refused(Refusal::SHAPE));
            // of many points the rows have to be whole
            let whole = length % axes == 0;
            assert_eq!(tree.points_to_keys(point).is_ok(), whole);
            assert_eq!(Tree::build(Asked::new(b, point, 1)).is_ok(), whole);
            let refined = Asked::new(b, &[], 1).refined(point, 2);
            assert_eq!(Tree::build(refined).is_ok(), whole);
        }
    }
}

#[test]
fn shape_comes_after_the_box_and_before_level_tree_and_point() {
    let point = [f64::NAN; 2];
    for axes in [0, 4, 5, usize::MAX] {
        let mut bounds = Bounds::new(&[f64::NAN], -1.0);
        bounds.axes = axes;
        assert_eq!(bounds.point_to_key(&point, 17), refused(Refusal::DIMS));
        assert_eq!(bounds.point_to_key(&[], 17), refused(Refusal::DIMS));
        assert_eq!(bounds.point_to_anchor(&POINT, 17), refused(Refusal::DIMS));
    }
    let mut tree = tree_of(1);
    tree.own.clear();
    let shape = refused(Refusal::SHAPE);
    assert_eq!(tree.bounds.point_to_key(&point, 17), shape);
    assert_eq!(tree.point_to_leaf(&point), refused(Refusal::SHAPE));
    assert_eq!(tree.point_to_leaf(&point[..1]), refused(Refusal::TREE));
    tree.bounds.radius = 0.0;
    assert_eq!(tree.bounds.point_to_key(&point, 17), refused(Refusal::BOX));
    assert_eq!(tree.point_to_leaf(&point), refused(Refusal::BOX));
}

#[test]
fn a_centre_is_not_cut() {
    for count in [0, 4, 5] {
        let bounds = Bounds::new(&POINT[..count], 4.0);
        assert_eq!(bounds.axes, count);
        assert_eq!(bounds.check(), refused(Refusal::DIMS));
        assert_eq!(bounds.get_side_length(1), refused(Refusal::DIMS));
        assert_eq!(bounds.get_center_length(0), refused(Refusal::DIMS));
        assert_eq!(bounds.are_adjacent(0, 0), refused(Refusal::DIMS));
        let built = Tree::build(Asked::new(&bounds, &POINT[..count], 1));
        assert_eq!(built, refused(Refusal::DIMS));
        // a point of as many coordinates does not help
        let point = &POINT[..count];
        assert_eq!(bounds.point_to_key(point, 1), refused(Refusal::DIMS));
    }
    for count in [0, 1, 3, 5] {
        let extents = Bounds::from_extents(&POINT[..count]);
        assert_eq!(extents, refused(Refusal::DIMS));
    }
}

#[test]
fn a_box_of_other_axes_than_the_tree_is_refused() {
    for axes in 1..=3 {
        let tree = tree_of(axes);
        for other in [0, 1, 2, 3, 4, usize::MAX] {
            // axes are judged before the rest of the box
            let mut bounds = Bounds::new(&[4.0; 3], 0.0);
            bounds.axes = other;
            let first = if other == axes {
                Refusal::BOX
            } else {
                Refusal::DIMS
            };
            let one = lent::point_to_leaf(&bounds, tree.columns(), &POINT[..axes]);
            assert_eq!(one, refused(first));
            let mut output = [7; 6];
            let many = lent::points_to_keys(&bounds, tree.columns(), &POINT[..3], &mut output);
            assert_eq!((many, output), (refused(first), [0; 6]));
        }
    }
    // the same columns may be a tree in 1 axis and in 2
    let bounds = Bounds::new(&[4.0], 4.0);
    let (key, none) = ([0, 1, 32769], [0; 3]);
    let columns = |axes| Columns::new(axes, &key, &none, &none, &none);
    let point = lent::point_to_leaf(&bounds, columns(1), &[6.5]);
    assert_eq!(point, Ok((32769, 0)));
    let point = lent::point_to_leaf(&bounds, columns(2), &[6.5]);
    assert_eq!(point, refused(Refusal::DIMS));
}
