//! Balanced trees: a known one, the rule tried on every pair of leaves, refusals, and room that is enough.
use lohandema::keys::decode_key;
use lohandema::{Asked, Bounds, Columns, Reason, Refusal, Tree, lent};

/// The tree of these points with empty cells, in the box about 4 with radius 4.
fn built(axes: usize, points: &[f64], limit: usize) -> Tree {
    let bounds = Bounds::new(&[4.0; 3][..axes], 4.0);
    let mut asked = Asked::new(&bounds, points, limit);
    asked.keep_empty = true;
    Tree::build(asked).unwrap()
}

/// The walls of a cell on each axis, in units of level 16, and its level.
fn walls(axes: usize, key: u64) -> (Vec<(u64, u64)>, u64) {
    let (anchor, level) = decode_key(axes, key).unwrap();
    let sides = anchor[..axes].iter();
    let of = |a: &u64| (a << (16 - level), (a + 1) << (16 - level));
    (sides.map(of).collect(), level)
}

/// How many levels the leaves that touch are apart, at most.
fn apart(tree: &Tree) -> u64 {
    let leaves: Vec<_> = tree
        .leaves()
        .unwrap()
        .map(|leaf| walls(tree.axes(), leaf.key))
        .collect();
    let mut most = 0;
    for (a, i) in &leaves {
        for (b, j) in &leaves {
            let touch = a.iter().zip(b).all(|(x, y)| x.0 <= y.1 && y.0 <= x.1);
            if touch {
                most = most.max(i.abs_diff(*j));
            }
        }
    }
    most
}

#[test]
fn a_known_tree() {
    let points = [6.5, 3.8, 3.3, 4.5];
    let bounds = Bounds::new(&[4.0], 4.0);
    let tree = Tree::from_columns(
        bounds,
        vec![0, 1, 2, 32770, 65539, 98307, 196612, 229380, 32769],
        vec![0, 0, 0, 0, 0, 0, 1, 1, 2],
        vec![0, 0, 0, 0, 0, 0, 0, 1, 2],
        vec![4, 2, 0, 2, 0, 2, 1, 1, 2],
        vec![2, 1, 0, 3],
    );
    let right = Tree::from_columns(
        bounds,
        vec![
            0, 1, 2, 32770, 65539, 98307, 196612, 229380, 32769, 65538, 131075, 163843, 98306,
        ],
        vec![0, 0, 0, 0, 0, 0, 1, 1, 0, 0, 1, 0, 1],
        vec![0, 0, 0, 0, 0, 0, 0, 1, 2, 2, 2, 3, 3],
        vec![4, 2, 0, 2, 0, 2, 1, 1, 2, 1, 1, 0, 1],
        vec![2, 1, 3, 0],
    );
    assert_eq!(tree.balanced(&points), Ok(right.clone()));
    assert_eq!(right.balanced(&points), Ok(right));
}

#[test]
fn touching_leaves_are_a_level_apart_at_most() {
    let mut state = 88_172_645_463_325_252_u64;
    let mut next = || {
        state ^= state << 13;
        state ^= state >> 7;
        state ^= state << 17;
        (state % 65_536) as f64 / 8_192.0
    };
    for axes in 1..=3 {
        let mut points: Vec<f64> = (0..axes * 20).map(|_| next()).collect();
        points.extend((0..axes * 6).map(|_| 3.99 + next() / 1_000.0));
        let tree = built(axes, &points, 2);
        let balanced = tree.balanced(&points).unwrap();
        assert!(apart(&tree) > 1 && apart(&balanced) == 1);
        assert!(balanced.is_well_formed() && balanced.depth() == tree.depth());
        assert!(tree.key.iter().all(|key| balanced.key.contains(key)));
        assert_eq!(balanced.total[0], 26);
        // each source is where a lookup finds it, and the lists are those of a tree
        let (found, _) = balanced.points_to_keys(&points).unwrap();
        for leaf in balanced.leaves().unwrap() {
            assert!(leaf.sources.iter().all(|&i| found[i] == leaf.key));
        }
        let lists = balanced.get_interaction_lists().unwrap();
        assert_eq!(balanced.lists_right(&lists), Ok(true));
        assert_eq!(balanced.balanced(&points), Ok(balanced));
    }
}

/// Two points just below the middle of the box: the cells around it are parted in all eight octants.
#[test]
fn room_is_enough() {
    let points = [3.9999, 3.9999, 3.9999, 3.9996, 3.9999, 3.9999];
    let tree = built(3, &points, 1);
    let balanced = tree.balanced(&points).unwrap();
    assert!(balanced.key.len() > 2 * tree.key.len() + 64);
}

#[test]
fn what_is_not_the_trees_is_refused() {
    let points = [0.5, 1.5, 6.5, 7.5];
    let tree = built(1, &points, 1);
    let lacking = Tree::build(Asked::new(&tree.bounds, &points, 1)).unwrap();
    let above = Refusal::new(Refusal::SOURCE, 3).behind(0, Reason::Above);
    let refused = |tree: &Tree, points: &[f64]| tree.balanced(points).unwrap_err();
    assert_eq!(refused(&lacking, &points).number, Refusal::PARTIAL);
    assert_eq!(refused(&tree, &[0.5, 1.5, 6.5, 8.0]), above);
    assert_eq!(refused(&tree, &[0.5, 1.5, 6.5]).number, Refusal::NOTBUILT);
    assert_eq!(
        refused(&tree, &[0.5, 6.5, 1.5, 7.5]).number,
        Refusal::NOTBUILT
    );
    let mut other = tree.clone();
    other.total[0] = 5;
    assert_eq!(refused(&other, &points).number, Refusal::TREE);
    other.bounds.radius = 0.0;
    assert_eq!(refused(&other, &points).number, Refusal::BOX);
    other.bounds.axes = 0;
    assert_eq!(refused(&other, &points).number, Refusal::DIMS);
    other.bounds.axes = 3;
    assert_eq!(refused(&other, &points).number, Refusal::BOX);
}

/// A box of other axes than the tree's, and slices that are zero after it.
#[test]
fn a_box_of_other_axes_is_refused() {
    let tree = built(1, &[0.5, 7.5], 1);
    let plane = Bounds::new(&[4.0, 4.0], 4.0);
    let (mut work, mut order, mut key) = ([7; 4], [7; 2], [7; 3]);
    let (mut own, mut begin, mut total) = ([7; 3], [7; 3], [7; 3]);
    let columns: Columns<'_> = tree.columns();
    let ended = lent::balance_tree(
        &plane,
        &[],
        columns,
        &[],
        &mut work,
        &mut order,
        &mut key,
        &mut own,
        &mut begin,
        &mut total,
    );
    assert_eq!(ended, Err(Refusal::new(Refusal::DIMS, 0)));
    assert_eq!((work, order, key), ([0; 4], [0; 2], [0; 3]));
    assert_eq!((own, begin, total), ([0; 3], [0; 3], [0; 3]));
}
