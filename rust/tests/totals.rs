//! The column of totals: what a build writes, what is refused where a total is wrong, and what a short column says.

use lohandema::{Asked, Bounds, Refusal, Tree, keys, lent};

const WRONG: Refusal = Refusal::new(Refusal::TREE, 0);

/// One axis, and the sources of the example.
fn example() -> Tree {
    let bounds = Bounds::new(&[4.0], 4.0);
    Tree::build(Asked::new(&bounds, &[0.5, 1.5, 6.5, 7.5], 1)).unwrap()
}

/// Points by a fixed rule, more of them near one place.
fn scattered(axes: usize, count: usize) -> Vec<f64> {
    let mut x: u64 = 88_172_645_463_325_252;
    let mut unit = || {
        x = x
            .wrapping_mul(6_364_136_223_846_793_005)
            .wrapping_add(1_442_695_040_888_963_407);
        (x >> 11) as f64 / (1u64 << 53) as f64
    };
    let numbers = 0..axes * count;
    let place = |i| if i / axes % 3 == 0 { 8.0 } else { 0.1 };
    numbers.map(|i| place(i) * unit()).collect()
}

/// How many sources lie in a cell, by the key of each source's cell at that level.
fn sources_in(bounds: &Bounds, sources: &[f64], key: u64) -> usize {
    let level = keys::get_level(bounds.axes, key).unwrap();
    let cell = |source| bounds.point_to_key(source, level).unwrap();
    let rows = sources.chunks(bounds.axes);
    rows.filter(|source| cell(source) == key).count()
}

#[test]
fn a_total_counts_the_sources_in_the_cell() {
    for axes in 1..=3 {
        let bounds = Bounds::new(&[4.0; 3][..axes], 4.0);
        for count in [0, 1, 200] {
            let sources = scattered(axes, count);
            let asked = Asked::new(&bounds, &sources, 3);
            for asked in [asked, asked.keeping_empty()] {
                let tree = Tree::build(asked).unwrap();
                let right = |key: &u64| sources_in(&bounds, &sources, *key);
                let totals: Vec<usize> = tree.key.iter().map(right).collect();
                assert_eq!(tree.total, totals);
                assert_eq!(tree.total[0], count);
            }
        }
    }
}

#[test]
fn sourced_cells_are_those_with_a_total() {
    let bounds = Bounds::new(&[4.0; 3], 4.0);
    let sources = scattered(3, 100);
    let tree = Tree::build(Asked::new(&bounds, &sources, 2).keeping_empty()).unwrap();
    let nodes = tree.key.iter().zip(&tree.total);
    let mut cells: Vec<u64> = nodes.filter(|n| *n.1 > 0).map(|n| *n.0).collect();
    cells.sort_unstable();
    assert!(cells.len() < tree.key.len());
    assert_eq!(tree.get_sourced_cells(), Ok(cells));
}

/// Every call that takes a tree refuses it.
fn refused(tree: &Tree) {
    assert!(!tree.is_well_formed(), "{tree:?}");
    assert_eq!(tree.leaves().err(), Some(WRONG));
    assert_eq!(tree.point_to_leaf(&[0.5]), Err(WRONG));
    assert_eq!(tree.points_to_keys(&[0.5]), Err(WRONG));
    assert_eq!(tree.get_points_to_leaves_map(&[]), Err(WRONG));
    assert_eq!(tree.get_sourced_cells(), Err(WRONG));
    assert_eq!(tree.get_near_work(&[]), Err(WRONG));
    assert_eq!(tree.get_near_work(&[0.5]), Err(WRONG));
    assert_eq!(tree.get_interaction_lists(), Err(WRONG));
}

/// A leaf at level 1 that stands before cells with children.
fn uneven() -> Tree {
    let key = vec![0, 1, 32769, 98306, 229379];
    let (own, begin, total) = ([0, 2, 0, 0, 1], [0, 0, 2, 2, 2], [3, 2, 1, 1, 1]);
    let [own, begin, total] = [own, begin, total].map(|column| column.to_vec());
    let bounds = Bounds::new(&[4.0], 4.0);
    Tree::from_columns(bounds, key, own, begin, total, vec![0, 1, 2])
}

#[test]
fn one_wrong_total_is_no_tree() {
    for tree in [example(), uneven()] {
        assert!(tree.is_well_formed());
        for (node, right) in tree.total.iter().enumerate() {
            for wrong in [right - 1, right + 1, 1 << 20, usize::MAX] {
                let mut tree = tree.clone();
                tree.total[node] = wrong;
                refused(&tree);
            }
        }
    }
}

#[test]
fn totals_of_another_length_are_no_tree() {
    for length in [0, 8, 10] {
        let mut tree = example();
        tree.total.resize(length, 0);
        refused(&tree);
    }
}

#[test]
fn totals_whose_sum_wraps_are_no_tree() {
    let most = usize::MAX;
    let owned: [[usize; 3]; 2] = [[0, 1, 0], [0, most, 2]];
    for own in owned {
        let (key, begin, total) = (vec![0, 1, 32769], vec![0, 0, own[1]], vec![1, most, 2]);
        let bounds = Bounds::new(&[4.0], 4.0);
        let tree = Tree::from_columns(bounds, key, own.to_vec(), begin, total, vec![0]);
        refused(&tree);
    }
}

/// Nine nodes, and one of the four node columns one entry short, or empty.
#[test]
fn a_short_column_is_room_3() {
    let tree = example();
    for short in 0..4 {
        for room in [0, 8] {
            let long = |which: usize| if which == short { room } else { 9 };
            let (mut work, mut order) = ([7; 8], [7; 4]);
            let mut key = vec![7; long(0)];
            let [mut own, mut begin, mut total] = [1, 2, 3].map(|which| vec![7; long(which)]);
            let built = lent::build_tree(
                Asked::new(&tree.bounds, &[0.5, 1.5, 6.5, 7.5], 1),
                &mut work,
                &mut order,
                &mut key,
                &mut own,
                &mut begin,
                &mut total,
            );
            assert_eq!(built, Err(Refusal::new(Refusal::ROOM, 3)));
            assert!(work.iter().chain(&key).all(|x| *x == 0));
            let sums = order.iter().chain(&own).chain(&begin).chain(&total);
            assert!(sums.into_iter().all(|x| *x == 0));
        }
    }
}
