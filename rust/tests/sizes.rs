//! The sizes of the lists are those of the lists, and the number of nodes is the build's, which then take just so much room.

use lohandema::{Asked, Bounds, Grid, Refusal, Tree, lent};

/// Points by a fixed rule: spread, or squeezed towards a corner.
fn points(axes: usize, count: usize, squeeze: f64) -> Vec<f64> {
    let unit = |i: usize| (i as f64 * 0.754_877_666_246_692_8).fract();
    (0..axes * count)
        .map(|i| 8.0 * unit(i + 1).powf(squeeze))
        .collect()
}

#[test]
fn sizes_are_those_of_the_lists() {
    for axes in 1..=3 {
        let bounds = Bounds::new(&[4.0; 3][..axes], 4.0);
        for (count, squeeze) in [(0, 1.0), (1, 1.0), (300, 1.0), (300, 9.0), (3000, 3.0)] {
            let sources = points(axes, count, squeeze);
            let asked = Asked::new(&bounds, &sources, 5);
            for tree in [Tree::build(asked), Tree::build(asked.keeping_empty())] {
                let tree = tree.unwrap();
                let lists = tree.get_interaction_lists().unwrap();
                let right = (lists.u.keys.len(), lists.v.keys.len());
                assert_eq!(tree.get_list_sizes(), Ok(right));
            }
        }
    }
}

#[test]
fn what_is_no_tree_or_short_is_refused_and_left_zero() {
    let bounds = Bounds::new(&[4.0], 4.0);
    let mut tree = Tree::build(Asked::new(&bounds, &[0.5, 1.5, 6.5, 7.5], 1)).unwrap();
    for (work, row) in [(8, 9), (9, 8), (0, 0)] {
        let (mut work, mut row) = (vec![7; work], vec![7; row]);
        let short = lent::get_list_sizes(tree.columns(), &mut work, &mut row);
        assert_eq!(short, Err(Refusal::new(Refusal::ROOM, 1)));
        assert!(work.iter().all(|x| *x == 0) && row.iter().all(|x| *x == 0));
    }
    tree.total[0] = 5;
    assert_eq!(tree.get_list_sizes(), Err(Refusal::new(Refusal::TREE, 0)));
}

/// What is asked without targets, with empty cells stored, and with these targets.
fn asked_in_three_ways<'a>(
    bounds: &'a Bounds,
    sources: &'a [f64],
    targets: &'a [f64],
    limit: usize,
) -> [Asked<'a>; 3] {
    let plain = Asked::new(bounds, sources, limit);
    [plain, plain.keeping_empty(), plain.refined(targets, 1)]
}

#[test]
fn nodes_are_those_of_the_build() {
    for axes in 1..=3 {
        let bounds = Bounds::new(&[4.0; 3][..axes], 4.0);
        let grid = Grid::new([0.25; 3], [0.5; 3], [15; 3]);
        for (count, squeeze) in [(0, 1.0), (1, 1.0), (300, 1.0), (300, 9.0), (3000, 3.0)] {
            let (sources, targets) = (points(axes, count, squeeze), points(axes, 100, 2.0));
            for asked in asked_in_three_ways(&bounds, &sources, &targets, 5) {
                let nodes = Tree::build(asked).unwrap().key.len();
                assert_eq!(asked.count_nodes(), Ok(nodes));
                let nodes = Tree::build_on_grid(asked, &grid).unwrap().key.len();
                assert_eq!(asked.count_nodes_on_grid(&grid), Ok(nodes));
            }
        }
    }
}

#[test]
fn so_many_nodes_are_enough_and_one_fewer_is_not() {
    let bounds = Bounds::new(&[4.0, 4.0], 4.0);
    let sources = points(2, 500, 2.0);
    let asked = Asked::new(&bounds, &sources, 3);
    let nodes = asked.count_nodes().unwrap();
    for (room, right) in [
        (nodes, Ok(nodes)),
        (nodes - 1, Err(Refusal::new(Refusal::ROOM, 3))),
    ] {
        let (mut work, mut order) = (vec![0; 1000], vec![0; 500]);
        let (mut key, mut own) = (vec![0; room], vec![0; room]);
        let (mut begin, mut total) = (vec![0; room], vec![0; room]);
        let built = lent::build_tree(
            asked, &mut work, &mut order, &mut key, &mut own, &mut begin, &mut total,
        );
        assert_eq!(built.map(|(nodes, _)| nodes), right);
    }
}

#[test]
fn counts_are_refused_as_builds_and_left_zero() {
    let bounds = Bounds::new(&[4.0], 4.0);
    let sources = [0.5, 1.5, 6.5, 7.5];
    let asked = Asked::new(&bounds, &sources, 1);
    for (work, indices, value) in [(7, 4, 1), (8, 3, 2), (0, 0, 1)] {
        let (mut work, mut indices) = (vec![7; work], vec![7; indices]);
        let short = lent::count_nodes(asked, &mut work, &mut indices);
        assert_eq!(short, Err(Refusal::new(Refusal::ROOM, value)));
        assert!(work.iter().all(|x| *x == 0) && indices.iter().all(|x| *x == 0));
    }
    let (mut work, mut indices) = ([7; 9], [7; 5]);
    assert_eq!(lent::count_nodes(asked, &mut work, &mut indices), Ok(9));
    assert!(work == [0; 9] && indices == [0; 5]);
    let outside = Asked::new(&bounds, &[0.5, 9.0], 1);
    assert_eq!(outside.count_nodes(), Tree::build(outside).map(|_| 0));
    let grid = Grid::new([0.5; 3], [0.0; 3], [2; 3]);
    let on_none = asked.refined(&[], 1);
    let refused = Tree::build_on_grid(on_none, &grid).map(|_| 0);
    assert_eq!(refused, Err(Refusal::new(Refusal::GRID, 0)));
    assert_eq!(on_none.count_nodes_on_grid(&grid), refused);
}
