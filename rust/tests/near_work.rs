//! Near work: the example with and without targets, refusals in the order of the checks, and scattered targets in 1 to 3 axes
//! beside the sum over the targets of the sources in the U row of their leaf.

use lohandema::{Asked, Bounds, Columns, Reason, Refusal, Tree, lent};

fn example() -> Tree {
    let bounds = Bounds::new(&[4.0], 4.0);
    Tree::build(Asked::new(&bounds, &[0.5, 1.5, 6.5, 7.5], 1)).unwrap()
}

/// Points that are scattered by a fixed rule, more of them near one place.
fn scattered(axes: usize, count: usize, seed: u64) -> Vec<f64> {
    let mut x = seed;
    let mut unit = || {
        x ^= x << 13;
        x ^= x >> 7;
        x ^= x << 17;
        (x >> 11) as f64 / (1u64 << 53) as f64
    };
    let point = |i: usize| {
        let wide = 8.0 * unit();
        if i / axes % 2 == 0 {
            wide
        } else {
            2.0 + wide / 50.0
        }
    };
    (0..axes * count).map(point).collect()
}

/// Near work and the counts that it leaves, in a column of rubbish that is three entries too long.
fn counted(tree: &Tree, targets: &[f64]) -> (Result<u64, Refusal>, Vec<usize>) {
    let mut counts = vec![usize::MAX; tree.key.len() + 3];
    let work = lent::get_near_work(&tree.bounds, tree.columns(), targets, &mut counts);
    (work, counts)
}

#[test]
fn the_example_by_its_targets() {
    let tree = example();
    let nine = |counts: [usize; 9]| [&counts[..], &[0; 3]].concat();
    let own = nine([0, 0, 0, 1, 1, 0, 0, 1, 1]);
    assert_eq!(counted(&tree, &[]), (Ok(8), own.clone()));
    assert_eq!(counted(&tree, &[7.5, 6.5, 1.5, 0.5]), (Ok(8), own));
    let one = nine([0, 0, 0, 1, 0, 0, 0, 0, 0]);
    assert_eq!(counted(&tree, &[0.5]), (Ok(2), one));
    let some = nine([0, 0, 0, 2, 0, 0, 0, 0, 3]);
    assert_eq!(counted(&tree, &[7.9, 0.0, 7.5, 0.9, 7.0]), (Ok(10), some));
}

#[test]
fn the_first_target_that_fails_decides() {
    let tree = example();
    let unstored = |index| Refusal::new(Refusal::UNSTORED, index);
    let above = |index| Refusal::new(Refusal::POINT, index).behind(0, Reason::Above);
    let nan = Refusal::new(Refusal::POINT, 1).behind(0, Reason::NotFinite);
    let below = Refusal::new(Refusal::POINT, 2).behind(0, Reason::Below);
    let refused: [(&[f64], Refusal); 7] = [
        (&[3.0], unstored(0)),
        (&[8.0], above(0)),
        (&[3.0, 8.0], unstored(0)),
        (&[8.0, 3.0], above(0)),
        (&[0.5, 3.0, 8.0], unstored(1)),
        (&[0.5, f64::NAN, 3.0], nan),
        (&[0.5, 1.5, -1.0], below),
    ];
    for (targets, refusal) in refused {
        let zeros = vec![0; tree.key.len() + 3];
        assert_eq!(counted(&tree, targets), (Err(refusal), zeros));
        assert_eq!(tree.get_near_work(targets), Err(refusal));
    }
}

/// The call with a box of its own and so much room; rubbish stands in the counts.
fn lent_so(bounds: &Bounds, tree: Columns, targets: &[f64], room: usize) -> u64 {
    let mut counts = vec![7; room];
    let refusal = lent::get_near_work(bounds, tree, targets, &mut counts).unwrap_err();
    assert_eq!(counts, vec![0; room]);
    assert_eq!(refusal.value, if refusal.number == 8 { 8 } else { 0 });
    refusal.number
}

#[test]
fn checks_run_in_their_order() {
    let (tree, bad) = (example(), [3.0, 8.0]);
    let columns = tree.columns();
    let lying = Columns::new(1, &tree.key, &tree.own, &tree.begin, &tree.own);
    let short = Columns::new(1, &tree.key, &tree.own, &tree.begin, &tree.total[1..]);
    let small = Bounds::new(&[4.0], 0.1);
    let plane = Bounds::new(&[4.0, 4.0], 4.0);
    let on_plane = Columns::new(2, &tree.key, &tree.own, &tree.begin, &tree.own);
    let mut none = small;
    none.axes = 0;
    let on_none = Columns::new(0, &tree.key, &tree.own, &tree.begin, &tree.own);
    assert_eq!(lent_so(&none, on_none, &bad, 3), Refusal::DIMS);
    assert_eq!(lent_so(&plane, lying, &bad, 3), Refusal::DIMS);
    assert_eq!(lent_so(&small, lying, &bad, 3), Refusal::BOX);
    assert_eq!(lent_so(&plane, on_plane, &[3.0; 3], 3), Refusal::SHAPE);
    assert_eq!(lent_so(&plane, on_plane, &[3.0; 4], 3), Refusal::TREE);
    for tree in [lying, short] {
        assert_eq!(lent_so(&tree_box(), tree, &bad, 3), Refusal::TREE);
        assert_eq!(lent_so(&tree_box(), tree, &[], 3), Refusal::TREE);
    }
    for targets in [&bad[..], &[0.5], &[]] {
        assert_eq!(lent_so(&tree_box(), columns, targets, 8), Refusal::ROOM);
        assert_eq!(lent_so(&tree_box(), columns, targets, 0), Refusal::ROOM);
    }
    assert_eq!(lent_so(&tree_box(), columns, &bad, 9), Refusal::UNSTORED);
}

fn tree_box() -> Bounds {
    example().bounds
}

/// For each target its leaf, and the sources in the leaf's U row, summed.
fn by_target(tree: &Tree, targets: &[f64]) -> (u64, Vec<usize>) {
    let lists = tree.get_interaction_lists().unwrap();
    let node = |key: &u64| tree.key.iter().position(|other| other == key).unwrap();
    let (leaves, _) = tree.points_to_keys(targets).unwrap();
    let mut counts = vec![0; tree.key.len() + 3];
    let mut work = 0;
    for leaf in leaves.iter().map(node) {
        counts[leaf] += 1;
        let row = lists.u.row(leaf).iter();
        work += row.map(|key| tree.own[node(key)]).sum::<usize>() as u64;
    }
    (work, counts)
}

#[test]
fn it_is_the_sum_over_the_targets() {
    for axes in 1..=3 {
        let bounds = Bounds::new(&[4.0; 3][..axes], 4.0);
        let sources = scattered(axes, 150, 88_172_645_463_325_252);
        let plain = Asked::new(&bounds, &sources, 3);
        let kept = Tree::build(plain.keeping_empty()).unwrap();
        // in leaves with sources and in leaves without, and in one place only
        let scattered = scattered(axes, 200, 521_288_629);
        let one_leaf = scattered[..axes].repeat(50);
        for targets in [&sources, &scattered, &one_leaf] {
            let (work, counts) = by_target(&kept, targets);
            assert_eq!(counted(&kept, targets), (Ok(work), counts));
        }
        // the sources as targets, with both sorts of trees
        for tree in [Tree::build(plain).unwrap(), kept] {
            let (work, counts) = by_target(&tree, &sources);
            assert_eq!(counted(&tree, &[]), (Ok(work), counts));
            assert_eq!(tree.get_near_work(&sources), Ok(work));
        }
    }
}

/// A coarse leaf that touches many fine ones: as many pairs as it has targets times all sources near it.
#[test]
fn many_targets_beside_a_long_row() {
    let bounds = Bounds::new(&[4.0], 4.0);
    let sources: Vec<f64> = (0..4000)
        .map(|i| 4.0 - f64::from(i) / 2048.0 - 1e-4)
        .collect();
    let tree = Tree::build(Asked::new(&bounds, &sources, 1).keeping_empty()).unwrap();
    let (leaf, _) = tree.point_to_leaf(&[7.0]).unwrap();
    assert_eq!(leaf, 32769);
    assert_eq!(tree.get_near_work(&[7.0; 1000]), Ok(4_000_000));
}
