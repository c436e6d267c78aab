//! Rows, groups and leaves: what they hold, and that no number and no starts make them panic.

use lohandema::{Asked, Bounds, Groups, Refusal, Rows, Tree, keys};

const ODD: [usize; 4] = [9, 10, usize::MAX - 1, usize::MAX];

fn example() -> Tree {
    let bounds = Bounds::new(&[4.0], 4.0);
    Tree::build(Asked::new(&bounds, &[0.5, 1.5, 6.5, 7.5], 1)).unwrap()
}

#[test]
fn rows_of_the_lists() {
    let lists = example().get_interaction_lists().unwrap();
    let u: Vec<&[u64]> = lists.u.iter().collect();
    assert_eq!((u.len(), lists.u.len(), lists.u.is_empty()), (9, 9, false));
    assert!((0..9).all(|node| lists.u.row(node) == u[node]));
    assert!((0..9).all(|node| lists.u.get(node) == Some(u[node])));
    assert_eq!((u[2], u[8]), (&[][..], &[196611, 229379][..]));
    assert_eq!(lists.v.iter().rev().nth(6), Some(&[98306][..]));
    for node in ODD {
        assert_eq!((lists.u.row(node), lists.u.get(node)), (&[][..], None));
    }
}

#[test]
fn groups_of_points() {
    let groups = example()
        .get_points_to_leaves_map(&[229379, 3, 229379])
        .unwrap();
    assert_eq!((groups.group(8), groups.group(3)), (&[0, 2][..], &[1][..]));
    assert_eq!((groups.len(), groups.is_empty()), (9, false));
    assert_eq!(groups.iter().map(<[usize]>::len).sum::<usize>(), 3);
    for node in ODD {
        assert_eq!((groups.group(node), groups.get(node)), (&[][..], None));
    }
}

#[test]
fn starts_that_lie_give_empty_rows() {
    let none = Rows::default();
    assert!(none.is_empty() && none.row(0).is_empty() && none.iter().len() == 0);
    let starts = vec![2, 0, 9, usize::MAX, 1];
    let keys = vec![1, 2, 3];
    let rows = Rows { starts, keys };
    assert!(rows.iter().all(<[u64]>::is_empty));
    let groups = Groups {
        starts: rows.starts,
        indices: vec![0],
    };
    assert!((0..6).all(|node| groups.group(node).is_empty()));
}

#[test]
fn leaves_of_a_tree() {
    let tree = example();
    let leaves: Vec<_> = tree.leaves().unwrap().collect();
    let nodes: Vec<usize> = leaves.iter().map(|leaf| leaf.node).collect();
    assert_eq!(nodes, [3, 4, 7, 8]);
    for leaf in leaves {
        assert_eq!(leaf.key, tree.key[leaf.node]);
        assert_eq!(leaf.sources, tree.leaf_sources(leaf.node));
        assert_eq!(leaf.sources, tree.cell_sources(leaf.node));
        assert_eq!(leaf.sources.len(), 1);
    }
}

#[test]
fn a_leaf_is_a_node_other_than_the_root_that_is_nobodys_parent() {
    for axes in 1..=3 {
        let bounds = Bounds::new(&[4.0; 3][..axes], 4.0);
        let sources: Vec<f64> = (0..60).map(|i| f64::from(i * i % 59) / 8.0).collect();
        for asked in [
            Asked::new(&bounds, &sources, 2),
            Asked::new(&bounds, &sources, 2).keeping_empty(),
            Asked::new(&bounds, &[], 0),
        ] {
            let tree = Tree::build(asked).unwrap();
            let child_of = |key| move |other: &u64| keys::get_parent(axes, *other) == Ok(key);
            let childless = |node: &usize| !tree.key.iter().any(child_of(tree.key[*node]));
            let right: Vec<usize> = (1..tree.key.len()).filter(childless).collect();
            let leaves = tree.leaves().unwrap();
            assert!(leaves.map(|leaf| leaf.node).eq(right));
        }
    }
}

#[test]
fn leaves_of_what_is_no_tree_are_refused() {
    let mut tree = example();
    tree.bounds.axes = 4;
    assert_eq!(tree.leaves().err(), Some(Refusal::new(Refusal::DIMS, 0)));
    tree.bounds.axes = 1;
    tree.key[8] = 7;
    assert_eq!(tree.leaves().err(), Some(Refusal::new(Refusal::TREE, 0)));
}
