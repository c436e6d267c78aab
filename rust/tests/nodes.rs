//! From keys to nodes and from node to node, against a plain reading of the key column; and the sets and maps of `ferreus`.

use lohandema::ferreus::{TreeLists, points_to_leaves_map};
use lohandema::{Asked, Bounds, Refusal, Tree};
use std::collections::HashMap;

/// Numbers from 0 up to 1, the same in every run.
fn numbers(seed: u64) -> impl Iterator<Item = f64> {
    let next = |x: &u64| {
        Some(
            x.wrapping_mul(6364136223846793005)
                .wrapping_add(1442695040888963407),
        )
    };
    std::iter::successors(Some(seed), next).map(|x| (x >> 11) as f64 / (1_u64 << 53) as f64)
}

fn surveys() -> impl Iterator<Item = (Tree, Vec<f64>)> {
    (0..60).map(|case| {
        let axes = 1 + case % 3;
        let bounds = Bounds::new(&[4.0; 3][..axes], 4.0);
        // spread over the box, or all near one corner
        let squeeze = if case % 2 == 0 { 8.0 } else { 0.01 };
        let points: Vec<f64> = numbers(case as u64)
            .take(axes * (case * 3))
            .map(|x| x * squeeze)
            .collect();
        let mut asked = Asked::new(&bounds, &points, 1 + case % 5);
        asked.keep_empty = case % 4 == 0;
        (Tree::build(asked).unwrap(), points.clone())
    })
}

fn level(key: u64) -> u64 {
    key % 32768
}

/// The key one level up, by its bits.
fn above(axes: usize, key: u64) -> u64 {
    ((key / 32768) >> axes) * 32768 + level(key) - 1
}

#[test]
fn nodes_are_found_by_their_keys() {
    for (tree, _) in surveys() {
        for (node, key) in tree.key.iter().enumerate() {
            assert_eq!(tree.node_of(*key), Some(node));
        }
        for other in [17, u64::MAX, 32768 * 5 + 1, 1 << 63] {
            let place = tree.key.iter().position(|key| *key == other);
            assert_eq!(tree.node_of(other), place);
        }
        assert_eq!(
            tree.nodes_of(&tree.key),
            Some((0..tree.key.len()).collect())
        );
        assert_eq!(tree.nodes_of(&[0, 17]), None);
    }
}

#[test]
fn parents_children_and_leaves() {
    for (tree, _) in surveys() {
        let axes = tree.axes();
        for (node, key) in tree.key.iter().enumerate() {
            let is_child = |other: &usize| *other > 0 && above(axes, tree.key[*other]) == *key;
            let children: Vec<usize> = (0..tree.key.len()).filter(is_child).collect();
            assert_eq!(tree.children(node).collect::<Vec<_>>(), children);
            assert_eq!(tree.is_leaf(node), node > 0 && children.is_empty());
            for child in children {
                assert_eq!(tree.parent(child), Some(node));
            }
            let path: Vec<usize> = tree.path(node).collect();
            assert_eq!((path[0], path[path.len() - 1]), (node, 0));
            assert_eq!(path.len() as u64, level(*key) + 1);
        }
        let leaves: Vec<usize> = tree.leaves().unwrap().map(|leaf| leaf.node).collect();
        assert!((0..tree.key.len()).filter(|n| tree.is_leaf(*n)).eq(leaves));
        assert_eq!(tree.parent(0), None);
    }
}

#[test]
fn past_the_nodes_there_is_nothing() {
    let (tree, _) = surveys().nth(10).unwrap();
    for node in [tree.key.len(), usize::MAX] {
        assert!(!tree.is_leaf(node));
        assert_eq!(
            (
                tree.parent(node),
                tree.children(node).next(),
                tree.path(node).next()
            ),
            (None, None, None)
        );
    }
    assert_eq!(tree.level_nodes(17).count(), 0);
    assert_eq!(tree.level_nodes(u64::MAX).count(), 0);
}

#[test]
fn levels_part_the_nodes() {
    for (tree, _) in surveys() {
        let mut all = vec![];
        for at in 0..=tree.depth() {
            let nodes: Vec<usize> = tree.level_nodes(at).collect();
            assert!(nodes.is_sorted() && nodes.iter().all(|n| level(tree.key[*n]) == at));
            all.extend(nodes);
        }
        all.sort_unstable();
        assert!(all.into_iter().eq(0..tree.key.len()));
    }
}

#[test]
fn rows_as_node_numbers() {
    for (tree, _) in surveys() {
        let lists = tree.get_interaction_lists().unwrap();
        for rows in [&lists.u, &lists.v] {
            for (node, row) in rows.iter().enumerate() {
                let numbers = tree.row_nodes(rows, node).unwrap();
                assert!(numbers.iter().map(|n| tree.key[*n]).eq(row.iter().copied()));
            }
        }
        assert_eq!(tree.row_nodes(&lists.u, usize::MAX), Some(vec![]));
    }
}

/// Lists of another tree are refused, also where that one has as many nodes.
#[test]
fn maps_of_other_lists() {
    let bounds = Bounds::new(&[4.0], 4.0);
    let build = |sources: &[f64]| Tree::build(Asked::new(&bounds, sources, 1)).unwrap();
    let tree = build(&[0.5, 1.5, 6.5]);
    for other in [build(&[1.5, 6.5, 7.5]), build(&[0.5])] {
        let lists = other.get_interaction_lists().unwrap();
        assert!(TreeLists::from_lists(&other, &lists).is_ok());
        let refusal = TreeLists::from_lists(&tree, &lists).unwrap_err();
        assert_eq!((refusal.number, refusal.value), (Refusal::NOTBUILT, 0));
    }
}

/// The maps hold what the columns and rows hold, and nothing else.
#[test]
fn maps_by_key() {
    for (tree, _) in surveys() {
        let lists = tree.get_interaction_lists().unwrap();
        let maps = TreeLists::of(&tree).unwrap();
        assert_eq!(maps, TreeLists::from_lists(&tree, &lists).unwrap());
        assert_eq!(
            (maps.tree.len(), maps.children.len()),
            (tree.key.len(), tree.key.len())
        );
        assert_eq!(maps.leaves.len(), tree.leaves().unwrap().len());
        assert_eq!(
            maps.level_cells_map.values().map(Vec::len).sum::<usize>(),
            tree.key.len()
        );
        assert!(
            maps.key_to_index_map
                .iter()
                .all(|(key, n)| tree.key[*n] == *key)
        );
        let keys = |lists: &HashMap<u64, Vec<u64>>| lists.values().map(Vec::len).sum::<usize>();
        assert_eq!(
            (keys(&maps.u_lists), keys(&maps.v_lists)),
            (lists.u.keys.len(), lists.v.keys.len())
        );
        let cells = tree.get_sourced_cells().unwrap();
        assert!(
            maps.source_key_to_index_map
                .iter()
                .all(|(key, place)| cells[*place] == *key)
        );
        assert_eq!(
            maps.leaf_source_indices
                .values()
                .map(Vec::len)
                .sum::<usize>(),
            tree.order.len()
        );
        assert!(maps.leaf_target_indices.is_empty());
    }
}

/// The sources, looked up as targets, are in the leaves that have them.
#[test]
fn targets_by_key() {
    for (tree, points) in surveys() {
        let mut maps = TreeLists::of(&tree).unwrap();
        maps.set_targets(&tree, &points).unwrap();
        assert_eq!(maps.leaf_target_indices, maps.leaf_source_indices);
        let (leaves, _) = tree.points_to_keys(&points).unwrap();
        let groups = tree.get_points_to_leaves_map(&leaves).unwrap();
        assert_eq!(
            points_to_leaves_map(&tree, &groups),
            maps.leaf_source_indices
        );
        let outside = vec![9.0; tree.axes()];
        let refusal = maps.set_targets(&tree, &outside).unwrap_err();
        assert_eq!(refusal.number, Refusal::POINT);
        // what was there stays
        assert_eq!(maps.leaf_target_indices, maps.leaf_source_indices);
    }
}

#[test]
fn no_tree_no_maps() {
    let (mut tree, _) = surveys().nth(20).unwrap();
    tree.total[0] += 1;
    assert_eq!(TreeLists::of(&tree), Err(Refusal::new(Refusal::TREE, 0)));
}
