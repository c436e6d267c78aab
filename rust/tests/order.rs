//! The order of nodes: depth first, so that the sources in a cell are one part of the order column. Columns in which nodes
//! stand level by level are no tree. The depth is the greatest level.

use lohandema::{Asked, Bounds, Refusal, Tree, keys};

const WRONG: Refusal = Refusal::new(Refusal::TREE, 0);

/// Points by a fixed rule, more of them near one place.
fn scattered(axes: usize, count: usize) -> Vec<f64> {
    let mut x: u64 = 362_436_069;
    let mut unit = || {
        x = x
            .wrapping_mul(6_364_136_223_846_793_005)
            .wrapping_add(1_442_695_040_888_963_407);
        (x >> 11) as f64 / (1u64 << 53) as f64
    };
    let place = |i| if i / axes % 3 == 0 { 8.0 } else { 0.1 };
    (0..axes * count).map(|i| place(i) * unit()).collect()
}

/// Trees of 1 to 3 axes with their sources: of no, one and many sources, without empty cells, with them, and refined.
fn trees() -> Vec<(Tree, Vec<f64>)> {
    let mut all = vec![];
    for axes in 1..=3 {
        let bounds = Bounds::new(&[4.0; 3][..axes], 4.0);
        let targets = scattered(axes, 100);
        for count in [0, 1, 60] {
            let sources = scattered(axes, count);
            let asked = Asked::new(&bounds, &sources, 3);
            for asked in [asked, asked.keeping_empty(), asked.refined(&targets, 1)] {
                all.push((Tree::build(asked).unwrap(), sources.clone()));
            }
        }
    }
    all
}

/// A tree of one axis, with sources in those nodes that are told.
fn tree_of(key: &[u64], own: &[usize]) -> Tree {
    let mut tree = Tree::from_columns(
        Bounds::new(&[4.0], 4.0),
        key.to_vec(),
        own.to_vec(),
        vec![],
        vec![],
        (0..own.iter().sum()).collect(),
    );
    let under = |cell: u64, key: &u64| keys::get_ancestors(1, *key).unwrap().contains(&cell);
    for node in 0..key.len() {
        let nodes = key.iter().zip(own);
        let below = nodes.filter(|(k, _)| under(key[node], k));
        tree.total.push(below.map(|(_, own)| own).sum());
        tree.begin.push(own[..node].iter().sum());
    }
    tree
}

/// The same tree, its nodes level by level.
fn by_level(tree: &Tree) -> Tree {
    let mut nodes: Vec<usize> = (0..tree.key.len()).collect();
    nodes.sort_by_key(|node| (tree.key[*node] % 32768, tree.key[*node]));
    let mut other = tree.clone();
    let (mut sum, mut order) = (0, vec![]);
    for (place, node) in nodes.into_iter().enumerate() {
        other.key[place] = tree.key[node];
        other.own[place] = tree.own[node];
        other.total[place] = tree.total[node];
        other.begin[place] = sum;
        sum += tree.own[node];
        order.extend(tree.leaf_sources(node));
    }
    other.order = order;
    other
}

/// Whether a cell is another or lies in it.
fn lies_in(axes: usize, cell: u64, key: u64) -> bool {
    keys::get_ancestors(axes, cell).unwrap().contains(&key)
}

#[test]
fn a_cell_is_followed_by_all_that_lies_in_it() {
    for (tree, _) in trees() {
        let axes = tree.axes();
        for (node, key) in tree.key.iter().enumerate() {
            let below = tree.key.iter().filter(|k| lies_in(axes, **k, *key));
            let run = &tree.key[node..node + below.count()];
            assert!(run.iter().all(|k| lies_in(axes, *k, *key)));
            let children = run
                .iter()
                .filter(|k| keys::get_parent(axes, **k) == Ok(*key));
            assert!(children.is_sorted());
        }
    }
}

#[test]
fn a_run_has_the_sources_in_the_cell() {
    for (tree, sources) in trees() {
        for (node, key) in tree.key.iter().enumerate() {
            let cell = |source| tree.bounds.point_to_key(source, key % 32768).unwrap();
            let rows = sources.chunks(tree.axes()).enumerate();
            let inside = rows.filter(|(_, source)| cell(source) == *key);
            let right: Vec<usize> = inside.map(|(index, _)| index).collect();
            let mut run = tree.cell_sources(node).to_vec();
            assert_eq!(run.len(), tree.total[node]);
            run.sort_unstable();
            assert_eq!(run, right);
        }
    }
}

/// Leaf by leaf in the order of the nodes; a leaf's run is its own sources, and other nodes own none.
#[test]
fn a_run_is_those_of_the_leaves_in_the_cell() {
    for (tree, _) in trees() {
        let axes = tree.axes();
        for (node, key) in tree.key.iter().enumerate() {
            let leaves = tree.leaves().unwrap();
            let inside = leaves.filter(|leaf| lies_in(axes, leaf.key, *key));
            let right: Vec<usize> = inside.flat_map(|leaf| leaf.sources).copied().collect();
            assert_eq!(tree.cell_sources(node), right);
        }
    }
}

#[test]
fn a_number_past_the_nodes_has_no_run() {
    for (tree, _) in trees() {
        let nodes = tree.key.len();
        for node in [nodes, nodes + 1, 1 << 40, usize::MAX - 1, usize::MAX] {
            assert!(tree.cell_sources(node).is_empty());
            assert!(tree.leaf_sources(node).is_empty());
        }
    }
}

/// Every call that takes a tree refuses it.
fn refused(tree: &Tree) {
    let point = &[0.5; 3][..tree.axes()];
    assert!(!tree.is_well_formed(), "{tree:?}");
    assert_eq!(tree.leaves().err(), Some(WRONG));
    assert_eq!(tree.point_to_leaf(point), Err(WRONG));
    assert_eq!(tree.points_to_keys(point), Err(WRONG));
    assert_eq!(tree.get_points_to_leaves_map(&[]), Err(WRONG));
    assert_eq!(tree.get_sourced_cells(), Err(WRONG));
    assert_eq!(tree.get_near_work(&[]), Err(WRONG));
    assert_eq!(tree.get_near_work(point), Err(WRONG));
    assert_eq!(tree.get_interaction_lists(), Err(WRONG));
}

#[test]
fn nodes_by_level_are_no_tree() {
    let mut unlike = 0;
    for (tree, _) in trees() {
        let other = by_level(&tree);
        assert_eq!(other.is_well_formed(), other.key == tree.key);
        if other.key != tree.key {
            refused(&other);
            unlike += 1;
        }
    }
    assert!(unlike >= 9, "{unlike} trees differ by level");
    let right = tree_of(&[0, 1, 2, 32769], &[0, 0, 1, 1]);
    assert!(right.is_well_formed());
    refused(&tree_of(&[0, 1, 32769, 2], &[0, 0, 1, 1]));
    // siblings in falling order, and a node after its child
    refused(&tree_of(&[0, 32769, 1, 2], &[0, 1, 0, 1]));
    refused(&tree_of(&[0, 2, 1, 32769], &[0, 1, 0, 1]));
}

/// A root with its children, a chain, and chains that part at the last level.
#[test]
fn both_orders_may_be_the_same() {
    let chain: Vec<u64> = (0..=16).collect();
    let mut chain_with_two = chain.clone();
    chain_with_two.push(32768 + 16);
    for key in [vec![0], vec![0, 1, 32769], chain, chain_with_two] {
        let mut own = vec![0; key.len()];
        *own.last_mut().unwrap() = usize::from(key.len() > 1);
        let tree = tree_of(&key, &own);
        assert!(tree.is_well_formed(), "{key:?}");
        assert_eq!(by_level(&tree), tree);
        assert!(tree.get_interaction_lists().is_ok());
    }
}

#[test]
fn the_depth_is_the_greatest_level() {
    let bounds = Bounds::new(&[4.0], 4.0);
    let tree = Tree::build(Asked::new(&bounds, &[0.5, 1.5, 6.5], 1)).unwrap();
    assert_eq!(tree.key, [0, 1, 2, 3, 32771, 32769]);
    assert_eq!(tree.depth(), 3);
    for (tree, _) in trees() {
        let levels = tree.key.iter().map(|key| key % 32768);
        assert_eq!(tree.depth(), levels.max().unwrap().max(1));
    }
    // of any column
    for (key, depth) in [
        (&[][..], 1),
        (&[0], 1),
        (&[7, 3], 7),
        (&[0, 32767, 5], 32767),
    ] {
        let mut tree = tree_of(&[0], &[0]);
        tree.key = key.to_vec();
        assert_eq!(tree.depth(), depth);
    }
}
