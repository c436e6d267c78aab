//! Nothing panics: every call with empty slices, axes that there are not, numbers past every column, columns of unequal
//! lengths, and more points than are taken.

use lohandema::limits::{DEEPEST, MOST_POINTS};
use lohandema::{Asked, Bounds, Columns, Refusal, Tree, keys, lent, points};

const AXES: [usize; 7] = [0, 1, 2, 3, 4, 5, usize::MAX];
const NUMBERS: [u64; 9] = [0, 1, 16, 17, 32767, 32768, 131073, 1 << 63, u64::MAX];
const FLOATS: [f64; 9] = [
    0.0,
    -0.0,
    4.0,
    -1.0,
    1e300,
    f64::MIN_POSITIVE,
    f64::NAN,
    f64::INFINITY,
    f64::NEG_INFINITY,
];

fn known(axes: usize) -> bool {
    (1..=3).contains(&axes)
}

/// Unknown axes are refused first, whatever else is wrong.
fn judged<T>(axes: usize, answer: Result<T, Refusal>) {
    if !known(axes) {
        assert_eq!(answer.err(), Some(Refusal::new(Refusal::DIMS, 0)));
    }
}

#[test]
fn keys_of_any_number() {
    for axes in AXES {
        for key in NUMBERS {
            judged(axes, keys::get_level(axes, key));
            judged(axes, keys::get_parent(axes, key));
            judged(axes, keys::get_child_index(axes, key));
            judged(axes, keys::get_children(axes, key));
            judged(axes, keys::get_siblings(axes, key));
            judged(axes, keys::get_ancestors(axes, key));
            judged(axes, keys::get_neighbours(axes, key));
            judged(axes, keys::decode_key(axes, key));
            judged(axes, points::reference_depth(axes, key as usize));
            for other in NUMBERS {
                judged(axes, keys::touching(axes, key, other));
                let anchor = [key, other, key];
                judged(axes, keys::encode_morton_point(axes, anchor, other));
            }
        }
    }
}

#[test]
fn boxes_and_points_of_any_number() {
    for axes in AXES {
        for x in FLOATS {
            for radius in FLOATS {
                let mut bounds = Bounds::new(&[x; 3], radius);
                bounds.axes = axes;
                judged(axes, bounds.check());
                judged(axes, bounds.get_side_length(u64::MAX));
                judged(axes, bounds.get_center_length(17));
                judged(axes, bounds.are_adjacent(0, u64::MAX));
                for length in 0..5 {
                    judged(axes, bounds.point_to_key(&[x; 5][..length], DEEPEST));
                    judged(axes, bounds.point_to_anchor(&[radius; 5][..length], 17));
                }
            }
        }
    }
    for length in 0..8 {
        for x in FLOATS {
            let extents = Bounds::from_extents(&[x; 8][..length]);
            assert!(extents.is_err() || [2, 4, 6].contains(&length));
        }
    }
}

/// Every call on a tree, which may be none.
fn calls(tree: &Tree) {
    let axes = tree.axes();
    for node in [0, 1, 2, 3, 1 << 20, usize::MAX - 1, usize::MAX] {
        assert!(tree.leaf_sources(node).len() <= tree.order.len());
        assert!(tree.cell_sources(node).len() <= tree.order.len());
    }
    assert!(tree.depth() >= 1);
    assert!(known(axes) || !tree.is_well_formed());
    judged(axes, tree.leaves().map(|leaves| leaves.len()));
    for length in 0..5 {
        judged(axes, tree.point_to_leaf(&[f64::NAN; 5][..length]));
        judged(axes, tree.points_to_keys(&[4.5; 5][..length]));
    }
    judged(axes, tree.get_points_to_leaves_map(&[]));
    judged(axes, tree.get_points_to_leaves_map(&NUMBERS));
    judged(axes, tree.get_sourced_cells());
    for length in 0..5 {
        judged(axes, tree.get_near_work(&[4.5; 5][..length]));
        judged(axes, tree.get_near_work(&[f64::NAN; 5][..length]));
    }
    judged(axes, tree.get_interaction_lists());
}

#[test]
fn trees_of_any_columns() {
    let most = usize::MAX;
    let keys: [&[u64]; 5] = [&[], &[0], &[0, 1, 32769], &[0, 1, 1], &[5, u64::MAX]];
    let sums: [&[usize]; 6] = [&[], &[0], &[0, 0, 0], &[0, 2, 1], &[most; 3], &[1; 9]];
    for axes in AXES {
        let mut bounds = Bounds::new(&[4.0; 3], 4.0);
        bounds.axes = axes;
        let mut tree = Tree::from_columns(bounds, vec![], vec![], vec![], vec![], vec![0, 1, 2]);
        for key in keys {
            tree.key = key.to_vec();
            for own in sums {
                tree.own = own.to_vec();
                for begin in sums {
                    tree.begin = begin.to_vec();
                    for total in sums {
                        tree.total = total.to_vec();
                        calls(&tree);
                    }
                }
            }
        }
    }
}

#[test]
fn parts_of_unequal_columns_are_empty() {
    let bounds = Bounds::new(&[4.0], 4.0);
    let (key, own, begin) = (vec![0, 1, 32769], vec![0, 1, 2], vec![0, 0, 1]);
    // the totals are not looked at here
    let mut tree = Tree::from_columns(bounds, key, own, begin, vec![], vec![4, 5, 6]);
    assert_eq!(tree.leaf_sources(2), [5, 6]);
    tree.order.pop();
    assert!(tree.leaf_sources(2).is_empty());
    tree.order.extend([6, 7]);
    tree.begin[2] = usize::MAX;
    assert!(tree.leaf_sources(2).is_empty());
    tree.begin.pop();
    assert!(tree.leaf_sources(2).is_empty());
    tree.own.pop();
    assert_eq!(tree.leaf_sources(1), [4]);
}

#[test]
fn runs_of_unequal_columns_are_empty() {
    let bounds = Bounds::new(&[4.0], 4.0);
    let (key, total, begin) = (vec![0, 1, 32769], vec![3, 1, 2], vec![0, 0, 1]);
    // what the nodes own is not looked at here
    let mut tree = Tree::from_columns(bounds, key, vec![], begin, total, vec![4, 5, 6]);
    assert_eq!(tree.cell_sources(0), [4, 5, 6]);
    assert_eq!(tree.cell_sources(2), [5, 6]);
    tree.order.pop();
    assert!(tree.cell_sources(0).is_empty() && tree.cell_sources(2).is_empty());
    assert_eq!(tree.cell_sources(1), [4]);
    tree.order.extend([6, 7]);
    tree.begin[2] = usize::MAX;
    assert!(tree.cell_sources(2).is_empty());
    // where the sum wraps to 1
    tree.total[2] = 2;
    assert!(tree.cell_sources(2).is_empty());
    tree.begin.pop();
    assert!(tree.cell_sources(2).is_empty());
    tree.total.truncate(1);
    assert!(tree.cell_sources(1).is_empty());
    assert_eq!(tree.cell_sources(0), [4, 5, 6]);
}

#[test]
fn builds_of_any_argument() {
    for axes in AXES {
        let mut bounds = Bounds::new(&[4.0; 3], 4.0);
        bounds.axes = axes;
        for sources in [&[][..], &[1.0; 6], &[1.0; 5], &[f64::NAN; 6]] {
            for limit in [0, 1, usize::MAX] {
                let asked = Asked::new(&bounds, sources, limit);
                judged(axes, Tree::build(asked));
                judged(axes, Tree::build(asked.keeping_empty()));
                for order in [0, 1, 64, 65, usize::MAX] {
                    judged(axes, Tree::build(asked.refined(&[2.0; 12], order)));
                    judged(axes, Tree::build(asked.refined(&[], order)));
                }
            }
        }
    }
}

#[test]
fn slices_of_no_entries() {
    let bounds = Bounds::new(&[4.0], 4.0);
    let asked = Asked::new(&bounds, &[1.0], 1);
    let built = lent::build_tree(asked, &mut [], &mut [], &mut [], &mut [], &mut [], &mut []);
    assert_eq!(built, Err(Refusal::new(Refusal::ROOM, 1)));
    for axes in AXES {
        let columns = Columns::new(axes, &[], &[], &[], &[]);
        judged(axes, lent::get_sourced_cells(columns, &mut []));
        let lists = lent::get_interaction_lists(columns, &mut [], &mut [], &mut [], &mut []);
        judged(axes, lists);
        let map = lent::get_points_to_leaves_map(columns, &[], &mut [], &mut []);
        judged(axes, map);
        assert!(lent::points_to_keys(&bounds, columns, &[], &mut []).is_err());
        assert!(lent::get_near_work(&bounds, columns, &[], &mut []).is_err());
    }
    let columns = Columns::new(1, &[0, 1, 32769], &[0; 3], &[0; 3], &[0; 3]);
    let cells = lent::get_sourced_cells(columns, &mut []);
    assert_eq!(cells, Ok(0));
    let lists = lent::get_interaction_lists(columns, &mut [], &mut [], &mut [], &mut []);
    assert_eq!(lists, Err(Refusal::new(Refusal::ROOM, 4)));
    let points = lent::points_to_keys(&bounds, columns, &[1.0], &mut []);
    assert_eq!(points, Err(Refusal::new(Refusal::ROOM, 8)));
    let work = lent::get_near_work(&bounds, columns, &[], &mut []);
    assert_eq!(work, Err(Refusal::new(Refusal::ROOM, 8)));
}

#[test]
fn more_points_than_are_taken() {
    let bounds = Bounds::new(&[4.0], 4.0);
    let many = vec![1.0; MOST_POINTS + 1];
    let count = Refusal::new(Refusal::COUNT, 0);
    assert_eq!(Tree::build(Asked::new(&bounds, &many, 1)), Err(count));
    let refined = Asked::new(&bounds, &[1.0], 1).refined(&many, 1);
    assert_eq!(Tree::build(refined), Err(count));
    let tree = Tree::build(Asked::new(&bounds, &many[1..], MOST_POINTS)).unwrap();
    assert_eq!(tree.leaf_sources(1).len(), MOST_POINTS);
    assert_eq!(tree.cell_sources(0).len(), MOST_POINTS);
    assert_eq!(tree.points_to_keys(&many), Err(count));
    assert_eq!(
        tree.points_to_keys(&many[1..]).unwrap().0.len(),
        MOST_POINTS
    );
    assert_eq!(tree.get_near_work(&many), Err(count));
    let most = MOST_POINTS as u64;
    assert_eq!(tree.get_near_work(&many[1..]), Ok(most * most));
    assert_eq!(tree.get_near_work(&[]), Ok(most * most));
    let leaves = vec![1; MOST_POINTS + 1];
    assert_eq!(tree.get_points_to_leaves_map(&leaves), Err(count));
    assert!(tree.get_points_to_leaves_map(&leaves[1..]).is_ok());
}
