//! Calls keep no state: threads share a tree, and a quarter of a MiB of stack is enough for each.

use lohandema::{Asked, Bounds, Groups, Lists, Tree};
use std::thread;

/// Every call that needs more than a little stack.
fn calls(sources: &[f64], axes: usize) -> (Tree, Lists, Groups, u64) {
    let bounds = Bounds::new(&[4.0; 3][..axes], 4.0);
    let asked = Asked::new(&bounds, sources, 2).refined(sources, 2);
    let tree = Tree::build(asked).unwrap();
    let lists = tree.get_interaction_lists().unwrap();
    let (leaves, _) = tree.points_to_keys(sources).unwrap();
    tree.point_to_leaf(&sources[..axes]).unwrap();
    let groups = tree.get_points_to_leaves_map(&leaves).unwrap();
    tree.get_sourced_cells().unwrap();
    let work = tree.get_near_work(sources).unwrap();
    assert_eq!(tree.get_near_work(&[]), Ok(work));
    (tree, lists, groups, work)
}

#[test]
fn threads_of_a_quarter_mebibyte_agree() {
    let sources: Vec<f64> = (0..600).map(|i| f64::from(i * i % 601) / 80.0).collect();
    for axes in 1..=3 {
        let here = calls(&sources, axes);
        thread::scope(|scope| {
            for _ in 0..4 {
                let small = thread::Builder::new().stack_size(256 * 1024);
                let there = small.spawn_scoped(scope, || calls(&sources, axes)).unwrap();
                assert!(there.join().unwrap() == here);
            }
        });
    }
}
