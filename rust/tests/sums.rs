//! The sums of leaves, and lists that are not the tree's.

use lohandema::{Asked, Bounds, Lists, Refusal, Tree, lent};

/// A tree over `axes` axes, its lists, and a reading for each source.
fn survey(axes: usize, count: usize) -> (Tree, Lists, Vec<i64>) {
    let bounds = Bounds::new(&vec![4.0; axes], 4.0);
    let mut state = 88_172_645_463_325_252_u64;
    let mut next = || {
        state ^= state << 13;
        state ^= state >> 7;
        state ^= state << 17;
        state
    };
    let sources: Vec<f64> = (0..axes * count)
        .map(|_| (next() % 65_536) as f64 / 8_192.0)
        .collect();
    let readings = (0..count)
        .map(|_| (next() % (1 << 41)) as i64 - (1 << 40))
        .collect();
    let tree = Tree::build(Asked::new(&bounds, &sources, 2)).unwrap();
    let lists = tree.get_interaction_lists().unwrap();
    (tree, lists, readings)
}

#[test]
fn near_and_far_are_all_readings_for_every_leaf() {
    for axes in 1..=3 {
        let (tree, lists, readings) = survey(axes, 60);
        assert_eq!(tree.lists_right(&lists), Ok(true));
        assert!(lent::is_arrangement(&tree.order, 60));
        let all: i64 = readings.iter().sum();
        let mut additions = 0;
        for leaf in tree.leaves().unwrap() {
            let near: i64 = lists
                .u
                .row(leaf.node)
                .iter()
                .map(|k| tree.key.iter().position(|x| x == k).unwrap())
                .flat_map(|node| tree.cell_sources(node))
                .map(|&source| readings[source])
                .sum();
            let sums = tree.sum_check(&lists, &readings, leaf.node).unwrap();
            assert_eq!((sums.near, sums.near + sums.far), (near, all));
            additions += sums.additions;
        }
        let checked = tree.check_sums(&lists, &readings).unwrap();
        let leaves = tree.leaves().unwrap().count();
        assert_eq!((checked.leaves, checked.additions), (leaves, additions));
    }
}

#[test]
fn what_is_not_the_trees_is_refused() {
    let (tree, lists, readings) = survey(2, 60);
    let leaf = tree.leaves().unwrap().next().unwrap().node;
    let number = |lists: &Lists, readings: &[i64], node| {
        let refusal: Refusal = tree.sum_check(lists, readings, node).unwrap_err();
        (refusal.number, refusal.value)
    };
    assert_eq!(number(&lists, &readings[1..], leaf), (Refusal::SHAPE, 0));
    assert_eq!(number(&lists, &readings, 0), (Refusal::NOTLEAF, 0));
    assert_eq!(
        number(&lists, &readings, usize::MAX),
        (Refusal::NOTLEAF, usize::MAX)
    );
    let mut large = readings.clone();
    large[7] = i64::MIN;
    large[9] = (1 << 40) + 1;
    assert_eq!(number(&lists, &large, 0), (Refusal::READING, 7));
    for place in 0..lists.v.keys.len() {
        let mut other = lists.clone();
        other.v.keys[place] ^= 32_768;
        assert_eq!(tree.lists_right(&other), Ok(false));
        assert_eq!(number(&other, &readings, leaf), (Refusal::NOTBUILT, 0));
        let refusal = tree.check_sums(&other, &readings).unwrap_err();
        assert_eq!(refusal.number, Refusal::NOTBUILT);
    }
    for place in 0..lists.u.keys.len() {
        let mut other = lists.clone();
        other.u.keys.remove(place);
        assert_eq!(tree.lists_right(&other), Ok(false));
    }
    let mut turned = tree.clone();
    turned.order[0] = turned.order[1];
    let refusal = turned.sum_check(&lists, &readings, leaf).unwrap_err();
    assert_eq!(refusal.number, Refusal::NOTBUILT);
}

/// 3 and 14 have uses elsewhere; their sentences are true of readings and of a node to check too.
#[test]
fn the_sentences_speak_of_readings_and_of_the_node() {
    let (tree, lists, readings) = survey(2, 60);
    let short = tree.check_sums(&lists, &readings[1..]).unwrap_err();
    let cause = "or the readings are not as many as the tree has sources, or ";
    assert!(short.to_string().contains(cause), "{short}");
    assert!(short.to_string().contains("one reading for each source"));
    let node = tree.key.len() + 2;
    let other = tree.sum_check(&lists, &readings, node).unwrap_err();
    let cause = format!("or node {node} that is to be checked, is not a leaf's: ");
    assert!(other.to_string().contains(&cause), "{other}");
    assert!(other.to_string().contains("or the number of a leaf"));
}

#[test]
fn the_sums_want_one_place_more_than_there_are_sources() {
    let (tree, lists, readings) = survey(3, 60);
    let mut sums = vec![7; 60];
    let short = lent::check_sums(tree.columns(), &tree.order, &readings, &lists, &mut sums);
    let refusal = short.unwrap_err();
    assert_eq!((refusal.number, refusal.value), (Refusal::ROOM, 1));
    assert_eq!(sums, vec![0; 60]);
    sums = vec![7; 61];
    let enough = lent::check_sums(tree.columns(), &tree.order, &readings, &lists, &mut sums);
    assert!(enough.is_ok());
    assert_eq!(sums, vec![0; 61]);
}
