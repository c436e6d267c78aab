//! Salvage of columns: known damage, trees that come back, rows lost at random beside a plain reading of the rule, refusals.
use lohandema::{Asked, Bounds, Change, Refusal, Tree, keys, lent};
use std::collections::BTreeSet;

const NONE: [usize; 0] = [];

/// Whole numbers that look random.
struct Numbers(u64);

impl Numbers {
    fn next(&mut self) -> u64 {
        self.0 ^= self.0 << 13;
        self.0 ^= self.0 >> 7;
        self.0 ^= self.0 << 17;
        self.0
    }

    fn below(&mut self, end: usize) -> usize {
        (self.next() % end as u64) as usize
    }
}

fn line() -> Bounds {
    Bounds::new(&[4.0], 4.0)
}

fn told(changes: &[Change]) -> Vec<(u64, u64)> {
    changes.iter().map(|c| (c.code, c.key)).collect()
}

/// Every kind of damage at once, worked out by hand.
#[test]
fn known_damage() {
    let (key, own) = ([3, 17, 3, 98306, 65538, 2], [2, 1, 1, 2, 1, 1]);
    let begin = [0, 0, 0, 4, 4, 3];
    let (tree, changes) = Tree::salvage(line(), &key, &own, &begin, &[7, 9, 9, 0, 4]).unwrap();
    let right = Tree::from_columns(
        line(),
        vec![0, 1, 2, 3, 32769, 65538, 98306],
        vec![0, 0, 0, 2, 0, 1, 0],
        vec![0, 0, 0, 0, 2, 2, 3],
        vec![3, 2, 2, 2, 1, 1, 0],
        vec![7, 9, 4],
    );
    assert_eq!(tree, right);
    let said = [
        (1, 17),
        (2, 3),
        (3, 0),
        (3, 1),
        (3, 32769),
        (4, 98306),
        (4, 2),
        (5, 98306),
        (5, 65538),
        (5, 2),
    ];
    assert_eq!(told(&changes), said);
    assert!(tree.is_well_formed());
    let same = Tree::salvage(line(), &tree.key, &tree.own, &tree.begin, &tree.order);
    assert_eq!(same, Ok((right, vec![])));
}

/// The traps: nothing at all, added cells by key, a run to the very end, begins at the end of all numbers, a count of 0.
#[test]
fn known_traps() {
    let most = usize::MAX;
    let salvaged = |key: &[u64], own: &[usize], begin: &[usize], order: &[usize]| {
        let (tree, changes) = Tree::salvage(line(), key, own, begin, order).unwrap();
        assert!(tree.is_well_formed());
        (told(&changes), tree.order)
    };
    assert_eq!(salvaged(&[], &[], &[], &[]), (vec![(3, 0)], vec![]));
    let added = vec![(3, 0), (3, 1), (3, 32769), (3, 32770), (3, 65538)];
    assert_eq!(salvaged(&[65539, 131075], &[0; 2], &[0; 2], &[]).0, added);
    let both = vec![(3, 0), (4, 1), (5, 1)];
    assert_eq!(salvaged(&[1], &[1], &[most], &[7]), (both, vec![]));
    let end = salvaged(&[0, 1], &[0, 2], &[0, 1], &[5, 6, 7]);
    assert_eq!(end, (vec![(5, 1)], vec![6, 7]));
    assert_eq!(salvaged(&[0, 1], &[0; 2], &[0, 9], &[]).0, [(5, 1)]);
    let all = salvaged(&[0, 1, 32769], &[0, most, 1], &[0, 1, most], &[5; 9]).0;
    assert_eq!(all, [(4, 1), (4, 32769), (5, 1), (5, 32769)]);
    // two leaves over one run have a copy each
    let twice = salvaged(&[0, 1, 32769], &[0, 2, 2], &[0, 0, 0], &[5, 6]);
    assert_eq!(twice, (vec![(5, 32769)], vec![5, 6, 5, 6]));
}

fn built(random: &mut Numbers, axes: usize) -> Tree {
    let bounds = Bounds::new(&[4.0; 3][..axes], 4.0);
    let points = random.below(80);
    let coordinate = |random: &mut Numbers| random.below(65_536) as f64 / 8192.0;
    let sources: Vec<f64> = (0..axes * points).map(|_| coordinate(random)).collect();
    let mut asked = Asked::new(&bounds, &sources, 1 + random.below(4));
    asked.keep_empty = random.below(2) == 0;
    Tree::build(asked).unwrap()
}

/// Rows are lost: what is had is the cells around what is left, and each leaf that is left has its sources.
#[test]
fn what_is_left_is_had() {
    let mut random = Numbers(88_172_645_463_325_252);
    for case in 0..90 {
        let tree = built(&mut random, 1 + case % 3);
        let whole = Tree::salvage(tree.bounds, &tree.key, &tree.own, &tree.begin, &tree.order);
        assert_eq!(whole, Ok((tree.clone(), vec![])));
        let kept: Vec<usize> = (0..tree.key.len())
            .filter(|_| random.below(3) > 0)
            .collect();
        let key: Vec<u64> = kept.iter().map(|row| tree.key[*row]).collect();
        let own: Vec<usize> = kept.iter().map(|row| tree.own[*row]).collect();
        let begin: Vec<usize> = kept.iter().map(|row| tree.begin[*row]).collect();
        let order = &tree.order[..tree.order.len() - random.below(tree.order.len() + 1)];
        let (found, changes) = Tree::salvage(tree.bounds, &key, &own, &begin, order).unwrap();
        let mut cells = BTreeSet::from([0]);
        for key in &key {
            cells.extend(keys::get_ancestors(tree.axes(), *key).unwrap().iter());
        }
        assert_eq!(BTreeSet::from_iter(found.key.clone()), cells);
        assert!(found.is_well_formed());
        for leaf in found.leaves().unwrap() {
            let row = tree.node_of(leaf.key).unwrap();
            let end = tree.begin[row] + tree.own[row];
            let there = key.contains(&leaf.key) && end <= order.len();
            let right = if there { tree.leaf_sources(row) } else { &NONE };
            assert_eq!(leaf.sources, right);
        }
        let added = changes.iter().filter(|c| c.code == Change::ADDED).count();
        assert_eq!(added, cells.len() - key.len());
    }
}

#[test]
fn refusals_come_in_their_order() {
    let refused = |axes: usize, own: usize, begin: usize, rooms: [usize; 3]| {
        let bounds = Bounds::new(&[0.0; 4][..axes], 1.0);
        let (own, begin) = (vec![1; own], vec![0; begin]);
        let (mut order, mut new_key) = (vec![7; rooms[0]], vec![7; rooms[1]]);
        let [mut a, mut b, mut c] = [0; 3].map(|_| vec![7; rooms[1]]);
        let (mut codes, mut changed) = (vec![7; rooms[2]], vec![7; rooms[2]]);
        let ended = lent::salvage(
            bounds.axes,
            &[1, 32769],
            &own,
            &begin,
            &[5],
            &mut order,
            &mut new_key,
            &mut a,
            &mut b,
            &mut c,
            &mut codes,
            &mut changed,
        );
        let numbers = [order, a, b, c].concat();
        let words = [new_key, codes, changed].concat();
        if ended.is_err() {
            assert!(numbers.iter().all(|n| *n == 0) && words.iter().all(|n| *n == 0));
        }
        ended
    };
    let short = |value| Err(Refusal::new(Refusal::ROOM, value));
    assert_eq!(refused(0, 1, 2, [0; 3]).unwrap_err().number, Refusal::DIMS);
    assert_eq!(refused(4, 2, 1, [0; 3]).unwrap_err().number, Refusal::DIMS);
    assert_eq!(refused(1, 1, 2, [0; 3]).unwrap_err().number, Refusal::SHAPE);
    assert_eq!(refused(1, 2, 3, [9; 3]).unwrap_err().number, Refusal::SHAPE);
    assert_eq!(refused(1, 2, 2, [1, 2, 1]), short(2));
    assert_eq!(refused(1, 2, 2, [2, 2, 1]), short(3));
    assert_eq!(refused(1, 2, 2, [2, 3, 1]), short(10));
    assert_eq!(refused(1, 2, 2, [2, 3, 2]), Ok((3, 2, 2)));
}

/// More sources than a tree may have, of two runs that overlap; and one entry less.
#[test]
fn overlapping_runs() {
    let order: Vec<usize> = (0..600_000).collect();
    let rows = |second| Tree::salvage(line(), &[1, 32769], &[600_000, second], &[0, 0], &order);
    let (tree, _) = rows(448_576).unwrap();
    assert_eq!((tree.order.len(), tree.total[0]), (1_048_576, 1_048_576));
    assert_eq!(rows(448_577), Err(Refusal::new(Refusal::TREE, 0)));
}

/// A chain down to level 16 for each row, which is the most room there can be need of; and many rows of one key.
#[test]
fn room_is_enough() {
    let deep: Vec<u64> = (0..8).map(|i| (i << 45) * 32768 + 16).collect();
    let cube = Bounds::new(&[4.0; 3], 4.0);
    let (tree, changes) = Tree::salvage(cube, &deep, &[1; 8], &[0; 8], &[3]).unwrap();
    assert_eq!(
        (tree.key.len(), changes.len(), tree.order.len()),
        (129, 121 + 7, 8)
    );
    let many = vec![32769; 100_000];
    let (tree, changes) = Tree::salvage(line(), &many, &[9; 100_000], &[9; 100_000], &[]).unwrap();
    assert_eq!((tree.key.len(), changes.len()), (2, 99_999 + 3));
}

#[test]
fn changes_are_told_in_sentences() {
    let mut all = vec![];
    for code in 1..=6 {
        let text = Change::new(code, 98306).to_string();
        assert!(text.starts_with("key 98306: "), "{text}");
        assert!(text.ends_with(&format!(" (change {code})")), "{text}");
        all.push(text);
    }
    all.dedup();
    assert_eq!(all.len(), 6);
    assert!(all[3].contains("its run passes the order column's end"));
}
