//! One source more: a known tree, random ones beside a build of the longer list, which rows keep their keys, and refusals.
use lohandema::keys::decode_key;
use lohandema::{Asked, Bounds, Lists, Reason, Refusal, Tree, lent};

/// The tree of these points in a box, with empty cells or without.
fn built(bounds: &Bounds, points: &[f64], limit: usize, keep_empty: bool) -> Tree {
    let mut asked = Asked::new(bounds, points, limit);
    asked.keep_empty = keep_empty;
    Tree::build(asked).unwrap()
}

#[test]
fn a_known_tree() {
    let (bounds, points) = (Bounds::new(&[4.0], 4.0), [0.5, 1.5, 6.5, 7.5]);
    let tree = built(&bounds, &points, 1, false);
    let right = Tree::from_columns(
        bounds,
        vec![0, 1, 2, 3, 32771, 32770, 32769, 98306, 196611, 229379],
        vec![0, 0, 0, 1, 1, 1, 0, 0, 1, 1],
        vec![0, 0, 0, 0, 1, 2, 3, 3, 3, 4],
        vec![5, 3, 2, 1, 1, 1, 2, 2, 1, 1],
        vec![0, 1, 4, 2, 3],
    );
    assert_eq!(tree.with_source(&points, &[3.0], 1, false), Ok(right));
    // the tree that was built is as it was
    assert_eq!(tree, built(&bounds, &points, 1, false));
    // the first source of all
    let none = built(&bounds, &[], 1, false);
    let one = none.with_source(&[], &[0.5], 1, false).unwrap();
    assert_eq!((one.key, one.order), (vec![0, 1], vec![0]));
    assert_eq!(
        none.with_source(&[], &[0.5], 0, false).unwrap().key.len(),
        17
    );
}

/// A cell's level and its anchors at a level that is no deeper.
fn at_level(axes: usize, key: u64, level: u64) -> [u64; 3] {
    let (anchor, own) = decode_key(axes, key).unwrap();
    anchor.map(|a| a >> (own - level))
}

/// Whether two cells are one or touch at the coarser one's level.
fn close(axes: usize, a: u64, b: u64) -> bool {
    let level = (a % 32768).min(b % 32768);
    let (a, b) = (at_level(axes, a, level), at_level(axes, b, level));
    a.iter().zip(b).all(|(x, y)| x.abs_diff(y) <= 1)
}

/// How many rows have to keep their keys, by order 7's two rules, each of which does.
fn rows_kept(old: (&Tree, &Lists), new: (&Tree, &Lists), point: &[f64]) -> usize {
    let (axes, bounds) = (old.0.axes(), old.0.bounds);
    let cell = |level| bounds.point_to_key(point, level).unwrap();
    let stored = |level: &u64| old.0.key.contains(&cell(*level));
    let holder = cell((0..=16).rev().find(stored).unwrap());
    let mut kept = 0;
    for (node, key) in old.0.key.iter().copied().enumerate() {
        // no cell is lost
        let now = new.0.key.iter().position(|k| *k == key).unwrap();
        let level = key % 32768;
        if level > 0 {
            let parent = ((key / 32768) >> axes) * 32768 + level - 1;
            if !close(axes, parent, cell(level - 1)) {
                assert_eq!(old.1.v.row(node), new.1.v.row(now));
                kept += 1;
            }
        }
        if old.0.is_leaf(node) && !close(axes, key, holder) {
            assert!(new.0.is_leaf(now));
            assert_eq!(old.1.u.row(node), new.1.u.row(now));
            kept += 1;
        }
    }
    kept
}

#[test]
fn as_a_build_of_the_longer_list() {
    let mut state = 88_172_645_463_325_252_u64;
    let mut next = || {
        state ^= state << 13;
        state ^= state >> 7;
        state ^= state << 17;
        (state % 65_536) as f64 / 8_192.0
    };
    let mut kept = 0;
    for case in 0..120 {
        let (axes, keep_empty) = (1 + case % 3, case % 2 == 0);
        let bounds = Bounds::new(&[4.0; 3][..axes], 4.0);
        let limit = case % 5;
        let rows = if limit == 0 { 3 } else { case % 60 };
        let mut points: Vec<f64> = (0..axes * rows).map(|_| next()).collect();
        if case % 4 == 0 {
            // a tight cluster, so that a leaf splits through several levels
            points.extend((0..axes * limit).map(|_| 3.99 + next() / 1_000.0));
        }
        let again = points.len() >= axes && case % 7 == 0;
        let point: Vec<f64> = match case % 4 {
            _ if again => points[..axes].to_vec(),
            0 => (0..axes).map(|_| 3.99 + next() / 1_000.0).collect(),
            _ => (0..axes).map(|_| next()).collect(),
        };
        let tree = built(&bounds, &points, limit, keep_empty);
        let found = tree.with_source(&points, &point, limit, keep_empty);
        let found = found.unwrap();
        let longer = [points.as_slice(), &point].concat();
        assert_eq!(found, built(&bounds, &longer, limit, keep_empty));
        let (before, after) = (tree.get_interaction_lists(), found.get_interaction_lists());
        kept += rows_kept((&tree, &before.unwrap()), (&found, &after.unwrap()), &point);
    }
    assert!(kept > 1_000, "{kept} rows are few");
}

/// Each source of a list by itself, from none on: the tree is that of one build.
#[test]
fn one_after_the_other() {
    let bounds = Bounds::new(&[4.0, 4.0], 4.0);
    let points: Vec<f64> = (0..60_u32)
        .map(|i| f64::from(i * i * 7 % 64) / 8.0)
        .collect();
    for keep_empty in [false, true] {
        let mut tree = built(&bounds, &[], 2, keep_empty);
        for end in (2..=points.len()).step_by(2) {
            let (former, point) = points[..end].split_at(end - 2);
            tree = tree.with_source(former, point, 2, keep_empty).unwrap();
        }
        assert_eq!(tree, built(&bounds, &points, 2, keep_empty));
    }
}

/// A tree that is the build with two limits is taken with either, and each gives its own longer build.
#[test]
fn a_tree_of_two_limits_is_taken_with_either() {
    let (bounds, points) = (Bounds::new(&[4.0], 4.0), [0.5, 7.5]);
    let tree = built(&bounds, &points, 1, false);
    for limit in [1, 64] {
        let found = tree.with_source(&points, &[7.0], limit, false);
        assert_eq!(found, Ok(built(&bounds, &[0.5, 7.5, 7.0], limit, false)));
    }
}

/// The sentences by number fit this call too: what was added counts, and another box or limit is for a build.
#[test]
fn the_sentences_fit_a_source_that_is_added() {
    for (number, value, said) in [
        (Refusal::COUNT, 0, "(a source that is added counts)"),
        (Refusal::SOURCE, 4, "enlarge the box and build anew"),
        (Refusal::ROOM, 1, "for each source (the added one too)"),
        (Refusal::ROOM, 2, "where one is added for that too"),
        (Refusal::ROOM, 3, "raise the limit of a cell and build anew"),
        (Refusal::NOTBUILT, 0, "each source that was added since"),
        (
            Refusal::NOTBUILT,
            0,
            "targets or a grid refined, or that was balanced",
        ),
    ] {
        let text = Refusal::new(number, value).to_string();
        assert!(text.contains(said), "{text}");
    }
}

#[test]
fn what_is_not_their_build_is_refused() {
    let (bounds, points) = (Bounds::new(&[4.0], 4.0), [0.5, 1.5, 6.5, 7.5]);
    let tree = built(&bounds, &points, 1, false);
    let number = |tree: &Tree, points: &[f64], point: &[f64], limit, keep_empty| {
        let refusal = tree.with_source(points, point, limit, keep_empty);
        refusal.unwrap_err().number
    };
    let other = [0.5, 1.5, 6.5, 5.5];
    assert_eq!(number(&tree, &points, &[3.0], 2, false), Refusal::NOTBUILT);
    assert_eq!(number(&tree, &points, &[3.0], 1, true), Refusal::NOTBUILT);
    assert_eq!(number(&tree, &other, &[3.0], 1, false), Refusal::NOTBUILT);
    assert_eq!(
        number(&tree, &points[..3], &[3.0], 1, false),
        Refusal::NOTBUILT
    );
    let nan = [0.5, f64::NAN, 6.5, 7.5];
    assert_eq!(
        number(&tree, &nan, &[f64::NAN], 1, false),
        Refusal::NOTBUILT
    );
    let above = Refusal::new(Refusal::SOURCE, 4).behind(0, Reason::Above);
    assert_eq!(tree.with_source(&points, &[8.0], 1, false), Err(above));
    let mut broken = tree.clone();
    broken.total[0] = 5;
    assert_eq!(number(&broken, &points, &[8.0], 1, false), Refusal::TREE);
    // a point of other axes than the box is 3, after the box
    assert_eq!(
        number(&broken, &points, &[3.0, 3.0], 1, false),
        Refusal::SHAPE
    );
    assert_eq!(number(&broken, &points, &[], 1, false), Refusal::SHAPE);
    broken.bounds.radius = 0.0;
    assert_eq!(number(&broken, &points, &[], 1, false), Refusal::BOX);
    broken.bounds.axes = 0;
    assert_eq!(number(&broken, &points, &[], 1, false), Refusal::DIMS);
    broken.bounds.axes = 4;
    assert_eq!(number(&broken, &points, &[0.5; 4], 1, false), Refusal::DIMS);
}

/// What is lent holds the tree and then zeros; after any refusal, also of this crate's own, zeros.
#[test]
fn in_slices_that_are_lent() {
    let (bounds, points) = (Bounds::new(&[4.0], 4.0), [0.5, 7.5]);
    let tree = built(&bounds, &points, 1, false);
    let plane = Bounds::new(&[4.0, 4.0], 4.0);
    let asked = Asked::new(&bounds, &points, 1);
    let other = Asked::new(&plane, &points, 1);
    let room = |work, order, nodes| (vec![7_u64; work], vec![7_usize; order], vec![7_u64; nodes]);
    let three = |nodes| [0; 3].map(|_| vec![7_usize; nodes]);
    let told = |number, value| Err(Refusal::new(number, value));
    let tried = [
        (asked, &[3.0][..], 7, 4, 6, Ok((5, 2))),
        (asked, &[3.0], 5, 2, 3, told(Refusal::ROOM, 1)),
        (asked, &[3.0], 6, 2, 3, told(Refusal::ROOM, 2)),
        (asked, &[3.0], 6, 3, 3, told(Refusal::ROOM, 3)),
        (asked, &[3.0; 2], 6, 3, 5, told(Refusal::SHAPE, 0)),
        (other, &[3.0; 2], 6, 3, 5, told(Refusal::DIMS, 0)),
    ];
    for (asked, point, entries, rows, nodes, right) in tried {
        let (mut work, mut order, mut key) = room(entries, rows, nodes);
        let [mut own, mut begin, mut total] = three(nodes);
        let ended = lent::add_source(
            asked,
            point,
            tree.columns(),
            &tree.order,
            &mut work,
            &mut order,
            &mut key,
            &mut own,
            &mut begin,
            &mut total,
        );
        assert_eq!(ended, right);
        assert!(work.iter().all(|x| *x == 0));
        if right.is_ok() {
            assert_eq!(order, [0, 2, 1, 0]);
            assert_eq!(key, [0, 1, 2, 32770, 32769, 0]);
        } else {
            assert!(key.iter().all(|x| *x == 0));
            let columns = [order, own, begin, total].concat();
            assert!(columns.iter().all(|x| *x == 0));
        }
    }
}
