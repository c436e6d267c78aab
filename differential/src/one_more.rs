//! One source more in a tree built without targets (request 7): beside the Rust's build of the longer list, its columns, order
//! and lists; which rows keep their keys; and trees that are not the build of the former sources.
use crate::balance::{children, settled, without_leaves};
use crate::builds::all_inside;
use crate::inputs;
use crate::keys::refused;
use crate::oracle::{self, Survey, code, level};
use crate::points::in_domain;
use crate::random::Random;
use crate::refusals::{asked, well_formed};
use crate::room::Room;
use crate::tally::Tally;
use crate::trees::{compare_lists, show};
use ferreus_bbfmm::bbfmm::TreeLists;
use ferreus_bbfmm::morton;
use lohandema::Refusal;
use lohandema::lent::{self, Asked};
use lohandema::points::Bounds;
use lohandema::trees::Tree;
use std::collections::HashSet;

const MOST: usize = 1_048_576;
/// Trees of more nodes are not compared: whether a tree is well formed is judged by a search for each node.
const MOST_COMPARED: usize = 4_000;

/// What the call is asked: the former sources with box, limit and flag, the tree that is said to be theirs, and the new source.
#[derive(Clone)]
struct More {
    s: Survey,
    tree: Tree,
    point: Vec<f64>,
}

impl More {
    fn rows(&self) -> usize {
        self.s.sources.len() / self.s.bounds.axes.max(1)
    }

    /// The survey with the new source behind the former ones.
    fn longer(&self) -> Survey {
        let mut longer = self.s.clone();
        longer.sources.extend_from_slice(&self.point);
        longer
    }

    fn show(&self) -> String {
        format!(
            "{} point {:?} tree {:?}",
            show(&self.s),
            self.point,
            self.tree
        )
    }

    fn asked(&self) -> Asked<'_> {
        let mut asked = Asked::new(&self.s.bounds, &self.s.sources, self.s.limit);
        asked.keep_empty = self.s.keep_empty;
        asked
    }

    /// The call with these slices.
    fn call(&self, room: &mut Room) -> Result<(usize, u64), Refusal> {
        let [own, begin, total] = &mut room.columns;
        lent::add_source(
            self.asked(),
            &self.point,
            self.tree.columns(),
            &self.tree.order,
            &mut room.work,
            &mut room.order,
            &mut room.key,
            own,
            begin,
            total,
        )
    }

    /// Whether the former sources are rows of a box of the domain, all inside.
    fn is_whole(&self) -> bool {
        let (b, numbers) = (&self.s.bounds, self.s.sources.len());
        let known = (1..=3).contains(&b.axes) && in_domain(b);
        known && numbers % b.axes == 0 && all_inside(6, b, &self.s.sources).is_ok()
    }

    /// Whether the tree is the Rust's build of the former sources.
    fn is_build(&self) -> bool {
        self.is_whole() && oracle::columns(&self.s.bounds, &oracle::build(&self.s).0) == self.tree
    }

    /// The refusals before the room is looked at, in the order of request 7.
    fn judged(&self) -> Result<(), Refusal> {
        let b = &self.s.bounds;
        asked((1..=3).contains(&b.axes), (1, 0))?;
        asked(in_domain(b), (2, 0))?;
        asked(self.s.sources.len() % b.axes == 0, (3, 0))?;
        asked(self.rows() < MOST, (4, 0))?;
        asked(well_formed(&self.tree), (13, 0))?;
        asked(self.is_build(), (18, 0))?;
        if !oracle::inside(b, &self.point) {
            return oracle::refused_at(6, self.rows(), b, &self.point);
        }
        Ok(())
    }

    /// The Rust's tree of the longer list, or the refusal.
    fn right(&self) -> Result<Tree, Refusal> {
        self.judged()?;
        let built = oracle::build(&self.longer()).0;
        Ok(oracle::columns(&self.s.bounds, &built))
    }
}

/// The call with so much room: what it answers, and what it leaves in the slices.
fn compare(t: &mut Tally, m: &More, right: &Result<Tree, Refusal>, room: Room) {
    let mut room = room;
    let wanted = right.clone().and_then(|tree| room.for_tree(tree));
    if wanted.is_err() {
        t.refusal();
    }
    let ours = m.call(&mut room);
    let told = wanted.as_ref().map(|tree| (tree.key.len(), tree.depth()));
    let input = || m.show();
    t.same("one more", ours, told.map_err(|refusal| *refusal), input);
    let held = room.holds(wanted.as_ref().ok());
    t.same("one more's slices", held, true, input);
}

/// A cell's ancestor at a level.
fn up(axes: usize, key: u64, to: u64) -> u64 {
    let above = code(key) >> (axes as u64 * (level(key) - to));
    above * 32768 + to
}

/// Whether two cells of one level are one or touch.
fn touch(axes: usize, a: u64, b: u64) -> bool {
    let d = oracle::dimensions(axes);
    let (a, b) = (morton::decode_key(a, &d), morton::decode_key(b, &d));
    (0..axes).all(|axis| a[axis].abs_diff(b[axis]) <= 1)
}

/// Whether two cells are one or touch at the coarser one's level.
fn close(axes: usize, a: u64, b: u64) -> bool {
    let coarser = level(a).min(level(b));
    touch(axes, up(axes, a, coarser), up(axes, b, coarser))
}

/// The key of the level-16 cell of a point.
fn deepest_cell(b: &Bounds, point: &[f64]) -> u64 {
    let mut anchor = oracle::anchors(b, point, 16);
    anchor.push(16);
    morton::encode_morton_point(anchor, &oracle::dimensions(b.axes))
}

/// Request 7's two rules, of the Rust's lists before and after: the cells whose V row has to keep its keys, and the leaves whose
/// U row has to.
fn kept(m: &More, old: &TreeLists) -> (Vec<u64>, Vec<u64>) {
    let axes = m.s.bounds.axes;
    let place = deepest_cell(&m.s.bounds, &m.point);
    let holder = oracle::upwards(axes, place).find(|cell| old.tree.contains(cell));
    let holder = holder.expect("the root is stored");
    let v = old.tree.iter().copied().filter(|b| {
        let above = level(*b).saturating_sub(1);
        *b != 0 && !touch(axes, up(axes, *b, above), up(axes, place, above))
    });
    let u = old.leaves.iter().copied();
    (
        v.collect(),
        u.filter(|b| !close(axes, *b, holder)).collect(),
    )
}

/// What a row of the Rust's lists holds; none is an empty one.
fn row(rows: &std::collections::HashMap<u64, Vec<u64>>, key: u64) -> &[u64] {
    rows.get(&key).map_or(&[], |row| row)
}

/// Of an answer: the lists are the Rust's of the longer list, no cell is lost, and the rows keep their keys that have to. How
/// many rows these were.
fn lists(t: &mut Tally, m: &More) -> usize {
    let (old, new) = (oracle::build(&m.s).0, oracle::build(&m.longer()).0);
    let input = || m.show();
    let s = &m.s;
    let ours = m
        .tree
        .with_source(&s.sources, &m.point, s.limit, s.keep_empty);
    let right = oracle::columns(&m.s.bounds, &new);
    if let Ok(tree) = &ours {
        compare_lists(t, tree, &new.u_lists, &new.v_lists, input);
    }
    t.same("with_source", ours, Ok(right), input);
    let lost = old.tree.iter().filter(|key| !new.tree.contains(key));
    t.same("cells lost", lost.count(), 0, input);
    let (v, u) = kept(m, &old);
    let other = |key: &&u64| row(&old.v_lists, **key) != row(&new.v_lists, **key);
    t.same("V rows changed", v.iter().filter(other).count(), 0, input);
    let other = |key: &&u64| {
        !new.leaves.contains(key) || row(&old.u_lists, **key) != row(&new.u_lists, **key)
    };
    t.same("U rows changed", u.iter().filter(other).count(), 0, input);
    v.len() + u.len()
}

/// A survey without targets, of few points, often with a limit that some leaf has.
fn some_survey(r: &mut Random, case: u64) -> Survey {
    let mut s = inputs::survey(r, 250);
    s.targets.clear();
    s.order = 1;
    if case % 3 == 0 {
        s.limit = 1 + r.index(4);
    }
    s
}

/// As many points as the limit, or one or two of them fewer, so close that only cells of the last levels part them, and some
/// far away: with one more there, a leaf of a low level splits through many levels at once.
fn close_survey(r: &mut Random) -> (Survey, Vec<f64>) {
    let axes = 1 + r.index(3);
    let bounds = inputs::bounds(r, axes);
    let limit = r.index(4);
    let at: Vec<f64> = (0..axes).map(|_| 0.1 + 0.8 * r.unit()).collect();
    let tiny = 0.5_f64.powi(10 + r.index(8) as i32);
    let near = |r: &mut Random| -> Vec<f64> {
        let place = |a: usize, r: &mut Random| (at[a] + tiny * r.unit()) * 2.0 - 1.0;
        let coordinate = |a| bounds.centre[a] + bounds.radius * place(a, r);
        (0..axes).map(coordinate).collect()
    };
    let many = (limit + 1).saturating_sub(r.pick(&[1, 1, 1, 2]));
    let mut sources: Vec<f64> = (0..many).flat_map(|_| near(r)).collect();
    let others = r.index(6);
    sources.extend(inputs::points(r, &bounds, others));
    let keep_empty = r.once_in(2);
    let s = Survey {
        bounds,
        sources,
        targets: vec![],
        limit,
        order: 1,
        keep_empty,
    };
    let point = near(r);
    (s, point)
}

/// The middle of a level-16 cell.
fn middle(b: &Bounds, anchor: &[u64]) -> Vec<f64> {
    let side = 2.0 * b.radius / 65536.0;
    let place = |a: usize| b.centre[a] - b.radius + (anchor[a] as f64 + 0.5) * side;
    (0..b.axes).map(place).collect()
}

/// A place beside a former source: in its cell of one level, and not in that of the next. Where that level's cells are leaves no
/// more, or hold no sources, the cell of the place is not stored.
fn parted_at(r: &mut Random, s: &Survey, to: u64) -> Vec<f64> {
    let axes = s.bounds.axes;
    let row = r.index(s.sources.len() / axes);
    let mut anchor = oracle::anchors(&s.bounds, &s.sources[row * axes..][..axes], 16);
    let flipped = 1 + r.index((1 << axes) - 1);
    for (a, x) in anchor.iter_mut().enumerate() {
        if flipped >> a & 1 == 1 {
            *x ^= 1 << (16 - to);
        }
    }
    middle(&s.bounds, &anchor)
}

/// A place in a leaf that has as many sources as it may, if there is one.
fn in_full_leaf(r: &mut Random, s: &Survey, tree: &Tree) -> Option<Vec<f64>> {
    let full: Vec<usize> = (1..tree.key.len())
        .filter(|n| tree.own[*n] == s.limit && tree.own[*n] > 0)
        .collect();
    if full.is_empty() {
        return None;
    }
    let leaf = r.pick(&full);
    let axes = s.bounds.axes;
    if r.once_in(2) {
        let index = r.pick(tree.leaf_sources(leaf));
        return Some(s.sources[index * axes..][..axes].to_vec());
    }
    let deep = 16 - level(tree.key[leaf]);
    let anchor = morton::decode_key(tree.key[leaf], &oracle::dimensions(axes));
    let inside: Vec<u64> = (0..axes)
        .map(|a| (anchor[a] << deep) + r.below(1 << deep))
        .collect();
    Some(middle(&s.bounds, &inside))
}

/// A further source: a former one again, beside one at each level, in a leaf that is full, on walls and a float beside them,
/// outside, or anywhere.
fn further(r: &mut Random, s: &Survey, tree: &Tree) -> Vec<f64> {
    let axes = s.bounds.axes;
    let rows = s.sources.len() / axes;
    let any = inputs::point(r, &s.bounds)[..axes].to_vec();
    match r.below(6) {
        0 if rows > 0 => s.sources[r.index(rows) * axes..][..axes].to_vec(),
        1 | 2 if rows > 0 => {
            let to = 1 + r.below(16);
            parted_at(r, s, to)
        }
        3 => in_full_leaf(r, s, tree).unwrap_or(any),
        4 => {
            let inside = inputs::points(r, &s.bounds, 1);
            if inside.len() >= axes {
                inside[..axes].to_vec()
            } else {
                any
            }
        }
        _ => any,
    }
}

/// The tree of other cells with the same sources, put into their leaves.
fn with_cells(m: &mut More, keys: HashSet<u64>) {
    m.tree = settled(&m.s.bounds, &keys, &m.s.sources).0;
}

/// The cells with all children or one of them put under a cell, with all under a cell dropped, with the cell itself too, or with
/// one leaf dropped or as many as a cell has children.
fn other_cells(r: &mut Random, m: &mut More) {
    let axes = m.s.bounds.axes;
    let mut keys: HashSet<u64> = m.tree.key.iter().copied().collect();
    let key = r.pick(&m.tree.key);
    match r.below(6) {
        0 if level(key) < 16 => keys.extend(children(axes, key)),
        1 if level(key) < 16 => {
            keys.insert(r.pick(&children(axes, key)));
        }
        2 => keys.retain(|k| level(*k) <= level(key) || up(axes, *k, level(key)) != key),
        3 if key != 0 => keys.retain(|k| level(*k) < level(key) || up(axes, *k, level(key)) != key),
        _ => keys = without_leaves(r, axes, &m.tree.key).into_iter().collect(),
    }
    with_cells(m, keys);
}

/// One source counted for another leaf: the columns are those of a tree, and the order column is as it was.
fn counted_elsewhere(r: &mut Random, tree: &mut Tree) {
    let leaves: Vec<usize> = (1..tree.key.len()).filter(|n| tree.own[*n] > 0).collect();
    if leaves.is_empty() {
        return;
    }
    let (from, to) = (r.pick(&leaves), r.pick(&leaves));
    tree.own[from] -= 1;
    tree.own[to] += 1;
    let nodes: Vec<(u64, usize)> = tree.key.iter().copied().zip(tree.own.clone()).collect();
    let order = std::mem::take(&mut tree.order);
    *tree = oracle::tree_in_order(tree.bounds, &nodes);
    tree.order = order;
}

/// One thing changed, which may leave all as it has to be.
fn damage(r: &mut Random, m: &mut More) {
    let (axes, n, rows) = (m.s.bounds.axes, m.tree.key.len(), m.tree.order.len());
    let numbers = m.s.sources.len();
    match r.below(19) {
        18 => m.s.bounds.axes = r.pick(&[0, 4, usize::MAX]),
        0 => m.s.bounds.radius = r.pick(&[0.0, -1.0, f64::NAN, 0.2, 2e6]),
        1 => m.s.sources.push(m.s.bounds.centre[0]),
        2 => m.tree.total[r.index(n)] ^= 1,
        3 if numbers > 0 => {
            m.s.sources[r.index(numbers)] = r.pick(&[f64::NAN, f64::INFINITY, -1e300])
        }
        4 if numbers > 0 => {
            let at = r.index(numbers);
            m.s.sources[at] = inputs::coordinate(r, &m.s.bounds, at % axes);
        }
        5 if rows > 1 => m.tree.order.swap(r.index(rows), rows - 1),
        6 if rows > 1 => {
            let at = r.index(rows - 1);
            m.tree.order.swap(at, at + 1);
        }
        7 if rows > 0 => m.tree.order[r.index(rows)] = r.index(rows + 1),
        8 => m.tree.order.push(rows),
        9 if numbers > 0 => m.s.sources.truncate(numbers - axes),
        // a limit of 0 splits to level 16, so not where there are many sources
        10 if m.s.limit > 1 || rows <= 12 => {
            m.s.limit = m.s.limit.wrapping_add(r.pick(&[1, usize::MAX, 64]))
        }
        11 => m.s.keep_empty = !m.s.keep_empty,
        12 => counted_elsewhere(r, &mut m.tree),
        13 | 14 => other_cells(r, m),
        15 => {
            let mut refined = m.s.clone();
            refined.targets = inputs::points(r, &m.s.bounds, 60);
            m.tree = oracle::columns(&m.s.bounds, &oracle::build(&refined).0);
        }
        16 => m.s.bounds.centre[0] += m.s.bounds.radius * r.pick(&[1e-9, 0.01, 0.5]),
        _ => m.point[r.index(axes)] = r.pick(&[f64::NAN, f64::INFINITY, -1e300]),
    }
    m.tree.bounds = m.s.bounds;
}

/// The box of document 01's example.
fn example() -> Bounds {
    Bounds::new(&[4.0], 4.0)
}

/// The tree of these sources on one axis, with the new one.
fn small(sources: &[f64], limit: usize, keep_empty: bool, point: f64) -> More {
    let s = Survey {
        bounds: example(),
        sources: sources.to_vec(),
        targets: vec![],
        limit,
        order: 1,
        keep_empty,
    };
    let tree = oracle::columns(&s.bounds, &oracle::build(&s).0);
    let point = vec![point];
    More { s, tree, point }
}

/// The call with the most room that it may need, told as the keys or the refusal.
fn keys_of(m: &More) -> Result<Vec<u64>, Refusal> {
    let (s, point) = (&m.s, &m.point);
    let ours = m.tree.with_source(&s.sources, point, s.limit, s.keep_empty);
    ours.map(|tree| tree.key)
}

/// The smallest trees, a leaf that splits through ten levels, and 18 by one edit each.
fn known(t: &mut Tally) {
    let input = String::new;
    let root = small(&[], 1, false, 0.5);
    t.same("root alone", keys_of(&root), Ok(vec![0, 1]), input);
    let mut zero = root.clone();
    zero.s.limit = 0;
    t.same("limit 0", keys_of(&zero).map(|k| k.len()), Ok(17), input);
    let mut keeping = root.clone();
    keeping.s.keep_empty = true;
    t.same("keep, root alone", keys_of(&keeping), refused(18, 0), input);
    let mut turned = small(&[0.5, 1.5], 2, false, 7.0);
    t.same("as built", keys_of(&turned), Ok(vec![0, 1, 32769]), input);
    turned.tree.order.swap(0, 1);
    t.same("order turned", keys_of(&turned), refused(18, 0), input);
    let mut rubbish = small(&[0.5, 7.5], 1, false, f64::NAN);
    rubbish.s.sources[1] = f64::NAN;
    t.same("both not finite", keys_of(&rubbish), refused(18, 0), input);
    let mut short = Room::exact(1, 2);
    short.work.pop();
    compare(t, &root, &root.right(), short);
    // a leaf of level 1 with one source, and one so close to it that they part at level 12
    let deep = small(&[0.5, 7.5], 1, false, 0.5 + 8.0 / 4096.0);
    let depths = deep.right().map(|tree| (deep.tree.depth(), tree.depth()));
    t.same("levels at once", depths, Ok((1, 12)), input);
    lists(t, &deep);
    // the rules say something: of a row of leaves most rows are kept
    let places: Vec<f64> = (0..64).map(|i| f64::from(i) / 8.0).collect();
    let kept = lists(t, &small(&places, 1, false, 0.01));
    t.same("rows that are kept", kept > 100, true, input);
}

/// Two sources at one place, which make a chain of cells to level 16, and one more that leaves the chain at each level: its cell
/// there is not stored before.
fn off_the_chain(t: &mut Tally, r: &mut Random) {
    for axes in 1..=3 {
        let bounds = inputs::bounds(r, axes);
        let place = middle(&bounds, &[0; 3].map(|_| r.below(65536)));
        let s = Survey {
            bounds,
            sources: [place.as_slice(), &place].concat(),
            targets: vec![],
            limit: 1,
            order: 1,
            keep_empty: false,
        };
        let tree = oracle::columns(&s.bounds, &oracle::build(&s).0);
        for to in 1..=16 {
            let (s, tree, point) = (s.clone(), tree.clone(), parted_at(r, &s, to));
            let m = More { s, tree, point };
            let right = m.right();
            let more = right.as_ref().map(|tree| tree.key.len());
            t.same("a leaf more", more, Ok(18), || m.show());
            compare(t, &m, &right, Room::exact(3, 18));
            lists(t, &m);
        }
    }
}

/// The most sources that there may be: the tree of one fewer is taken, and one of so many is refused, also where it is broken.
fn largest(t: &mut Tally, r: &mut Random) {
    let bounds = Bounds::new(&[10.0, -20.0, 5.0], 64.0);
    let coordinate = |i: usize, r: &mut Random| bounds.centre[i % 3] - 64.0 + 128.0 * r.unit();
    let sources: Vec<f64> = (0..3 * MOST).map(|i| coordinate(i, r)).collect();
    let (former, point) = sources.split_at(3 * (MOST - 1));
    let tree = Tree::build(Asked::new(&bounds, former, 200)).expect("inside");
    let s = Survey {
        bounds,
        sources: sources.clone(),
        targets: vec![],
        limit: 200,
        order: 1,
        keep_empty: false,
    };
    let input = || format!("{MOST} sources");
    let built = oracle::build(&s).0;
    let ours = tree.with_source(former, point, 200, false);
    if let Ok(tree) = &ours {
        compare_lists(t, tree, &built.u_lists, &built.v_lists, input);
    }
    let right = oracle::columns(&bounds, &built);
    t.same("the most sources", ours.as_ref(), Ok(&right), input);
    let refusal = right.with_source(&sources, point, 200, false);
    t.same("one too many", refusal, refused(4, 0), input);
    let mut broken = right;
    broken.total[0] = 0;
    let refusal = broken.with_source(&sources, point, 200, false);
    t.same("one too many, broken", refusal, refused(4, 0), input);
    let refusal = broken.with_source(former, point, 200, false);
    t.same("broken", refusal, refused(13, 0), input);
}

/// A survey with its tree, and one source more.
fn some_case(r: &mut Random, case: u64) -> More {
    let (s, near) = if case % 4 == 1 {
        close_survey(r)
    } else {
        (some_survey(r, case), vec![])
    };
    let sources = sources_inside(&s);
    let s = Survey { sources, ..s };
    let tree = oracle::columns(&s.bounds, &oracle::build(&s).0);
    let point = if near.is_empty() {
        further(r, &s, &tree)
    } else {
        near
    };
    More { s, tree, point }
}

/// The sources that are inside.
fn sources_inside(s: &Survey) -> Vec<f64> {
    let rows = s.sources.chunks_exact(s.bounds.axes);
    let inside = rows.filter(|row| oracle::inside(&s.bounds, row));
    inside.flatten().copied().collect()
}

pub fn one_more(t: &mut Tally, r: &mut Random, case: u64) {
    if case == 0 {
        known(t);
        off_the_chain(t, r);
        if !t.short() {
            largest(t, r);
        }
    }
    let m = some_case(r, case);
    if m.tree.key.len() > MOST_COMPARED {
        return;
    }
    let right = m.right();
    let rows = m.rows() + 1;
    let nodes = right.as_ref().map_or(9, |tree| tree.key.len());
    compare(t, &m, &right, Room::exact(rows, nodes));
    compare(t, &m, &right, Room::one_less(r, rows, nodes));
    compare(t, &m, &right, Room::any(r, rows, nodes));
    if right.is_ok() {
        lists(t, &m);
    }
    for _ in 0..4 {
        let mut other = m.clone();
        damage(r, &mut other);
        if r.once_in(4) && other.is_whole() {
            damage(r, &mut other);
        }
        if other.tree.key.len() <= MOST_COMPARED {
            compare(t, &other, &other.right(), Room::any(r, rows, nodes));
        }
    }
}
