//! The sum checks of a leaf and of a survey: with sums over the Rust's U and V and the sources of its leaves, on trees that it
//! built and on trees that nobody built; then with readings, lists, order or room that something is wrong with.
use crate::inputs;
use crate::oracle::{self, upwards};
use crate::random::Random;
use crate::refusals::{asked, lent_slice};
use crate::tally::Tally;
use crate::trees::{axes_of, flat, odd_tree, rust_rows, show};
use lohandema::Refusal;
use lohandema::lent;
use lohandema::trees::{Checked, Lists, Rows, Sums, Tree};
use std::collections::{HashMap, HashSet};

const LARGEST: i64 = 1 << 40;

/// A tree with the Rust's rows, and the sources of its leaves.
struct Known {
    tree: Tree,
    u: HashMap<u64, Vec<u64>>,
    v: HashMap<u64, Vec<u64>>,
    sources: HashMap<u64, Vec<usize>>,
    shown: String,
}

/// What is handed to the calls beside the tree.
struct Given {
    readings: Vec<i64>,
    lists: Lists,
    order: Vec<usize>,
}

impl Known {
    /// The Rust's rows one after the other.
    fn lists(&self) -> Lists {
        Lists {
            u: flat(&self.tree, &self.u),
            v: flat(&self.tree, &self.v),
        }
    }

    /// The sums of each leaf by its node number, from the Rust's rows.
    fn sums(&self, readings: &[i64]) -> HashMap<usize, Sums> {
        let axes = self.tree.axes();
        let of_leaf = |k: &u64| self.sources.get(k).map_or(&[][..], |s| s.as_slice());
        let read = |k: &u64| of_leaf(k).iter().map(|i| readings[*i]).sum::<i64>();
        let mut cells: HashMap<u64, i64> = HashMap::new();
        for leaf in self.sources.keys() {
            for cell in upwards(axes, *leaf) {
                *cells.entry(cell).or_default() += read(leaf);
            }
        }
        let mut sums = HashMap::new();
        for leaf in self.tree.leaves().expect("a tree") {
            let key = self.tree.key[leaf.node];
            let near = self.u.get(&key).into_iter().flatten();
            let far: Vec<u64> = upwards(axes, key)
                .filter_map(|a| self.v.get(&a))
                .flatten()
                .copied()
                .collect();
            let of = Sums {
                near: near.clone().map(read).sum(),
                far: far.iter().map(|c| cells[c]).sum(),
                additions: near.map(|k| of_leaf(k).len()).sum::<usize>() + far.len(),
            };
            sums.insert(leaf.node, of);
        }
        sums
    }
}

/// Every other case a tree that nobody built.
fn known(r: &mut Random, case: u64) -> Known {
    if case % 2 == 1 {
        let given = odd_tree(r, 200);
        let axes = axes_of(&given);
        let tree = oracle::columns(&oracle::any_box(axes), &given);
        let rows = rust_rows(&given, axes);
        let shown = format!("{tree:?}");
        return Known {
            tree,
            u: rows.u,
            v: rows.v,
            sources: given.leaf_source_indices,
            shown,
        };
    }
    let s = inputs::survey(r, 300);
    let (lists, _) = oracle::build(&s);
    Known {
        tree: oracle::columns(&s.bounds, &lists),
        u: lists.u_lists,
        v: lists.v_lists,
        sources: lists.leaf_source_indices,
        shown: show(&s),
    }
}

/// Random readings, all of the largest size, of alternating sign, or small.
fn readings(r: &mut Random, count: usize) -> Vec<i64> {
    let sort = r.below(4);
    let mut one = |i: usize| match sort {
        0 => r.below((2 * LARGEST + 1) as u64) as i64 - LARGEST,
        1 => LARGEST,
        2 => [LARGEST, -LARGEST][i % 2],
        _ => r.below(7) as i64 - 3,
    };
    (0..count).map(&mut one).collect()
}

fn arranges(order: &[usize], count: usize) -> bool {
    let seen: HashSet<usize> = order.iter().copied().filter(|i| *i < count).collect();
    order.len() == count && seen.len() == count
}

/// The checks that both calls share, but for 14.
fn read(known: &Known, given: &Given) -> Result<(), Refusal> {
    let large = given
        .readings
        .iter()
        .position(|x| x.unsigned_abs() > LARGEST as u64);
    asked(given.readings.len() == known.tree.total[0], (3, 0))?;
    asked(large.is_none(), (20, large.unwrap_or(0)))
}

fn built(known: &Known, given: &Given) -> Result<(), Refusal> {
    let arranged = arranges(&given.order, known.tree.total[0]);
    asked(given.lists == known.lists() && arranged, (18, 0))
}

/// Both calls, of some nodes and of the survey.
fn compare(
    t: &mut Tally,
    r: &mut Random,
    known: &Known,
    given: &Given,
    sums: Option<&HashMap<usize, Sums>>,
) {
    let (tree, none) = (&known.tree, HashMap::new());
    let sums = sums.unwrap_or(&none);
    let input = |node: usize| {
        let Given {
            readings,
            lists,
            order,
        } = given;
        format!(
            "node {node} order {order:?} readings {readings:?} {lists:?} {}",
            known.shown
        )
    };
    let (read, built) = (read(known, given), built(known, given));
    let leaves: HashSet<usize> = tree
        .leaves()
        .expect("a tree")
        .map(|leaf| leaf.node)
        .collect();
    let past = tree.key.len() + r.index(3);
    let some = (0..12)
        .map(|_| r.index(tree.key.len()))
        .chain([0, past, usize::MAX]);
    let nodes: Vec<usize> = if sums.is_empty() {
        some.collect()
    } else {
        (0..=tree.key.len()).collect()
    };
    for node in nodes {
        let right = read
            .and(asked(leaves.contains(&node), (14, node)))
            .and(built)
            .map(|()| sums[&node]);
        if right.is_err() {
            t.refusal();
        }
        let ours = lent::sum_check(
            tree.columns(),
            &given.order,
            &given.readings,
            &given.lists,
            node,
        );
        t.same("sums of a leaf", ours, right, || input(node));
    }
    let mut room = lent_slice(r, tree.total[0] + 1, u64::MAX);
    let right = read
        .and(built)
        .and(asked(tree.total[0] < room.len(), (8, 1)))
        .map(|()| Checked {
            leaves: leaves.len(),
            additions: sums.values().map(|s| s.additions).sum(),
        });
    if right.is_err() {
        t.refusal();
    }
    let ours = lent::check_sums(
        tree.columns(),
        &given.order,
        &given.readings,
        &given.lists,
        &mut room,
    );
    t.same("sums of a survey", ours, right, || input(0));
    t.same("what was lent", room.iter().all(|x| *x == 0), true, || {
        input(0)
    });
}

/// One key dropped, added or changed in some row, or two exchanged; a start moved, a key or a start more or less.
fn damage_rows(r: &mut Random, tree: &Tree, rows: &mut Rows) {
    let (places, starts) = (rows.keys.len(), rows.starts.len());
    let key = tree.key[r.index(tree.key.len())];
    match r.below(7) {
        0 if places > 0 && starts == tree.key.len() + 1 => {
            let full: Vec<usize> = (0..starts - 1)
                .filter(|n| rows.starts[*n] < rows.starts[n + 1])
                .collect();
            let node = r.pick(&full);
            rows.keys.remove(rows.starts[node + 1] - 1);
            rows.starts[node + 1..].iter_mut().for_each(|s| *s -= 1);
        }
        1 => {
            let node = r.index(starts - 1);
            rows.keys.insert(rows.starts[node + 1], key);
            rows.starts[node + 1..].iter_mut().for_each(|s| *s += 1);
        }
        2 if places > 0 => rows.keys[r.index(places)] = key,
        3 if places > 1 => rows.keys.swap(r.index(places), places - 1),
        4 => rows.starts[r.index(starts)] ^= 1,
        5 if places > 0 => drop(rows.keys.remove(r.index(places))),
        _ => rows.starts.push(places),
    }
}

/// One thing wrong, or two.
fn damage(r: &mut Random, tree: &Tree, given: &mut Given) {
    let (numbers, sources) = (given.readings.len(), given.order.len());
    match r.below(8) {
        0 if numbers > 0 => {
            let large = r.pick(&[LARGEST + 1, -LARGEST - 1, i64::MIN, i64::MAX]);
            given.readings[r.index(numbers)] = large;
        }
        1 => given.readings.push(0),
        2 if sources > 0 => given.order[r.index(sources)] = r.index(sources + 1),
        3 => given.order.push(0),
        4 | 5 => damage_rows(r, tree, &mut given.lists.u),
        _ => damage_rows(r, tree, &mut given.lists.v),
    }
}

pub fn sums(t: &mut Tally, r: &mut Random, case: u64) {
    let known = known(r, case);
    let mut order = known.tree.order.clone();
    let count = known.tree.total[0];
    let mut given = Given {
        readings: readings(r, count),
        lists: known.lists(),
        order: order.clone(),
    };
    t.same(
        "lists",
        known.tree.lists_right(&given.lists),
        Ok(true),
        || known.shown.clone(),
    );
    if arranges(&order, count) {
        let sums = known.sums(&given.readings);
        let all: i64 = given.readings.iter().sum();
        let apart = sums.values().filter(|s| s.near + s.far != all).count();
        t.same("leaves that lose a reading", apart, 0, || {
            known.shown.clone()
        });
        compare(t, r, &known, &given, Some(&sums));
    } else {
        compare(t, r, &known, &given, None);
        order = (0..count).collect();
    }
    for _ in 0..8 {
        given.lists = known.lists();
        given.order.clone_from(&order);
        given.readings = readings(r, count);
        damage(r, &known.tree, &mut given);
        if r.once_in(4) {
            damage(r, &known.tree, &mut given);
        }
        if read(&known, &given).and(built(&known, &given)).is_err() {
            compare(t, r, &known, &given, None);
        }
    }
}
