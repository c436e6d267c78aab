//! The table "Trees": lists of 16,777,216 keys, and of one more. A list of so many keys can be had only where many leaves see
//! many others, so the trees are made by hand, and tuned to the key by leaves that add one key each.
use super::Rows;
use super::handed_in::{rows_by_rust, tree_of};
use crate::near_work::compare_of_sources;
use crate::oracle::{any_box, dimensions};
use crate::trees::compare_lists;
use ferreus_bbfmm::morton;
use lohandema::Refusal;
use lohandema::lent;
use lohandema::trees::Tree;
use std::collections::HashMap;

const MOST: usize = 16_777_216;

/// A tree of three axes.
#[derive(Clone, Copy)]
struct Shape {
    /// Down to this level the first cell of each level is split, and the seven beside it from level 2 on are leaves with a
    /// source: each of them sees all that lies in the first cell, and is seen by it.
    chain: u64,
    /// Leaves of level 16 in the low corner, so many along each axis.
    block: [u64; 3],
    /// Those of them that have a source, counted likewise.
    sourced: [u64; 3],
    /// Leaves that add one key to U each and none to V, at most 7.
    near: u64,
    /// Leaves that add one key to V each and none to U; every eighth comes with a cell that adds one more.
    far: u64,
}

/// U has 16,777,216 keys.
const U_FULL: Shape = Shape {
    chain: 10,
    block: [58, 58, 58],
    sourced: [21, 46, 52],
    near: 4,
    far: 0,
};

/// V has 16,777,216 keys.
const V_FULL: Shape = Shape {
    chain: 1,
    block: [53, 47, 41],
    sourced: [51, 47, 35],
    near: 0,
    far: 28,
};

impl Shape {
    fn leaves(&self) -> Vec<(u64, usize)> {
        let mut leaves = vec![];
        let d = dimensions(3);
        let [a, b, c] = self.block;
        for n in 0..a * b * c {
            let at = [n % a, n / a % b, n / a / b];
            let sourced = at.iter().zip(self.sourced).all(|(x, end)| *x < end);
            let key = morton::encode_morton_point(vec![at[0], at[1], at[2], 16], &d);
            leaves.push((key, usize::from(sourced)));
        }
        for level in 2..=self.chain {
            leaves.extend((1..8).map(|code| (code * 32768 + level, 1)));
        }
        // In the opposite corner of the box the last cell of level 3 has a source. Its siblings see it. The cells of the
        // other parents there do not touch it, and their parents touch its own.
        leaves.push((511 * 32768 + 3, 1));
        leaves.extend((0..self.near).map(|n| ((504 + n) * 32768 + 3, 0)));
        leaves.extend((0..self.far).map(|n| ((456 + n) * 32768 + 3, 0)));
        leaves
    }

    /// The leaves and all cells above them.
    fn tree(&self) -> Tree {
        let d = dimensions(3);
        let mut nodes: HashMap<u64, usize> = HashMap::new();
        for (key, own) in self.leaves() {
            for above in morton::get_ancestors(key, &d) {
                nodes.entry(above).or_default();
            }
            nodes.insert(key, own);
        }
        tree_of(any_box(3), nodes.into_iter().collect())
    }
}

/// How many keys the two lists have, with room for one more than counts; and whether all slices are 0 after the call.
fn counted(tree: &Tree) -> (Result<(usize, usize), Refusal>, bool) {
    let places = tree.key.len() + 1;
    let (mut u_starts, mut v_starts) = (vec![7; places], vec![7; places]);
    let (mut u_keys, mut v_keys) = (vec![7; MOST + 1], vec![7; MOST + 1]);
    let ours = lent::get_interaction_lists(
        tree.columns(),
        &mut u_starts,
        &mut u_keys,
        &mut v_starts,
        &mut v_keys,
    );
    let all = (u_starts.iter().chain(&v_starts)).all(|x| *x == 0)
        && (u_keys.iter().chain(&v_keys)).all(|x| *x == 0);
    (ours, all)
}

/// How many keys the Rust's lists have.
fn by_rust(tree: &Tree) -> (usize, usize) {
    let theirs = rows_by_rust(tree);
    let keys = |map: HashMap<u64, Vec<u64>>| map.values().map(Vec::len).sum();
    (keys(theirs.u), keys(theirs.v))
}

/// At the cap: all rows are the Rust's, where that is run, and near work is their sum.
fn full(rows: &mut Rows, row: &str, tree: &Tree, keys: (usize, usize)) {
    let ours = counted(tree);
    rows.answered(row, "at the cap", (ours, (Ok(keys), false)), ((), ()));
    if !rows.t.short() {
        let theirs = rows_by_rust(tree);
        let input = || format!("{row} at the cap");
        compare_lists(rows.t, tree, &theirs.u, &theirs.v, input);
        compare_of_sources(rows.t, tree, &theirs.u, input);
    }
}

/// One key more.
fn over(rows: &mut Rows, row: &str, tree: &Tree, value: usize, keys: (usize, usize)) {
    let (ours, all) = counted(tree);
    let input = "one key more";
    if rows.t.short() {
        rows.refused_here(row, input, ours, (8, value));
    } else {
        let seen = (by_rust(tree), keys);
        rows.refused(row, input, ours, (8, value), seen);
    }
    rows.answered(row, "all slices 0", (all, true), ((), ()));
}

pub fn run(rows: &mut Rows) {
    let (u_of_v, v_of_u) = (2_197_313, 10_150_164);
    full(rows, "T32", &U_FULL.tree(), (MOST, v_of_u));
    let more = Shape { near: 5, ..U_FULL };
    let tree = more.tree();
    over(rows, "T32", &tree, 6, (MOST + 1, v_of_u));
    // near work needs no list
    let ours = tree.get_near_work(&[]).map(|_| ());
    rows.answered("T32", "near work", (ours, Ok(())), ((), ()));
    full(rows, "T33", &V_FULL.tree(), (u_of_v, MOST));
    let more = Shape { far: 29, ..V_FULL };
    over(rows, "T33", &more.tree(), 7, (u_of_v, MOST + 1));
}
