//! Request 8 read sentence by sentence, row by row and cell by cell, slow and short; and inputs worked out by hand to hold it
//! against. Keys, cells above and children are the Rust's.
use crate::oracle::{self, valid};
use crate::refusals::asked;
use ferreus_bbfmm::morton;
use lohandema::Refusal;
use lohandema::trees::Tree;
use std::collections::{HashMap, HashSet};

pub const MOST: usize = 1_048_576;

/// Rows of one axis (key, count and begin) and the order column; what is changed, and the new order column.
type ByHand = (
    &'static [(u64, usize, usize)],
    &'static [usize],
    &'static [(u64, u64)],
    &'static [usize],
);

#[rustfmt::skip]
pub const BY_HAND: &[ByHand] = &[
    // nothing: the root alone
    (&[], &[], &[(3, 0)], &[]),
    // added keys by their value, and not by node
    (&[(65539, 0, 0), (131075, 0, 0)], &[], &[(3, 0), (3, 1), (3, 32769), (3, 32770), (3, 65538)], &[]),
    // a begin at the end of all numbers: a row may be in 4 and 5
    (&[(1, 1, usize::MAX)], &[7], &[(3, 0), (4, 1), (5, 1)], &[]),
    // a run that ends with the column stays, and one that passes it by one does not
    (&[(0, 0, 0), (1, 2, 1)], &[5, 6, 7], &[(5, 1)], &[6, 7]),
    (&[(0, 0, 0), (1, 2, 2)], &[5, 6, 7], &[(4, 1), (5, 1)], &[]),
    // a count of 0 with a begin past the end: nothing is cleared
    (&[(0, 0, 0), (1, 0, 9)], &[], &[(5, 1)], &[]),
    // a root with a count
    (&[(0, 1, 0), (1, 1, 0)], &[8], &[(4, 0)], &[8]),
    // an invalid key twice is 1 twice; the first row of a key is kept
    (&[(2, 1, 0), (17, 1, 0), (17, 1, 0), (2, 2, 0), (0, 0, 0)], &[4, 5], &[(1, 17), (1, 17), (2, 2), (3, 1)], &[4]),
    // a node whose child comes later, and two leaves over one run
    (&[(0, 0, 0), (1, 2, 0), (32769, 2, 0), (2, 2, 0)], &[3, 9], &[(4, 1), (5, 32769)], &[3, 9, 3, 9]),
    // nodes by level come out depth first
    (&[(0, 0, 0), (1, 0, 0), (32769, 1, 0), (2, 1, 1)], &[5, 6], &[(5, 32769), (5, 2)], &[6, 5]),
    // runs are read where they began, and not where they begin now
    (&[(0, 0, 0), (1, 1, 2), (32769, 1, 0)], &[5, 6, 7], &[(5, 1), (5, 32769)], &[7, 5]),
];

/// What is handed in.
#[derive(Clone, Debug, Default)]
pub struct Given {
    pub axes: usize,
    pub key: Vec<u64>,
    pub own: Vec<usize>,
    pub begin: Vec<usize>,
    pub order: Vec<usize>,
}

/// What can be had of it: a tree, and each change by code and key.
#[derive(Clone, Debug, Default, PartialEq)]
pub struct Had {
    pub key: Vec<u64>,
    pub own: Vec<usize>,
    pub begin: Vec<usize>,
    pub total: Vec<usize>,
    pub order: Vec<usize>,
    pub changes: Vec<(u64, u64)>,
}

/// A cell and what is stored in it: itself, then its children ascending, each followed by its own.
fn depth_first(axes: usize, cell: u64, cells: &HashSet<u64>, all: &mut Vec<u64>) {
    all.push(cell);
    for child in children(axes, cell) {
        if cells.contains(&child) {
            depth_first(axes, child, cells, all);
        }
    }
}

/// The children of a cell, ascending; none of a cell of the deepest level.
fn children(axes: usize, cell: u64) -> Vec<u64> {
    if oracle::level(cell) == 16 {
        return vec![];
    }
    let d = oracle::dimensions(axes);
    let mut all: Vec<u64> = morton::get_children(cell, &d).into_iter().collect();
    all.sort_unstable();
    all
}

impl Given {
    pub fn of(tree: &Tree) -> Given {
        Given {
            axes: tree.axes(),
            key: tree.key.clone(),
            own: tree.own.clone(),
            begin: tree.begin.clone(),
            order: tree.order.clone(),
        }
    }

    /// The row that a key keeps: the first that has it, if the key is valid.
    fn kept_rows(&self) -> HashMap<u64, usize> {
        let mut first = HashMap::new();
        for (row, key) in self.key.iter().enumerate() {
            if valid(self.axes, *key) {
                first.entry(*key).or_insert(row);
            }
        }
        first
    }

    /// Request 8, sentence by sentence.
    pub fn salvaged(&self) -> Had {
        // keep the valid keys of the input, add the root and all missing ancestors, and put them in order
        let kept = self.kept_rows();
        let mut cells = HashSet::from([0]);
        for key in kept.keys() {
            cells.extend(oracle::upwards(self.axes, *key));
        }
        let mut had = Had::default();
        depth_first(self.axes, 0, &cells, &mut had.key);
        // a node that now has children, the root, or a leaf whose run passes the order column's end gets count 0; every other
        // run is copied to a new order column
        let above = |key: &u64| oracle::upwards(self.axes, *key).nth(1);
        let parted: HashSet<u64> = cells.iter().filter_map(above).collect();
        for key in had.key.clone() {
            let run = match kept.get(&key) {
                Some(row) if key != 0 && !parted.contains(&key) => self.run(*row),
                _ => &[],
            };
            had.own.push(run.len());
            had.begin.push(had.order.len());
            had.order.extend(run);
        }
        // totals are worked out afresh
        let own: HashMap<u64, usize> = had.key.iter().copied().zip(had.own.clone()).collect();
        let sums = oracle::totals(self.axes, own.iter().map(|(k, n)| (*k, *n)));
        had.total = had.key.iter().map(|k| sums[k]).collect();
        had.changes = self.changes(&kept, &had);
        had
    }

    /// A row's run; empty if it passes the order column's end.
    fn run(&self, row: usize) -> &[usize] {
        let (from, count) = (self.begin[row] as u128, self.own[row] as u128);
        if from + count <= self.order.len() as u128 {
            &self.order[self.begin[row]..self.begin[row] + self.own[row]]
        } else {
            &[]
        }
    }

    /// Each change: by code, then input row, or key for 3.
    fn changes(&self, kept: &HashMap<u64, usize>, had: &Had) -> Vec<(u64, u64)> {
        let node: HashMap<u64, usize> = had.key.iter().copied().zip(0..).collect();
        let mut all = vec![];
        for (row, key) in self.key.iter().enumerate() {
            if !valid(self.axes, *key) {
                all.push((1, *key));
            } else if kept[key] != row {
                all.push((2, *key));
            } else {
                if self.own[row] > 0 && had.own[node[key]] == 0 {
                    all.push((4, *key));
                }
                if self.begin[row] != had.begin[node[key]] {
                    all.push((5, *key));
                }
            }
        }
        let mut added: Vec<u64> = had.key.clone();
        added.retain(|key| !kept.contains_key(key));
        added.sort_unstable();
        all.extend(added.into_iter().map(|key| (3, key)));
        // the sort leaves rows of one code, and the added keys, as they stand
        all.sort_by_key(|(code, _)| *code);
        all
    }

    /// The refusals before the room is looked at, and what can be had.
    pub fn judged(&self) -> Result<Had, Refusal> {
        asked((1..=3).contains(&self.axes), (1, 0))?;
        let rows = self.key.len();
        asked(self.own.len() == rows && self.begin.len() == rows, (3, 0))?;
        let had = self.salvaged();
        asked(had.order.len() <= MOST, (13, 0))?;
        Ok(had)
    }
}

impl Had {
    /// As it is handed in again.
    pub fn again(&self, axes: usize) -> Given {
        Given {
            axes,
            key: self.key.clone(),
            own: self.own.clone(),
            begin: self.begin.clone(),
            order: self.order.clone(),
        }
    }

    /// How many sources, nodes and changes there are.
    pub fn sizes(&self) -> (usize, usize, usize) {
        (self.order.len(), self.key.len(), self.changes.len())
    }
}

/// An input with counts that are all 0.
pub fn keys_alone(axes: usize, key: &[u64]) -> Given {
    Given {
        axes,
        key: key.to_vec(),
        own: vec![0; key.len()],
        begin: vec![0; key.len()],
        order: vec![],
    }
}
