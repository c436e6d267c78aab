//! A plain build, to hold trees against that the customer's Rust would take long for, as it makes lists with each: the codes
//! of the sources are sorted, and a cell is a run of them.
use crate::customer;
use lohandema::lent::Asked;
use lohandema::trees::Tree;

struct Build<'a> {
    asked: Asked<'a>,
    /// Each source's level-16 code and index, ascending.
    sources: Vec<(u64, usize)>,
    tree: Tree,
}

/// The tree of 3 axes without targets.
pub fn build(asked: Asked) -> Tree {
    let keys = customer::keys(asked.bounds, asked.sources);
    let codes = keys.iter().enumerate();
    let mut sources: Vec<(u64, usize)> = codes.map(|(index, key)| (key / 32768, index)).collect();
    sources.sort_unstable();
    let end = sources.len();
    let none = Tree::from_columns(*asked.bounds, vec![], vec![], vec![], vec![], vec![]);
    let mut build = Build {
        asked,
        sources,
        tree: none,
    };
    build.cell(0, 0, 0, end);
    build.tree
}

impl Build<'_> {
    /// Adds a cell, which holds the sources from one place up to another, and all below it.
    fn cell(&mut self, level: u64, code: u64, from: usize, to: usize) {
        let splits = level == 0 || (level < 16 && to - from > self.asked.limit);
        self.tree.key.push(code * 32768 + level);
        self.tree.begin.push(self.tree.order.len());
        self.tree.total.push(to - from);
        self.tree.own.push(if splits { 0 } else { to - from });
        if splits {
            self.children(level + 1, code * 8, from, to);
        } else {
            self.order(from, to);
        }
    }

    /// Adds the children of a cell that are stored, of which the first has this code.
    fn children(&mut self, level: u64, first: u64, from: usize, to: usize) {
        let mut at = from;
        for code in first..first + 8 {
            let end = (code + 1) << (3 * (16 - level));
            let count = self.sources[at..to].partition_point(|(code, _)| *code < end);
            if count > 0 || self.asked.keep_empty {
                self.cell(level, code, at, at + count);
            }
            at += count;
        }
    }

    /// Adds a leaf's sources to the order column, ascending by index.
    fn order(&mut self, from: usize, to: usize) {
        let begin = self.tree.order.len();
        let indices = self.sources[from..to].iter().map(|(_, index)| *index);
        self.tree.order.extend(indices);
        self.tree.order[begin..].sort_unstable();
    }
}
