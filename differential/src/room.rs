//! What is lent to a call that writes a tree from another one.
use crate::oracle;
use crate::random::Random;
use crate::refusals::{asked, left, lent_slice};
use lohandema::Refusal;
use lohandema::trees::Tree;

const MOST: usize = 1_048_576;

pub struct Room {
    pub work: Vec<u64>,
    pub order: Vec<usize>,
    pub key: Vec<u64>,
    pub columns: [Vec<usize>; 3],
}

impl Room {
    /// Just enough for so many points and nodes, and full of junk.
    pub fn exact(points: usize, nodes: usize) -> Room {
        Room {
            work: vec![77; 2 * points],
            order: vec![77; points],
            key: vec![77; nodes],
            columns: [0; 3].map(|_| vec![77; nodes]),
        }
    }

    /// The same with one entry less in one of the four columns.
    pub fn one_less(r: &mut Random, points: usize, nodes: usize) -> Room {
        let mut short = Room::exact(points, nodes);
        match r.below(4) {
            3 => drop(short.key.pop()),
            n => drop(short.columns[n as usize].pop()),
        }
        short
    }

    /// Enough, or too little of something.
    pub fn any(r: &mut Random, points: usize, nodes: usize) -> Room {
        let mut one = |needed| lent_slice(r, needed, 77);
        let (order, columns) = (one(points), [0; 3].map(|_| one(nodes)));
        Room {
            work: lent_slice(r, 2 * points, 77),
            order,
            key: lent_slice(r, nodes, 77),
            columns,
        }
    }

    fn nodes(&self) -> usize {
        let columns = self.columns.iter().map(|c| c.len()).min().unwrap();
        columns.min(self.key.len()).min(MOST)
    }

    /// The tree where there is room for it, else which slice is short.
    pub fn for_tree(&self, tree: Tree) -> Result<Tree, Refusal> {
        let rows = tree.order.len();
        asked(2 * rows <= self.work.len(), (8, 1))?;
        asked(rows <= self.order.len(), (8, 2))?;
        asked(tree.key.len() <= self.nodes(), (8, 3))?;
        Ok(tree)
    }

    /// Whether the slices hold this tree and then zeros; with none, zeros throughout.
    pub fn holds(&self, tree: Option<&Tree>) -> bool {
        let none = Tree::from_columns(oracle::any_box(1), vec![], vec![], vec![], vec![], vec![]);
        let tree = tree.unwrap_or(&none);
        let [own, begin, total] = &self.columns;
        self.work.iter().all(|x| *x == 0)
            && self.order == left(self.order.len(), &tree.order)
            && self.key == left(self.key.len(), &tree.key)
            && *own == left(own.len(), &tree.own)
            && *begin == left(begin.len(), &tree.begin)
            && *total == left(total.len(), &tree.total)
    }
}
